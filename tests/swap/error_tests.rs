
#[cfg(test)]
mod error_tests {
    use super::*;

    #[test]
    fn each_refusal_has_its_error() {
        let errors = [
            "UnrecognizedFileFormat",
            "UnimplementedFeature(\"small MSF file format\")",
            "InvalidPageSize(77)",
            "PageReferenceOutOfRange(77)",
            "StreamNotFound(77)",
            "IoError(Kind(UnexpectedEof))",
            "UnexpectedEof",
            "InvalidCompressedAnnotation",
            "UnknownBinaryAnnotation(77)",
        ];
        for (number, wanted) in (1..).zip(errors.iter()) {
            assert_eq!(format!("{:?}", error(Refusal { number, value: 77 })), *wanted);
        }
    }
}
