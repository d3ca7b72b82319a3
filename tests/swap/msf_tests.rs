
#[cfg(test)]
mod tests {
    use super::*;

    #[test]
    fn short_files_are_not_recognized() {
        let opened = open_msf(std::io::Cursor::new(b"short"));
        assert!(matches!(opened, Err(Error::UnrecognizedFileFormat)));
    }
}
