//! What a caller cannot write. Each block must fail to compile.
//!
//! Answers cannot be built, so that they may gain fields:
//!
//! ```compile_fail,E0639
//! let opened = trovespan::Opened { page_size: 256, pages_used: 24 };
//! ```
//! ```compile_fail,E0639
//! let mapped = trovespan::Mapped { slices: 2, length: 600 };
//! ```
//! ```compile_fail,E0639
//! let slice = trovespan::SourceSlice { offset: 2560, size: 512 };
//! ```
//! ```compile_fail,E0639
//! let step = trovespan::Step::Annotation { opcode: 3, first: 5, second: 0, shortest: true };
//! ```
//! ```compile_fail,E0639
//! let annotation = trovespan::BinaryAnnotation::CodeOffset(5);
//! let placed = trovespan::PlacedAnnotation { annotation, shortest: true, at: 0, next: 2 };
//! ```
//! ```compile_fail,E0639
//! let refusal = trovespan::Refusal { number: 7, value: 0 };
//! let placed = trovespan::PlacedRefusal { refusal, at: 0, next: 2 };
//! ```
//!
//! A match over names or errors has a case for those to come:
//!
//! ```compile_fail,E0004
//! use trovespan::Kind::*;
//!
//! fn is_known(kind: trovespan::Kind) -> bool {
//!     match kind {
//!         UnrecognizedFileFormat | UnimplementedFeature | InvalidPageSize | PageReferenceOutOfRange => true,
//!         StreamNotFound | FileEnds | ShortData | InvalidCompressedAnnotation | UnknownBinaryAnnotation => true,
//!         NoRoom | OverLimit | BadRecord | RaggedList | SizesDiffer | DirectoryTooLarge | Over32Bits => true,
//!         BadLine => true,
//!         Other(_) => false,
//!     }
//! }
//! ```
//! ```compile_fail,E0004
//! use trovespan::ExtractError::*;
//!
//! fn is_refused(error: trovespan::ExtractError) -> bool {
//!     match error {
//!         TooLong { .. } => false,
//!         Refused(_) => true,
//!     }
//! }
//! ```
//! ```compile_fail,E0004
//! use trovespan::MapError::*;
//!
//! fn is_refused(error: trovespan::MapError) -> bool {
//!     match error {
//!         TooMany { .. } => false,
//!         Refused(_) => true,
//!     }
//! }
//! ```
//!
//! The file of a container cannot change, nor go, while the container or a stream of it is in use:
//!
//! ```compile_fail,E0502
//! let mut file = vec![0; 4096];
//! let container = trovespan::Container::open(&file);
//! file[0] = 1;
//! assert!(container.is_err());
//! ```
//! ```compile_fail,E0505
//! let file = vec![0; 4096];
//! let stream = trovespan::Container::open(&file).map(|container| container.stream(5));
//! drop(file);
//! assert!(stream.is_err());
//! ```
