//! Reads and writes the container of PDB files (MSF) and binary annotations, with a proved library.
//!
//! - [`Container`] and [`Stream`] read a container, and allocate no more than the caller allows.
//! - [`annotations`](annotations()) iterates over annotations.
//! - Below these, [`open`], [`stream_count`], [`map`] and [`extract`] read a container into stores that the caller
//!   lends, and [`number`], [`step`] and [`decode`] read annotations as numbers, and say whether these have their
//!   shortest form.
//! - [`needed_to_map`] returns which parts of a file [`map`] reads, for a caller that has not got the whole file.
//! - [`write_container`] and [`write_annotations`] write them, into stores that the caller lends.
//! - [`run_lines`] runs annotations as a line program, into such a store, and [`line_records`] reads its line records.
//!
//! Every function returns for any input.
//!
//! ```
//! use trovespan::{Container, ExtractError, Refusal, AT_MOST};
//!
//! // Sixteen pages of 256 bytes. Page 1 has the location list, page 2 the directory: stream count, size, page.
//! let mut file = vec![0; 4096];
//! file[..32].copy_from_slice(b"Microsoft C/C++ MSF 7.00\r\n\x1a\x44\x53\x00\x00\x00");
//! for (at, word) in [(32, 256_u32), (36, 1), (40, 16), (44, 12), (52, 1), (256, 2), (512, 1), (516, 5), (520, 3)] {
//!     file[at..at + 4].copy_from_slice(&word.to_le_bytes());
//! }
//! file[768..773].copy_from_slice(b"hello");
//!
//! let container = Container::open(&file)?;
//! assert_eq!(container.stream_count()?, 1);
//! assert_eq!(container.stream(0).length()?, 5);
//! assert_eq!(container.stream(0).bytes(AT_MOST)?, b"hello");
//! assert_eq!(container.stream(0).bytes(4), Err(ExtractError::TooLong { length: 5, at_most: 4 }));
//!
//! // The same by functions.
//! assert_eq!(trovespan::extract_to_vec(&file, 0, AT_MOST)?, b"hello");
//! assert_eq!(trovespan::stream_length(&file, 1), Err(Refusal { number: 5, value: 1 }));
//! # Ok::<(), ExtractError>(())
//! ```
//!
//! # Untrusted files
//!
//! A file may say anything. A file of 28 KB can name one page a million times, and then has a stream of 4 GB: compare a
//! length with a limit before allocating. [`extract_to_vec`] and [`map_to_vec`] do that. No other function allocates.
//!
//! A file can also make a function slow: each call reads the file afresh, and the time grows with the directory, which
//! may have 4 GB in a small file.
//!
//! # Lent bytes must not change during a call
//!
//! The functions first judge the lent bytes, and then write without further checks. If the bytes change in between, a
//! function may write past the end of a store. Rust's `&[u8]` forbids such a change, but with a shared memory mapping
//! of the file another process can make one. So read the file, or map a private copy: a copy that nobody else writes.
//! (A private mapping of the file itself is not enough. It may show what others write to the file.)
//!
//! # Stores
//!
//! The caller lends a store for an answer of many entries. A success writes the first entries, as many as it returns,
//! and leaves the others. A refusal writes nothing. If the store is too small, refusal 10 says how many entries are
//! needed, so an empty store asks for the size.
//!
//! # Refusals
//!
//! | Number | [`Kind`] | Value | Returned when |
//! |---|---|---|---|
//! | 1 | `UnrecognizedFileFormat` | 0 | fewer than 4,096 bytes, or no magic of a PDB file in front |
//! | 2 | `UnimplementedFeature` | 0 | the file begins with the magic of the small format |
//! | 3 | `InvalidPageSize` | the size | the page size is not a power of two from 0x100 to 0x800000 |
//! | 4 | `PageReferenceOutOfRange` | the page | a page number is 0 or not below the number of pages used; pdb 0.8.0 lets that number itself pass |
//! | 5 | `StreamNotFound` | the stream | the stream number is not below the stream count, or the stream is absent |
//! | 6 | `FileEnds` | 0 | the file ends too early |
//! | 7 | `ShortData` | 0 | the header block, the directory or the annotation bytes end too early |
//! | 8 | `InvalidCompressedAnnotation` | 0 | a compressed number of four bytes begins with 0xe0 or more |
//! | 9 | `UnknownBinaryAnnotation` | the opcode | an annotation's opcode is above 13 |
//! | 10 | `NoRoom` | the entries needed | the answer is complete, but the store is too small for it |
//! | 11 | `OverLimit` | the limit | over a limit of the program `list`; no function here has one |
//! | 20 | `BadRecord` | the record's index, from 0 | a record has an opcode or operand that cannot be written |
//! | 21 | `RaggedList` | 0 | the length of a list of records is no multiple of 3 |
//! | 22 | `SizesDiffer` | 0 | the sizes of the streams to be written do not sum to the number of their bytes |
//! | 23 | `DirectoryTooLarge` | 0 | one page cannot hold the numbers of the pages of the directory to be written |
//! | 24 | `Over32Bits` | 0 | the size of the directory to be written, or the number of pages, takes more than 32 bits |
//! | 25 | `BadLine` | the annotation's index, from 0 | an annotation cannot be run in a line program, as [`run_lines`] says |
//!
//! If several conditions hold, the first one met in reading decides. [`write_annotations`] judges in the order 21, 20,
//! 10, and [`write_container`] in the order 3, 22, 23, 24, 10.
//!
//! # Features
//!
//! - `std`, which is on unless default features are off: the errors implement `std::error::Error`. Turns on `alloc`.
//! - `alloc`: [`extract_to_vec`], [`map_to_vec`], and the methods of [`Stream`] that allocate.
//!
//! Without features the crate is `no_std` and allocates nothing.
#![no_std]
#![deny(unsafe_code)]
#![warn(missing_docs)]
// The library returns numbers of 64 bits. Each fits: it is a word of the file, or at most a length that was lent or is
// needed, and the library is linked only where `usize` has 64 bits.
#![allow(clippy::cast_possible_truncation)]

#[cfg(feature = "alloc")]
extern crate alloc;
#[cfg(feature = "std")]
extern crate std;

mod annotations;
mod binary_annotation;
#[cfg(doctest)]
mod compile_fail;
mod container;
#[cfg(feature = "std")]
mod error;
#[cfg(feature = "alloc")]
mod extraction;
#[allow(unsafe_code)]
mod ffi;
mod iter;
mod lines;
#[cfg(feature = "alloc")]
mod mapping;
mod msf;
mod refusal;

pub use annotations::{decode, number, step, write_annotations};
pub use annotations::{DecodeRefusal, Number, Step, ENTRIES_EACH, RECORD_ENTRIES};
pub use binary_annotation::{BinaryAnnotation, FileIndex};
pub use container::{Container, Stream};
#[cfg(feature = "alloc")]
pub use extraction::{extract_to_vec, ExtractError, AT_MOST};
pub use iter::{annotations, Annotations, PlacedAnnotation, PlacedRefusal};
pub use lines::{line_records, run_lines, LineRecord, LineRecords, LINE_ENTRIES};
#[cfg(feature = "alloc")]
pub use mapping::{map_to_vec, MapError, SourceSlice, AT_MOST_SLICES};
pub use msf::{extract, map, needed_to_map, open, slice_count, stream_count, stream_length, write_container};
pub use msf::{Mapped, Opened, Stage, ABSENT, HEADER_BLOCK};
pub use refusal::{Kind, Refusal};

/// The examples of the readme, as tests.
#[cfg(doctest)]
#[doc = include_str!("../README.md")]
struct Readme;
