//! Measures pdb 0.8.0 as it is and with its container and annotations replaced: the same calls of pdb's
//! own interface, in one program, on the same inputs. `bench/swap` builds and runs it.
//!
//!     swap ORIGINAL SWAPPED PDB ADDRESSES
//!
//! ORIGINAL and SWAPPED are the example `symbolize` over the one and the other, and ADDRESSES is a file
//! with what they are asked of PDB. What they take is the processor time of a whole run of the program;
//! of the others, that of the thread.

mod clock;

use std::env;
use std::fs::File;
use std::io::Cursor;
use std::process::{Command, Stdio};

use clock::{shown, thread_seconds};
use original::FallibleIterator;

const STREAMS: u32 = 4000;
const PAGE: u32 = 4096;
const ANNOTATIONS: usize = 1 << 18;

struct Case {
    name: &'static str,
    /// How many things a call does; the time of one is shown.
    things: usize,
    seconds: fn() -> f64,
    swapped: Box<Call>,
    original: Box<Call>,
}

/// A call returns a figure that is the same for both sides of a case.
type Call = dyn Fn() -> u64;

fn main() {
    let words: Vec<String> = env::args().skip(1).collect();
    let words: [String; 4] = words
        .try_into()
        .expect("the words are ORIGINAL SWAPPED PDB ADDRESSES");
    let cases = [annotation(), all_streams(), symbolizing(words)];
    println!(
        "# pdb 0.8.0 swapped, beside itself as it is: the median, then the best of {} runs",
        clock::RUNS
    );
    cases.iter().for_each(measure);
}

/// Writes `NAME ratio R (swapped X, original Y)`. R is how many times as fast the swapped one is.
fn measure(case: &Case) {
    assert_eq!(
        (case.swapped)(),
        (case.original)(),
        "{}: the sides do not answer the same",
        case.name
    );
    let runs = clock::measure(&[&*case.swapped, &*case.original], |call, count| {
        let began = (case.seconds)();
        for _ in 0..count {
            call();
        }
        (case.seconds)() - began
    });
    let each = |seconds: f64| seconds / case.things as f64;
    for (which, swapped, original) in [
        ("", runs[0].median(), runs[1].median()),
        ("best ", runs[0].best(), runs[1].best()),
    ] {
        let (ours, theirs) = (shown(each(swapped)), shown(each(original)));
        println!(
            "{} {which}ratio {:.3} (swapped {ours}, original {theirs})",
            case.name,
            original / swapped
        );
    }
}

/// One annotation, by pdb's iterator.
fn annotation() -> Case {
    macro_rules! side {
        ($pdb:ident, $bytes:ident) => {
            Box::new(move || {
                let mut sum = 0;
                let mut annotations = $pdb::annotations_in($bytes).iter();
                while let Some(annotation) = annotations.next().expect("each is an annotation") {
                    sum += match annotation {
                        $pdb::BinaryAnnotation::ChangeCodeOffset(offset) => u64::from(offset),
                        $pdb::BinaryAnnotation::ChangeLineOffset(line) => line as u64,
                        _ => 1,
                    };
                }
                sum
            })
        };
    }
    let bytes: &[u8] = Box::leak(annotations().into_boxed_slice());
    let (swapped, original) = (side!(swapped, bytes), side!(original, bytes));
    Case {
        name: "swap-annotation",
        things: ANNOTATIONS,
        seconds: thread_seconds,
        swapped,
        original,
    }
}

/// Annotations with the opcodes that clang writes, about as often as it does, most operands in a byte.
fn annotations() -> Vec<u8> {
    let mut random = 1_u64;
    let mut next = move || {
        random = random
            .wrapping_mul(6364136223846793005)
            .wrapping_add(1442695040888963407);
        (random >> 33) as u32
    };
    let mut bytes = Vec::new();
    for _ in 0..ANNOTATIONS {
        bytes.push(match next() % 100 {
            0..=28 => 3,
            29..=54 => 6,
            55..=76 => 4,
            77..=96 => 11,
            _ => 5,
        });
        match (next() % 10, next()) {
            (0, operand) => {
                bytes.extend_from_slice(&(0x8000 | operand as u16 & 0x3fff).to_be_bytes())
            }
            (_, operand) => bytes.push(operand as u8 & 0x7f),
        }
    }
    bytes
}

/// Opening a file in memory and reading each of its streams, of two pages, once.
fn all_streams() -> Case {
    macro_rules! side {
        ($pdb:ident, $file:ident) => {
            Box::new(move || {
                let mut pdb = $pdb::PDB::open(Cursor::new($file)).expect("it is a PDB");
                let read = |stream| figure(&pdb.limited_stream(stream, None).expect("it is there"));
                (0..STREAMS).map(read).sum()
            })
        };
    }
    let file: &[u8] = Box::leak(container().into_boxed_slice());
    let (swapped, original) = (side!(swapped, file), side!(original, file));
    Case {
        name: "swap-all-streams",
        things: 1,
        seconds: thread_seconds,
        swapped,
        original,
    }
}

fn container() -> Vec<u8> {
    const SIZE: u32 = PAGE + PAGE / 2;
    let bytes: Vec<u8> = (0..SIZE * STREAMS).map(|at| (at / SIZE) as u8).collect();
    let write =
        |out: &mut [u8]| trovespan::write_container(PAGE, &[SIZE; STREAMS as usize], &bytes, out);
    let length = write(&mut []).expect_err("there is no room").value;
    let mut file = vec![0; length as usize];
    write(&mut file).expect("there is room");
    file
}

fn figure(stream: &[u8]) -> u64 {
    stream.len() as u64 + u64::from(stream[0]) + u64::from(stream[stream.len() - 1])
}

/// A run of `symbolize`. Its figure is how much it prints.
fn symbolizing([by_original, by_swapped, pdb, addresses]: [String; 4]) -> Case {
    let run = move |program: String| {
        let (pdb, addresses) = (pdb.clone(), addresses.clone());
        Box::new(move || {
            let asked = File::open(&addresses).expect("the addresses are there");
            let ran = Command::new(&program)
                .arg(&pdb)
                .stdin(asked)
                .stderr(Stdio::inherit())
                .output();
            let ran = ran.expect("symbolize can be run");
            assert!(ran.status.success(), "{program} failed");
            ran.stdout.len() as u64
        })
    };
    let (swapped, original) = (run(by_swapped), run(by_original));
    Case {
        name: "swap-symbolize-1000",
        things: 1,
        seconds: children_seconds,
        swapped,
        original,
    }
}

/// `struct rusage` of 64-bit Linux: seconds and microseconds as user and as system, and fourteen numbers
/// of other things.
#[repr(C)]
struct Usage {
    times: [i64; 4],
    others: [i64; 14],
}

/// `RUSAGE_CHILDREN` of Linux.
const CHILDREN: i32 = -1;

extern "C" {
    fn getrusage(who: i32, usage: *mut Usage) -> i32;
}

/// The processor time that the programs that were run, and have ended, had so far.
fn children_seconds() -> f64 {
    let mut usage = Usage {
        times: [0; 4],
        others: [0; 14],
    };
    // SAFETY: The function is the C library's, which std links, and writes no more than one `Usage`.
    let status = unsafe { getrusage(CHILDREN, &mut usage) };
    assert_eq!(
        status, 0,
        "this machine does not count the time of children"
    );
    let [user, user_micro, system, system_micro] = usage.times.map(|number| number as f64);
    user + system + (user_micro + system_micro) / 1e6
}
