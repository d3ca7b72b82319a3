//! The Rust side of the differential tests: asks pdb 0.8.0 and writes its answers as a list.
//!
//!     oracle record           the fixed list, the same at each run
//!     oracle live SEED COUNT  COUNT random byte strings
//!     oracle show N           reads a list, and prints record N with the answers wanted
//!     oracle alter N          reads a list, and writes it with one wrong answer, at record N
//!
//! These are about binary annotations. record-msf, live-msf, show-msf and alter-msf are about
//! containers: COUNT is the number of random containers, with several questions about each. The same
//! words with -buffer are about the reads of a parse buffer, those with -writer about writing
//! annotations: COUNT is the number of random lists of annotations. Those with -pack are about writing
//! containers: COUNT is the number of random containers. Those with -lines are about running line programs:
//! COUNT is the number of random programs.
//!
//!     oracle isolation-msf SEED COUNT  COUNT pairs of containers that agree on what a stream's
//!                                      answers depend on, for which pdb must answer the same
//!     oracle file-msf NAME             a file that the tests of the listing program use
//!     oracle listing-msf               reads a file, and prints the listing that pdb's answers make
//!
//! With the feature `ours` our library is asked too, through the crate `trovespan`:
//!
//!     oracle compare SUBJECT SEED COUNT  compares our answers with pdb's on the questions of that live
//!                                        list. SUBJECT is annotations, msf, isolation, writer, pack
//!                                        or lines
//!     oracle compare SUBJECT             the same on the fixed list, which isolation does not have
//!     oracle compare SUBJECT large       the same on strings, files, lists of annotations or streams
//!                                        that are too large for a list of questions: their places,
//!                                        counts and sizes exceed 16, 24 and 32 bits
//!     oracle compare-altered N ..        the same, with our answer to record N made wrong
//!     oracle bench                       measures both (`bench/run`)

use std::io::{self, BufWriter, Read, Write};

use fallible_iterator::FallibleIterator;

// The sources of pdb, as the build copies them. They refer to each other from the crate's root.
#[allow(warnings)]
#[path = "../pdb/src/common.rs"]
mod common;
#[allow(warnings)]
#[path = "../pdb/src/msf/mod.rs"]
mod msf;
#[allow(warnings)]
#[path = "../pdb/src/source.rs"]
mod source;
#[allow(warnings)]
#[path = "../pdb/src/symbol"]
mod symbol {
    pub mod annotations;
}
#[allow(warnings)]
#[path = "../pdb/src/tpi"]
mod tpi {
    pub mod constants;
}

// Our own modules.
mod annotations;
#[cfg(feature = "ours")]
#[path = "../../../../bench/bench.rs"]
mod bench;
mod buffer;
#[cfg(feature = "ours")]
mod compare;
mod container;
mod digest;
mod lines;
mod pack;
mod random;
mod records;
mod writer;

const USAGE: &str = "usage: oracle record | live SEED COUNT | show N | alter N, \
                     or the same with -msf, -buffer, -writer, -pack or -lines after the first word, \
                     or isolation-msf SEED COUNT | file-msf NAME | listing-msf, \
                     or with the feature ours compare SUBJECT [large | SEED COUNT] \
                     | compare-altered N SUBJECT [large | SEED COUNT] | bench, \
                     where SUBJECT is annotations, msf, isolation, writer, pack or lines";

fn main() {
    let words: Vec<String> = std::env::args().skip(1).collect();
    let words: Vec<&str> = words.iter().map(String::as_str).collect();
    if answer(&words, &mut BufWriter::new(io::stdout())).is_err() {
        // The reader may close the pipe early.
        std::process::exit(1);
    }
}

fn answer(words: &[&str], out: &mut impl Write) -> io::Result<()> {
    match *words {
        ["record"] => annotations::write(annotations::fixed().into_iter(), out)?,
        ["live", seed, count] => {
            annotations::write(annotations::live(number(seed), number(count)), out)?
        }
        ["show", n] => out.write_all(annotations::show(&read(), number(n) as usize).as_bytes())?,
        ["alter", n] => out.write_all(&annotations::LAYOUT.altered(&read(), number(n) as usize))?,
        ["record-msf"] => container::write(container::fixed(), out)?,
        ["live-msf", seed, count] => {
            container::write(container::live(number(seed), number(count)), out)?
        }
        ["show-msf", n] => {
            out.write_all(container::show(&read(), number(n) as usize).as_bytes())?
        }
        ["alter-msf", n] => out.write_all(&container::altered(&read(), number(n) as usize))?,
        ["isolation-msf", seed, count] => container::write_pairs(number(seed), number(count), out)?,
        ["file-msf", name] => out.write_all(&container::named(name))?,
        ["listing-msf"] => out.write_all(container::listed(&read()).as_bytes())?,
        ["record-buffer"] => buffer::write(buffer::fixed(), out)?,
        ["live-buffer", seed, count] => {
            buffer::write(buffer::live(number(seed), number(count)), out)?
        }
        ["show-buffer", n] => {
            out.write_all(buffer::show(&read(), number(n) as usize).as_bytes())?
        }
        ["alter-buffer", n] => {
            out.write_all(&buffer::LAYOUT.altered(&read(), number(n) as usize))?
        }
        ["record-writer"] => writer::write(writer::fixed(), out)?,
        ["live-writer", seed, count] => {
            writer::write(writer::live(number(seed), number(count)), out)?
        }
        ["show-writer", n] => {
            out.write_all(writer::show(&read(), number(n) as usize).as_bytes())?
        }
        ["alter-writer", n] => {
            out.write_all(&writer::LAYOUT.altered(&read(), number(n) as usize))?
        }
        ["record-pack"] => pack::write(pack::fixed(), out)?,
        ["live-pack", seed, count] => pack::write(pack::live(number(seed), number(count)), out)?,
        ["show-pack", n] => out.write_all(pack::show(&read(), number(n) as usize).as_bytes())?,
        ["alter-pack", n] => out.write_all(&pack::LAYOUT.altered(&read(), number(n) as usize))?,
        ["record-lines"] => lines::write(lines::fixed(), out)?,
        ["live-lines", seed, count] => {
            lines::write(lines::live(number(seed), number(count)), out)?
        }
        ["show-lines", n] => out.write_all(lines::show(&read(), number(n) as usize).as_bytes())?,
        ["alter-lines", n] => out.write_all(&lines::LAYOUT.altered(&read(), number(n) as usize))?,
        #[cfg(feature = "ours")]
        ["compare", ref asked @ ..] => compare(asked, None, out)?,
        #[cfg(feature = "ours")]
        ["compare-altered", n, ref asked @ ..] => compare(asked, Some(number(n) as usize), out)?,
        #[cfg(feature = "ours")]
        ["bench"] => bench::run(out)?,
        _ => stop(USAGE),
    }
    out.flush()
}

/// Compares our answers with pdb's.
#[cfg(feature = "ours")]
fn compare(asked: &[&str], altered: Option<usize>, out: &mut impl Write) -> io::Result<()> {
    let mut comparison = compare::Comparison::new(altered);
    match *asked {
        ["annotations"] => annotations::compare(annotations::fixed().into_iter(), &mut comparison),
        ["annotations", seed, count] => {
            let questions = annotations::live(number(seed), number(count));
            annotations::compare(questions, &mut comparison)
        }
        ["annotations", "large"] => annotations::compare(annotations::large(), &mut comparison),
        ["msf"] => container::compare(container::fixed(), &mut comparison),
        ["msf", "large"] => container::compare(container::large(), &mut comparison),
        ["msf", seed, count] => container::compare(
            container::live(number(seed), number(count)),
            &mut comparison,
        ),
        ["isolation", seed, count] => {
            container::judged_pairs(number(seed), number(count), |records| {
                container::compare(records, &mut comparison)
            })
        }
        ["writer"] => writer::compare(writer::fixed(), &mut comparison),
        ["writer", "large"] => writer::compare(writer::large(), &mut comparison),
        ["writer", seed, count] => {
            writer::compare(writer::live(number(seed), number(count)), &mut comparison)
        }
        ["pack"] => pack::compare(pack::fixed(), &mut comparison),
        ["pack", "large"] => pack::compare(pack::large(), &mut comparison),
        ["pack", seed, count] => {
            pack::compare(pack::live(number(seed), number(count)), &mut comparison)
        }
        ["lines"] => lines::compare(lines::fixed(), &mut comparison),
        ["lines", "large"] => lines::compare(lines::large(), &mut comparison),
        ["lines", seed, count] => {
            lines::compare(lines::live(number(seed), number(count)), &mut comparison)
        }
        _ => stop(USAGE),
    }
    comparison.report(out)
}

fn number(word: &str) -> u64 {
    word.parse().unwrap_or_else(|_| stop(USAGE))
}

fn read() -> Vec<u8> {
    let mut list = Vec::new();
    match io::stdin().read_to_end(&mut list) {
        Ok(_) => list,
        Err(e) => stop(&format!("standard input: {}", e)),
    }
}

/// Ends the program and prints one line that says why.
pub fn stop(why: &str) -> ! {
    eprintln!("oracle: {}", why);
    std::process::exit(1)
}
