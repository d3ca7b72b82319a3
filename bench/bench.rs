//! Measures ours, through the crate `trovespan`, and pdb's own code, on the same inputs in one process.
//! What pdb cannot do is measured alone, beside a plain copy, or beside a reckoning in Rust. This is built into
//! the oracle of `tests/differential`, which has pdb's code; `bench/run` builds and runs it.
//!
//! Time is the processor time of the thread. Both have the file in memory. Ours answers into lent stores,
//! which are cleared before each run, except where a case says otherwise. pdb's time includes allocating
//! and dropping its answer.

mod cases;
mod clock;
mod inputs;
mod reckoning;
mod timing;

use std::io::{self, Write};
use std::iter::once;

use cases::{cases, Case};
use clock::{shown as time, Runs, RUNS};
use timing::{measure, Call, Stores, REFUSED};

const HEAD: &str =
    "# X and Y are the processor time of a call, or million bytes of the streams or of \
                    the annotations per second of it; R is how many times as fast ours is";

pub fn run(out: &mut impl Write) -> io::Result<()> {
    let mut stores = Stores::new();
    let cases = cases(2);
    let runs: Vec<_> = cases.iter().map(|case| both(case, &mut stores)).collect();
    writeln!(out, "{}\n# The median of {} runs", HEAD, RUNS)?;
    for (case, (ours, theirs)) in cases.iter().zip(&runs) {
        let theirs = theirs.as_ref().map(Runs::median);
        write_speed(out, case, "", ours.median(), theirs)?;
    }
    writeln!(out, "# The best of them")?;
    for (case, (ours, theirs)) in cases.iter().zip(&runs) {
        let theirs = theirs.as_ref().map(Runs::best);
        write_speed(out, case, "best ", ours.best(), theirs)?;
    }
    writeln!(out, "# Ours: how many times as long as with half the work")?;
    write_doublings(out, &cases, &mut stores)
}

/// The runs of ours, and of theirs if there is one. Checks by the calls' figures that both did the same.
fn both(case: &Case, stores: &mut Stores) -> (Runs, Option<Runs>) {
    let ours = (case.ours)(stores);
    let theirs = case.beside.call().map(|theirs| theirs(stores));
    if ours == REFUSED || theirs.unwrap_or(ours) != ours {
        let figures = (ours, theirs);
        crate::stop(&format!("bench: {} answers {:?}", case.name, figures));
    }
    let calls: Vec<&Call> = once(&*case.ours).chain(case.beside.call()).collect();
    let mut runs = measure(&calls, stores).into_iter();
    (runs.next().expect("ours is measured"), runs.next())
}

/// Writes `NAME ratio R (ours X, theirs Y)`, with `a copy` or `a reckoning` for `theirs` if it is one, or
/// `NAME ours X` if there is no other side.
fn write_speed(
    out: &mut impl Write,
    case: &Case,
    which: &str,
    ours: f64,
    theirs: Option<f64>,
) -> io::Result<()> {
    let shown = |seconds| match case.bytes {
        Some(bytes) => format!("{:.1} MB/s", bytes as f64 / seconds / 1e6),
        None => time(seconds),
    };
    write!(out, "{} {}", case.name, which)?;
    match theirs {
        Some(theirs) => writeln!(
            out,
            "ratio {:.3} (ours {}, {} {})",
            theirs / ours,
            shown(ours),
            case.beside.name(),
            shown(theirs)
        ),
        None => writeln!(out, "ours {}", shown(ours)),
    }
}

/// Compares the best runs, since they are the least disturbed. Opening is left out: a longer file is no
/// more work.
fn write_doublings(out: &mut impl Write, whole: &[Case], stores: &mut Stores) -> io::Result<()> {
    for (half, whole) in cases(1).iter().zip(whole).skip(1) {
        let runs = measure(&[&*half.ours, &*whole.ours], stores);
        let (before, after) = (runs[0].best(), runs[1].best());
        let both = format!("half {}, whole {}", time(before), time(after));
        writeln!(
            out,
            "{} doubling {:.2} ({})",
            whole.name,
            after / before,
            both
        )?;
    }
    Ok(())
}
