//! Compares what the two versions tell, and counts.

use crate::asked::{Failure, Question};
use crate::{container, original, swapped};
use std::collections::BTreeMap;
use std::error::Error;
use std::process::ExitCode;

#[derive(Default)]
pub struct Tally {
    counts: BTreeMap<String, usize>,
}

/// What may differ. Each of these is counted, also if there is none.
const DIFFERENCES: [&str; 4] = ["differ-answers", "differ-views", "differ-annotations", "differ-contents"];

/// How many differences are shown.
const SHOWN: usize = 5;

impl Tally {
    pub fn add(&mut self, kind: &str, count: usize) {
        *self.counts.entry(kind.to_string()).or_default() += count;
    }

    pub fn streams(&mut self, name: &str, file: &[u8], questions: &[Question], fails: Option<(usize, Failure)>) {
        let asked = original::streams(&[(0, file)], questions, fails);
        let answered = swapped::streams(&[(0, file)], questions, fails);
        self.add("answers", asked.answers.len());
        self.add("views", asked.requests);
        self.add("views-of-nothing", asked.views.iter().filter(|view| *view == "[]").count());
        for why in &asked.errors {
            self.add(&format!("refused-{why}"), 1);
        }
        let stated = || {
            let lowered = original::streams(&[(0, &container::lowered(file)?)], questions, fails);
            (lowered == answered).then_some(lowered.answers)
        };
        if asked != answered && self.is_stated(file, &asked.answers, stated()) {
            return;
        }
        self.compare("differ-answers", name, &asked.answers, &answered.answers);
        self.compare("differ-views", name, &asked.views, &answered.views);
    }

    pub fn annotations(&mut self, name: &str, bytes: &[u8]) {
        let asked = original::annotations(bytes);
        self.add("annotations", asked.iter().filter(|step| step.starts_with("Ok(Some")).count());
        self.add("refused-annotations", asked.iter().filter(|step| step.starts_with("Err")).count());
        self.compare("differ-annotations", name, &asked, &swapped::annotations(bytes));
    }

    pub fn contents(&mut self, name: &str, file: &[u8]) {
        let (asked, answered) = (original::contents(file), swapped::contents(file));
        for (kind, count) in &asked.counts {
            self.add(kind, *count);
        }
        let stated = || {
            let lowered = original::contents(&container::lowered(file)?);
            (lowered == answered).then_some(lowered.lines)
        };
        if asked != answered && self.is_stated(file, &asked.lines, stated()) {
            return;
        }
        self.compare("differ-contents", name, &asked.lines, &answered.lines);
    }

    /// Whether a difference is that of request 2026-03: a page number equal to pages_used, which pdb lets pass and we
    /// refuse. `lowered` is what pdb tells of the file with pages_used lowered by one, if that is just what we tell of the
    /// file. The first line that differs must be the refusal of that page number.
    fn is_stated(&mut self, file: &[u8], asked: &[String], lowered: Option<Vec<String>>) -> bool {
        let wanted = format!("PageReferenceOutOfRange({})", container::pages_used(file));
        let stated = lowered.map_or(false, |lowered| {
            let first = lowered.get(first_difference(asked, &lowered));
            first.map_or(false, |line| line.contains(&wanted))
        });
        self.add("stated-2026-03", usize::from(stated));
        stated
    }

    fn compare(&mut self, kind: &str, name: &str, asked: &[String], answered: &[String]) {
        if asked == answered {
            return;
        }
        self.add(kind, 1);
        if self.counts[kind] <= SHOWN {
            let at = first_difference(asked, answered);
            eprintln!("{name}: {kind} at {at}: original {:?}, swapped {:?}", asked.get(at), answered.get(at));
        }
    }

    /// Prints the counts.
    pub fn verdict(mut self) -> Result<ExitCode, Box<dyn Error>> {
        for kind in DIFFERENCES {
            self.add(kind, 0);
        }
        for (kind, count) in &self.counts {
            println!("{kind} {count}");
        }
        let differ = DIFFERENCES.iter().any(|kind| self.counts[*kind] > 0);
        Ok(ExitCode::from(u8::from(differ)))
    }
}

fn first_difference(asked: &[String], answered: &[String]) -> usize {
    let common = asked.iter().zip(answered).position(|(one, other)| one != other);
    common.unwrap_or_else(|| asked.len().min(answered.len()))
}
