//! `reader read OUT FILE...` reads PDB files through the crate, and writes what llvm-pdbutil would say about each into a
//! folder of its name below OUT: `streams`, the container and each stream's size and pages; `sites`, every inline site
//! and its annotations; and `stream.N`, the bytes of stream N.
//!
//! `reader rewrite OUT FILE...` writes a copy of each file to OUT, with the annotations of every site written again.
//!
//! `reader lines LLVM FILE...` runs the line program of every site, and holds the records against what llvm-pdbutil
//! printed, which is in `sites` in a folder of the file's name below LLVM.
//!
//! Each then prints the totals as `NAME COUNT` lines. They skip nothing: they stop at what they cannot read.

mod annotations;
mod bytes;
mod container;
mod forecast;
mod lines;
mod modules;
mod printed;
mod rewrite;
mod sites;
mod totals;

use std::path::Path;
use std::process::exit;
use std::{env, fs};

use container::Container;
use lines::Compared;
use rewrite::Saving;
use totals::Totals;

fn main() {
    let words: Vec<String> = env::args().skip(1).collect();
    let words: Vec<&str> = words.iter().map(String::as_str).collect();
    let text = match words.as_slice() {
        ["read", out, files @ ..] => each(out, files, read).text(),
        ["rewrite", out, files @ ..] => each(out, files, rewrite).text(),
        ["lines", llvm, files @ ..] => each(llvm, files, lines).text(),
        _ => stop("usage: reader read|rewrite OUT FILE..., or reader lines LLVM FILE..."),
    };
    print!("{text}");
}

/// The totals over all files.
fn each<T: Default>(folder: &str, files: &[&str], answer: fn(&Path, &Path, &mut T) -> Result<(), String>) -> T {
    let mut totals = T::default();
    for file in files {
        if let Err(why) = answer(Path::new(folder), Path::new(file), &mut totals) {
            stop(&format!("{file}: {why}"));
        }
    }
    totals
}

fn read(out: &Path, file: &Path, totals: &mut Totals) -> Result<(), String> {
    let name = file.file_stem().ok_or("a file with no name")?;
    let folder = out.join(name);
    fs::create_dir_all(&folder).map_err(told)?;
    let file = fs::read(file).map_err(told)?;
    let container = Container::open(&file)?;
    fs::write(folder.join("streams"), container.text(totals)?).map_err(told)?;
    let streams = container.streams()?;
    for (number, stream) in streams.iter().enumerate() {
        if let Some(bytes) = stream {
            fs::write(folder.join(format!("stream.{number}")), bytes).map_err(told)?;
        }
    }
    fs::write(folder.join("sites"), sites::text(&streams, totals)?).map_err(told)?;
    totals.files += 1;
    Ok(())
}

fn rewrite(out: &Path, file: &Path, saving: &mut Saving) -> Result<(), String> {
    let name = file.file_name().ok_or("a file with no name")?;
    let copy = rewrite::shortened(&fs::read(file).map_err(told)?, saving)?;
    fs::write(out.join(name), copy).map_err(told)
}

fn lines(llvm: &Path, file: &Path, compared: &mut Compared) -> Result<(), String> {
    let name = file.file_stem().ok_or("a file with no name")?;
    let printed = fs::read_to_string(llvm.join(name).join("sites")).map_err(told)?;
    lines::compare(&fs::read(file).map_err(told)?, &printed, compared)
}

fn told(why: std::io::Error) -> String {
    why.to_string()
}

fn stop(why: &str) -> ! {
    eprintln!("reader: {why}");
    exit(1)
}
