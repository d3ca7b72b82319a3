//! Links the proved library, `libtrovespan.a`. Takes the first of these:
//!
//! 1. the one in the folder that `TROVESPAN_LIB_DIR` names;
//! 2. the one in `lib/`, which the archive that `dist` makes has and the repository does not;
//! 3. the repository's own, `target/staticlib/libtrovespan.a`. Proves and builds it with `rt lib` in `crates/trovespan`
//!    if it is missing, or not what was built from these sources. That is judged by content, not by date.
//!
//! Nothing is proved in the first two cases, and nothing is written outside the folder that cargo gives this script.

use std::path::{Path, PathBuf};
use std::process::{exit, Command};
use std::time::Instant;
use std::{env, fs};

#[path = "build/sha256.rs"]
mod sha256;
use sha256::sha256;

const LIBRARY: &str = "libtrovespan.a";
const SUM: &str = "libtrovespan.a.sha256";

/// Names the folder of a library that is built already.
const GIVEN: &str = "TROVESPAN_LIB_DIR";

/// The repository, relative to the package's folder, where cargo runs this. Cargo keeps the compiled script and its
/// output; with relative paths both stay valid if the tree is moved.
const ROOT: &str = "..";

/// The crate that the library is built of.
const CRATE: &str = "../crates/trovespan";

fn main() {
    println!("cargo:rerun-if-changed=build.rs");
    println!("cargo:rerun-if-env-changed={GIVEN}");
    if linkable() {
        link(&library());
    } else {
        // Checking and documenting need no library, so this is not an error yet.
        println!(
            "cargo:warning=the proved library is code for x86-64 Linux, and no program for {} can link it: build with \
             rust/cargo, which builds for x86-64 and runs what it builds under an emulator",
            variable("TARGET")
        );
    }
}

/// Whether the target is the one that the library is compiled for, so that `usize` is the same on both sides.
fn linkable() -> bool {
    [("ARCH", "x86_64"), ("OS", "linux"), ("POINTER_WIDTH", "64")]
        .iter()
        .all(|(name, value)| variable(&format!("CARGO_CFG_TARGET_{name}")) == *value)
}

fn library() -> Vec<u8> {
    match env::var_os(GIVEN).filter(|folder| !folder.is_empty()) {
        Some(folder) => given(Path::new(&folder)),
        None if Path::new("lib").exists() => carried(Path::new("lib")),
        None => proved(&Path::new(ROOT).join("target/staticlib")),
    }
}

/// The library of the folder that the caller names. It is held to its sum if that is beside it.
fn given(folder: &Path) -> Vec<u8> {
    if folder.is_relative() {
        stop(&format!("{GIVEN} is {}: it must be an absolute path", folder.display()));
    }
    if folder.join(SUM).exists() {
        carried(folder)
    } else {
        read(&watched(folder.join(LIBRARY)))
    }
}

/// The library of a folder that has its sum too.
fn carried(folder: &Path) -> Vec<u8> {
    let archive = watched(folder.join(LIBRARY));
    let library = read(&archive);
    let sum = String::from_utf8_lossy(&read(&watched(folder.join(SUM)))).into_owned();
    if sum.split_whitespace().next() != Some(sha256(&library).as_str()) {
        stop(&format!("the sha256 of {} is not the one beside it", archive.display()));
    }
    library
}

/// The repository's library. Beside it is a note of what it is and what it was built from.
fn proved(folder: &Path) -> Vec<u8> {
    let (archive, note) = (watched(folder.join(LIBRARY)), folder.join("libtrovespan.built"));
    let sources = digest(&sources().into_iter().map(watched).collect::<Vec<_>>());
    let noted = |library: &[u8]| format!("{}  {LIBRARY}\n{sources}  its sources\n", sha256(library));
    if let (Ok(library), Ok(said)) = (fs::read(&archive), fs::read_to_string(&note)) {
        if said == noted(&library) {
            return library;
        }
    }
    build();
    take(&Path::new(CRATE).join("out").join(LIBRARY), &archive);
    let library = read(&archive);
    date_as(&archive, &Path::new(ROOT).join("crates.txt"));
    // If the note cannot be written, the next run builds again.
    let _ = fs::write(&note, noted(&library));
    library
}

/// The library's sources: crates.txt, and the folders of the crates that the library is made of.
fn sources() -> Vec<PathBuf> {
    let list = Path::new(ROOT).join("crates.txt");
    let text = fs::read_to_string(&list).unwrap_or_else(|e| {
        stop(&format!("{e}: {}. Outside the repository, {GIVEN} must name the folder of {LIBRARY}", list.display()))
    });
    let folders = crates_of(&text).into_iter().map(|name| Path::new(ROOT).join("crates").join(name));
    let parts = folders.flat_map(|folder| ["src", "specs", "proofs"].map(|part| folder.join(part)));
    parts.filter(|part| part.exists()).chain([list]).collect()
}

/// The crate trovespan and all that it is over, directly or through others. A name without a line is a library of the
/// toolchain.
fn crates_of(list: &str) -> Vec<&str> {
    let needs = |name: &str| {
        list.lines().find_map(|line| {
            let rest = line.strip_prefix(name)?;
            rest.strip_prefix(" staticlib").unwrap_or(rest).strip_prefix(':')
        })
    };
    if needs("trovespan").is_none() {
        stop("crates.txt does not name trovespan");
    }
    let mut found = vec!["trovespan"];
    let mut next = 0;
    while let Some(name) = found.get(next).copied() {
        let new = needs(name).unwrap_or("").split_whitespace().filter(|name| !found.contains(name));
        found.extend(new.collect::<Vec<_>>());
        next += 1;
    }
    found
}

/// The digest of the names and contents of all these files.
fn digest(paths: &[PathBuf]) -> String {
    let mut files: Vec<PathBuf> = paths.iter().flat_map(|path| files(path)).collect();
    files.sort();
    let sums = files.iter().map(|file| format!("{}  {}\n", sha256(&read(file)), file.display()));
    sha256(sums.collect::<String>().as_bytes())
}

/// A file, or all files below a folder.
fn files(path: &Path) -> Vec<PathBuf> {
    match fs::read_dir(path) {
        Ok(entries) => entries.flatten().flat_map(|entry| files(&entry.path())).collect(),
        Err(_) => vec![path.to_path_buf()],
    }
}

/// Cargo shows the warning when this script ends, and only `cargo -vv` what it says before that.
fn build() {
    eprintln!("trovespan: proving and building the library, which takes some minutes the first time");
    let began = Instant::now();
    let said = Command::new("rt").arg("lib").current_dir(CRATE).output();
    match said {
        Ok(said) if said.status.success() => println!(
            "cargo:warning=proved and built the library with `rt lib`, {} s; this is done again only \
             if its sources change",
            began.elapsed().as_secs()
        ),
        Ok(said) => {
            eprint!("{}{}", String::from_utf8_lossy(&said.stdout), String::from_utf8_lossy(&said.stderr));
            stop("`rt lib` failed, and said the above")
        }
        Err(e) => stop(&format!(
            "target/staticlib/{LIBRARY} is missing or not built from these sources, and `rt`, the command of the Rattle \
             toolchain that proves and builds it, could not be run ({e}): put it on the path, or let {GIVEN} name the \
             folder of a library that is built already"
        )),
    }
}

/// Copies what was built to where it is kept.
fn take(built: &Path, archive: &Path) {
    let copied = archive.parent().map_or(Ok(()), fs::create_dir_all).and_then(|()| fs::copy(built, archive));
    copied.unwrap_or_else(|e| stop(&format!("{} could not be copied to {}: {e}", built.display(), archive.display())));
}

/// Dates the library as one of its sources. Otherwise cargo takes it for a change made after this script, and runs the
/// script once more. That is all that happens if the date cannot be set.
fn date_as(archive: &Path, source: &Path) {
    let _ = Command::new("touch").arg("-r").args([source, archive]).status();
}

/// Links a copy in the folder that cargo gives this script. Cargo finds that folder again if the tree is moved.
fn link(library: &[u8]) {
    let folder = variable("OUT_DIR");
    let written = fs::write(Path::new(&folder).join(LIBRARY), library);
    written.unwrap_or_else(|e| stop(&format!("{LIBRARY} could not be written to {folder}: {e}")));
    println!("cargo:rustc-link-search=native={folder}");
    println!("cargo:rustc-link-lib=static=trovespan");
}

/// Tells cargo to run this script again if the file, or a file in the folder, is newer.
fn watched(path: PathBuf) -> PathBuf {
    println!("cargo:rerun-if-changed={}", path.display());
    path
}

fn read(file: &Path) -> Vec<u8> {
    fs::read(file).unwrap_or_else(|e| stop(&format!("{}: {e}", file.display())))
}

fn variable(name: &str) -> String {
    env::var(name).unwrap_or_else(|_| stop(&format!("cargo does not say {name}")))
}

fn stop(why: &str) -> ! {
    eprintln!("trovespan: {why}");
    exit(1)
}
