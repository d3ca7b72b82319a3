//! Writing OUT, whole or not at all.

use std::ffi::OsString;
use std::fs::{self, OpenOptions, Permissions};
use std::io::{self, ErrorKind, Write};
use std::path::{Path, PathBuf};
use std::process;

/// Writes to OUT. If OUT is not a regular file but, for example, a pipe, it is written in place, not replaced.
pub fn write(out: &Path, bytes: &[u8]) -> io::Result<()> {
    match fs::metadata(out) {
        Ok(data) if data.is_file() => replace(&fs::canonicalize(out)?, bytes, Some(data.permissions())),
        Ok(_) => OpenOptions::new().write(true).open(out)?.write_all(bytes),
        Err(e) if e.kind() == ErrorKind::NotFound => replace(out, bytes, None),
        Err(e) => Err(e),
    }
}

/// Writes another file beside OUT and renames it once it is complete and on the disk, so a full disk, or a machine that
/// stops, leaves OUT unchanged. Keeps the permissions of the file that is replaced.
fn replace(out: &Path, bytes: &[u8], permissions: Option<Permissions>) -> io::Result<()> {
    let beside = beside(out)?;
    let mut file = OpenOptions::new().write(true).create_new(true).open(&beside)?;
    let replaced = file
        .write_all(bytes)
        .and_then(|()| permissions.map_or(Ok(()), |permissions| file.set_permissions(permissions)))
        .and_then(|()| file.sync_all())
        .and_then(|()| fs::rename(&beside, out));
    if replaced.is_err() {
        // If that fails too, there is nothing more to do.
        let _ = fs::remove_file(&beside);
    }
    replaced
}

/// A name in the same folder that no other run of this program uses.
fn beside(out: &Path) -> io::Result<PathBuf> {
    let name = out.file_name().ok_or(ErrorKind::InvalidInput)?;
    let mut hidden = OsString::from(".");
    hidden.push(name);
    hidden.push(format!(".{}", process::id()));
    Ok(out.with_file_name(hidden))
}
