//! The modules that the DBI stream lists (LLVM's page "The PDB DBI Stream"), each with the stream that has its symbols.

use crate::bytes::{half, part, word};

pub struct Module {
    /// `None` if the module has no stream.
    pub stream: Option<usize>,
    /// The number of its bytes that are symbols, with the signature before them.
    pub symbols_size: usize,
}

const HEADER: usize = 64;
const MODULES_SIZE: usize = 24;

/// Where a module's record has the stream's number, the size of its symbols and the two names.
const STREAM: usize = 34;
const SYMBOLS_SIZE: usize = 36;
const NAMES: usize = 64;

const NO_STREAM: u16 = 0xffff;

pub fn modules(dbi: &[u8]) -> Result<Vec<Module>, String> {
    let records = part(dbi, HEADER, word(dbi, MODULES_SIZE)? as usize)?;
    let mut modules = Vec::new();
    let mut at = 0;
    while at < records.len() {
        let stream = half(records, at + STREAM)?;
        modules.push(Module {
            stream: if stream == NO_STREAM { None } else { Some(stream.into()) },
            symbols_size: word(records, at + SYMBOLS_SIZE)? as usize,
        });
        let names = after_name(records, after_name(records, at + NAMES)?)?;
        at = (names + 3) / 4 * 4;
    }
    Ok(modules)
}

fn after_name(bytes: &[u8], at: usize) -> Result<usize, String> {
    let size = bytes.get(at..).and_then(|name| name.iter().position(|&byte| byte == 0));
    Ok(at + size.ok_or("a name without an end")? + 1)
}
