//! symbolize PDB ADDRESS...: the function, file and line of addresses in a program, with the functions inlined there.
//!
//! This is an example for pdb 0.8.0, as it is or with its container and annotations replaced: copy it to the `examples` of
//! a checkout. `USAGE` says how it is used and what it prints.
//!
//! What it does not do: it does not name inlined functions, whose names are in the id information (`PDB::id_information`);
//! it does not look at public symbols, so code without symbols of its own has no function here; and it does not follow
//! code that the compiler moved away from its function (`S_SEPCODE`).

use std::collections::HashMap;
use std::error::Error;
use std::ffi::OsStr;
use std::fs::File;
use std::io::{self, BufRead, Write};
use std::panic::{self, AssertUnwindSafe};
use std::process::ExitCode;
use std::{env, fmt};

use pdb::{
    AddressMap, DBISectionContribution, DebugInformation, FallibleIterator, IdIndex, InlineSiteSymbol, Inlinee,
    LineInfo, LineProgram, Module, ModuleInfo, PdbInternalSectionOffset, ProcedureSymbol, Rva, SectionOffset,
    StringTable, Symbol, SymbolData, SymbolIndex, SymbolIter, PDB,
};

const USAGE: &str = "\
usage: symbolize PDB ADDRESS...
       symbolize PDB < ADDRESSES

ADDRESS is SECTION:OFFSET, the section in decimal and the offset in hexadecimal, as in 1:2a0 or 1:0x2a0, or an address
relative to the image base in hexadecimal with 0x, as in 0x12a0. Without any, they are read from standard input, one on
each line; blank lines are skipped.

Prints each address, and under it a line for each function there, the innermost first, with its file and line. An inlined
function is shown by its number in the PDB's id information, which has its name: 'inlined function 0x1003'.

What cannot be read is said on standard error, and the status is then 1. A bad line of standard input is named there, and
the next one is read; a bad argument ends the program at once.
";

fn main() -> ExitCode {
    let mut words = env::args_os().skip(1);
    let path = match words.next() {
        Some(word) if word != "--help" => word,
        _ => {
            let _ = write!(io::stderr(), "{USAGE}");
            return ExitCode::from(2);
        }
    };
    // `asked` catches what panics, and says it.
    panic::set_hook(Box::new(|_| {}));
    let words: Vec<String> = words.map(|word| word.to_string_lossy().into_owned()).collect();
    match run(&path, &words) {
        Ok(true) => ExitCode::SUCCESS,
        Ok(false) => ExitCode::FAILURE,
        Err(why) => {
            complain(&why);
            ExitCode::FAILURE
        }
    }
}

/// Whether everything that was asked could be read.
fn run(path: &OsStr, words: &[String]) -> Result<bool, String> {
    let asked: Vec<(&str, Address)> =
        words.iter().map(|word| Ok((word.as_str(), Address::parse(word)?))).collect::<Result<_, String>>()?;
    let mut program = Program::open(path).map_err(|why| format!("{}: {why}", path.to_string_lossy()))?;
    let mut sound = true;
    for (word, address) in &asked {
        sound &= tell(&mut program, word, *address)?;
    }
    if asked.is_empty() {
        sound = tell_lines(&mut program)?;
    }
    Ok(sound)
}

/// The same for each line of standard input.
fn tell_lines(program: &mut Program) -> Result<bool, String> {
    let mut sound = true;
    for (number, line) in (1..).zip(io::stdin().lock().split(b'\n')) {
        let line = line.map_err(|why| format!("standard input: {why}"))?;
        let line = String::from_utf8_lossy(&line);
        let word = line.trim();
        if word.is_empty() {
            continue;
        }
        sound &= match Address::parse(word) {
            Ok(address) => tell(program, word, address)?,
            Err(why) => {
                complain(&format!("line {number}: {why}"));
                false
            }
        };
    }
    Ok(sound)
}

/// Prints an address and its frames. Whether all of it could be read.
fn tell(program: &mut Program, word: &str, address: Address) -> Result<bool, String> {
    let answer = program.answer(address).unwrap_or_else(Answer::unknown);
    let written = io::stdout().lock().write_all(format!("{word}\n{answer}").as_bytes());
    written.map_err(|why| format!("standard output: {why}"))?;
    for fault in &answer.faults {
        complain(&format!("{word}: {fault}"));
    }
    Ok(answer.faults.is_empty())
}

/// Says what is wrong. If standard error cannot be written, the status still says that something is.
fn complain(why: &str) {
    let _ = writeln!(io::stderr(), "symbolize: {}", printable(why));
}

/// An address in the program as it runs.
#[derive(Clone, Copy)]
enum Address {
    InSection(SectionOffset),
    FromBase(Rva),
}

impl Address {
    fn parse(word: &str) -> Result<Self, String> {
        let parsed = match word.split_once(':') {
            Some((section, offset)) => decimal(section)
                .zip(hexadecimal(offset.strip_prefix("0x").unwrap_or(offset)))
                .map(|(section, offset)| Address::InSection(SectionOffset::new(section, offset))),
            None => word.strip_prefix("0x").and_then(hexadecimal).map(|rva| Address::FromBase(Rva(rva))),
        };
        parsed.ok_or_else(|| format!("'{word}' is no address: it is SECTION:OFFSET, as in 1:2a0, or as in 0x12a0"))
    }

    /// The same in the PDB, whose addresses are those before a tool rearranged the program.
    fn in_pdb(self, map: &AddressMap<'_>) -> Option<PdbInternalSectionOffset> {
        match self {
            Address::InSection(offset) => offset.to_internal_offset(map),
            Address::FromBase(rva) => rva.to_internal_offset(map),
        }
    }
}

// Digits alone: Rust's own parsing takes a plus sign too.

fn decimal(digits: &str) -> Option<u16> {
    digits.parse().ok().filter(|_| digits.bytes().all(|b| b.is_ascii_digit()))
}

fn hexadecimal(digits: &str) -> Option<u32> {
    u32::from_str_radix(digits, 16).ok().filter(|_| digits.bytes().all(|b| b.is_ascii_hexdigit()))
}

/// The frames of an address, the innermost first, and what could not be read of them.
#[derive(Default)]
struct Answer {
    frames: Vec<Frame>,
    faults: Vec<String>,
}

impl Answer {
    fn unknown(why: String) -> Self {
        Answer { frames: Vec::new(), faults: vec![why] }
    }

    fn add(&mut self, function: String, place: Result<Option<String>, String>) {
        let place = place.unwrap_or_else(|why| {
            self.faults.push(format!("{function}: {why}"));
            None
        });
        self.frames.push(Frame { function, place });
    }
}

impl fmt::Display for Answer {
    fn fmt(&self, f: &mut fmt::Formatter<'_>) -> fmt::Result {
        if self.frames.is_empty() {
            let why = if self.faults.is_empty() { "no function there" } else { "unknown" };
            return writeln!(f, "  {why}");
        }
        self.frames.iter().try_for_each(|frame| writeln!(f, "  {frame}"))
    }
}

struct Frame {
    function: String,
    /// The file and the line.
    place: Option<String>,
}

impl fmt::Display for Frame {
    fn fmt(&self, f: &mut fmt::Formatter<'_>) -> fmt::Result {
        match &self.place {
            Some(place) => write!(f, "{} at {}", self.function, place),
            None => write!(f, "{} at an unknown line", self.function),
        }
    }
}

/// A PDB, with what was read of it so far. It is open until this program ends. So what borrows from its streams does so
/// for good, and the streams are leaked: the debug information, and each module that is asked for, once.
struct Program {
    pdb: PDB<'static, File>,
    map: AddressMap<'static>,
    strings: StringTable<'static>,
    modules: Vec<Module<'static>>,
    /// Which module has the code where.
    contributions: Vec<DBISectionContribution>,
    tables: HashMap<usize, Result<Option<Table>, String>>,
}

impl Program {
    fn open(path: &OsStr) -> Result<Self, String> {
        let file = File::open(path).map_err(|why| why.to_string())?;
        let mut pdb = asked("not a PDB that can be read", || PDB::open(file))?;
        let information = asked("no debug information", || pdb.debug_information())?;
        let information: &DebugInformation<'_> = Box::leak(Box::new(information));
        let contributions = asked("the section contributions", || information.section_contributions()?.collect())?;
        Ok(Program {
            map: asked("the address map", || pdb.address_map())?,
            strings: asked("the string table", || pdb.string_table())?,
            modules: asked("the list of modules", || information.modules()?.collect())?,
            contributions: in_order(contributions),
            tables: HashMap::new(),
            pdb,
        })
    }

    fn answer(&mut self, address: Address) -> Result<Answer, String> {
        let address = asked("the address map", || Ok::<_, pdb::Error>(address.in_pdb(&self.map)))?;
        match address.and_then(|address| Some((address, nearest(&self.contributions, address)?.module))) {
            Some((address, module)) => {
                self.read(module);
                self.answer_in(module, address)
            }
            None => Ok(Answer::default()),
        }
    }

    /// Reads a module, unless that is done.
    fn read(&mut self, module: usize) {
        let (pdb, modules) = (&mut self.pdb, &self.modules);
        self.tables.entry(module).or_insert_with(|| match modules.get(module) {
            Some(module) => Table::read(pdb, module).map_err(|why| format!("{}: {why}", module.module_name())),
            None => Err(format!("there is no module {module}")),
        });
    }

    fn answer_in(&self, module: usize, address: PdbInternalSectionOffset) -> Result<Answer, String> {
        let table = match &self.tables[&module] {
            Ok(Some(table)) => table,
            Ok(None) => return Ok(Answer::default()),
            Err(why) => return Err(why.clone()),
        };
        let procedure = nearest(&table.procedures, address);
        Ok(procedure.map_or_else(Answer::default, |procedure| self.frames(table, procedure, address)))
    }

    fn frames(&self, table: &Table, procedure: &Procedure, address: PdbInternalSectionOffset) -> Answer {
        let mut answer = Answer::default();
        let line = table.line(address).and_then(|line| line.map(|line| self.place(table, &line)).transpose());
        answer.add(printable(&procedure.symbol.name.to_string()), line);
        match asked("the functions inlined there", || table.inlined(procedure, address)) {
            Ok(sites) => sites.into_iter().for_each(|(inlinee, line)| {
                answer.add(format!("inlined function {inlinee}"), self.place(table, &line).map(Some));
            }),
            Err(why) => answer.faults.push(why),
        }
        answer.frames.reverse();
        answer
    }

    /// The file and the line of a record.
    fn place(&self, table: &Table, line: &LineInfo) -> Result<String, String> {
        let name = asked("its file", || {
            let file = table.lines()?.get_file_info(line.file_index)?;
            Ok::<_, Box<dyn Error>>(file.name.to_string_lossy(&self.strings)?)
        })?;
        Ok(format!("{}:{}", printable(&name), line.line_start))
    }
}

/// What a module says of its code.
struct Table {
    info: &'static ModuleInfo<'static>,
    procedures: Vec<Procedure>,
    // These may be broken where the symbols are not. Then a function still has its name.
    lines: Result<LineProgram<'static>, String>,
    inlinees: Result<HashMap<IdIndex, Inlinee<'static>>, String>,
}

impl Table {
    /// None if the module has no symbols, as what comes from an import library.
    fn read(pdb: &mut PDB<'static, File>, module: &Module<'_>) -> Result<Option<Self>, String> {
        let info: &ModuleInfo<'_> = match asked("its stream", || pdb.module_info(module))? {
            Some(info) => Box::leak(Box::new(info)),
            None => return Ok(None),
        };
        Ok(Some(Table {
            info,
            procedures: in_order(asked("its symbols", || procedures(info))?),
            lines: asked("its lines", || info.line_program()),
            inlinees: asked("its inlined functions", || inlinees(info)),
        }))
    }

    fn lines(&self) -> Result<&LineProgram<'static>, String> {
        self.lines.as_ref().map_err(String::clone)
    }

    /// The line of an address in the function that was not inlined.
    fn line(&self, address: PdbInternalSectionOffset) -> Result<Option<LineInfo>, String> {
        let lines = self.lines()?;
        Ok(line_at(asked("its lines", || lines.lines_for_symbol(address).collect())?, address))
    }

    /// The functions inlined at an address, the outermost first, each with the line there.
    ///
    /// A function that is inlined in another has its site within the other's, and the lines of the outer site reach
    /// wherever those of the inner one do: there they are of the call. So a site is passed over, with all in it, unless
    /// its lines reach the address.
    fn inlined(
        &self,
        procedure: &Procedure,
        address: PdbInternalSectionOffset,
    ) -> Result<Vec<(IdIndex, LineInfo)>, Box<dyn Error>> {
        let mut found = Vec::new();
        let mut symbols = self.info.symbols_at(procedure.index)?;
        symbols.next()?; // the procedure itself
        let mut blocks = 0; // that are open within the innermost site found, or within the procedure
        while let Some(symbol) = symbols.next()? {
            if symbol.ends_scope() {
                if blocks == 0 {
                    break;
                }
                blocks -= 1;
            } else if let Some(site) = inline_site(&symbol)? {
                match self.line_in_site(procedure, &site, address)? {
                    Some(line) => {
                        found.push((site.inlinee, line));
                        blocks = 0;
                    }
                    None => pass_over(&mut symbols)?,
                }
            } else if symbol.starts_scope() {
                blocks += 1;
            }
        }
        Ok(found)
    }

    fn line_in_site(
        &self,
        procedure: &Procedure,
        site: &InlineSiteSymbol<'static>,
        address: PdbInternalSectionOffset,
    ) -> Result<Option<LineInfo>, Box<dyn Error>> {
        let inlinees = self.inlinees.as_ref().map_err(String::clone)?;
        let inlinee =
            inlinees.get(&site.inlinee).ok_or_else(|| format!("{} has no source line in its module", site.inlinee))?;
        Ok(line_at(inlinee.lines(procedure.symbol.offset, site).collect()?, address))
    }
}

fn procedures(info: &'static ModuleInfo<'static>) -> pdb::Result<Vec<Procedure>> {
    let mut procedures = Vec::new();
    let mut symbols = info.symbols()?;
    while let Some(symbol) = symbols.next()? {
        match symbol.parse() {
            Ok(SymbolData::Procedure(data)) => procedures.push(Procedure { index: symbol.index(), symbol: data }),
            Ok(_) | Err(pdb::Error::UnimplementedSymbolKind(_)) => {}
            // It may be a procedure.
            Err(why) if symbol.starts_scope() => return Err(why),
            Err(_) => {}
        }
    }
    Ok(procedures)
}

/// Where each inlined function of a module begins in its source.
fn inlinees(info: &'static ModuleInfo<'static>) -> pdb::Result<HashMap<IdIndex, Inlinee<'static>>> {
    let mut inlinees = HashMap::new();
    let mut all = info.inlinees()?;
    while let Some(inlinee) = all.next()? {
        inlinees.entry(inlinee.index()).or_insert(inlinee);
    }
    Ok(inlinees)
}

fn inline_site<'t>(symbol: &Symbol<'t>) -> pdb::Result<Option<InlineSiteSymbol<'t>>> {
    if !symbol.starts_scope() {
        return Ok(None);
    }
    match symbol.parse() {
        Ok(SymbolData::InlineSite(site)) => Ok(Some(site)),
        Ok(_) | Err(pdb::Error::UnimplementedSymbolKind(_)) => Ok(None),
        Err(why) => Err(why),
    }
}

/// Goes on after the end of the scope that the last symbol started.
fn pass_over(symbols: &mut SymbolIter<'_>) -> pdb::Result<()> {
    let mut open = 1;
    while open > 0 {
        match symbols.next()? {
            Some(symbol) if symbol.ends_scope() => open -= 1,
            Some(symbol) if symbol.starts_scope() => open += 1,
            Some(_) => {}
            None => break,
        }
    }
    Ok(())
}

/// The line record of an address: of those that reach it, the one that begins nearest, and the last of several there.
///
/// A record without a length ends where the next one begins. Nothing says where the last one ends, if it has none: it
/// reaches nothing.
fn line_at(lines: Vec<LineInfo>, address: PdbInternalSectionOffset) -> Option<LineInfo> {
    let next = lines.iter().skip(1).map(|line| line.offset.offset).map(Some).chain([None]);
    let reaching = lines.iter().zip(next).filter(|(line, next)| {
        let to_next = || next.and_then(|next| next.checked_sub(line.offset.offset));
        matches!(line.length.or_else(to_next), Some(length) if reaches((line.offset, length), address))
    });
    reaching.map(|(line, _)| line).max_by_key(|line| line.offset.offset).cloned()
}

/// A part of the code: where it begins, and its length.
type Extent = (PdbInternalSectionOffset, u32);

trait Extends {
    fn extent(&self) -> Extent;
}

impl Extends for DBISectionContribution {
    fn extent(&self) -> Extent {
        (self.offset, self.size)
    }
}

struct Procedure {
    index: SymbolIndex,
    symbol: ProcedureSymbol<'static>,
}

impl Extends for Procedure {
    fn extent(&self) -> Extent {
        (self.symbol.offset, self.symbol.len)
    }
}

fn reaches((start, length): Extent, address: PdbInternalSectionOffset) -> bool {
    start.section == address.section && matches!(address.offset.checked_sub(start.offset), Some(at) if at < length)
}

fn place_of((start, _): Extent) -> (u16, u32) {
    (start.section, start.offset)
}

/// By where they begin. Of several that begin there, the first comes last.
fn in_order<T: Extends>(mut parts: Vec<T>) -> Vec<T> {
    parts.reverse();
    parts.sort_by_key(|part| place_of(part.extent()));
    parts
}

/// Of parts in order, the one that reaches an address and begins nearest.
fn nearest<T: Extends>(parts: &[T], address: PdbInternalSectionOffset) -> Option<&T> {
    let before = parts.partition_point(|part| place_of(part.extent()) <= (address.section, address.offset));
    parts[..before].iter().rev().find(|part| reaches(part.extent(), address))
}

/// What pdb answers, or why it does not. It panics over some broken files, which is an error here as any other.
fn asked<T, E: fmt::Display>(what: &str, question: impl FnOnce() -> Result<T, E>) -> Result<T, String> {
    match panic::catch_unwind(AssertUnwindSafe(question)) {
        Ok(answer) => answer.map_err(|why| format!("{what}: {why}")),
        Err(panic) => {
            let literal = panic.downcast_ref::<&str>().copied();
            let why = panic.downcast_ref::<String>().map(String::as_str).or(literal);
            Err(format!("{what}: pdb panics: {}", why.unwrap_or("it does not say why")))
        }
    }
}

/// A name, which may be anything, on one line and without commands to a terminal.
fn printable(text: &str) -> String {
    text.chars().map(|c| if c.is_control() { char::REPLACEMENT_CHARACTER } else { c }).collect()
}
