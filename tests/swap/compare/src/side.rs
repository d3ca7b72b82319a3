// Included once for each of the two versions, as whose `pdb` it asks everything.

use pdb::FallibleIterator;
use std::{cell::RefCell, collections::HashMap, io, rc::Rc};

use crate::asked::{caught, digest, read, Failure, Parts, Question, Streams, Told, ERRORS};

type Requests = Rc<RefCell<Vec<String>>>;

/// A source that notes each request, and fails where it is told to.
#[derive(Debug)]
struct Recorder<'f> {
    file: Parts<'f>,
    requests: Requests,
    fails: Option<(usize, Failure)>,
}

#[derive(Debug)]
struct View(Vec<u8>);

impl pdb::SourceView<'_> for View {
    fn as_slice(&self) -> &[u8] {
        &self.0
    }
}

impl<'s> pdb::Source<'s> for Recorder<'s> {
    fn view(&mut self, slices: &[pdb::SourceSlice]) -> io::Result<Box<dyn pdb::SourceView<'s>>> {
        let asked: Vec<_> = slices.iter().map(|slice| (slice.offset, slice.size)).collect();
        let number = self.requests.borrow().len();
        self.requests.borrow_mut().push(format!("{asked:?}"));
        let mut bytes = read(self.file, &asked)?;
        match self.fails {
            Some((at, Failure::Error(kind))) if at == number => return Err(kind.into()),
            Some((at, Failure::Longer)) if at == number => bytes.push(0),
            _ => {}
        }
        Ok(Box::new(View(bytes)))
    }
}

fn error(why: pdb::Error) -> String {
    format!("{why:?}")
}

/// Asks for streams of one file, one after the other, whatever the answers are.
pub fn streams(file: Parts, questions: &[Question], fails: Option<(usize, Failure)>) -> Streams {
    let requests = Requests::default();
    let mut told = Streams::default();
    let source = Recorder { file, requests: requests.clone(), fails };
    match caught(|| pdb::PDB::open(source).map_err(error)) {
        Err(why) => told.answer("open".into(), Err(why)),
        Ok(mut file) => {
            for question in questions {
                let (stream, limit) = *question;
                let bytes = caught(|| file.limited_stream(stream, limit).map_err(error));
                let answer = bytes.map(|bytes| format!("{} bytes, {:x}", bytes.len(), digest(&bytes)));
                told.answer(format!("{stream} {limit:?}"), answer);
                told.views.push(requests.borrow().len().to_string());
            }
        }
    }
    told.requests = requests.borrow().len();
    told.views.extend(requests.take());
    told
}

/// Asks for the annotations in bytes.
pub fn annotations(bytes: &[u8]) -> Vec<String> {
    steps(pdb::annotations_in(bytes).iter())
}

/// The annotations up to the end, also after errors, and what comes after the end.
fn steps(mut annotations: pdb::BinaryAnnotationsIter) -> Vec<String> {
    let (mut steps, mut errors) = (Vec::new(), 0);
    while errors < ERRORS {
        let step = annotations.next();
        let emits = matches!(step, Ok(Some(annotation)) if annotation.emits_line_info());
        steps.push(format!("{step:?} {emits}"));
        match step {
            Ok(Some(_)) => {}
            Ok(None) => break,
            Err(_) => errors += 1,
        }
    }
    steps.push(format!("{:?}", annotations.next()));
    steps
}

/// Asks for all that a file has beside its types.
pub fn contents(file: &[u8]) -> Told {
    let mut told = Told::default();
    let mut pdb = match pdb::PDB::open(io::Cursor::new(file)) {
        Ok(pdb) => pdb,
        Err(why) => {
            told.say("errors", error(why));
            return told;
        }
    };
    part(&mut told, |told| frames(&mut pdb, told));
    part(&mut told, |told| addresses(&mut pdb, told));
    part(&mut told, |told| globals(&mut pdb, told));
    part(&mut told, |told| modules(&mut pdb, told));
    told
}

/// Asks for a part. An error or a panic ends that part and no other.
fn part(told: &mut Told, ask: impl FnOnce(&mut Told) -> pdb::Result<()>) {
    if let Err(why) = caught(|| ask(&mut *told).map_err(error)) {
        told.say("errors", why);
    }
}

type File<'f> = pdb::PDB<'f, io::Cursor<&'f [u8]>>;

fn frames(pdb: &mut File, told: &mut Told) -> pdb::Result<()> {
    let table = pdb.frame_table()?;
    let mut frames = table.iter();
    while let Some(frame) = frames.next()? {
        told.say("frames", format!("{frame:?}"));
    }
    Ok(())
}

fn addresses(pdb: &mut File, told: &mut Told) -> pdb::Result<()> {
    let map = pdb.address_map()?;
    let address = pdb::PdbInternalSectionOffset::new(1, 0x10);
    told.say("address-maps", format!("{:?} {map:?}", address.to_rva(&map)));
    Ok(())
}

fn globals(pdb: &mut File, told: &mut Told) -> pdb::Result<()> {
    let table = pdb.global_symbols()?;
    let mut symbols = table.iter();
    while let Some(symbol) = symbols.next()? {
        told.say("global-symbols", format!("{:?} {:?}", symbol.index(), symbol.parse().map_err(error)));
    }
    Ok(())
}

fn modules(pdb: &mut File, told: &mut Told) -> pdb::Result<()> {
    let strings = pdb.string_table();
    told.say("string-tables", format!("{:?}", strings.as_ref().map(|_| ())));
    let strings = strings.ok();
    let information = pdb.debug_information()?;
    let mut contributions = information.section_contributions()?;
    while let Some(contribution) = contributions.next()? {
        told.say("contributions", format!("{contribution:?}"));
    }
    let mut modules = information.modules()?;
    while let Some(module) = modules.next()? {
        told.say("modules", format!("{} {}", module.module_name(), module.object_file_name()));
        part(told, |told| match pdb.module_info(&module)? {
            Some(info) => {
                part(told, |told| lines(&info, strings.as_ref(), told));
                symbols(&info, told)
            }
            None => Ok(()),
        });
    }
    Ok(())
}

fn lines(info: &pdb::ModuleInfo, strings: Option<&pdb::StringTable>, told: &mut Told) -> pdb::Result<()> {
    let program = info.line_program()?;
    let mut lines = program.lines();
    while let Some(line) = lines.next()? {
        told.say("lines", format!("{line:?}"));
    }
    let mut files = program.files();
    while let Some(file) = files.next()? {
        let name = strings.map(|strings| file.name.to_string_lossy(strings).map_err(error));
        told.say("source-files", format!("{file:?} {name:?}"));
    }
    Ok(())
}

fn symbols(info: &pdb::ModuleInfo, told: &mut Told) -> pdb::Result<()> {
    let inlinees: HashMap<_, _> = info.inlinees()?.map(|inlinee| Ok((inlinee.index(), inlinee))).collect()?;
    let mut procedure = pdb::PdbInternalSectionOffset::new(0, 0);
    let mut symbols = info.symbols()?;
    while let Some(symbol) = symbols.next()? {
        let data = symbol.parse();
        match &data {
            Ok(pdb::SymbolData::Procedure(found)) => procedure = found.offset,
            Ok(pdb::SymbolData::InlineSite(site)) => {
                told.say("sites", format!("{:?}", steps(site.annotations.iter())));
                if let Some(inlinee) = inlinees.get(&site.inlinee) {
                    part(told, |told| site_lines(inlinee.lines(procedure, site), told));
                }
            }
            _ => {}
        }
        // The annotations of a site are in this text, as bytes.
        told.say("symbols", format!("{:?} {:?}", symbol.index(), data.map_err(error)));
    }
    Ok(())
}

fn site_lines(mut lines: pdb::InlineeLineIterator, told: &mut Told) -> pdb::Result<()> {
    while let Some(line) = lines.next()? {
        told.say("site-lines", format!("{line:?}"));
    }
    Ok(())
}

/// Reads all streams of a file from the disk, and returns how many bytes these have.
pub fn read_all(file: std::fs::File, streams: u32) -> Result<usize, String> {
    let mut pdb = pdb::PDB::open(file).map_err(error)?;
    let lengths = (0..streams).map(|stream| match pdb.limited_stream(stream, None) {
        Err(pdb::Error::StreamNotFound(_)) => Ok(0), // absent
        bytes => bytes.map(|bytes| bytes.len()).map_err(error),
    });
    lengths.sum()
}
