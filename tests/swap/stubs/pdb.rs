//! Stands in for src/pdb.rs of pdb 0.8.0, which is not at hand: the methods of `PDB` that the tests call, and two
//! functions of our own, by which they reach the container and the annotations themselves.

use crate::common::*;
use crate::dbi::{DBIExtraStreams, DebugInformation, Module};
use crate::framedata::FrameTable;
use crate::modi::ModuleInfo;
use crate::msf::{self, Msf, Stream};
use crate::omap::{AddressMap, OMAPTable};
use crate::pe::ImageSectionHeader;
use crate::source::Source;
use crate::strings::StringTable;
use crate::symbol::{BinaryAnnotations, SymbolTable};

// The streams that have fixed numbers.
const PDB_STREAM: u32 = 1;
const DBI_STREAM: u32 = 3;

/// A PDB file.
#[derive(Debug)]
pub struct PDB<'s, S> {
    msf: Box<dyn Msf<'s, S> + 's>,
}

impl<'s, S: Source<'s> + 's> PDB<'s, S> {
    /// Opens a file.
    pub fn open(source: S) -> Result<Self> {
        Ok(PDB { msf: msf::open_msf(source)? })
    }

    /// Returns the debug information.
    pub fn debug_information(&mut self) -> Result<DebugInformation<'s>> {
        DebugInformation::parse(self.msf.get(DBI_STREAM, None)?)
    }

    /// Returns a module's stream, if it has one.
    pub fn module_info<'m>(&mut self, module: &Module<'m>) -> Result<Option<ModuleInfo<'s>>> {
        Ok(self.indexed(module.info().stream)?.map(|stream| ModuleInfo::parse(stream, module)))
    }

    /// Returns the global symbols.
    pub fn global_symbols(&mut self) -> Result<SymbolTable<'s>> {
        let stream = self.debug_information()?.header().symbol_records_stream;
        Ok(SymbolTable::new(self.indexed(stream)?.ok_or(Error::GlobalSymbolsNotFound)?))
    }

    /// Returns the table of strings, which is the stream that is named `/names`.
    pub fn string_table(&mut self) -> Result<StringTable<'s>> {
        let information = self.msf.get(PDB_STREAM, None)?;
        match named(&information, b"/names\0")? {
            Some(stream) => StringTable::parse(self.msf.get(stream, None)?),
            None => Err(Error::StreamNameNotFound),
        }
    }

    /// Returns the tables by which addresses are mapped.
    pub fn address_map(&mut self) -> Result<AddressMap<'s>> {
        let extra = DBIExtraStreams::new(&self.debug_information()?)?;
        let sections = self.sections(extra.section_headers)?.unwrap_or_default();
        Ok(match self.sections(extra.original_section_headers)? {
            Some(original) => AddressMap {
                original_sections: original,
                transformed_sections: Some(sections),
                transformed_to_original: self.omap(extra.omap_to_src)?,
                original_to_transformed: self.omap(extra.omap_from_src)?,
            },
            None => AddressMap { original_sections: sections, ..Default::default() },
        })
    }

    /// Returns the frame data.
    pub fn frame_table(&mut self) -> Result<FrameTable<'s>> {
        let extra = DBIExtraStreams::new(&self.debug_information()?)?;
        FrameTable::parse(self.indexed(extra.fpo)?, self.indexed(extra.framedata)?)
    }

    /// Ours: a stream, or its first bytes.
    pub fn limited_stream(&mut self, stream: u32, limit: Option<usize>) -> Result<Vec<u8>> {
        Ok(self.msf.get(stream, limit)?.as_slice().to_vec())
    }

    fn indexed(&mut self, stream: StreamIndex) -> Result<Option<Stream<'s>>> {
        stream.msf_number().map(|number| self.msf.get(number, None)).transpose()
    }

    fn omap(&mut self, stream: StreamIndex) -> Result<Option<OMAPTable<'s>>> {
        self.indexed(stream)?.map(OMAPTable::parse).transpose()
    }

    fn sections(&mut self, stream: StreamIndex) -> Result<Option<Vec<ImageSectionHeader>>> {
        let stream = match self.indexed(stream)? {
            Some(stream) => stream,
            None => return Ok(None),
        };
        let mut buf = stream.parse_buffer();
        let mut sections = Vec::new();
        while !buf.is_empty() {
            sections.push(ImageSectionHeader::parse(&mut buf)?);
        }
        Ok(Some(sections))
    }
}

/// Ours: annotations in any bytes.
pub fn annotations_in(bytes: &[u8]) -> BinaryAnnotations<'_> {
    BinaryAnnotations::new(bytes)
}

/// The number of the stream with this name, by the table of names of stream 1: the names, then a hash table of places in
/// these and stream numbers.
fn named(information: &[u8], wanted: &[u8]) -> Result<Option<u32>> {
    let mut buf = ParseBuffer::from(information);
    buf.take(28)?; // version, signature, age, GUID
    let length = buf.parse_u32()? as usize;
    let names = buf.take(length)?;
    let entries = buf.parse_u32()?;
    buf.parse_u32()?; // the capacity of the hash table
    for _ in 0..2 {
        // the entries that are there, and those that were deleted
        let words = buf.parse_u32()? as usize;
        buf.take(words * 4)?;
    }
    for _ in 0..entries {
        let (name, stream) = (buf.parse_u32()? as usize, buf.parse_u32()?);
        if names.get(name..).map_or(false, |name| name.starts_with(wanted)) {
            return Ok(Some(stream));
        }
    }
    Ok(None)
}
