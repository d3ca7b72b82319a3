//! What llvm-pdbutil printed of each inline site, read from the `sites` that `run` keeps of it. The crate has no part in
//! this.

/// A site: where it is in its module's symbols, and its annotations.
pub struct Site {
    pub at: usize,
    pub annotations: Vec<Annotation>,
}

/// An annotation: its opcode, by its bytes, since the words are the same for 1, 2 and 3; and what the words say.
#[derive(Default)]
pub struct Annotation {
    pub opcode: u32,
    /// The code offset and the line so far.
    pub code: Option<u32>,
    pub line: Option<i32>,
    /// The length that it sets.
    pub length: Option<u32>,
    /// The operand of any other.
    pub operand: Option<i64>,
}

pub fn sites(text: &str) -> Result<Vec<Site>, String> {
    let mut sites = Vec::new();
    for line in text.lines() {
        read_line(line, &mut sites).ok_or_else(|| format!("llvm-pdbutil printed `{line}`"))?;
    }
    Ok(sites)
}

fn read_line(line: &str, sites: &mut Vec<Site>) -> Option<()> {
    if let Some((at, _)) = line.split_once(" | S_INLINESITE ") {
        sites.push(Site { at: at.parse().ok()?, annotations: Vec::new() });
    } else if !["Mod ", "Error ", "inlinee "].iter().any(|other| line.starts_with(other)) {
        let annotation = annotation(line)?;
        if annotation.opcode != 0 {
            sites.last_mut()?.annotations.push(annotation);
        }
    }
    Some(())
}

fn annotation(line: &str) -> Option<Annotation> {
    let words: Vec<&str> = line.split_whitespace().collect();
    let (bytes, mut words) = words.split_first()?;
    let mut annotation = Annotation { opcode: opcode(bytes)?, ..Annotation::default() };
    while !words.is_empty() {
        words = annotation.take(words)?;
    }
    annotation.is_whole().then_some(annotation)
}

/// The first of the numbers, whichever of its forms it has.
fn opcode(bytes: &str) -> Option<u32> {
    let forms = ["C00000", "80"].iter().find_map(|&form| bytes.strip_prefix(form));
    hex(forms.unwrap_or(bytes).get(..2)?)
}

fn hex(digits: &str) -> Option<u32> {
    u32::from_str_radix(digits, 16).ok()
}

impl Annotation {
    /// Whether the words are those that its opcode has.
    fn is_whole(&self) -> bool {
        let found = [self.code.is_some(), self.line.is_some(), self.length.is_some(), self.operand.is_some()];
        let wanted = match self.opcode {
            0 => [false; 4],
            1 | 2 | 3 => [true, false, false, false],
            4 => [false, false, true, false],
            6 => [false, true, false, false],
            11 => [true, true, false, false],
            12 => [true, false, true, false],
            _ => [false, false, false, true],
        };
        found == wanted
    }

    /// Takes the first words, and returns the rest. llvm-pdbutil prints `0x1` after every file.
    fn take<'a>(&mut self, words: &'a [&'a str]) -> Option<&'a [&'a str]> {
        match words {
            ["code", "end", _, size, rest @ ..] => {
                self.length = Some(hex(size.strip_prefix("(+0x")?.strip_suffix(')')?)?);
                Some(rest)
            }
            ["code", so_far, _, rest @ ..] => {
                self.code = Some(hex(so_far.strip_prefix("0x")?)?);
                Some(rest)
            }
            ["line", so_far, _, rest @ ..] => {
                self.line = Some(so_far.parse().ok()?);
                Some(rest)
            }
            ["setfile", file, "0x1"] => {
                self.operand = Some(hex(file)?.into());
                Some(&[])
            }
            [_, operand] => {
                self.operand = Some(operand.parse().ok()?);
                Some(&[])
            }
            _ => None,
        }
    }
}
