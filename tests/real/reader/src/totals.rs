//! The totals over all files.

#[derive(Default)]
pub struct Totals {
    pub files: usize,
    pub streams: usize,
    pub empty: usize,
    pub absent: usize,
    pub slices: usize,
    pub pages: usize,
    pub bytes: usize,
    pub modules: usize,
    pub sites: usize,
    /// The number of annotations with each opcode.
    pub opcodes: [usize; 14],
    /// The number of annotations whose numbers all have their shortest form, and of the others.
    pub shortest: usize,
    pub longer: usize,
    /// The number of opcodes and operands of each width in bytes.
    pub widths: [usize; 5],
}

impl Totals {
    pub fn text(&self) -> String {
        let mut lines = vec![
            ("files".to_string(), self.files),
            ("streams".to_string(), self.streams),
            ("empty".to_string(), self.empty),
            ("absent".to_string(), self.absent),
            ("slices".to_string(), self.slices),
            ("pages".to_string(), self.pages),
            ("bytes".to_string(), self.bytes),
            ("modules".to_string(), self.modules),
            ("sites".to_string(), self.sites),
            ("annotations".to_string(), self.opcodes.iter().sum()),
            ("shortest".to_string(), self.shortest),
            ("longer".to_string(), self.longer),
        ];
        lines.extend((1..14).map(|opcode| (format!("opcode-{opcode}"), self.opcodes[opcode])));
        lines.extend([1, 2, 4].map(|width| (format!("{width}-byte"), self.widths[width])));
        lines.iter().map(|(name, count)| format!("{name} {count}\n")).collect()
    }
}
