//! The thirteen annotations, by the names that the crate pdb gives them.

/// The index of a file, in the list of files of an inlined function's module.
#[derive(Clone, Copy, Debug, PartialEq, Eq, PartialOrd, Ord, Hash)]
pub struct FileIndex(pub u32);

/// A binary annotation: an instruction of the line program of an inlined function.
///
/// Opcodes are 1 to 13, in this order.
#[derive(Clone, Copy, Debug, PartialEq, Eq, Hash)]
pub enum BinaryAnnotation {
    /// Sets the code offset.
    CodeOffset(u32),
    /// Sets the base to which the code offsets after it are relative.
    ChangeCodeOffsetBase(u32),
    /// Advances the code offset, and emits a line record.
    ChangeCodeOffset(u32),
    /// Sets the code length of the line record before it.
    ChangeCodeLength(u32),
    /// Sets the file of the line records after it.
    ChangeFile(FileIndex),
    /// Advances the line number.
    ChangeLineOffset(i32),
    /// Sets how many lines the line records after it cover. Before it, that is 1.
    ChangeLineEndDelta(u32),
    /// Sets the kind of the line records after it: 0 for an expression, 1 for a statement. Before it, that is 1.
    ChangeRangeKind(u32),
    /// Sets the start column. 0 means none.
    ChangeColumnStart(u32),
    /// Advances the end column.
    ChangeColumnEndDelta(i32),
    /// Advances the code offset and the line number, and emits a line record.
    ChangeCodeOffsetAndLineOffset(u32, i32),
    /// Sets the code length, advances the code offset, and emits a line record of that length.
    ChangeCodeLengthAndCodeOffset(u32, u32),
    /// Sets the end column.
    ChangeColumnEnd(u32),
}

impl BinaryAnnotation {
    /// Returns the annotation with this opcode and these operands, as [`step`](crate::step) and
    /// [`decode`](crate::decode) give them. `None` if the opcode is not 1 to 13, or if an operand has no place in it.
    ///
    /// ```
    /// use trovespan::BinaryAnnotation;
    ///
    /// let annotation = BinaryAnnotation::new(11, 2, -3);
    /// assert_eq!(annotation, Some(BinaryAnnotation::ChangeCodeOffsetAndLineOffset(2, -3)));
    /// assert_eq!(BinaryAnnotation::new(14, 0, 0), None);
    /// ```
    #[must_use]
    #[inline]
    pub fn new(opcode: u32, first: i64, second: i64) -> Option<Self> {
        let unsigned = |operand: i64| u32::try_from(operand).ok();
        let signed = |operand: i64| i32::try_from(operand).ok();
        Some(match opcode {
            1 => Self::CodeOffset(unsigned(first)?),
            2 => Self::ChangeCodeOffsetBase(unsigned(first)?),
            3 => Self::ChangeCodeOffset(unsigned(first)?),
            4 => Self::ChangeCodeLength(unsigned(first)?),
            5 => Self::ChangeFile(FileIndex(unsigned(first)?)),
            6 => Self::ChangeLineOffset(signed(first)?),
            7 => Self::ChangeLineEndDelta(unsigned(first)?),
            8 => Self::ChangeRangeKind(unsigned(first)?),
            9 => Self::ChangeColumnStart(unsigned(first)?),
            10 => Self::ChangeColumnEndDelta(signed(first)?),
            11 => Self::ChangeCodeOffsetAndLineOffset(unsigned(first)?, signed(second)?),
            12 => Self::ChangeCodeLengthAndCodeOffset(unsigned(first)?, unsigned(second)?),
            13 => Self::ChangeColumnEnd(unsigned(first)?),
            _ => return None,
        })
    }

    /// Returns the annotation as [`write_annotations`](crate::write_annotations) takes it: opcode, first operand,
    /// second operand or 0.
    ///
    /// ```
    /// use trovespan::BinaryAnnotation;
    ///
    /// assert_eq!(BinaryAnnotation::ChangeLineOffset(-7).triple(), [6, -7, 0]);
    /// ```
    #[must_use]
    pub fn triple(self) -> [i64; 3] {
        match self {
            Self::CodeOffset(offset) => [1, offset.into(), 0],
            Self::ChangeCodeOffsetBase(base) => [2, base.into(), 0],
            Self::ChangeCodeOffset(offset) => [3, offset.into(), 0],
            Self::ChangeCodeLength(length) => [4, length.into(), 0],
            Self::ChangeFile(FileIndex(file)) => [5, file.into(), 0],
            Self::ChangeLineOffset(lines) => [6, lines.into(), 0],
            Self::ChangeLineEndDelta(lines) => [7, lines.into(), 0],
            Self::ChangeRangeKind(kind) => [8, kind.into(), 0],
            Self::ChangeColumnStart(column) => [9, column.into(), 0],
            Self::ChangeColumnEndDelta(columns) => [10, columns.into(), 0],
            Self::ChangeCodeOffsetAndLineOffset(offset, lines) => [11, offset.into(), lines.into()],
            Self::ChangeCodeLengthAndCodeOffset(length, offset) => [12, length.into(), offset.into()],
            Self::ChangeColumnEnd(column) => [13, column.into(), 0],
        }
    }

    /// Returns whether the annotation emits a line record.
    #[must_use]
    pub const fn emits_line_info(self) -> bool {
        matches!(
            self,
            Self::ChangeCodeOffset(..)
                | Self::ChangeCodeOffsetAndLineOffset(..)
                | Self::ChangeCodeLengthAndCodeOffset(..)
        )
    }
}
