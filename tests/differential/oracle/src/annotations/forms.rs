//! The forms of a number, by document 01's text. Neither library is asked.

/// The lengths of the forms, and the first number that each cannot hold.
const FORMS: [(usize, u32); 3] = [(1, 0x80), (2, 0x4000), (4, 0x2000_0000)];

/// The lengths of the forms that hold a number, the shortest first.
pub fn holding(value: u32) -> impl Iterator<Item = usize> {
    let forms = FORMS.iter().filter(move |form| value < form.1);
    forms.map(|form| form.0)
}

/// Whether no form that holds a number is shorter than the bytes it took.
pub fn is_shortest(value: u32, taken: usize) -> bool {
    holding(value).all(|length| taken <= length)
}

/// A number in its form of that length: a mark, then the number in big-endian order.
pub fn bytes(value: u32, length: usize) -> Vec<u8> {
    let mark: u32 = match length {
        1 => 0,
        2 => 0x8000,
        _ => 0xc000_0000,
    };
    (value | mark).to_be_bytes()[4 - length..].to_vec()
}
