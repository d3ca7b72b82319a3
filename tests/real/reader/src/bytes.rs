//! Little-endian numbers and parts of bytes that may be too short.

pub fn part(bytes: &[u8], at: usize, size: usize) -> Result<&[u8], String> {
    let end = at.checked_add(size).ok_or("a size that overflows")?;
    bytes.get(at..end).ok_or_else(|| format!("{size} bytes at {at}, of only {}", bytes.len()))
}

pub fn word(bytes: &[u8], at: usize) -> Result<u32, String> {
    Ok(u32::from_le_bytes(part(bytes, at, 4)?.try_into().unwrap()))
}

pub fn half(bytes: &[u8], at: usize) -> Result<u16, String> {
    Ok(u16::from_le_bytes(part(bytes, at, 2)?.try_into().unwrap()))
}
