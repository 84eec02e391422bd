//! Presets read by hand: once to test them, and once more to write the strips.

use ctest::format::{MOST_WORDS, Refusal};
use ctest::library::{Entry, Header};

struct Reader<'a> {
    bytes: &'a [u8],
    place: usize,
}

impl Reader<'_> {
    fn number(&mut self) -> Result<u64, Refusal> {
        let place = self.place;
        let Some(&first) = self.bytes.get(place) else {
            return Err((1, place));
        };
        if first == 0x80 {
            return Err((2, place));
        }
        let mut value = 0u64;
        for (count, &byte) in self.bytes[place..].iter().enumerate() {
            if count == 4 && byte >= 0x80 {
                return Err((2, place));
            }
            value = value * 128 + u64::from(byte % 128);
            if byte < 0x80 {
                self.place = place + count + 1;
                return if value <= u64::from(u32::MAX) {
                    Ok(value)
                } else {
                    Err((2, place))
                };
            }
        }
        Err((1, place))
    }

    fn field(&mut self, low: u64, end: u64, code: u32) -> Result<u64, Refusal> {
        let place = self.place;
        let value = self.number()?;
        if low <= value && value < end {
            Ok(value)
        } else {
            Err((code, place))
        }
    }

    fn entry(&mut self, kind: u64) -> Result<Entry, Refusal> {
        let mut entry = Entry::default();
        if kind == 0 || kind == 3 {
            let sent = self.number()?;
            let half = (sent / 2) as i64;
            entry.signed = if sent % 2 == 0 { half } else { -1 - half };
        }
        if kind != 0 {
            let end = match kind {
                2 => 65536,
                4 => 1200,
                _ => 12,
            };
            entry.plain = self.field(0, end, 15)?;
        }
        Ok(entry)
    }

    fn header(&mut self) -> Result<Header, Refusal> {
        let kind = self.field(0, 5, 3)?;
        let q = self.field(2, 9, 4)?;
        let n = self.field(1, 13, 5)?;
        let l = self.field(0, n, 6)?;
        let place = self.place;
        let k = self.field(1, 13, 7)?;
        let words = q.checked_pow((n + k - 1) as u32);
        if words.is_none_or(|count| count > MOST_WORDS as u64) {
            return Err((9, place));
        }
        Ok(Header { kind, q, n, l, k })
    }
}

/// How many letters and entries a preset has.
pub fn counts(header: Header) -> (usize, usize) {
    let Header { q, n, k, .. } = header;
    (q.pow(n as u32) as usize, q.pow(k as u32) as usize)
}

/// Reads a whole preset into the fronts of two strips. A refusal writes nothing.
pub fn read(bytes: &[u8], letters: &mut [u8], entries: &mut [Entry]) -> Result<Header, Refusal> {
    if letters.len() < MOST_WORDS || entries.len() < MOST_WORDS {
        return Err((12, 0));
    }
    let mut reader = Reader { bytes, place: 0 };
    let header = reader.header()?;
    let (letter_count, entry_count) = counts(header);
    let first = reader.place;
    for _ in 0..letter_count {
        reader.field(0, header.q, 14)?;
    }
    for _ in 0..entry_count {
        reader.entry(header.kind)?;
    }
    if reader.place < bytes.len() {
        return Err((10, reader.place));
    }
    reader.place = first;
    for letter in &mut letters[..letter_count] {
        *letter = reader.field(0, header.q, 14)? as u8;
    }
    for entry in &mut entries[..entry_count] {
        *entry = reader.entry(header.kind)?;
    }
    Ok(header)
}
