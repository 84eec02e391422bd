//! The byte format of presets, read and written from its definition.

use crate::library::{Entry, Header};

/// A stop code and a place.
pub type Refusal = (u32, usize);

#[derive(Clone, Copy, Debug, PartialEq, Eq)]
pub enum Kind {
    Voices,
    Pitch,
    Channels,
    Both,
    Cents,
}

pub const KINDS: [Kind; 5] = [
    Kind::Voices,
    Kind::Pitch,
    Kind::Channels,
    Kind::Both,
    Kind::Cents,
];

/// The limit on the words of a label.
pub const MOST_WORDS: usize = 4096;

#[derive(Clone, Debug)]
pub struct Preset {
    pub kind: Kind,
    pub q: usize,
    pub n: usize,
    pub l: usize,
    pub k: usize,
    pub letters: Vec<u8>,
    pub entries: Vec<Entry>,
}

impl Preset {
    /// How many letters the words of the label have.
    pub fn m(&self) -> usize {
        self.n + self.k - 1
    }

    pub fn header(&self) -> Header {
        Header {
            kind: self.kind as u64,
            q: self.q as u64,
            n: self.n as u64,
            l: self.l as u64,
            k: self.k as u64,
        }
    }
}

/// Adds the groups of seven bits of a number, the most significant group first.
pub fn put_number(bytes: &mut Vec<u8>, value: u64) {
    let mut groups = vec![(value & 0x7f) as u8];
    let mut rest = value >> 7;
    while rest > 0 {
        groups.push((rest & 0x7f) as u8 | 0x80);
        rest >>= 7;
    }
    bytes.extend(groups.iter().rev());
}

fn put_signed(bytes: &mut Vec<u8>, value: i64) {
    let sent = if value >= 0 {
        2 * value
    } else {
        -2 * value - 1
    };
    put_number(bytes, sent as u64);
}

pub fn preset_bytes(preset: &Preset) -> Vec<u8> {
    let mut bytes = Vec::new();
    let sizes = [preset.q, preset.n, preset.l, preset.k];
    put_number(&mut bytes, preset.kind as u64);
    for size in sizes {
        put_number(&mut bytes, size as u64);
    }
    for letter in &preset.letters {
        put_number(&mut bytes, u64::from(*letter));
    }
    for entry in &preset.entries {
        if matches!(preset.kind, Kind::Voices | Kind::Both) {
            put_signed(&mut bytes, entry.signed);
        }
        if preset.kind != Kind::Voices {
            put_number(&mut bytes, entry.plain);
        }
    }
    bytes
}

struct Reader<'a> {
    bytes: &'a [u8],
    place: usize,
}

impl Reader<'_> {
    fn number(&mut self) -> Result<u64, Refusal> {
        let first = self.place;
        let mut value = 0u64;
        for count in 0.. {
            let byte = *self.bytes.get(first + count).ok_or((1, first))?;
            let more = byte & 0x80 != 0;
            if (count == 0 && byte == 0x80) || (count == 4 && more) {
                return Err((2, first));
            }
            value = value << 7 | u64::from(byte & 0x7f);
            if !more {
                self.place = first + count + 1;
                break;
            }
        }
        if value > u64::from(u32::MAX) {
            return Err((2, first));
        }
        Ok(value)
    }

    /// A number from `low` to `high`; another is refused by a code.
    fn field(&mut self, low: u64, high: u64, code: u32) -> Result<u64, Refusal> {
        let place = self.place;
        let value = self.number()?;
        if (low..=high).contains(&value) {
            Ok(value)
        } else {
            Err((code, place))
        }
    }

    fn entry(&mut self, kind: Kind) -> Result<Entry, Refusal> {
        let mut entry = Entry::default();
        if matches!(kind, Kind::Voices | Kind::Both) {
            let sent = self.number()? as i64;
            entry.signed = if sent % 2 == 0 {
                sent / 2
            } else {
                -(sent / 2) - 1
            };
        }
        entry.plain = match kind {
            Kind::Voices => 0,
            Kind::Channels => self.field(0, 65535, 15)?,
            Kind::Pitch | Kind::Both => self.field(0, 11, 15)?,
            Kind::Cents => self.field(0, 1199, 15)?,
        };
        Ok(entry)
    }
}

/// The preset that all the bytes are.
pub fn read_preset(bytes: &[u8]) -> Result<Preset, Refusal> {
    let mut reader = Reader { bytes, place: 0 };
    let kind = KINDS[reader.field(0, 4, 3)? as usize];
    let q = reader.field(2, 8, 4)? as usize;
    let n = reader.field(1, 12, 5)? as usize;
    let l = reader.field(0, n as u64 - 1, 6)? as usize;
    let width_place = reader.place;
    let k = reader.field(1, 12, 7)? as usize;
    let words = q.checked_pow((n + k - 1) as u32); // none where it is far too large
    if words.is_none_or(|count| count > MOST_WORDS) {
        return Err((9, width_place));
    }
    let mut letters = Vec::new();
    for _ in 0..q.pow(n as u32) {
        letters.push(reader.field(0, q as u64 - 1, 14)? as u8);
    }
    let mut entries = Vec::new();
    for _ in 0..q.pow(k as u32) {
        entries.push(reader.entry(kind)?);
    }
    if reader.place < bytes.len() {
        return Err((10, reader.place));
    }
    Ok(Preset {
        kind,
        q,
        n,
        l,
        k,
        letters,
        entries,
    })
}
