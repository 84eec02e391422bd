//! Random presets, damaged bytes and scripts.

use crate::format::{KINDS, Kind, MOST_WORDS, Preset, put_number};
use crate::judge::{ZERO, minus, word};
use crate::library::{Entry, ScriptCall};
use crate::random::Random;

/// All sizes q, n and k of a preset.
pub fn sizes() -> Vec<(usize, usize, usize)> {
    let mut sizes = Vec::new();
    for q in 2..=8usize {
        for n in 1..=12 {
            for k in 1..=12 {
                if q.checked_pow((n + k - 1) as u32)
                    .is_some_and(|count| count <= MOST_WORDS)
                {
                    sizes.push((q, n, k));
                }
            }
        }
    }
    sizes
}

fn entry(random: &mut Random, kind: Kind) -> Entry {
    let signed = match random.below(4) {
        0 => random.pick(&[0, 1, -1, i64::from(i32::MIN), i64::from(i32::MAX)]),
        1 => i64::from(random.next() as i32),
        _ => random.below(9) as i64 - 4,
    };
    let plain = match kind {
        Kind::Channels => random.below(65536),
        Kind::Cents if random.once_in(2) => random.pick(&[0, 1, 999, 1000, 1199]),
        Kind::Cents => random.below(1200),
        _ => random.below(12),
    } as u64;
    Entry {
        signed: if matches!(kind, Kind::Voices | Kind::Both) {
            signed
        } else {
            0
        },
        plain: if kind == Kind::Voices { 0 } else { plain },
    }
}

/// Entries whose sum over any ring is zero: each is the difference of what a word's first and last letters weigh.
fn telescoping(random: &mut Random, kind: Kind, q: usize, k: usize) -> Vec<Entry> {
    let weights: Vec<Entry> = (0..q.pow(k as u32 - 1))
        .map(|_| {
            let Entry { signed, plain } = entry(random, kind);
            let signed = signed / 4; // so that differences are in range
            Entry { signed, plain }
        })
        .collect();
    (0..q.pow(k as u32))
        .map(|code| minus(kind, weights[code / q], weights[code % q.pow(k as u32 - 1)]))
        .collect()
}

/// A preset of a kind and of some sizes. Some hold: a rule that shifts, a density that telescopes, or one of zeros.
pub fn preset(random: &mut Random, kind: Kind, (q, n, k): (usize, usize, usize)) -> Preset {
    let l = random.below(n);
    let from = random.below(n);
    let shifts = random.once_in(3);
    let letters = (0..q.pow(n as u32))
        .map(|code| match shifts {
            true => word(q, n, code)[from],
            false => random.below(q) as u8,
        })
        .collect();
    let entries = match random.below(4) {
        0 => telescoping(random, kind, q, k),
        1 if random.once_in(3) => vec![ZERO; q.pow(k as u32)],
        _ => (0..q.pow(k as u32)).map(|_| entry(random, kind)).collect(),
    };
    Preset {
        kind,
        q,
        n,
        l,
        k,
        letters,
        entries,
    }
}

/// A preset of any kind and sizes.
pub fn any_preset(random: &mut Random) -> Preset {
    let kind = random.pick(&KINDS);
    let sizes = random.pick(&sizes());
    preset(random, kind, sizes)
}

/// Bytes with some dropped, changed or added.
pub fn damaged(random: &mut Random, bytes: &[u8]) -> Vec<u8> {
    let mut bytes = bytes.to_vec();
    for _ in 0..1 + random.below(3) {
        let near = bytes
            .len()
            .min(if random.once_in(2) { 6 } else { usize::MAX });
        let place = random.below(near + 1);
        let byte = match random.below(4) {
            0 => 0x80,
            1 => random.next() as u8 | 0x80,
            2 => random.below(16) as u8,
            _ => random.next() as u8,
        };
        match random.below(6) {
            0 => bytes.truncate(place),
            1 if place < bytes.len() => drop(bytes.remove(place)),
            2 if place < bytes.len() => bytes[place] = byte,
            3 => bytes.insert(place, byte),
            4 => {
                let mut number = Vec::new();
                let limit = u64::from(u32::MAX);
                let value = random.next() >> random.below(64);
                put_number(
                    &mut number,
                    random.pick(&[value, limit, limit + 1, 1 << 35]),
                );
                bytes.splice(place..place, number);
            }
            _ => bytes.push(byte),
        }
    }
    bytes
}

/// The letters of all rings of a script: mostly below q.
pub fn rings(random: &mut Random, q: usize) -> Vec<u8> {
    let count = random.pick(&[0, 1, 5, 12, 12, 40, 40, 5000]);
    let bad = random.once_in(3);
    (0..count)
        .map(|_| match bad && random.once_in(20) {
            true => random.next() as u8,
            false => random.below(q) as u8,
        })
        .collect()
}

/// An open of a length that no ring has, or of letters that may reach past the end, or both.
fn odd_open(random: &mut Random, letters: usize) -> ScriptCall {
    let near = random.below(14);
    let len = random.pick(&[0, 0, near, near, letters, 4096, 4097, 5000, usize::MAX]);
    let last = letters.saturating_sub(len); // where the last open of this length begins
    let at = random.pick(&[0, last, last + 1, letters, letters + 1, usize::MAX - near]);
    ScriptCall {
        call: 1,
        letter: 0,
        at: if random.once_in(9) {
            len.wrapping_neg() // so that the end is 0
        } else {
            at
        },
        len,
    }
}

/// A script on these letters, with calls that are refused and calls that are not allowed.
pub fn script(random: &mut Random, q: usize, letters: usize) -> Vec<ScriptCall> {
    let longest = match random.once_in(100) {
        true => letters,
        false => letters.min(12),
    };
    let count = random.pick(&[0, 1, 2, 10, 40, 60]);
    (0..count)
        .map(|_| {
            if random.once_in(8) {
                return odd_open(random, letters);
            }
            let call = random.pick(&[1, 1, 1, 1, 2, 2, 2, 3, 3, 3, 4, 4, 4, 4, 4, 5, 0, u32::MAX]);
            let len = random.below(longest + 2);
            let at = match call {
                1 if random.once_in(10) => random.below(letters + 2),
                1 => random.below(letters.saturating_sub(len) + 1),
                _ => random.below(longest.min(14) + 2),
            };
            let far = random.once_in(40);
            let end = q + usize::from(random.once_in(5));
            ScriptCall {
                call,
                letter: random.below(end) as u8,
                at: if far {
                    usize::MAX - random.below(9)
                } else {
                    at
                },
                len: if random.once_in(60) { usize::MAX } else { len },
            }
        })
        .collect()
}
