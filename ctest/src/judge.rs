//! Charges, rings and the judge, from the criterion, by words.

use crate::format::{Kind, Preset};
use crate::library::Entry;

pub const ZERO: Entry = Entry {
    signed: 0,
    plain: 0,
};

/// A part that a kind lacks is 0, and stays 0.
pub fn plus(kind: Kind, a: Entry, b: Entry) -> Entry {
    Entry {
        signed: a.signed.wrapping_add(b.signed),
        plain: match kind {
            Kind::Channels => a.plain ^ b.plain,
            Kind::Cents => (a.plain + b.plain) % 1200,
            _ => (a.plain + b.plain) % 12,
        },
    }
}

fn opposite(kind: Kind, a: Entry) -> Entry {
    Entry {
        signed: a.signed.wrapping_neg(),
        plain: match kind {
            Kind::Channels => a.plain,
            Kind::Cents => (1200 - a.plain) % 1200,
            _ => (12 - a.plain) % 12,
        },
    }
}

pub fn minus(kind: Kind, a: Entry, b: Entry) -> Entry {
    plus(kind, a, opposite(kind, b))
}

fn sum(kind: Kind, charges: impl Iterator<Item = Entry>) -> Entry {
    charges.fold(ZERO, |a, b| plus(kind, a, b))
}

pub fn code(q: usize, word: &[u8]) -> usize {
    word.iter()
        .fold(0, |code, letter| code * q + usize::from(*letter))
}

pub fn word(q: usize, m: usize, code: usize) -> Vec<u8> {
    let mut letters = vec![0; m];
    let mut rest = code;
    for letter in letters.iter_mut().rev() {
        *letter = (rest % q) as u8;
        rest /= q;
    }
    letters
}

/// The `len` cells of a ring from cell `from` on.
pub fn window(ring: &[u8], from: isize, len: usize) -> Vec<u8> {
    let count = ring.len() as isize;
    (0..len as isize)
        .map(|j| ring[(from + j).rem_euclid(count) as usize])
        .collect()
}

impl Preset {
    fn answer(&self, word: &[u8]) -> u8 {
        self.letters[code(self.q, word)]
    }

    fn density(&self, word: &[u8]) -> Entry {
        self.entries[code(self.q, word)]
    }

    /// The density on the k next letters, less the density on k letters from the l-th on.
    fn label(&self, word: &[u8]) -> Entry {
        let next: Vec<u8> = (0..self.k)
            .map(|j| self.answer(&word[j..j + self.n]))
            .collect();
        minus(
            self.kind,
            self.density(&next),
            self.density(&word[self.l..self.l + self.k]),
        )
    }

    /// What crosses at a word of a letter less than the label's.
    pub fn crossing(&self, v: &[u8]) -> Entry {
        let m = self.m();
        let labels = (0..v.len()).map(|j| {
            let mut padded = vec![0; m - 1 - j];
            padded.extend(&v[..=j]);
            self.label(&padded)
        });
        opposite(self.kind, sum(self.kind, labels))
    }

    pub fn crossings(&self) -> Vec<Entry> {
        let len = self.m() - 1;
        (0..self.q.pow(len as u32))
            .map(|code| self.crossing(&word(self.q, len, code)))
            .collect()
    }

    /// The charge of site i of a ring.
    pub fn site(&self, ring: &[u8], i: usize) -> Entry {
        self.density(&window(ring, i as isize, self.k))
    }

    pub fn total(&self, ring: &[u8]) -> Entry {
        sum(self.kind, (0..ring.len()).map(|i| self.site(ring, i)))
    }

    pub fn next(&self, ring: &[u8]) -> Vec<u8> {
        (0..ring.len())
            .map(|i| self.answer(&window(ring, i as isize - self.l as isize, self.n)))
            .collect()
    }

    fn shown(&self, failing: &[u8]) -> Vec<u8> {
        let mut ring = failing.to_vec();
        ring.resize(2 * self.m() - 1, 0);
        let labels = (0..ring.len()).map(|i| self.label(&window(&ring, i as isize, self.m())));
        if sum(self.kind, labels) == ZERO {
            ring.remove(0);
        }
        ring
    }

    /// The code of the first failing word, and the ring that shows it.
    pub fn break_by(&self, crossings: &[Entry]) -> Option<(usize, Vec<u8>)> {
        let m = self.m();
        (0..self.q.pow(m as u32)).find_map(|index| {
            let w = word(self.q, m, index);
            let first = crossings[code(self.q, &w[..m - 1])];
            let last = crossings[code(self.q, &w[1..])];
            (self.label(&w) != minus(self.kind, first, last)).then(|| (index, self.shown(&w)))
        })
    }
}
