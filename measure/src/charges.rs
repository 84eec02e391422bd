//! Charges by hand, one type a kind, as generic code takes them.

use ctest::library::Entry;

pub trait Charge: Copy {
    const ZERO: Self;

    fn plus(self, other: Self) -> Self;
    fn opposite(self) -> Self;
    fn same(self, other: Self) -> bool;
    fn is_entry(self) -> bool;
    fn from_entry(entry: Entry) -> Option<Self>;
    fn to_entry(self) -> Entry;

    fn minus(self, other: Self) -> Self {
        self.plus(other.opposite())
    }
}

fn in_range(count: i64) -> bool {
    (i64::from(i32::MIN)..=i64::from(i32::MAX)).contains(&count)
}

#[derive(Clone, Copy)]
pub struct Voices(i64);

#[derive(Clone, Copy)]
pub struct Pitch(u8);

#[derive(Clone, Copy)]
pub struct Channels(u16);

#[derive(Clone, Copy)]
pub struct Both(Voices, Pitch);

/// Four decimal digits of four bits each, the thousands highest, of a number below 1,200.
#[derive(Clone, Copy)]
pub struct Cents(u16);

impl Charge for Voices {
    const ZERO: Voices = Voices(0);

    fn plus(self, other: Voices) -> Voices {
        Voices(self.0.wrapping_add(other.0))
    }

    fn opposite(self) -> Voices {
        Voices(self.0.wrapping_neg())
    }

    fn same(self, other: Voices) -> bool {
        self.0 == other.0
    }

    fn is_entry(self) -> bool {
        in_range(self.0)
    }

    fn from_entry(entry: Entry) -> Option<Voices> {
        (in_range(entry.signed) && entry.plain == 0).then_some(Voices(entry.signed))
    }

    fn to_entry(self) -> Entry {
        Entry {
            signed: self.0,
            plain: 0,
        }
    }
}

impl Charge for Pitch {
    const ZERO: Pitch = Pitch(0);

    fn plus(self, other: Pitch) -> Pitch {
        let sum = self.0 + other.0;
        Pitch(if sum < 12 { sum } else { sum - 12 })
    }

    fn opposite(self) -> Pitch {
        Pitch(if self.0 == 0 { 0 } else { 12 - self.0 })
    }

    fn same(self, other: Pitch) -> bool {
        self.0 == other.0
    }

    fn is_entry(self) -> bool {
        true
    }

    fn from_entry(entry: Entry) -> Option<Pitch> {
        (entry.signed == 0 && entry.plain < 12).then_some(Pitch(entry.plain as u8))
    }

    fn to_entry(self) -> Entry {
        Entry {
            signed: 0,
            plain: u64::from(self.0),
        }
    }
}

impl Charge for Channels {
    const ZERO: Channels = Channels(0);

    fn plus(self, other: Channels) -> Channels {
        Channels(self.0 ^ other.0)
    }

    fn opposite(self) -> Channels {
        self
    }

    fn same(self, other: Channels) -> bool {
        self.0 == other.0
    }

    fn is_entry(self) -> bool {
        true
    }

    fn from_entry(entry: Entry) -> Option<Channels> {
        (entry.signed == 0 && entry.plain < 65536).then_some(Channels(entry.plain as u16))
    }

    fn to_entry(self) -> Entry {
        Entry {
            signed: 0,
            plain: u64::from(self.0),
        }
    }
}

impl Charge for Both {
    const ZERO: Both = Both(Voices::ZERO, Pitch::ZERO);

    fn plus(self, other: Both) -> Both {
        Both(self.0.plus(other.0), self.1.plus(other.1))
    }

    fn opposite(self) -> Both {
        Both(self.0.opposite(), self.1.opposite())
    }

    fn same(self, other: Both) -> bool {
        self.0.same(other.0) && self.1.same(other.1)
    }

    fn is_entry(self) -> bool {
        self.0.is_entry()
    }

    fn from_entry(entry: Entry) -> Option<Both> {
        (in_range(entry.signed) && entry.plain < 12)
            .then_some(Both(Voices(entry.signed), Pitch(entry.plain as u8)))
    }

    fn to_entry(self) -> Entry {
        Entry {
            signed: self.0.0,
            plain: u64::from(self.1.0),
        }
    }
}

/// The first number past the cents, in digits.
const OCTAVE_DIGITS: u16 = 0x1200;

/// Sixes are added, so that a digit above nine carries, and taken back where none did. The thousands do not carry.
fn digits_plus(a: u16, b: u16) -> u16 {
    let sixes = a + 0x0666;
    let sum = sixes + b;
    let stays = !(sixes ^ b ^ sum) & 0x1110;
    sum - ((stays >> 2) | (stays >> 3))
}

/// A digit that borrows goes round by sixteen and not by ten, so six more are taken. The second is not the greater.
fn digits_minus(a: u16, b: u16) -> u16 {
    let rest = a - b;
    let borrows = (a ^ b ^ rest) & 0x1110;
    rest - ((borrows >> 2) | (borrows >> 3))
}

fn to_digits(value: u16) -> u16 {
    let digit = |unit: u16| value / unit % 10;
    (digit(1000) << 12) | (digit(100) << 8) | (digit(10) << 4) | digit(1)
}

fn to_value(digits: u16) -> u16 {
    let digit = |place: u16| (digits >> place) & 0xf;
    digit(12) * 1000 + digit(8) * 100 + digit(4) * 10 + digit(0)
}

impl Charge for Cents {
    const ZERO: Cents = Cents(0);

    fn plus(self, other: Cents) -> Cents {
        let sum = digits_plus(self.0, other.0);
        Cents(if sum < OCTAVE_DIGITS {
            sum
        } else {
            digits_minus(sum, OCTAVE_DIGITS)
        })
    }

    fn opposite(self) -> Cents {
        Cents(if self.0 == 0 {
            0
        } else {
            digits_minus(OCTAVE_DIGITS, self.0)
        })
    }

    fn same(self, other: Cents) -> bool {
        self.0 == other.0
    }

    fn is_entry(self) -> bool {
        true
    }

    fn from_entry(entry: Entry) -> Option<Cents> {
        (entry.signed == 0 && entry.plain < 1200).then(|| Cents(to_digits(entry.plain as u16)))
    }

    fn to_entry(self) -> Entry {
        Entry {
            signed: 0,
            plain: u64::from(to_value(self.0)),
        }
    }
}
