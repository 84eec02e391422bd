//! The judge by hand, twice: by the recurrences that the proved code goes by, and by the plain formula.

use crate::charges::{Both, Cents, Channels, Charge, Pitch, Voices};
use crate::reading::{counts, read};
use ctest::format::{MOST_WORDS, Refusal};
use ctest::library::{Entry, Header, JudgeAnswer};

const MOST_SHOWN: usize = 23;

/// How the crossings are filled and the words searched.
#[derive(Clone, Copy)]
pub enum Way {
    Recurrences,
    Formula,
}

/// A rule and a density by their tables, and the powers of q that part the words of their label.
pub struct Bench<'a, C> {
    pub q: usize,
    pub n: usize,
    pub l: usize,
    pub k: usize,
    letters: &'a [u8],
    charges: &'a [C],
    heads: usize,
    windows: usize,
    kept: usize,
    after: usize,
    weighed: usize,
}

/// The first item that is bad, as a refusal by its index.
fn check_each<T>(items: &[T], stop: u32, bad: impl Fn(&T) -> bool) -> Result<(), Refusal> {
    match items.iter().position(bad) {
        Some(i) => Err((stop, i)),
        None => Ok(()),
    }
}

impl<'a, C: Charge> Bench<'a, C> {
    pub fn new(
        header: Header,
        letters: &'a [u8],
        charges: &'a [C],
    ) -> Result<Bench<'a, C>, Refusal> {
        let Header { q, n, l, k, .. } = header;
        check_each(letters, 14, |letter| u64::from(*letter) >= q)?;
        check_each(charges, 15, |charge| !charge.is_entry())?;
        let [q, n, l, k] = [q, n, l, k].map(|size| size as usize);
        let power = |len: usize| q.pow(len as u32);
        Ok(Bench {
            q,
            n,
            l,
            k,
            letters,
            charges,
            heads: power(n + k - 2),
            windows: power(n),
            kept: power(k - 1),
            after: power(n - 1 - l),
            weighed: power(k),
        })
    }

    pub fn m(&self) -> usize {
        self.n + self.k - 1
    }

    pub fn answer(&self, code: usize) -> u8 {
        self.letters.get(code).copied().unwrap_or(0)
    }

    pub fn charge(&self, code: usize) -> C {
        self.charges.get(code).copied().unwrap_or(C::ZERO)
    }

    /// The next letters of a word, from the last on.
    #[cold]
    fn next_word(&self, code: usize) -> usize {
        let (mut front, mut place, mut next) = (code, 1, 0);
        for _ in 0..self.k {
            next += self.answer(front % self.windows) as usize * place;
            place *= self.q;
            front /= self.q;
        }
        next
    }

    /// The label of a word whose next letters are known.
    fn label_by(&self, next: usize, code: usize) -> C {
        let now = self.charge(code / self.after % self.weighed);
        self.charge(next).minus(now)
    }

    /// The label of a word, of which the next letters stand in a table of the first words or are asked for.
    fn label(&self, nexts: &[u16], code: usize) -> C {
        let next = match nexts.get(code) {
            Some(next) => *next as usize,
            None => self.next_word(code),
        };
        self.label_by(next, code)
    }

    /// The crossing of the word of m - 1 letters with a code, by the labels of its fronts.
    pub fn crossing(&self, nexts: &[u16], code: usize) -> C {
        let (mut front, mut sum) = (code, C::ZERO);
        for _ in 0..self.m() - 1 {
            sum = sum.plus(self.label(nexts, front));
            front /= self.q;
        }
        sum.opposite()
    }

    /// How many words the label has.
    pub fn count(&self) -> usize {
        self.heads * self.q
    }

    pub fn write_next_words(&self, nexts: &mut [u16]) {
        nexts[0] = self.next_word(0) as u16;
        for head in 0..self.heads {
            let first = head * self.q;
            let kept = nexts[head] as usize % self.kept * self.q;
            let place = first % self.windows;
            for last in 0..self.q {
                nexts[first + last] = (kept + self.answer(place + last) as usize) as u16;
            }
        }
    }

    /// Fills the crossings and finds the first word that fails.
    fn search(&self, crossings: &mut [C]) -> Option<usize> {
        let mut strip = [0u16; MOST_WORDS];
        let nexts = &mut strip[..self.count()];
        self.write_next_words(nexts);
        let label = |code: usize| self.label_by(nexts[code] as usize, code);
        let zeros = label(0);
        crossings[0] = self.crossing(nexts, 0);
        for v in 1..self.heads {
            crossings[v] = crossings[v / self.q].plus(zeros.minus(label(v)));
        }
        for head in 0..self.heads {
            for last in 0..self.q {
                let code = head * self.q + last;
                let crosses = crossings[head].minus(crossings[code % self.heads]);
                if !label(code).same(crosses) {
                    return Some(code);
                }
            }
        }
        None
    }

    fn ring_code(&self, ring: &[u8], start: usize, width: usize) -> usize {
        (start..start + width).fold(0, |code, i| code * self.q + ring[i % ring.len()] as usize)
    }

    fn total(&self, ring: &[u8]) -> C {
        (0..ring.len()).fold(C::ZERO, |sum, i| {
            sum.plus(self.charge(self.ring_code(ring, i, self.k)))
        })
    }

    fn label_total(&self, ring: &[u8]) -> C {
        (0..ring.len()).fold(C::ZERO, |sum, i| {
            sum.plus(self.label(&[], self.ring_code(ring, i, self.m())))
        })
    }

    fn broken(&self, word: usize, strip: &mut [u8]) -> JudgeAnswer {
        let m = self.m();
        let mut cells = [0u8; MOST_SHOWN];
        let mut rest = word;
        for cell in cells[..m].iter_mut().rev() {
            *cell = (rest % self.q) as u8;
            rest /= self.q;
        }
        let ring = &cells[..2 * m - 1];
        let ring = if self.label_total(ring).same(C::ZERO) {
            &ring[1..]
        } else {
            ring
        };
        strip[..ring.len()].copy_from_slice(ring);
        let mut next = [0u8; MOST_SHOWN];
        for (i, cell) in next[..ring.len()].iter_mut().enumerate() {
            let before = self.l % ring.len();
            *cell = self.answer(self.ring_code(ring, i + ring.len() - before, self.n));
        }
        JudgeAnswer {
            breaks: true,
            word,
            len: ring.len(),
            before: self.total(ring).to_entry(),
            after: self.total(&next[..ring.len()]).to_entry(),
            ..JudgeAnswer::default()
        }
    }

    fn judge(
        &self,
        way: Way,
        work: &mut [C],
        crossings: &mut [Entry],
        ring: &mut [u8],
    ) -> Result<JudgeAnswer, Refusal> {
        if crossings.len() < self.heads || ring.len() < 2 * self.m() - 1 {
            return Err((12, 0));
        }
        let work = &mut work[..self.heads];
        let found = match way {
            Way::Recurrences => self.search(work),
            Way::Formula => self.search_by_formula(work),
        };
        for (entry, charge) in crossings.iter_mut().zip(work.iter()) {
            *entry = charge.to_entry();
        }
        Ok(found.map_or_else(JudgeAnswer::default, |word| self.broken(word, ring)))
    }

    /// Each crossing by the labels of its fronts, each letter of each label asked anew, each power counted anew.
    fn search_by_formula(&self, crossings: &mut [C]) -> Option<usize> {
        let power = |len: usize| self.q.pow(len as u32);
        let label = |code: usize| {
            let next = (0..self.k).fold(0, |next, j| {
                let window = code / power(self.k - 1 - j) % power(self.n);
                next * self.q + self.answer(window) as usize
            });
            let now = self.charge(code / power(self.n - 1 - self.l) % power(self.k));
            self.charge(next).minus(now)
        };
        for v in 0..self.heads {
            let fronts = (0..self.m() - 1).map(|j| label(v / power(self.m() - 2 - j)));
            crossings[v] = fronts.fold(C::ZERO, Charge::plus).opposite();
        }
        (0..self.count()).find(|&code| {
            let crosses = crossings[code / self.q].minus(crossings[code % self.heads]);
            !label(code).same(crosses)
        })
    }
}

/// The charges of some entries, at the front of a strip.
pub fn fill_charges<C: Charge>(entries: &[Entry], charges: &mut [C]) -> Result<(), Refusal> {
    check_each(entries, 15, |entry| C::from_entry(*entry).is_none())?;
    for (charge, entry) in charges.iter_mut().zip(entries) {
        *charge = C::from_entry(*entry).unwrap_or(C::ZERO);
    }
    Ok(())
}

fn judge_kind<C: Charge>(
    way: Way,
    header: Header,
    letters: &[u8],
    entries: &[Entry],
    crossings: &mut [Entry],
    ring: &mut [u8],
) -> Result<JudgeAnswer, Refusal> {
    let mut charges = [C::ZERO; MOST_WORDS];
    let mut work = [C::ZERO; MOST_WORDS];
    fill_charges(entries, &mut charges)?;
    let bench = Bench::new(header, letters, &charges[..entries.len()])?;
    bench.judge(way, &mut work, crossings, ring)
}

fn judge_bytes(
    way: Way,
    bytes: &[u8],
    crossings: &mut [Entry],
    ring: &mut [u8],
) -> Result<JudgeAnswer, Refusal> {
    let mut letters = [0u8; MOST_WORDS];
    let mut entries = [Entry::default(); MOST_WORDS];
    let header = read(bytes, &mut letters, &mut entries)?;
    let (letter_count, entry_count) = counts(header);
    let letters = &letters[..letter_count];
    let entries = &entries[..entry_count];
    match header.kind {
        0 => judge_kind::<Voices>(way, header, letters, entries, crossings, ring),
        1 => judge_kind::<Pitch>(way, header, letters, entries, crossings, ring),
        2 => judge_kind::<Channels>(way, header, letters, entries, crossings, ring),
        3 => judge_kind::<Both>(way, header, letters, entries, crossings, ring),
        _ => judge_kind::<Cents>(way, header, letters, entries, crossings, ring),
    }
}

/// A refusal as an answer.
fn refused((code, place): Refusal) -> JudgeAnswer {
    JudgeAnswer {
        code,
        place,
        ..JudgeAnswer::default()
    }
}

/// Judges the preset that the bytes are.
pub fn judge(way: Way, bytes: &[u8], crossings: &mut [Entry], ring: &mut [u8]) -> JudgeAnswer {
    judge_bytes(way, bytes, crossings, ring).unwrap_or_else(refused)
}
