//! The player, from its definition: a ring with a charge a site, and the caller's cells.

use crate::format::{Preset, Refusal};
use crate::judge::{ZERO, minus, plus, window};
use crate::library::{Entry, ScriptAnswer, ScriptCall};

const MOST_CELLS: usize = 4096;

pub struct Player<'a> {
    preset: &'a Preset,
    rings: &'a [u8],
    /// The caller's cells, the open ring at their front.
    pub cells: Vec<u8>,
    len: usize,
    opening: Vec<Entry>,
    crossed: Vec<Entry>,
    touched: Vec<Entry>,
}

fn done() -> ScriptAnswer {
    ScriptAnswer {
        answer: 1,
        ..Default::default()
    }
}

fn refused((code, place): Refusal) -> ScriptAnswer {
    ScriptAnswer {
        answer: 3,
        code,
        place,
        ..Default::default()
    }
}

impl<'a> Player<'a> {
    pub fn new(preset: &'a Preset, rings: &'a [u8], cells: &[u8]) -> Player<'a> {
        Player {
            preset,
            rings,
            cells: cells.to_vec(),
            len: 0,
            opening: Vec::new(),
            crossed: Vec::new(),
            touched: Vec::new(),
        }
    }

    fn charges(&self) -> Vec<Entry> {
        let ring = &self.cells[..self.len];
        (0..self.len).map(|i| self.preset.site(ring, i)).collect()
    }

    fn open(&mut self, at: usize, len: usize) -> Result<ScriptAnswer, Refusal> {
        if !(1..=MOST_CELLS).contains(&len) {
            return Err((11, 0));
        }
        let end = at.checked_add(len).ok_or((12, 0))?;
        let ring = self.rings.get(at..end).ok_or((12, 0))?;
        if len > self.cells.len() {
            return Err((12, 0));
        }
        if let Some(place) = ring.iter().position(|a| usize::from(*a) >= self.preset.q) {
            return Err((14, place));
        }
        self.len = len;
        self.cells[..len].copy_from_slice(ring);
        self.opening = self.charges();
        self.crossed = vec![ZERO; len];
        self.touched = vec![ZERO; len];
        Ok(done())
    }

    fn touch(&mut self, site: usize, letter: u8) -> Result<ScriptAnswer, Refusal> {
        if site >= self.len {
            return Err((13, 0));
        }
        if usize::from(letter) >= self.preset.q {
            return Err((14, self.len));
        }
        let kind = self.preset.kind;
        let before = self.charges();
        self.cells[site] = letter;
        for (i, after) in self.charges().into_iter().enumerate() {
            self.touched[i] = plus(kind, self.touched[i], minus(kind, after, before[i]));
        }
        Ok(done())
    }

    fn step(&mut self) -> ScriptAnswer {
        let preset = self.preset;
        let ring = self.cells[..self.len].to_vec();
        for i in 0..self.len {
            let v = window(&ring, i as isize - preset.l as isize, preset.m() - 1);
            self.crossed[i] = plus(preset.kind, self.crossed[i], preset.crossing(&v));
        }
        self.cells[..self.len].copy_from_slice(&preset.next(&ring));
        done()
    }

    fn read(&self, site: usize) -> Result<ScriptAnswer, Refusal> {
        if site >= self.len {
            return Err((13, 0));
        }
        Ok(ScriptAnswer {
            answer: 2,
            code: 0,
            place: 0,
            opening: self.opening[site],
            crossed: self.crossed[site],
            touched: self.touched[site],
            now: self.preset.site(&self.cells[..self.len], site),
        })
    }

    /// What a call is answered.
    pub fn obey(&mut self, call: ScriptCall) -> ScriptAnswer {
        let answer = match (call.call, self.len) {
            (1, 0) => self.open(call.at, call.len),
            (1, _) | (_, 0) => return ScriptAnswer::default(),
            (2, _) => self.touch(call.at, call.letter),
            (3, _) => Ok(self.step()),
            (4, _) => self.read(call.at),
            (5, _) => {
                self.len = 0;
                Ok(done())
            }
            _ => return ScriptAnswer::default(),
        };
        answer.unwrap_or_else(refused)
    }
}
