//! A ring by hand: opened on a bench, and stepped with what crosses into each site.

use crate::charges::{Both, Cents, Channels, Charge, Pitch, Voices};
use crate::judging::{Bench, fill_charges};
use crate::reading::{counts, read};
use ctest::format::{MOST_WORDS, Refusal};
use ctest::library::Entry;

const MOST_CELLS: usize = 4096;

impl<C: Charge> Bench<'_, C> {
    fn span_code(&self, ring: &[u8], i: usize, before: usize, width: usize) -> usize {
        let start = i % ring.len() + (ring.len() - before % ring.len());
        (start..start + width).fold(0, |code, i| code * self.q + ring[i % ring.len()] as usize)
    }

    fn check_letters(&self, ring: &[u8]) -> Result<(), Refusal> {
        match ring.iter().position(|cell| *cell as usize >= self.q) {
            Some(i) => Err((14, i)),
            None => Ok(()),
        }
    }

    fn step(&self, cells: &mut [u8], spare: &mut [u8], crossed: &mut [C]) -> Result<(), Refusal> {
        self.check_letters(cells)?;
        let mut strip = [0u16; MOST_WORDS];
        let asked = cells.len() >= self.count() / self.m();
        let nexts = &mut strip[..if asked { self.count() } else { 0 }];
        if asked {
            self.write_next_words(nexts);
        }
        for (i, crossed) in crossed.iter_mut().enumerate() {
            let code = self.span_code(cells, i, self.l, self.m() - 1);
            *crossed = crossed.plus(self.crossing(nexts, code));
        }
        spare.copy_from_slice(cells);
        self.check_letters(spare)?;
        for (i, cell) in cells.iter_mut().enumerate() {
            *cell = self.answer(self.span_code(spare, i, self.l, self.n));
        }
        Ok(())
    }

    fn run(&self, cells: &mut [u8], steps: usize, meters: &mut [Entry]) -> Result<(), Refusal> {
        self.check_letters(cells)?;
        let mut spare = [0u8; MOST_CELLS];
        let mut strip = [C::ZERO; MOST_CELLS];
        let crossed = &mut strip[..cells.len()];
        for _ in 0..steps {
            self.step(cells, &mut spare[..cells.len()], crossed)?;
        }
        for (meter, crossed) in meters.iter_mut().zip(crossed) {
            *meter = crossed.to_entry();
        }
        Ok(())
    }
}

fn run_kind<C: Charge>(
    bytes: &[u8],
    cells: &mut [u8],
    steps: usize,
    meters: &mut [Entry],
) -> Result<(), Refusal> {
    let mut letters = [0u8; MOST_WORDS];
    let mut entries = [Entry::default(); MOST_WORDS];
    let header = read(bytes, &mut letters, &mut entries)?;
    let (letter_count, entry_count) = counts(header);
    let mut charges = [C::ZERO; MOST_WORDS];
    fill_charges(&entries[..entry_count], &mut charges)?;
    let bench = Bench::new(header, &letters[..letter_count], &charges[..entry_count])?;
    bench.run(cells, steps, meters)
}

/// Steps a ring of a preset that holds, and writes what has crossed into each site.
pub fn run(
    bytes: &[u8],
    cells: &mut [u8],
    steps: usize,
    meters: &mut [Entry],
) -> Result<(), Refusal> {
    match bytes.first() {
        Some(0) => run_kind::<Voices>(bytes, cells, steps, meters),
        Some(1) => run_kind::<Pitch>(bytes, cells, steps, meters),
        Some(2) => run_kind::<Channels>(bytes, cells, steps, meters),
        Some(3) => run_kind::<Both>(bytes, cells, steps, meters),
        _ => run_kind::<Cents>(bytes, cells, steps, meters),
    }
}
