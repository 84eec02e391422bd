//! Proved code, called through the C library, beside hand-written Rust of the same functions, in one process: first the
//! results of both on many random inputs, then times. With a work's name and a side it does that work alone, so that its
//! instructions can be counted: measure WORK SIDE ROUNDS, where SIDE is proved, rust or plain.

mod charges;
mod judging;
mod reading;
mod stepping;

use ctest::draws::{any_preset, damaged};
use ctest::format::{Kind, MOST_WORDS, Preset, preset_bytes};
use ctest::judge::word;
use ctest::library::{self, Entry, ReadAnswer, ScriptAnswer, ScriptCall};
use ctest::random::Random;
use judging::Way;
use std::hint::black_box;
use std::time::Instant;

const CELLS: usize = 4096;
const OPEN: u32 = 1;
const STEP: u32 = 3;
const READ: u32 = 4;

/// What is measured. A judge's rule holds, so that every word is searched.
#[derive(Clone, Copy)]
enum Work {
    Judge,
    Step,
    Read,
}

#[derive(Clone, Copy, PartialEq)]
enum Side {
    Proved,
    Rust,
    Plain,
}

const WORKS: [(&str, Work, Kind, usize, usize, usize); 15] = [
    ("judge-2-12-1", Work::Judge, Kind::Voices, 2, 12, 1),
    ("judge-2-6-7", Work::Judge, Kind::Voices, 2, 6, 7),
    ("judge-2-1-12", Work::Judge, Kind::Voices, 2, 1, 12),
    ("judge-8-4-1", Work::Judge, Kind::Voices, 8, 4, 1),
    ("judge-8-2-3", Work::Judge, Kind::Voices, 8, 2, 3),
    ("judge-2-3-1", Work::Judge, Kind::Voices, 2, 3, 1),
    ("judge-pitch-2-12-1", Work::Judge, Kind::Pitch, 2, 12, 1),
    ("judge-cents-2-12-1", Work::Judge, Kind::Cents, 2, 12, 1),
    ("step-2-3-1", Work::Step, Kind::Voices, 2, 3, 1),
    ("step-2-12-1", Work::Step, Kind::Voices, 2, 12, 1),
    ("step-2-6-7", Work::Step, Kind::Voices, 2, 6, 7),
    ("step-2-1-12", Work::Step, Kind::Voices, 2, 1, 12),
    ("step-8-4-1", Work::Step, Kind::Voices, 8, 4, 1),
    ("step-8-2-3", Work::Step, Kind::Voices, 8, 2, 3),
    ("read-2-1-12", Work::Read, Kind::Both, 2, 1, 12),
];

/// A preset of which the rule moves letters along, so that it holds under every density.
fn shift(random: &mut Random, kind: Kind, q: usize, n: usize, k: usize) -> Preset {
    let count = |len: usize| q.pow(len as u32);
    Preset {
        kind,
        q,
        n,
        l: n / 2,
        k,
        letters: (0..count(n)).map(|code| word(q, n, code)[n / 2]).collect(),
        entries: (0..count(k))
            .map(|_| Entry {
                signed: i64::from(random.next() as i32),
                plain: match kind {
                    Kind::Voices => 0,
                    Kind::Cents => random.next() % 1200,
                    _ => random.next() % 12,
                },
            })
            .collect(),
    }
}

fn call(call: u32, at: usize, len: usize) -> ScriptCall {
    ScriptCall {
        call,
        at,
        len,
        ..ScriptCall::default()
    }
}

fn steps(len: usize, count: usize) -> Vec<ScriptCall> {
    let mut script = vec![call(OPEN, 0, len)];
    script.extend(std::iter::repeat_n(call(STEP, 0, 0), count));
    script
}

/// One work on one side, done by a call of the function that is returned; a step's is done so many times a call.
fn job(
    work: Work,
    side: Side,
    kind: Kind,
    q: usize,
    n: usize,
    k: usize,
    times: usize,
) -> Box<dyn FnMut()> {
    let mut random = Random::new(7);
    let preset = shift(&mut random, kind, q, n, k);
    let bytes = preset_bytes(&preset);
    let mut entries = vec![Entry::default(); MOST_WORDS];
    let mut letters = vec![0u8; MOST_WORDS];
    let ring: Vec<u8> = (0..CELLS).map(|_| random.below(q) as u8).collect();
    let mut cells = ring.clone();
    let script = steps(CELLS, times);
    let mut answers = vec![ScriptAnswer::default(); script.len()];
    match (work, side) {
        (Work::Judge, Side::Proved) => Box::new(move || {
            black_box(library::judge(
                black_box(&bytes),
                &mut entries,
                &mut letters,
            ));
        }),
        (Work::Judge, _) => {
            let way = match side {
                Side::Plain => Way::Formula,
                _ => Way::Recurrences,
            };
            Box::new(move || {
                let bytes = black_box(&bytes);
                black_box(judging::judge(way, bytes, &mut entries, &mut letters));
            })
        }
        (Work::Step, Side::Proved) => Box::new(move || {
            let bytes = black_box(&bytes);
            black_box(library::play(
                bytes,
                &script,
                &ring,
                &mut cells,
                &mut answers,
            ));
        }),
        (Work::Step, _) => Box::new(move || {
            cells.copy_from_slice(&ring);
            black_box(stepping::run(
                black_box(&bytes),
                &mut cells,
                times,
                &mut entries,
            ))
            .unwrap();
        }),
        (Work::Read, Side::Proved) => Box::new(move || {
            black_box(library::read(black_box(&bytes), &mut letters, &mut entries));
        }),
        (Work::Read, _) => Box::new(move || {
            black_box(reading::read(black_box(&bytes), &mut letters, &mut entries)).unwrap();
        }),
    }
}

/// The best of many runs, in microseconds.
fn best(mut run: impl FnMut()) -> f64 {
    let start = Instant::now();
    let mut best = f64::MAX;
    let mut runs = 0;
    while runs < 15 || start.elapsed().as_millis() < 300 {
        let one = Instant::now();
        run();
        best = best.min(one.elapsed().as_nanos() as f64 / 1000.0);
        runs += 1;
    }
    best
}

/// A work's time: a step's by the difference of many steps and one.
fn time(work: Work, side: Side, kind: Kind, q: usize, n: usize, k: usize) -> f64 {
    match work {
        Work::Step => {
            let many = best(job(work, side, kind, q, n, k, 9));
            (many - best(job(work, side, kind, q, n, k, 1))) / 8.0
        }
        _ => best(job(work, side, kind, q, n, k, 1)),
    }
}

fn compare_judges(random: &mut Random, bytes: &[u8]) -> bool {
    let (few_crossings, few_cells) = (random.below(70), random.below(24));
    let crossing_room = random.pick(&[MOST_WORDS, MOST_WORDS, few_crossings]);
    let ring_room = random.pick(&[23, 23, few_cells]);
    let mut crossings = vec![
        Entry {
            signed: 5,
            plain: 6
        };
        crossing_room
    ];
    let mut ring = vec![9u8; ring_room];
    let (mut others, mut other_ring) = (crossings.clone(), ring.clone());
    let answer = library::judge(bytes, &mut crossings, &mut ring);
    let other = judging::judge(Way::Recurrences, bytes, &mut others, &mut other_ring);
    assert_eq!((answer, &crossings, &ring), (other, &others, &other_ring));
    let other = judging::judge(Way::Formula, bytes, &mut others, &mut other_ring);
    assert_eq!((answer, &crossings, &ring), (other, &others, &other_ring));
    answer.code == 0 && !answer.breaks
}

fn compare_readers(bytes: &[u8]) {
    let mut letters = [7u8; MOST_WORDS];
    let mut entries = [Entry {
        signed: 5,
        plain: 6,
    }; MOST_WORDS];
    let (mut other_letters, mut others) = (letters, entries);
    let answer = library::read(bytes, &mut letters, &mut entries);
    let other = match reading::read(bytes, &mut other_letters, &mut others) {
        Ok(header) => ReadAnswer {
            header,
            ..ReadAnswer::default()
        },
        Err((code, place)) => ReadAnswer {
            code,
            place,
            ..ReadAnswer::default()
        },
    };
    assert_eq!(answer, other);
    assert!(letters == other_letters && entries == others);
}

fn compare_steps(random: &mut Random, q: usize, bytes: &[u8]) {
    let longest = random.pick(&[3, 20, 20, 300]);
    let len = 1 + random.below(longest);
    let count = random.below(5);
    let ring: Vec<u8> = (0..len).map(|_| random.below(q) as u8).collect();
    let mut script = steps(len, count);
    script.extend((0..len).map(|i| call(READ, i, 0)));
    let mut answers = vec![ScriptAnswer::default(); script.len()];
    let mut cells = vec![0u8; len];
    library::play(bytes, &script, &ring, &mut cells, &mut answers);
    let crossed: Vec<Entry> = answers[count + 1..].iter().map(|a| a.crossed).collect();
    let (mut others, mut meters) = (ring, vec![Entry::default(); len]);
    stepping::run(bytes, &mut others, count, &mut meters).unwrap();
    assert_eq!((cells, crossed), (others, meters));
}

/// Compares both sides on random presets, whole and damaged.
fn compare(count: usize) {
    let mut random = Random::new(2);
    let mut holding = 0;
    for _ in 0..count {
        let preset = any_preset(&mut random);
        let bytes = preset_bytes(&preset);
        compare_readers(&bytes);
        compare_readers(&damaged(&mut random, &bytes));
        if compare_judges(&mut random, &bytes) {
            holding += 1;
            compare_steps(&mut random, preset.q, &bytes);
        }
    }
    println!(
        "{count} random presets are read and judged alike; {holding} that hold are stepped alike"
    );
}

fn main() {
    let args: Vec<String> = std::env::args().collect();
    if let [_, name, side, rounds] = &args[..] {
        let (_, work, kind, q, n, k) = *WORKS.iter().find(|work| work.0 == *name).expect("a work");
        let side = match side.as_str() {
            "proved" => Side::Proved,
            "rust" => Side::Rust,
            "plain" => Side::Plain,
            _ => panic!("a side is proved, rust or plain"),
        };
        let rounds: usize = rounds.parse().expect("a number");
        let (calls, times) = match work {
            Work::Step => (1, rounds),
            _ => (rounds, 1),
        };
        let mut run = job(work, side, kind, q, n, k, times);
        (0..calls).for_each(|_| run());
        return;
    }
    compare(6000);
    println!("work\tproved µs\tRust µs\tproved / Rust\tplain µs\tplain / proved");
    for (name, work, kind, q, n, k) in WORKS {
        let proved = time(work, Side::Proved, kind, q, n, k);
        let rust = time(work, Side::Rust, kind, q, n, k);
        print!("{name}\t{proved:.1}\t{rust:.1}\t{:.2}", proved / rust);
        if let Work::Judge = work {
            let plain = time(work, Side::Plain, kind, q, n, k);
            print!("\t{plain:.1}\t{:.1}", plain / proved);
        }
        println!();
    }
}
