//! Judging, on presets of all kinds and sizes, damaged ones, and strips of all lengths around what is needed.

use ctest::draws::{any_preset, damaged, preset, sizes};
use ctest::format::{KINDS, Kind, Preset, Refusal, preset_bytes, read_preset};
use ctest::library::{Entry, JudgeAnswer, judge};
use ctest::random::Random;

const MARK: Entry = Entry {
    signed: -77,
    plain: 99,
};

/// What is expected of bytes, worked out once for strips of any lengths.
struct Expected {
    answer: JudgeAnswer,
    crossings: Vec<Entry>,
    ring: Vec<u8>,
    ring_need: usize,
}

fn refused((code, place): Refusal) -> Expected {
    Expected {
        answer: JudgeAnswer {
            code,
            place,
            ..Default::default()
        },
        crossings: Vec::new(),
        ring: Vec::new(),
        ring_need: 0,
    }
}

fn verdict(preset: &Preset) -> Expected {
    let crossings = preset.crossings();
    let (answer, ring) = match preset.break_by(&crossings) {
        None => (JudgeAnswer::default(), Vec::new()),
        Some((word, ring)) => {
            let answer = JudgeAnswer {
                breaks: true,
                word,
                len: ring.len(),
                before: preset.total(&ring),
                after: preset.total(&preset.next(&ring)),
                ..Default::default()
            };
            assert_ne!(answer.before, answer.after);
            (answer, ring)
        }
    };
    Expected {
        answer,
        crossings,
        ring,
        ring_need: 2 * preset.m() - 1,
    }
}

fn expected(bytes: &[u8]) -> Expected {
    read_preset(bytes).map_or_else(refused, |preset| verdict(&preset))
}

fn compare(bytes: &[u8], expected: &Expected, crossing_room: usize, ring_room: usize) {
    let mut crossings = vec![MARK; crossing_room];
    let mut ring = vec![0xee; ring_room];
    let answer = judge(bytes, &mut crossings, &mut ring);
    let short = crossing_room < expected.crossings.len() || ring_room < expected.ring_need;
    let expected = if short { &refused((12, 0)) } else { expected };
    assert_eq!(answer, expected.answer);
    let (written, others) = crossings.split_at(expected.crossings.len());
    assert_eq!(written, expected.crossings);
    assert!(others.iter().all(|entry| *entry == MARK));
    let (written, others) = ring.split_at(expected.ring.len());
    assert_eq!(written, expected.ring);
    assert!(others.iter().all(|cell| *cell == 0xee));
}

/// Compares on strips that are long enough, and tells whether the preset is judged to hold.
fn holds(bytes: &[u8]) -> bool {
    let expected = expected(bytes);
    compare(bytes, &expected, 4096, 23);
    expected.answer == JudgeAnswer::default()
}

#[test]
fn presets_of_all_kinds_and_sizes() {
    let mut random = Random::new(5);
    let mut counts = [0, 0];
    for sizes in sizes() {
        for kind in KINDS {
            for _ in 0..4 {
                let bytes = preset_bytes(&preset(&mut random, kind, sizes));
                counts[usize::from(holds(&bytes))] += 1;
            }
        }
    }
    assert!(
        counts[0] > 300 && counts[1] > 300,
        "one verdict is rare: {counts:?}"
    );
}

#[test]
fn small_presets() {
    let mut random = Random::new(6);
    for _ in 0..20000 {
        let kind = random.pick(&KINDS);
        let sizes = random.pick(&[
            (2, 1, 1),
            (2, 2, 1),
            (2, 2, 2),
            (3, 1, 2),
            (3, 2, 1),
            (2, 3, 2),
        ]);
        holds(&preset_bytes(&preset(&mut random, kind, sizes)));
    }
}

/// All elementary rules, letter a weighing a. Five of them keep the number of ones.
#[test]
fn elementary_rules() {
    for kind in KINDS {
        for number in 0..256usize {
            let preset = Preset {
                kind,
                q: 2,
                n: 3,
                l: 1,
                k: 1,
                letters: (0..8).map(|c| (number >> c & 1) as u8).collect(),
                entries: (0..2)
                    .map(|a| match kind {
                        Kind::Voices => Entry {
                            signed: a,
                            plain: 0,
                        },
                        Kind::Both => Entry {
                            signed: a,
                            plain: a as u64,
                        },
                        _ => Entry {
                            signed: 0,
                            plain: a as u64,
                        },
                    })
                    .collect(),
            };
            let held = holds(&preset_bytes(&preset));
            if kind == Kind::Voices {
                assert_eq!(held, [184, 226, 170, 204, 240].contains(&number));
            }
        }
    }
}

#[test]
fn damaged_presets() {
    let mut random = Random::new(7);
    for _ in 0..6000 {
        let bytes = preset_bytes(&any_preset(&mut random));
        holds(&damaged(&mut random, &bytes));
    }
}

#[test]
fn strips_of_all_lengths() {
    let mut random = Random::new(8);
    for _ in 0..400 {
        let preset = any_preset(&mut random);
        let bytes = preset_bytes(&preset);
        let expected = expected(&bytes);
        let need = expected.crossings.len();
        for crossing_room in [0, need - 1, need, need + 1, 4096, 4097, 6000] {
            for ring_room in 0..=expected.ring_need + 2 {
                compare(&bytes, &expected, crossing_room, ring_room);
            }
        }
    }
}
