//! Playing, on random scripts with calls that are refused and calls that are not allowed, and on buffers of many lengths.

use ctest::draws::{any_preset, damaged, preset, rings, script};
use ctest::format::{KINDS, Preset, preset_bytes, read_preset};
use ctest::judge::{ZERO, minus, plus};
use ctest::library::{Entry, JudgeAnswer, ScriptAnswer, ScriptCall, judge, play};
use ctest::player::Player;
use ctest::random::Random;

const MARK: ScriptAnswer = ScriptAnswer {
    answer: 1234,
    code: 5678,
    place: 91011,
    opening: ODD,
    crossed: ODD,
    touched: ODD,
    now: ODD,
};

const ODD: Entry = Entry {
    signed: -77,
    plain: 99,
};

/// What judging answers. The judge is compared in tests of its own.
fn judged(bytes: &[u8]) -> JudgeAnswer {
    judge(bytes, &mut vec![ODD; 4096], &mut [0; 23])
}

/// Compares a script on some bytes, and tells whether it was played.
fn compare(bytes: &[u8], calls: &[ScriptCall], letters: &[u8], cells: &[u8], room: usize) -> bool {
    let mut cells_left = cells.to_vec();
    let mut answers = vec![MARK; room];
    let answer = play(bytes, calls, letters, &mut cells_left, &mut answers);
    let read = read_preset(bytes);
    let mut expected = judged(bytes);
    if read.is_ok() && room < calls.len() {
        expected = JudgeAnswer {
            code: 12,
            ..Default::default()
        };
    }
    assert_eq!(answer, expected);
    let plays = expected == JudgeAnswer::default();
    let mut expected_cells = cells.to_vec();
    let mut expected_answers = vec![MARK; room];
    if let (true, Ok(preset)) = (plays, read) {
        let mut player = Player::new(&preset, letters, cells);
        for (answer, call) in expected_answers.iter_mut().zip(calls) {
            *answer = player.obey(*call);
        }
        expected_cells = player.cells;
    }
    assert_eq!(answers, expected_answers);
    assert_eq!(cells_left, expected_cells);
    plays
}

/// A preset that holds.
fn holding(random: &mut Random) -> Preset {
    loop {
        let kind = random.pick(&KINDS);
        let sizes = random.pick(&[
            (2, 1, 1),
            (2, 2, 1),
            (2, 2, 2),
            (2, 3, 1),
            (2, 3, 2),
            (2, 3, 3),
            (2, 5, 2),
            (2, 1, 6),
            (3, 1, 2),
            (3, 2, 2),
            (3, 3, 2),
            (5, 2, 2),
            (8, 2, 2),
            (8, 4, 1),
            (8, 1, 4),
            (2, 12, 1),
            (2, 1, 12),
            (4, 3, 3),
        ]);
        let preset = preset(random, kind, sizes);
        if preset.break_by(&preset.crossings()).is_none() {
            return preset;
        }
    }
}

fn cells(random: &mut Random) -> Vec<u8> {
    let count = random.pick(&[0, 4, 11, 12, 13, 64, 64, 4096, 5000]);
    (0..count).map(|_| random.next() as u8).collect()
}

/// Whether an open has a length that no ring has, and whether its letters reach past the end.
fn open_at_fault(call: ScriptCall, letters: &[u8]) -> (bool, bool) {
    let past = call.len > letters.len() || call.at > letters.len() - call.len;
    (call.len == 0 || call.len > 4096, past)
}

#[test]
fn scripts() {
    let mut random = Random::new(9);
    let mut seen = [0; 4];
    let mut codes = [0; 16];
    // Opens by what is at fault, and whether a ring is open.
    let mut opens = [[[0; 2]; 2]; 2];
    for _ in 0..8000 {
        let preset = holding(&mut random);
        let letters = rings(&mut random, preset.q);
        let calls = script(&mut random, preset.q, letters.len());
        let cells = cells(&mut random);
        let bytes = preset_bytes(&preset);
        let room = calls.len() + random.below(3);
        assert!(compare(&bytes, &calls, &letters, &cells, room));
        let mut player = Player::new(&preset, &letters, &cells);
        let mut open = false;
        for call in calls {
            let answer = player.obey(call);
            if call.call == 1 {
                let (bad, past) = open_at_fault(call, &letters);
                opens[usize::from(bad)][usize::from(past)][usize::from(open)] += 1;
            }
            match (call.call, answer.answer) {
                (1, 1) => open = true,
                (5, 1) => open = false,
                _ => {}
            }
            seen[answer.answer as usize] += 1;
            codes[answer.code as usize] += 1;
        }
    }
    assert!(
        seen.iter().all(|count| *count > 5000),
        "one answer is rare: {seen:?}"
    );
    assert!(
        [11, 12, 13, 14].iter().all(|code| codes[*code] > 200),
        "one code is rare: {codes:?}"
    );
    assert!(
        opens.iter().flatten().flatten().all(|count| *count > 500),
        "one open is rare: {opens:?}"
    );
}

/// Opens of many lengths at many places: by the lowest code that fits where no ring is open, and with no answer where one is.
#[test]
fn opens_of_many_lengths_and_places() {
    let mut random = Random::new(15);
    for count in [0, 1, 4, 12, 4095, 4096, 4097, 5000] {
        let preset = holding(&mut random);
        let bytes = preset_bytes(&preset);
        let letters = vec![1; count];
        for len in [
            0,
            1,
            4,
            5,
            12,
            4095,
            4096,
            4097,
            5000,
            usize::MAX - 1,
            usize::MAX,
        ] {
            let last = count.saturating_sub(len);
            let ends_at_0 = len.wrapping_neg();
            for at in [
                0,
                1,
                last,
                last + 1,
                count,
                count + 1,
                ends_at_0,
                ends_at_0.wrapping_add(count),
                usize::MAX,
            ] {
                for room in [0, 4, 4096] {
                    let call = |call, at, len| ScriptCall {
                        call,
                        letter: 0,
                        at,
                        len,
                    };
                    let calls = [
                        call(1, at, len),
                        call(5, 0, 0),
                        call(1, 0, 1),
                        call(1, at, len),
                        call(4, 0, 0),
                        call(5, 0, 0),
                        call(1, at, len),
                    ];
                    let cells = vec![7; room];
                    assert!(compare(&bytes, &calls, &letters, &cells, calls.len()));
                    let mut answers = [MARK; 7];
                    play(&bytes, &calls, &letters, &mut vec![7; room], &mut answers);
                    let said = answers.map(|answer| (answer.answer, answer.code, answer.place));
                    let expected = match open_at_fault(calls[0], &letters) {
                        (true, _) => (3, 11, 0),
                        (false, true) => (3, 12, 0),
                        (false, false) if len > room => (3, 12, 0),
                        (false, false) => (1, 0, 0),
                    };
                    assert_eq!(said[0], expected);
                    assert_eq!(said[6], expected);
                    if count > 0 && room > 0 {
                        assert_eq!(said[2..4], [(1, 0, 0), (0, 0, 0)]);
                    }
                }
            }
        }
    }
}

#[test]
fn rings_of_the_longest_lengths() {
    let mut random = Random::new(10);
    for kind in KINDS {
        let preset = preset(&mut random, kind, (2, 3, 1));
        let letters = vec![1; 4200];
        for len in [1, 2, 4095, 4096, 4097] {
            for room in [len - 1, len, 4096, 4100] {
                let calls = [
                    (1, 0, len),
                    (3, 0, 0),
                    (4, len - 1, 0),
                    (4, len, 0),
                    (2, 0, 0),
                    (4, 0, 0),
                ]
                .map(|(call, at, len)| ScriptCall {
                    call,
                    letter: 1,
                    at,
                    len,
                });
                compare(
                    &preset_bytes(&preset),
                    &calls,
                    &letters,
                    &vec![7; room],
                    calls.len(),
                );
            }
        }
    }
}

#[test]
fn presets_that_break_or_are_damaged() {
    let mut random = Random::new(11);
    for _ in 0..4000 {
        let preset = any_preset(&mut random);
        let mut bytes = preset_bytes(&preset);
        if random.once_in(2) {
            bytes = damaged(&mut random, &bytes);
        }
        let letters = rings(&mut random, preset.q);
        let calls = script(&mut random, preset.q, letters.len().min(12));
        compare(&bytes, &calls, &letters, &cells(&mut random), calls.len());
    }
}

#[test]
fn answers_too_short() {
    let mut random = Random::new(12);
    for _ in 0..300 {
        let preset = if random.once_in(2) {
            any_preset(&mut random)
        } else {
            holding(&mut random)
        };
        let mut bytes = preset_bytes(&preset);
        if random.once_in(5) {
            bytes = damaged(&mut random, &bytes);
        }
        let letters = rings(&mut random, preset.q);
        let calls = script(&mut random, preset.q, letters.len());
        for room in 0..=calls.len() + 1 {
            compare(&bytes, &calls, &letters, &[7; 20], room);
        }
    }
}

/// Every arc's charge is that at opening, with what crossed in, less what crossed out, and what was touched.
#[test]
fn arcs_add_up() {
    let mut random = Random::new(13);
    for _ in 0..500 {
        let preset = holding(&mut random);
        let letters: Vec<u8> = (0..9).map(|_| random.below(preset.q) as u8).collect();
        let call = |call, at, letter| ScriptCall {
            call,
            letter,
            at,
            len: 9,
        };
        let mut calls = vec![call(1, 0, 0)];
        for _ in 0..random.below(6) {
            calls.push(call(3, 0, 0));
            calls.push(call(2, random.below(9), random.below(preset.q) as u8));
        }
        calls.extend((0..9).map(|site| call(4, site, 0)));
        let mut answers = vec![MARK; calls.len()];
        let mut cells = [0; 9];
        play(
            &preset_bytes(&preset),
            &calls,
            &letters,
            &mut cells,
            &mut answers,
        );
        let sites = &answers[calls.len() - 9..];
        for from in 0..9 {
            for len in 0..=9 {
                let add = |a, b| plus(preset.kind, a, b);
                let arc: Vec<usize> = (0..len).map(|i| (from + i) % 9).collect();
                let sum = |part: fn(&ScriptAnswer) -> Entry| {
                    arc.iter().map(|i| part(&sites[*i])).fold(ZERO, add)
                };
                let crossed = minus(
                    preset.kind,
                    sites[from].crossed,
                    sites[(from + len) % 9].crossed,
                );
                let now = add(add(sum(|s| s.opening), crossed), sum(|s| s.touched));
                assert_eq!(sum(|s| s.now), now);
            }
        }
    }
}
