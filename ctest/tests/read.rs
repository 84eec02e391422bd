//! Reading, on good and damaged bytes and on strips of many lengths.

use ctest::draws::{any_preset, damaged, preset, sizes};
use ctest::format::{KINDS, Kind, preset_bytes, read_preset};
use ctest::library::{Entry, ReadAnswer, read};
use ctest::random::Random;

const MARK: Entry = Entry {
    signed: -77,
    plain: 99,
};

fn compare(bytes: &[u8], letter_room: usize, entry_room: usize) {
    let mut letters = vec![0xee; letter_room];
    let mut entries = vec![MARK; entry_room];
    let answer = read(bytes, &mut letters, &mut entries);
    let expected = if letter_room < 4096 || entry_room < 4096 {
        Err((12, 0))
    } else {
        read_preset(bytes)
    };
    match expected {
        Ok(preset) => {
            let header = preset.header();
            assert_eq!(
                answer,
                ReadAnswer {
                    header,
                    ..Default::default()
                }
            );
            let (read_letters, other_letters) = letters.split_at(preset.letters.len());
            let (read_entries, other_entries) = entries.split_at(preset.entries.len());
            assert_eq!(read_letters, preset.letters);
            assert_eq!(read_entries, preset.entries);
            assert!(other_letters.iter().all(|letter| *letter == 0xee));
            assert!(other_entries.iter().all(|entry| *entry == MARK));
        }
        Err((code, place)) => {
            assert_eq!(
                answer,
                ReadAnswer {
                    code,
                    place,
                    ..Default::default()
                }
            );
            assert!(letters.iter().all(|letter| *letter == 0xee));
            assert!(entries.iter().all(|entry| *entry == MARK));
        }
    }
}

#[test]
fn presets_of_all_kinds_and_sizes() {
    let mut random = Random::new(1);
    for sizes in sizes() {
        for kind in KINDS {
            compare(&preset_bytes(&preset(&mut random, kind, sizes)), 4096, 4096);
        }
    }
}

#[test]
fn damaged_presets() {
    let mut random = Random::new(2);
    for _ in 0..20000 {
        let bytes = preset_bytes(&any_preset(&mut random));
        compare(&damaged(&mut random, &bytes), 4096, 4100);
    }
}

/// Plain parts at the end of each kind's range and beyond it, at both entries of a preset.
#[test]
fn plain_parts_around_the_ends() {
    let mut random = Random::new(16);
    for kind in KINDS {
        let end = match kind {
            Kind::Voices => continue,
            Kind::Pitch | Kind::Both => 12,
            Kind::Channels => 65536,
            Kind::Cents => 1200,
        };
        let whole = preset(&mut random, kind, (2, 1, 1));
        for plain in [0, 1, end - 1, end, end + 1, 2 * end, u64::from(u32::MAX)] {
            for place in 0..2 {
                let mut changed = whole.clone();
                changed.entries[place].plain = plain;
                let bytes = preset_bytes(&changed);
                let refused = read_preset(&bytes).is_err_and(|(code, _)| code == 15);
                assert_eq!(refused, plain >= end);
                compare(&bytes, 4096, 4096);
            }
        }
    }
}

#[test]
fn presets_cut_at_each_byte() {
    let mut random = Random::new(3);
    for kind in KINDS {
        let bytes = preset_bytes(&preset(&mut random, kind, (3, 3, 2)));
        for end in 0..bytes.len() {
            compare(&bytes[..end], 4096, 4096);
        }
    }
}

#[test]
fn strips_of_many_lengths() {
    let mut random = Random::new(4);
    let rooms = [0, 1, 2, 8, 4095, 4096, 4097, 5000];
    for letter_room in rooms {
        for entry_room in rooms {
            compare(
                &preset_bytes(&any_preset(&mut random)),
                letter_room,
                entry_room,
            );
            compare(&[0x80], letter_room, entry_room);
            compare(&[], letter_room, entry_room);
        }
    }
}
