//! The stack that include/ringbench.h says each call needs at most: a thread with less would end the test.

use ctest::draws::preset;
use ctest::format::{KINDS, preset_bytes};
use ctest::library::{Entry, ScriptAnswer, ScriptCall, judge, play, read};
use ctest::random::Random;
use std::thread::Builder;

/// What a thread itself uses, and the frames of the test.
const OWN: usize = 16 * 1024;

fn on_stack(size: usize, call: impl FnOnce() + Send + 'static) {
    Builder::new()
        .stack_size(size + OWN)
        .spawn(call)
        .expect("a thread")
        .join()
        .expect("a call that ends");
}

#[test]
fn enough() {
    let mut random = Random::new(14);
    for kind in KINDS {
        let bytes = preset_bytes(&preset(&mut random, kind, (2, 6, 7)));
        let zeros = vec![Entry::default(); 4096];
        let (again, mut entries) = (bytes.clone(), zeros.clone());
        let mut letters = vec![0; 4096];
        on_stack(1024, move || {
            read(&again, &mut letters, &mut entries);
        });
        let (again, mut crossings) = (bytes.clone(), zeros);
        let mut ring = vec![0; 23];
        on_stack(256 * 1024, move || {
            judge(&again, &mut crossings, &mut ring);
        });
        let mut cells = vec![0; 4096];
        let mut answers = vec![ScriptAnswer::default(); 2];
        let script = [(1, 4096), (3, 0)].map(|(call, len)| ScriptCall {
            call,
            len,
            ..Default::default()
        });
        on_stack(448 * 1024, move || {
            play(
                &bytes,
                &script,
                &[0; 4096].to_vec(),
                &mut cells,
                &mut answers,
            );
        });
    }
}
