//! The library's structs as include/ringbench.h has them, and safe wrappers of its calls. The library takes any bytes and
//! any buffers, and references are never null and never overlap, so a wrapper has nothing to test.

/// A charge: its signed and its plain part.
#[derive(Clone, Copy, Debug, Default, PartialEq, Eq)]
#[repr(C)]
pub struct Entry {
    pub signed: i64,
    pub plain: u64,
}

#[derive(Clone, Copy, Debug, Default, PartialEq, Eq)]
#[repr(C)]
pub struct Header {
    pub kind: u64,
    pub q: u64,
    pub n: u64,
    pub l: u64,
    pub k: u64,
}

#[derive(Clone, Copy, Debug, Default, PartialEq, Eq)]
#[repr(C)]
pub struct ReadAnswer {
    pub code: u32,
    pub place: usize,
    pub header: Header,
}

#[derive(Clone, Copy, Debug, Default, PartialEq, Eq)]
#[repr(C)]
pub struct JudgeAnswer {
    pub code: u32,
    pub breaks: bool,
    pub place: usize,
    pub word: usize,
    pub len: usize,
    pub before: Entry,
    pub after: Entry,
}

#[derive(Clone, Copy, Debug, Default, PartialEq, Eq)]
#[repr(C)]
pub struct ScriptCall {
    pub call: u32,
    pub letter: u8,
    pub at: usize,
    pub len: usize,
}

#[derive(Clone, Copy, Debug, Default, PartialEq, Eq)]
#[repr(C)]
pub struct ScriptAnswer {
    pub answer: u32,
    pub code: u32,
    pub place: usize,
    pub opening: Entry,
    pub crossed: Entry,
    pub touched: Entry,
    pub now: Entry,
}

mod ffi {
    use super::*;

    unsafe extern "C" {
        pub fn ringbench_read(
            bytes: *const u8,
            byte_count: usize,
            letters: *mut u8,
            letter_count: usize,
            entries: *mut Entry,
            entry_count: usize,
        ) -> ReadAnswer;

        pub fn ringbench_judge(
            bytes: *const u8,
            byte_count: usize,
            crossings: *mut Entry,
            crossing_count: usize,
            ring: *mut u8,
            ring_count: usize,
        ) -> JudgeAnswer;

        pub fn ringbench_play(
            bytes: *const u8,
            byte_count: usize,
            script: *const ScriptCall,
            call_count: usize,
            rings: *const u8,
            ring_letter_count: usize,
            cells: *mut u8,
            cell_count: usize,
            answers: *mut ScriptAnswer,
            answer_count: usize,
        ) -> JudgeAnswer;
    }
}

pub fn read(bytes: &[u8], letters: &mut [u8], entries: &mut [Entry]) -> ReadAnswer {
    unsafe {
        ffi::ringbench_read(
            bytes.as_ptr(),
            bytes.len(),
            letters.as_mut_ptr(),
            letters.len(),
            entries.as_mut_ptr(),
            entries.len(),
        )
    }
}

pub fn judge(bytes: &[u8], crossings: &mut [Entry], ring: &mut [u8]) -> JudgeAnswer {
    unsafe {
        ffi::ringbench_judge(
            bytes.as_ptr(),
            bytes.len(),
            crossings.as_mut_ptr(),
            crossings.len(),
            ring.as_mut_ptr(),
            ring.len(),
        )
    }
}

pub fn play(
    bytes: &[u8],
    script: &[ScriptCall],
    rings: &[u8],
    cells: &mut [u8],
    answers: &mut [ScriptAnswer],
) -> JudgeAnswer {
    unsafe {
        ffi::ringbench_play(
            bytes.as_ptr(),
            bytes.len(),
            script.as_ptr(),
            script.len(),
            rings.as_ptr(),
            rings.len(),
            cells.as_mut_ptr(),
            cells.len(),
            answers.as_mut_ptr(),
            answers.len(),
        )
    }
}
