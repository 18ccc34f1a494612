//! The library by its exported functions.

use crate::sums::Sums;
use crate::words::{ANSWER, CALL, LAMP, UNREADABLE};

extern "C" {
    /// Runs the calls on the lamp, and answers the checksum (crate `measure`).
    fn yemkruos_run(lamp: *const u64, words: usize, calls: *const u64, words: usize) -> u64;

    /// Reads count and lowest place from each mask, and answers the checksum (crate `measure`).
    fn yemkruos_read_masks(masks: *const u64, words: usize) -> u64;

    /// The same from the records of 32 lamps, after each turn (crate `measure`).
    fn yemkruos_read_records(
        lamp: *const u64,
        words: usize,
        turns: *const u64,
        words: usize,
    ) -> u64;

    /// Sends one call to the lamp and writes the answer (crate `exports_c`).
    fn yemkruos_call(
        lamp: *mut u64,
        words: usize,
        call: *const u64,
        words: usize,
        answer: *mut u64,
        words: usize,
    ) -> u64;
}

/// All calls in one exported call: the words are read there, and none are written.
pub fn run(lamp: &[u64; LAMP], calls: &[u64]) -> u64 {
    // SAFETY: pointers and lengths are those of the two slices.
    unsafe { yemkruos_run(lamp.as_ptr(), lamp.len(), calls.as_ptr(), calls.len()) }
}

pub fn read_masks(masks: &[u64]) -> u64 {
    // SAFETY: pointer and length are those of the slice.
    unsafe { yemkruos_read_masks(masks.as_ptr(), masks.len()) }
}

pub fn read_records(lamp: &[u64; LAMP], turns: &[u64]) -> u64 {
    // SAFETY: pointers and lengths are those of the two slices.
    unsafe { yemkruos_read_records(lamp.as_ptr(), lamp.len(), turns.as_ptr(), turns.len()) }
}

/// Each call by itself, as a firmware makes it: the lamp and the answer go through their words.
pub fn one_by_one(lamp: &[u64; LAMP], calls: &[u64]) -> u64 {
    let mut lamp = *lamp;
    let mut answer = [0; ANSWER];
    let mut sums = Sums::default();
    for call in calls.chunks_exact(CALL) {
        // SAFETY: pointers and lengths are those of the three slices.
        let number = unsafe {
            yemkruos_call(
                lamp.as_mut_ptr(),
                LAMP,
                call.as_ptr(),
                CALL,
                answer.as_mut_ptr(),
                ANSWER,
            )
        };
        if number == UNREADABLE.into() {
            answer = [0; ANSWER];
            answer[0] = number;
        }
        sums.add_all(&lamp);
        sums.add_all(&answer);
    }
    sums.b
}
