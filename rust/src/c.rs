//! The functions of `include/brb.h`, as the archive exports them.
//!
//! Each pointer comes with the length of what is lent, and areas of one call do not overlap where one is written; the library
//! reads and writes nothing outside them and keeps nothing after the call.

use crate::{Answer, Parting, Recorded, Spread};

extern "C" {
    pub fn brb_step(
        state: *mut u64,
        state_numbers: usize,
        room: *mut u64,
        room_numbers: usize,
        code: u64,
        cycles: u64,
        a: u64,
        b: u64,
        c: u64,
        d: u64,
    ) -> Answer;
    pub fn brb_read(
        state: *mut u64,
        state_numbers: usize,
        room: *mut u64,
        room_numbers: usize,
        cycles: u64,
        register: u64,
    ) -> Answer;
    pub fn brb_count_encode(count: u64) -> u64;
    pub fn brb_count_decode(cc: u64) -> Spread;
    pub fn brb_count_sum(cc: *const u64, count: usize) -> Spread;
    pub fn brb_bank_inf(room: *const u64, room_numbers: usize, size: u64, start: u64, bank: u64, m: u64) -> Answer;
    pub fn brb_bank_source(room: *const u64, room_numbers: usize, size: u64, start: u64, bank: u64, m: u64) -> Answer;
    pub fn brb_bank_target(room: *const u64, room_numbers: usize, size: u64, start: u64, bank: u64, m: u64) -> Answer;
    pub fn brb_recording_read(
        bytes: *const u8,
        length: usize,
        at: usize,
        place: *mut u64,
        place_numbers: usize,
    ) -> Answer;
    pub fn brb_recording_write(
        bytes: *mut u8,
        length: usize,
        at: usize,
        code: u64,
        cycles: u64,
        a: u64,
        b: u64,
        c: u64,
        d: u64,
    ) -> Answer;
    pub fn brb_step_recorded(
        state: *mut u64,
        state_numbers: usize,
        room: *mut u64,
        room_numbers: usize,
        bytes: *const u8,
        length: usize,
        at: usize,
    ) -> Recorded;
    pub fn brb_batch(
        state: *mut u64,
        state_numbers: usize,
        room: *mut u64,
        room_numbers: usize,
        bytes: *const u8,
        length: usize,
        answers: *mut u64,
        answer_numbers: usize,
    ) -> Answer;
    pub fn brb_compare(first: *const u8, first_length: usize, second: *const u8, second_length: usize) -> Parting;
}
