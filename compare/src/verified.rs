//! The verified code, by the C functions of the crate `bridge`. A slice crosses as a pointer and a length.

mod c {
    extern "C" {
        pub fn bridge_day(input: *const u8, len: usize, out: *mut u8, out_len: usize) -> u64;
        pub fn bridge_run_amount_cells(
            offices: u64,
            capacity: u64,
            requests: *const u8,
            requests_len: usize,
            answers: *mut u8,
            answers_len: usize,
            buffer: *mut u8,
            buffer_len: usize,
        );
        pub fn bridge_run_standing_cells(
            offices: u64,
            capacity: u64,
            requests: *const u8,
            requests_len: usize,
            answers: *mut u8,
            answers_len: usize,
            buffer: *mut u8,
            buffer_len: usize,
        );
        pub fn bridge_run_amount_bytes(
            offices: u64,
            memory: *mut u8,
            memory_len: usize,
            requests: *const u8,
            requests_len: usize,
            answers: *mut u8,
            answers_len: usize,
            buffer: *mut u8,
            buffer_len: usize,
        );
        pub fn bridge_run_standing_bytes(
            offices: u64,
            memory: *mut u8,
            memory_len: usize,
            requests: *const u8,
            requests_len: usize,
            answers: *mut u8,
            answers_len: usize,
            buffer: *mut u8,
            buffer_len: usize,
        );
        pub fn bridge_repeat_amount_cells(
            offices: u64,
            capacity: u64,
            first: *const u8,
            first_len: usize,
            again: *const u8,
            again_len: usize,
            times: u64,
            buffer: *mut u8,
            buffer_len: usize,
        ) -> u64;
        pub fn bridge_repeat_amount_bytes(
            offices: u64,
            memory: *mut u8,
            memory_len: usize,
            first: *const u8,
            first_len: usize,
            again: *const u8,
            again_len: usize,
            times: u64,
            buffer: *mut u8,
            buffer_len: usize,
        ) -> u64;
        pub fn bridge_house_bytes() -> u64;
        pub fn bridge_decode_amount(
            bytes: *const u8,
            len: usize,
            out: *mut u8,
            out_len: usize,
        ) -> u8;
        pub fn bridge_decode_standing(
            bytes: *const u8,
            len: usize,
            out: *mut u8,
            out_len: usize,
        ) -> u8;
        pub fn bridge_amount_from_numbers(
            currency: u64,
            units: i64,
            out: *mut u8,
            out_len: usize,
        ) -> u8;
        pub fn bridge_stopped(reason: u64, out: *mut u8, out_len: usize) -> u8;
        pub fn bridge_amount_from_cell(
            currency: u16,
            units: i64,
            out: *mut u8,
            out_len: usize,
        ) -> u8;
        pub fn bridge_standing_from_cell(
            state: u8,
            number: u32,
            out: *mut u8,
            out_len: usize,
        ) -> u8;
    }
}

use crate::encoded::{House, Repeated, Run, Shelf, ValueKind};

/// What is printed of a day's input. The buffer has to be long enough.
pub fn day<'a>(input: &[u8], buffer: &'a mut [u8]) -> &'a [u8] {
    let (out, out_len) = (buffer.as_mut_ptr(), buffer.len());
    // SAFETY: each pointer goes with the length of its slice, and the two do not overlap.
    let len = unsafe { c::bridge_day(input.as_ptr(), input.len(), out, out_len) } as usize;
    assert!(len > 0, "the verified day ran out of memory");
    assert!(len <= buffer.len(), "the buffer is too short for the text");
    &buffer[..len]
}

/// Builds a house and does all requests in it.
pub fn run(house: House, run: Run<'_>) {
    let (requests, requests_len) = (run.requests.as_ptr(), run.requests.len());
    let (answers, answers_len) = (run.answers.as_mut_ptr(), run.answers.len());
    let (buffer, buffer_len) = (run.buffer.as_mut_ptr(), run.buffer.len());
    match house.shelf {
        Shelf::Cells { capacity } => {
            let function = match house.kind {
                ValueKind::Amounts => c::bridge_run_amount_cells,
                ValueKind::Standings => c::bridge_run_standing_cells,
            };
            // SAFETY: each pointer goes with the length of its slice, and no two overlap.
            unsafe {
                function(
                    house.offices,
                    capacity,
                    requests,
                    requests_len,
                    answers,
                    answers_len,
                    buffer,
                    buffer_len,
                )
            }
        }
        Shelf::Bytes => {
            let (memory, memory_len) = (run.memory.as_mut_ptr(), run.memory.len());
            let function = match house.kind {
                ValueKind::Amounts => c::bridge_run_amount_bytes,
                ValueKind::Standings => c::bridge_run_standing_bytes,
            };
            // SAFETY: as above.
            unsafe {
                function(
                    house.offices,
                    memory,
                    memory_len,
                    requests,
                    requests_len,
                    answers,
                    answers_len,
                    buffer,
                    buffer_len,
                )
            }
        }
    }
}

/// Builds a house of amounts over cells, does the first requests once and the others again and again.
pub fn repeat_in_cells(offices: u64, capacity: u64, work: Repeated<'_>) -> u64 {
    // SAFETY: each pointer goes with the length of its slice, and no two that are written overlap.
    unsafe {
        c::bridge_repeat_amount_cells(
            offices,
            capacity,
            work.first.as_ptr(),
            work.first.len(),
            work.again.as_ptr(),
            work.again.len(),
            work.times,
            work.buffer.as_mut_ptr(),
            work.buffer.len(),
        )
    }
}

/// The same over bytes.
pub fn repeat_in_bytes(offices: u64, memory: &mut [u8], work: Repeated<'_>) -> u64 {
    // SAFETY: as above.
    unsafe {
        c::bridge_repeat_amount_bytes(
            offices,
            memory.as_mut_ptr(),
            memory.len(),
            work.first.as_ptr(),
            work.first.len(),
            work.again.as_ptr(),
            work.again.len(),
            work.times,
            work.buffer.as_mut_ptr(),
            work.buffer.len(),
        )
    }
}

/// How many bytes a house of amounts over cells takes, without the lent memory.
pub fn house_bytes() -> u64 {
    // SAFETY: it takes nothing.
    unsafe { c::bridge_house_bytes() }
}

// SAFETY of all that follow: each pointer goes with the length of its slice, and no two overlap.

pub fn decode_amount(bytes: &[u8], out: &mut [u8]) -> u8 {
    unsafe { c::bridge_decode_amount(bytes.as_ptr(), bytes.len(), out.as_mut_ptr(), out.len()) }
}

pub fn decode_standing(bytes: &[u8], out: &mut [u8]) -> u8 {
    unsafe { c::bridge_decode_standing(bytes.as_ptr(), bytes.len(), out.as_mut_ptr(), out.len()) }
}

pub fn amount_from_numbers(currency: u64, units: i64, out: &mut [u8]) -> u8 {
    unsafe { c::bridge_amount_from_numbers(currency, units, out.as_mut_ptr(), out.len()) }
}

pub fn stopped(reason: u64, out: &mut [u8]) -> u8 {
    unsafe { c::bridge_stopped(reason, out.as_mut_ptr(), out.len()) }
}

pub fn amount_from_cell(currency: u16, units: i64, out: &mut [u8]) -> u8 {
    unsafe { c::bridge_amount_from_cell(currency, units, out.as_mut_ptr(), out.len()) }
}

pub fn standing_from_cell(state: u8, number: u32, out: &mut [u8]) -> u8 {
    unsafe { c::bridge_standing_from_cell(state, number, out.as_mut_ptr(), out.len()) }
}
