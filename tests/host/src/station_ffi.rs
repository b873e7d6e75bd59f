//! The functions of include/giamuvich.h for the X3.28 receiving station, and a safe wrapper of each,
//! as in `ffi`.

/// The functions as C sees them.
pub mod raw {
    extern "C" {
        pub fn gmv_station_fresh(state: *mut u64, state_words: usize) -> u64;

        pub fn gmv_station_open(
            state: *mut u64,
            state_words: usize,
            report: *mut u64,
            report_words: usize,
        ) -> u64;

        pub fn gmv_station_block(
            number: u64,
            ending: u64,
            text: *const u8,
            text_length: usize,
            buffer: *mut u8,
            buffer_length: usize,
            state: *mut u64,
            state_words: usize,
            report: *mut u64,
            report_words: usize,
        ) -> u64;

        pub fn gmv_station_bad(
            state: *mut u64,
            state_words: usize,
            report: *mut u64,
            report_words: usize,
        ) -> u64;

        pub fn gmv_station_enquiry(
            state: *mut u64,
            state_words: usize,
            report: *mut u64,
            report_words: usize,
        ) -> u64;

        pub fn gmv_station_end(
            state: *mut u64,
            state_words: usize,
            report: *mut u64,
            report_words: usize,
        ) -> u64;

        pub fn gmv_station_bare_enq(
            state: *mut u64,
            state_words: usize,
            report: *mut u64,
            report_words: usize,
        ) -> u64;

        pub fn gmv_station_interrupt(
            state: *mut u64,
            state_words: usize,
            report: *mut u64,
            report_words: usize,
        ) -> u64;
    }
}

use crate::station_model::Unit;

pub fn station_fresh(state: &mut [u64]) -> u64 {
    // SAFETY: the slice has memory of the length passed.
    unsafe { raw::gmv_station_fresh(state.as_mut_ptr(), state.len()) }
}

/// One of the station's acts; only a block takes the buffer.
pub fn station_act(unit: &Unit, buffer: &mut [u8], state: &mut [u64], report: &mut [u64]) -> u64 {
    let (words, length) = (state.as_mut_ptr(), state.len());
    let (report_pointer, report_words) = (report.as_mut_ptr(), report.len());
    // SAFETY: each slice has memory of the length passed, and none overlaps another.
    unsafe {
        match *unit {
            Unit::Opened => raw::gmv_station_open(words, length, report_pointer, report_words),
            Unit::Bad => raw::gmv_station_bad(words, length, report_pointer, report_words),
            Unit::Enquiry => raw::gmv_station_enquiry(words, length, report_pointer, report_words),
            Unit::End => raw::gmv_station_end(words, length, report_pointer, report_words),
            Unit::BareEnq => raw::gmv_station_bare_enq(words, length, report_pointer, report_words),
            Unit::Interrupt => {
                raw::gmv_station_interrupt(words, length, report_pointer, report_words)
            }
            Unit::Block {
                number,
                ending,
                text,
            } => raw::gmv_station_block(
                number,
                ending,
                text.as_ptr(),
                text.len(),
                buffer.as_mut_ptr(),
                buffer.len(),
                words,
                length,
                report_pointer,
                report_words,
            ),
        }
    }
}
