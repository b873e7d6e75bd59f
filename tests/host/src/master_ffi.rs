//! The functions of include/giamuvich.h for the X3.28 sending station, and a safe wrapper of each, as in
//! `ffi`.

/// The functions as C sees them.
pub mod raw {
    extern "C" {
        pub fn gmv_master_fresh(state: *mut u64, state_words: usize) -> u64;

        pub fn gmv_master_open(
            state: *mut u64,
            state_words: usize,
            report: *mut u64,
            report_words: usize,
        ) -> u64;

        pub fn gmv_master_start(
            message_length: usize,
            block_size: u64,
            state: *mut u64,
            state_words: usize,
            report: *mut u64,
            report_words: usize,
        ) -> u64;

        pub fn gmv_master_reply(
            reply: u64,
            number: u64,
            state: *mut u64,
            state_words: usize,
            report: *mut u64,
            report_words: usize,
        ) -> u64;

        pub fn gmv_master_timer(
            state: *mut u64,
            state_words: usize,
            report: *mut u64,
            report_words: usize,
        ) -> u64;

        pub fn gmv_master_close(
            state: *mut u64,
            state_words: usize,
            report: *mut u64,
            report_words: usize,
        ) -> u64;

        pub fn gmv_master_enquire(
            state: *mut u64,
            state_words: usize,
            report: *mut u64,
            report_words: usize,
        ) -> u64;

        pub fn gmv_master_may_receive(
            state: *mut u64,
            state_words: usize,
            report: *mut u64,
            report_words: usize,
        ) -> u64;
    }
}

use crate::master_model::MasterAct;

pub fn master_fresh(state: &mut [u64]) -> u64 {
    // SAFETY: the slice has memory of the length passed.
    unsafe { raw::gmv_master_fresh(state.as_mut_ptr(), state.len()) }
}

/// One of the master's acts.
pub fn master_act(act: &MasterAct, state: &mut [u64], report: &mut [u64]) -> u64 {
    let (words, length) = (state.as_mut_ptr(), state.len());
    let (report_pointer, report_words) = (report.as_mut_ptr(), report.len());
    // SAFETY: each slice has memory of the length passed, and they don't overlap.
    unsafe {
        match *act {
            MasterAct::Open => raw::gmv_master_open(words, length, report_pointer, report_words),
            MasterAct::Timer => raw::gmv_master_timer(words, length, report_pointer, report_words),
            MasterAct::Close => raw::gmv_master_close(words, length, report_pointer, report_words),
            MasterAct::Enquire => {
                raw::gmv_master_enquire(words, length, report_pointer, report_words)
            }
            MasterAct::MayReceive => {
                raw::gmv_master_may_receive(words, length, report_pointer, report_words)
            }
            MasterAct::Start {
                message_length,
                block_size,
            } => raw::gmv_master_start(
                message_length as usize,
                block_size,
                words,
                length,
                report_pointer,
                report_words,
            ),
            MasterAct::Reply { reply, number } => {
                raw::gmv_master_reply(reply, number, words, length, report_pointer, report_words)
            }
        }
    }
}
