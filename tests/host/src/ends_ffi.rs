//! The functions of include/giamuvich.h for the receiver and the sender of sequence numbers, and a
//! safe wrapper of each, as in `ffi`.

/// The names of giamuvich.h for both ends, without their prefix.
pub mod names {
    pub const RECEIVER_EXPECTED: usize = 0;
    pub const RECEIVER_PERSISTED_WORDS: usize = 1;
    pub const RECEIVER_CODE: usize = 1;
    pub const RECEIVER_NUMBER: usize = 2;
    pub const RECEIVER_TRANSACTION: usize = 3;
    pub const RECEIVER_NEW_EXPECTED: usize = 4;
    pub const RECEIVER_CONTROL_ID_LENGTH: usize = 5;
    pub const RECEIVER_CONTROL_ID: usize = 6;
    pub const RECEIVER_WORDS: usize = 9;

    pub const DECISION_BLOCK: usize = 0;
    pub const DECISION_OPENED: usize = 1;
    pub const DECISION_TRANSACTION: usize = 2;
    pub const DECISION_EXPECTED: usize = 3;
    pub const DECISION_CHANGES: usize = 4;
    pub const DECISION_WORDS: usize = 5;

    pub const NOT_STORED: u64 = 0;
    pub const STORED: u64 = 1;

    pub const RESENDS_DEFAULT: u64 = 3;

    pub const SENDER_FIRST: usize = 0;
    pub const SENDER_DELIVERED: usize = 1;
    pub const SENDER_LAST: usize = 2;
    pub const SENDER_RESYNCHRONIZED: usize = 3;
    pub const SENDER_FROZEN: usize = 4;
    pub const SENDER_PERSISTED_WORDS: usize = 5;
    pub const SENDER_WAITING: usize = 5;
    pub const SENDER_SENDS: usize = 6;
    pub const SENDER_WORDS: usize = 7;

    pub const WAITING_CLOSED: u64 = 0;
    pub const WAITING_IDLE: u64 = 1;
    pub const WAITING_RESYNCHRONIZE: u64 = 2;
    pub const WAITING_QUERY: u64 = 3;
    pub const WAITING_TRANSACTION: u64 = 4;

    pub const SEND_NOTHING: u64 = 0;
    pub const SEND_RESYNCHRONIZE: u64 = 1;
    pub const SEND_QUERY: u64 = 2;
    pub const SEND_TRANSACTION: u64 = 3;

    pub const EVENT_NONE: u64 = 0;
    pub const EVENT_DELIVERED: u64 = 1;
    pub const EVENT_ABANDONED: u64 = 2;
    pub const EVENT_FROZE: u64 = 3;
    pub const EVENT_DROPPED: u64 = 4;

    pub const ACT_SEND: usize = 0;
    pub const ACT_SEND_NUMBER: usize = 1;
    pub const ACT_SENDS: usize = 2;
    pub const ACT_EVENT: usize = 3;
    pub const ACT_DELIVERED: usize = 4;
    pub const ACT_CODE: usize = 5;
    pub const ACT_BLOCK: usize = 6;
    pub const ACT_FORBIDDEN_OFFSET: usize = 7;
    pub const ACT_WORDS: usize = 8;
}

/// The functions as C sees them.
pub mod raw {
    extern "C" {
        pub fn gmv_receiver_fresh(state: *mut u64, state_words: usize) -> u64;

        pub fn gmv_receiver_decide(
            application: u64,
            block_type: u64,
            data: *const u8,
            data_length: usize,
            state: *mut u64,
            state_words: usize,
            report: *mut u64,
            report_words: usize,
        ) -> u64;

        pub fn gmv_hybrid_answer(
            start_block: u64,
            end_block: u64,
            data_limit: u64,
            stored: u64,
            state: *mut u64,
            state_words: usize,
            buffer: *mut u8,
            buffer_length: usize,
            start: usize,
            report: *mut u64,
            report_words: usize,
        ) -> u64;

        pub fn gmv_minimal_answer(
            data_limit: u64,
            stored: u64,
            state: *mut u64,
            state_words: usize,
            buffer: *mut u8,
            buffer_length: usize,
            start: usize,
            report: *mut u64,
            report_words: usize,
        ) -> u64;

        pub fn gmv_hybrid_nak(
            start_block: u64,
            end_block: u64,
            data_limit: u64,
            block_number: u64,
            state: *const u64,
            state_words: usize,
            buffer: *mut u8,
            buffer_length: usize,
            start: usize,
            report: *mut u64,
            report_words: usize,
        ) -> u64;

        pub fn gmv_sender_fresh(first: u64, state: *mut u64, state_words: usize) -> u64;

        pub fn gmv_sender_submit(
            data_limit: u64,
            message: *const u8,
            message_length: usize,
            state: *mut u64,
            state_words: usize,
            report: *mut u64,
            report_words: usize,
        ) -> u64;

        pub fn gmv_sender_open(
            state: *mut u64,
            state_words: usize,
            report: *mut u64,
            report_words: usize,
        ) -> u64;

        pub fn gmv_sender_ended(
            state: *mut u64,
            state_words: usize,
            report: *mut u64,
            report_words: usize,
        ) -> u64;

        pub fn gmv_sender_reset(
            state: *mut u64,
            state_words: usize,
            report: *mut u64,
            report_words: usize,
        ) -> u64;

        pub fn gmv_sender_timer(
            resends: u64,
            state: *mut u64,
            state_words: usize,
            report: *mut u64,
            report_words: usize,
        ) -> u64;

        pub fn gmv_sender_block(
            resends: u64,
            block_number: u64,
            block_type: u64,
            data: *const u8,
            data_length: usize,
            state: *mut u64,
            state_words: usize,
            report: *mut u64,
            report_words: usize,
        ) -> u64;

        pub fn gmv_hybrid_control_block(
            start_block: u64,
            end_block: u64,
            data_limit: u64,
            message_type: *const u8,
            type_length: usize,
            number: u64,
            buffer: *mut u8,
            buffer_length: usize,
            start: usize,
            report: *mut u64,
            report_words: usize,
        ) -> u64;

        pub fn gmv_minimal_control_block(
            data_limit: u64,
            message_type: *const u8,
            type_length: usize,
            number: u64,
            buffer: *mut u8,
            buffer_length: usize,
            start: usize,
            report: *mut u64,
            report_words: usize,
        ) -> u64;
    }
}

use crate::model::{Layer, Settings};
use crate::receiver_model::ReceiverAct;
use crate::sender_model::Act;

pub fn receiver_fresh(state: &mut [u64]) -> u64 {
    // SAFETY: the slice has memory of the length passed.
    unsafe { raw::gmv_receiver_fresh(state.as_mut_ptr(), state.len()) }
}

pub fn sender_fresh(first: u64, state: &mut [u64]) -> u64 {
    // SAFETY: the slice has memory of the length passed.
    unsafe { raw::gmv_sender_fresh(first, state.as_mut_ptr(), state.len()) }
}

/// The receiver's decision on an accepted block.
pub fn decide(
    application: u64,
    block_type: u64,
    data: &[u8],
    state: &mut [u64],
    report: &mut [u64],
) -> u64 {
    // SAFETY: each slice has memory of the length passed, and none overlaps another.
    unsafe {
        raw::gmv_receiver_decide(
            application,
            block_type,
            data.as_ptr(),
            data.len(),
            state.as_mut_ptr(),
            state.len(),
            report.as_mut_ptr(),
            report.len(),
        )
    }
}

/// The report on the open decision, by layer.
pub fn answer(
    settings: &Settings,
    stored: u64,
    state: &mut [u64],
    buffer: &mut [u8],
    start: usize,
    report: &mut [u64],
) -> u64 {
    match settings.layer {
        // SAFETY: each slice has memory of the length passed, and none overlaps another.
        Layer::Hybrid => unsafe {
            raw::gmv_hybrid_answer(
                settings.start,
                settings.end,
                settings.limit,
                stored,
                state.as_mut_ptr(),
                state.len(),
                buffer.as_mut_ptr(),
                buffer.len(),
                start,
                report.as_mut_ptr(),
                report.len(),
            )
        },
        // SAFETY: each slice has memory of the length passed, and none overlaps another.
        Layer::Minimal => unsafe {
            raw::gmv_minimal_answer(
                settings.limit,
                stored,
                state.as_mut_ptr(),
                state.len(),
                buffer.as_mut_ptr(),
                buffer.len(),
                start,
                report.as_mut_ptr(),
                report.len(),
            )
        },
    }
}

/// The reply of a hybrid link to a refused block.
pub fn nak(
    settings: &Settings,
    number: u64,
    state: &[u64],
    buffer: &mut [u8],
    start: usize,
    report: &mut [u64],
) -> u64 {
    // SAFETY: each slice has memory of the length passed, and none overlaps another.
    unsafe {
        raw::gmv_hybrid_nak(
            settings.start,
            settings.end,
            settings.limit,
            number,
            state.as_ptr(),
            state.len(),
            buffer.as_mut_ptr(),
            buffer.len(),
            start,
            report.as_mut_ptr(),
            report.len(),
        )
    }
}

/// One of the receiver's acts; a decision takes no buffer.
pub fn receiver_act(
    act: &ReceiverAct,
    state: &mut [u64],
    buffer: &mut [u8],
    start: usize,
    report: &mut [u64],
) -> u64 {
    match *act {
        ReceiverAct::Decide {
            application,
            block_type,
            data,
        } => decide(application, block_type, data, state, report),
        ReceiverAct::Report { settings, stored } => {
            answer(&settings, stored, state, buffer, start, report)
        }
        ReceiverAct::Nak { settings, number } => {
            nak(&settings, number, state, buffer, start, report)
        }
    }
}

/// One of the sender's acts.
pub fn sender_act(act: &Act, state: &mut [u64], report: &mut [u64]) -> u64 {
    let (words, length) = (state.as_mut_ptr(), state.len());
    let (report_pointer, report_words) = (report.as_mut_ptr(), report.len());
    // SAFETY: each slice has memory of the length passed, and none overlaps another.
    unsafe {
        match *act {
            Act::Submit { limit, message } => raw::gmv_sender_submit(
                limit,
                message.as_ptr(),
                message.len(),
                words,
                length,
                report_pointer,
                report_words,
            ),
            Act::Open => raw::gmv_sender_open(words, length, report_pointer, report_words),
            Act::Ended => raw::gmv_sender_ended(words, length, report_pointer, report_words),
            Act::Reset => raw::gmv_sender_reset(words, length, report_pointer, report_words),
            Act::Timer { resends } => {
                raw::gmv_sender_timer(resends, words, length, report_pointer, report_words)
            }
            Act::Block { resends, block } => raw::gmv_sender_block(
                resends,
                block.number,
                block.block_type,
                block.data.as_ptr(),
                block.data.len(),
                words,
                length,
                report_pointer,
                report_words,
            ),
        }
    }
}

/// Writes a control message as a block, by layer.
pub fn control_block(
    settings: &Settings,
    message_type: &[u8],
    number: u64,
    buffer: &mut [u8],
    start: usize,
    report: &mut [u64],
) -> u64 {
    match settings.layer {
        // SAFETY: each slice has memory of the length passed, and none overlaps another.
        Layer::Hybrid => unsafe {
            raw::gmv_hybrid_control_block(
                settings.start,
                settings.end,
                settings.limit,
                message_type.as_ptr(),
                message_type.len(),
                number,
                buffer.as_mut_ptr(),
                buffer.len(),
                start,
                report.as_mut_ptr(),
                report.len(),
            )
        },
        // SAFETY: each slice has memory of the length passed, and none overlaps another.
        Layer::Minimal => unsafe {
            raw::gmv_minimal_control_block(
                settings.limit,
                message_type.as_ptr(),
                message_type.len(),
                number,
                buffer.as_mut_ptr(),
                buffer.len(),
                start,
                report.as_mut_ptr(),
                report.len(),
            )
        },
    }
}
