//! The functions of include/giamuvich.h, and a safe wrapper of each. A slice stands for a pointer
//! and its length; exclusive slices can't overlap anything else, so nothing more is asked.

/// The names of giamuvich.h, without their prefix.
pub mod names {
    pub const OK: u64 = 0;
    pub const SETTING: u64 = 1;
    pub const TOO_SHORT: u64 = 2;
    pub const BYTE: u64 = 3;
    pub const LONG: u64 = 4;
    pub const SHAPE: u64 = 5;
    pub const COUNT: u64 = 6;
    pub const CHECK: u64 = 7;
    pub const INTERRUPTED: u64 = 8;
    pub const HEAD: u64 = 9;
    pub const TOO_LARGE: u64 = 10;
    pub const STATE: u64 = 11;

    pub const FOUND: usize = 0;
    pub const OFFSET: usize = 1;
    pub const NUMBER: usize = 2;
    pub const VERDICT_FORBIDDEN_OFFSET: usize = 3;
    pub const TYPE: usize = 4;
    pub const DATA_OFFSET: usize = 5;
    pub const DATA_LENGTH: usize = 6;
    pub const USED: usize = 7;
    pub const VERDICT_WORDS: usize = 8;

    pub const PHASE: usize = 0;
    pub const BODY_LENGTH: usize = 1;
    pub const BLOCK_OFFSET: usize = 2;
    pub const POSITION: usize = 3;
    pub const READER_WORDS: usize = 4;

    pub const BLOCK_LENGTH: usize = 0;
    pub const REPORT_FORBIDDEN_OFFSET: usize = 1;
    pub const REPORT_WORDS: usize = 2;

    pub const MINUS_ONE: u64 = u64::MAX;

    pub const FIELD_MISSING: u64 = 0;
    pub const FIELD_NOT_NUMBER: u64 = 1;
    pub const FIELD_NUMBER: u64 = 2;

    pub const CODE_OTHER: u64 = 0;
    pub const CODE_AA: u64 = 1;
    pub const CODE_AE: u64 = 2;
    pub const CODE_AR: u64 = 3;

    pub const HEADER_CONTROL_ID_OFFSET: usize = 0;
    pub const HEADER_CONTROL_ID_LENGTH: usize = 1;
    pub const HEADER_SEQUENCE_OFFSET: usize = 2;
    pub const HEADER_SEQUENCE_LENGTH: usize = 3;
    pub const HEADER_SEQUENCE_FIELD: usize = 4;
    pub const HEADER_SEQUENCE_NUMBER: usize = 5;
    pub const HEADER_WORDS: usize = 6;

    pub const ANSWER_CODE_OFFSET: usize = 0;
    pub const ANSWER_CODE_LENGTH: usize = 1;
    pub const ANSWER_CODE: usize = 2;
    pub const ANSWER_CONTROL_ID_OFFSET: usize = 3;
    pub const ANSWER_CONTROL_ID_LENGTH: usize = 4;
    pub const ANSWER_EXPECTED_OFFSET: usize = 5;
    pub const ANSWER_EXPECTED_LENGTH: usize = 6;
    pub const ANSWER_EXPECTED_FIELD: usize = 7;
    pub const ANSWER_EXPECTED_NUMBER: usize = 8;
    pub const ANSWER_WORDS: usize = 9;

    pub const DELIMITER_NONE: u64 = 0;
    pub const DELIMITER_SEPARATOR: u64 = 1;
    pub const DELIMITER_SEGMENT_END: u64 = 2;
    pub const DELIMITER_MESSAGE_END: u64 = 3;

    pub const NEXT_FOUND: usize = 0;
    pub const NEXT_OFFSET: usize = 1;
    pub const NEXT_LENGTH: usize = 2;
    pub const NEXT_DELIMITER: usize = 3;
    pub const NEXT_POSITION: usize = 4;
    pub const NEXT_WORDS: usize = 5;

    pub const MESSAGE_LENGTH: usize = 0;
}

/// The functions as C sees them.
pub mod raw {
    extern "C" {
        pub fn gmv_version() -> u64;

        pub fn gmv_reader_fresh(state: *mut u64, state_words: usize) -> u64;

        pub fn gmv_hybrid_read(
            start_block: u64,
            end_block: u64,
            data_limit: u64,
            state: *mut u64,
            state_words: usize,
            part: *const u8,
            part_length: usize,
            buffer: *mut u8,
            buffer_length: usize,
            verdict: *mut u64,
            verdict_words: usize,
        ) -> u64;

        pub fn gmv_minimal_read(
            data_limit: u64,
            state: *mut u64,
            state_words: usize,
            part: *const u8,
            part_length: usize,
            buffer: *mut u8,
            buffer_length: usize,
            verdict: *mut u64,
            verdict_words: usize,
        ) -> u64;

        pub fn gmv_hybrid_check(
            start_block: u64,
            end_block: u64,
            data_limit: u64,
            block: *const u8,
            length: usize,
            verdict: *mut u64,
            verdict_words: usize,
        ) -> u64;

        pub fn gmv_minimal_check(
            data_limit: u64,
            block: *const u8,
            length: usize,
            verdict: *mut u64,
            verdict_words: usize,
        ) -> u64;

        pub fn gmv_hybrid_write(
            start_block: u64,
            end_block: u64,
            data_limit: u64,
            block_type: u64,
            content: *const u8,
            content_length: usize,
            buffer: *mut u8,
            buffer_length: usize,
            start: usize,
            report: *mut u64,
            report_words: usize,
        ) -> u64;

        pub fn gmv_minimal_write(
            data_limit: u64,
            content: *const u8,
            content_length: usize,
            buffer: *mut u8,
            buffer_length: usize,
            start: usize,
            report: *mut u64,
            report_words: usize,
        ) -> u64;

        pub fn gmv_header_read(
            message: *const u8,
            message_length: usize,
            header: *mut u64,
            header_words: usize,
        ) -> u64;

        pub fn gmv_answer_read(
            message: *const u8,
            message_length: usize,
            answer: *mut u64,
            answer_words: usize,
        ) -> u64;

        pub fn gmv_field_next(
            message: *const u8,
            message_length: usize,
            position: usize,
            field: *mut u64,
            field_words: usize,
        ) -> u64;

        pub fn gmv_answer_write(
            control_id: *const u8,
            control_id_length: usize,
            code: u64,
            number: u64,
            buffer: *mut u8,
            buffer_length: usize,
            start: usize,
            report: *mut u64,
            report_words: usize,
        ) -> u64;

        pub fn gmv_control_write(
            message_type: *const u8,
            type_length: usize,
            number: u64,
            buffer: *mut u8,
            buffer_length: usize,
            start: usize,
            report: *mut u64,
            report_words: usize,
        ) -> u64;
    }
}

pub fn version() -> u64 {
    // SAFETY: it takes nothing.
    unsafe { raw::gmv_version() }
}

/// SB, EB and the data limit of a hybrid link, as plain numbers.
#[derive(Clone, Copy)]
pub struct HybridNumbers {
    pub start_block: u64,
    pub end_block: u64,
    pub data_limit: u64,
}

pub fn reader_fresh(state: &mut [u64]) -> u64 {
    // SAFETY: the slice has memory of the length passed.
    unsafe { raw::gmv_reader_fresh(state.as_mut_ptr(), state.len()) }
}

pub fn hybrid_read(
    numbers: HybridNumbers,
    state: &mut [u64],
    part: &[u8],
    buffer: &mut [u8],
    verdict: &mut [u64],
) -> u64 {
    // SAFETY: each slice has memory of the length passed, and none overlaps another.
    unsafe {
        raw::gmv_hybrid_read(
            numbers.start_block,
            numbers.end_block,
            numbers.data_limit,
            state.as_mut_ptr(),
            state.len(),
            part.as_ptr(),
            part.len(),
            buffer.as_mut_ptr(),
            buffer.len(),
            verdict.as_mut_ptr(),
            verdict.len(),
        )
    }
}

pub fn minimal_read(
    data_limit: u64,
    state: &mut [u64],
    part: &[u8],
    buffer: &mut [u8],
    verdict: &mut [u64],
) -> u64 {
    // SAFETY: each slice has memory of the length passed, and none overlaps another.
    unsafe {
        raw::gmv_minimal_read(
            data_limit,
            state.as_mut_ptr(),
            state.len(),
            part.as_ptr(),
            part.len(),
            buffer.as_mut_ptr(),
            buffer.len(),
            verdict.as_mut_ptr(),
            verdict.len(),
        )
    }
}

pub fn hybrid_check(numbers: HybridNumbers, block: &[u8], verdict: &mut [u64]) -> u64 {
    // SAFETY: each slice has memory of the length passed, and none overlaps another.
    unsafe {
        raw::gmv_hybrid_check(
            numbers.start_block,
            numbers.end_block,
            numbers.data_limit,
            block.as_ptr(),
            block.len(),
            verdict.as_mut_ptr(),
            verdict.len(),
        )
    }
}

pub fn minimal_check(data_limit: u64, block: &[u8], verdict: &mut [u64]) -> u64 {
    // SAFETY: each slice has memory of the length passed, and none overlaps another.
    unsafe {
        raw::gmv_minimal_check(
            data_limit,
            block.as_ptr(),
            block.len(),
            verdict.as_mut_ptr(),
            verdict.len(),
        )
    }
}

pub fn hybrid_write(
    numbers: HybridNumbers,
    block_type: u64,
    content: &[u8],
    buffer: &mut [u8],
    start: usize,
    report: &mut [u64],
) -> u64 {
    // SAFETY: each slice has memory of the length passed, and none overlaps another.
    unsafe {
        raw::gmv_hybrid_write(
            numbers.start_block,
            numbers.end_block,
            numbers.data_limit,
            block_type,
            content.as_ptr(),
            content.len(),
            buffer.as_mut_ptr(),
            buffer.len(),
            start,
            report.as_mut_ptr(),
            report.len(),
        )
    }
}

pub fn minimal_write(
    data_limit: u64,
    content: &[u8],
    buffer: &mut [u8],
    start: usize,
    report: &mut [u64],
) -> u64 {
    // SAFETY: each slice has memory of the length passed, and none overlaps another.
    unsafe {
        raw::gmv_minimal_write(
            data_limit,
            content.as_ptr(),
            content.len(),
            buffer.as_mut_ptr(),
            buffer.len(),
            start,
            report.as_mut_ptr(),
            report.len(),
        )
    }
}

pub fn header_read(message: &[u8], header: &mut [u64]) -> u64 {
    // SAFETY: each slice has memory of the length passed, and none overlaps another.
    unsafe {
        raw::gmv_header_read(
            message.as_ptr(),
            message.len(),
            header.as_mut_ptr(),
            header.len(),
        )
    }
}

pub fn answer_read(message: &[u8], answer: &mut [u64]) -> u64 {
    // SAFETY: each slice has memory of the length passed, and none overlaps another.
    unsafe {
        raw::gmv_answer_read(
            message.as_ptr(),
            message.len(),
            answer.as_mut_ptr(),
            answer.len(),
        )
    }
}

pub fn field_next(message: &[u8], position: usize, field: &mut [u64]) -> u64 {
    // SAFETY: each slice has memory of the length passed, and none overlaps another.
    unsafe {
        raw::gmv_field_next(
            message.as_ptr(),
            message.len(),
            position,
            field.as_mut_ptr(),
            field.len(),
        )
    }
}

pub fn answer_write(
    control_id: &[u8],
    code: u64,
    number: u64,
    buffer: &mut [u8],
    start: usize,
    report: &mut [u64],
) -> u64 {
    // SAFETY: each slice has memory of the length passed, and none overlaps another.
    unsafe {
        raw::gmv_answer_write(
            control_id.as_ptr(),
            control_id.len(),
            code,
            number,
            buffer.as_mut_ptr(),
            buffer.len(),
            start,
            report.as_mut_ptr(),
            report.len(),
        )
    }
}

pub fn control_write(
    message_type: &[u8],
    number: u64,
    buffer: &mut [u8],
    start: usize,
    report: &mut [u64],
) -> u64 {
    // SAFETY: each slice has memory of the length passed, and none overlaps another.
    unsafe {
        raw::gmv_control_write(
            message_type.as_ptr(),
            message_type.len(),
            number,
            buffer.as_mut_ptr(),
            buffer.len(),
            start,
            report.as_mut_ptr(),
            report.len(),
        )
    }
}
