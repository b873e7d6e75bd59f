//! What the acts of both ends are timed on: requests, answers, and the states that histories lead to.

use crate::inputs;
use host::ends_ffi::names::{
    ACT_WORDS, DECISION_TRANSACTION, DECISION_WORDS, RECEIVER_WORDS, RESENDS_DEFAULT,
    SENDER_DELIVERED, SENDER_LAST, SENDER_WAITING, SENDER_WORDS, STORED,
};
use host::ends_ffi::{answer as report_stored, decide, receiver_fresh, sender_act, sender_fresh};
use host::ffi::names::{CODE_AA, REPORT_WORDS};
use host::model::Settings;
use host::prng::Random;
use host::receiver_model::{Incoming, ReceiverAct};
use host::sender_model::Act;

pub const LIMIT: u64 = 99_994;
pub const LARGEST_SENT: u64 = 999_999_999_999_998;

/// So many calls are made in one pass.
pub const CALLS: u64 = 16;

/// First numbers of histories: all numbers that come up have 12 digits.
pub const MIDDLE: u64 = 100_000_000_000;

/// How many acts come before the timed one in the first state.
pub const FEWEST: usize = 4;

pub type SenderState = [u64; SENDER_WORDS];
pub type ReceiverState = [u64; RECEIVER_WORDS];

/// A request with this number, followed by further segments up to so many bytes.
pub fn request(number: u64, length: usize) -> Vec<u8> {
    let header = format!("MSH|^~\\&|||||||ADT|{number}|P|2.3.1|{number}\r");
    with_segments(header.into_bytes(), length, number)
}

/// The answer to a control ID, followed by further segments up to so many bytes.
pub fn answer(control_id: &str, code: &str, expected: &str, length: usize) -> Vec<u8> {
    let header = format!("MSH|^~\\&|||||||ACK|{control_id}|P|2.3.1\r");
    let segment = format!("MSA|{code}|{control_id}||{expected}\r");
    with_segments([header, segment].concat().into_bytes(), length, 7)
}

fn with_segments(mut message: Vec<u8>, length: usize, seed: u64) -> Vec<u8> {
    let more = length.saturating_sub(message.len());
    message.extend(inputs::content(&mut Random::new(seed), more));
    message
}

/// The answer that accepts what waits.
pub fn right_answer(state: &SenderState, length: usize) -> Vec<u8> {
    match state[SENDER_WAITING] {
        2 => answer("-1", "AA", "-1", length),
        3 => answer(
            "0",
            "AA",
            &(state[SENDER_DELIVERED] + 1).to_string(),
            length,
        ),
        _ => {
            let number = (state[SENDER_DELIVERED] + 1).to_string();
            answer(&number, "AA", &number, length)
        }
    }
}

/// A block as its reader gave it, accepted.
pub fn accepted(block_type: u8, data: &[u8]) -> Incoming<'_> {
    Incoming {
        number: 0,
        block_type: block_type.into(),
        data,
    }
}

pub fn data_block(resends: u64, data: &[u8]) -> Act<'_> {
    Act::Block {
        resends,
        block: accepted(b'D', data),
    }
}

/// One act of the library's sender that is done.
pub fn perform(state: &mut SenderState, act: &Act) {
    let number = sender_act(act, state, &mut [0; ACT_WORDS]);
    assert_eq!(number, 0, "an act that applies is refused");
}

/// The next act on a link without errors.
fn next_act(state: &mut SenderState) {
    match state[SENDER_WAITING] {
        0 => perform(state, &Act::Open),
        1 => {
            let message = request(state[SENDER_LAST] + 1, 0);
            let limit = LIMIT;
            let message = &message;
            perform(state, &Act::Submit { limit, message });
        }
        _ => {
            let data = right_answer(state, 0);
            perform(state, &data_block(RESENDS_DEFAULT, &data));
        }
    }
}

/// The library's sender after so many acts on a link without errors: open, an answer, and then a
/// submit and an answer in turn. After an odd number of acts a transaction waits.
pub fn sender_after(first: u64, acts: usize) -> SenderState {
    let mut state = [0; SENDER_WORDS];
    assert_eq!(sender_fresh(first, &mut state), 0);
    for _ in 0..acts {
        next_act(&mut state);
    }
    state
}

/// The decision on an accepted data block.
pub fn decision(data: &[u8]) -> ReceiverAct<'_> {
    ReceiverAct::Decide {
        application: CODE_AA,
        block_type: b'D'.into(),
        data,
    }
}

/// The library's receiver once it has decided on a request that is due.
pub fn receiver_decided(state: &ReceiverState, data: &[u8]) -> ReceiverState {
    let (mut state, mut said) = (*state, [0; DECISION_WORDS]);
    let number = decide(CODE_AA, b'D'.into(), data, &mut state, &mut said);
    assert!(number == 0 && said[DECISION_TRANSACTION] != 0);
    state
}

/// The library's receiver after so many requests that it accepted, from this number on.
pub fn receiver_after(settings: &Settings, first: u64, acts: usize) -> ReceiverState {
    let mut state = [0; RECEIVER_WORDS];
    assert_eq!(receiver_fresh(&mut state), 0);
    let mut buffer = vec![0; settings.limit as usize + settings.overhead()];
    for number in (first..).take(acts) {
        state = receiver_decided(&state, &request(number, 0));
        let report = &mut [0; REPORT_WORDS];
        let answered = report_stored(settings, STORED, &mut state, &mut buffer, 0, report);
        assert_eq!([answered, state[0]], [0, number + 1]);
    }
    state
}
