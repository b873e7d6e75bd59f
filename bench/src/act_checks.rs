//! Before the acts of both ends are timed: the library and the model give the same words and bytes,
//! also where they refuse.

use crate::act_inputs::{accepted, answer, data_block, request, LARGEST_SENT};
use crate::model_side;
use host::ends_ffi;
use host::ends_ffi::names::{ACT_WORDS, DECISION_WORDS, RECEIVER_WORDS, SENDER_WORDS};
use host::ffi::names::MINUS_ONE;
use host::model::{Layer, Settings};
use host::receiver_model::ReceiverAct;
use host::sender_model::Act;

/// States of every kind, and words that are none.
const STATES: [[u64; SENDER_WORDS]; 15] = [
    [1, 0, 0, 0, 0, 0, 0],
    [1, 0, 1, 0, 1, 0, 0],
    [1, 0, 1, 0, 0, 2, 1],
    [1, 0, 1, 1, 0, 3, 4],
    [1, 1, 1, 1, 0, 3, 1],
    [1, 0, 1, 1, 0, 4, 100],
    [1, 1, 1, 1, 0, 1, 0],
    [1, 0, 1, 1, 1, 0, 0],
    [LARGEST_SENT, LARGEST_SENT - 1, LARGEST_SENT, 1, 0, 4, 2],
    [1, LARGEST_SENT, LARGEST_SENT, 1, 0, 1, 0],
    [1, 0, 1, 2, 0, 0, 0],
    [1, 1, 1, 0, 0, 0, 0],
    [1, 1, 2, 0, 0, 2, 1],
    [1, 0, 1, 1, 1, 4, 1],
    [1, 2, 1, 1, 0, 4, MINUS_ONE],
];

pub fn compare_sides() {
    let messages = messages();
    for state in STATES {
        for act in [Act::Open, Act::Ended, Act::Reset] {
            compare_act(&act, &state);
        }
        for resends in [0, 3, 99, 100] {
            compare_act(&Act::Timer { resends }, &state);
            for message in &messages {
                compare_act(&data_block(resends, message), &state);
            }
            for number in 0..12 {
                let mut block = accepted(b'N', b"X");
                block.number = number;
                compare_act(&Act::Block { resends, block }, &state);
            }
        }
        for message in &messages {
            for limit in [127, 128, 99_994, 99_995] {
                compare_act(&Act::Submit { limit, message }, &state);
            }
        }
    }
    compare_receivers(&messages);
    compare_controls();
}

/// Requests and answers around the states' numbers, unreadable ones, one with a forbidden byte in its
/// control ID, and one that is long.
fn messages() -> Vec<Vec<u8>> {
    let mut list = vec![
        Vec::new(),
        b"MSH|^~\\&|||||||ADT|1|P|2.3.1".to_vec(),
        b"MSH|^~\\&|||||||ADT||P|2.3.1|1\r".to_vec(),
        b"MSH|^~\\&|||||||ADT|\x7F|P|2.3.1|2\r".to_vec(),
        b"MSH|^~\\&|||||||ADT|2|P|2.3.1|0002\r\x01".to_vec(),
        b"MSH|^~\\&|||||||ADT|A|P|2.3.1|-1\r".to_vec(),
        b"MSH|^~\\&|||||||ADT|A|P|2.3.1\r".to_vec(),
        b"MSH|^~\\&|||||||ADT|0|P|2.3.1|0\r".to_vec(),
    ];
    for number in [1, 2, 3, LARGEST_SENT, LARGEST_SENT + 1] {
        list.push(request(number, 60));
        list.push(request(number, 129));
    }
    for control_id in ["-1", "0", "1", "999999999999998"] {
        for code in ["AA", "AE", "AR", "CA"] {
            for expected in ["-1", "0", "1", "2", "3", "999999999999999", "", "x"] {
                list.push(answer(control_id, code, expected, 0));
            }
        }
    }
    list
}

fn compare_act(act: &Act, words: &[u64; SENDER_WORDS]) {
    for (state_words, report_words) in [(7, 8), (6, 8), (7, 7)] {
        let (mut library, mut model) = (words.to_vec(), words.to_vec());
        library.truncate(state_words);
        model.truncate(state_words);
        let mut reports = [[7; ACT_WORDS]; 2];
        let [first, second] = &mut reports;
        let numbers = [
            ends_ffi::sender_act(act, &mut library, &mut first[..report_words]),
            model_side::sender_act(act, &mut model, &mut second[..report_words]),
        ];
        assert!(numbers[0] == numbers[1], "{numbers:?}: {act:?}, {words:?}");
        assert_eq!(library, model, "the states differ: {act:?}, {words:?}");
        assert_eq!(reports[0], reports[1], "{act:?}, {words:?}");
    }
}

fn all_settings() -> [Settings; 6] {
    [
        Settings::hybrid(0x0B, 0x1C, 128),
        Settings::hybrid(0xFF, 0x00, 129),
        Settings::hybrid(0x0B, 0x0B, 128),
        Settings::hybrid(0x0B, 0x1C, 127),
        Settings::minimal(128),
        Settings::minimal(127),
    ]
}

/// Decisions on all messages, and on those that opened one its reports; N replies; and words that are no
/// state, among them each state with one word changed.
fn compare_receivers(messages: &[Vec<u8>]) {
    for expected in [0, 1, 2, LARGEST_SENT, LARGEST_SENT + 1, LARGEST_SENT + 2] {
        let mut closed = [0; RECEIVER_WORDS];
        closed[0] = expected;
        compare_replies(&closed);
        for message in messages {
            let opened = compare_decisions(&closed, message);
            compare_replies(&opened);
            for index in 0..RECEIVER_WORDS {
                let mut changed = opened;
                changed[index] = changed[index].wrapping_add(1);
                compare_decisions(&changed, message);
                compare_replies(&changed);
            }
        }
    }
}

/// The state after the decision on a data block.
fn compare_decisions(state: &[u64; RECEIVER_WORDS], data: &[u8]) -> [u64; RECEIVER_WORDS] {
    let decide = |application: u64, block_type: u8| ReceiverAct::Decide {
        application,
        block_type: block_type.into(),
        data,
    };
    for act in [
        decide(2, b'D'),
        decide(1, b'N'),
        decide(0, b'D'),
        decide(1, b'E'),
    ] {
        compare_receiver(&act, state, 0, 0);
    }
    compare_receiver(&decide(1, b'D'), state, 0, 0)
}

fn compare_replies(state: &[u64; RECEIVER_WORDS]) {
    for settings in all_settings() {
        for (length, start) in [(146, 2), (143, 0), (142, 0), (130, 0)] {
            for stored in 0..3 {
                let act = ReceiverAct::Report { settings, stored };
                compare_receiver(&act, state, length, start);
            }
            for number in [0, 3, 4, 6, 7, 9, 10] {
                let act = ReceiverAct::Nak { settings, number };
                if settings.layer == Layer::Hybrid {
                    compare_receiver(&act, state, length, start);
                }
            }
        }
    }
}

/// One act on both sides, from these words; gives those that it leaves.
fn compare_receiver(
    act: &ReceiverAct,
    words: &[u64; RECEIVER_WORDS],
    length: usize,
    start: usize,
) -> [u64; RECEIVER_WORDS] {
    let (mut states, mut reports) = ([*words; 2], [[7; DECISION_WORDS]; 2]);
    let mut buffers = [vec![7; length], vec![7; length]];
    let [library, model] = &mut buffers;
    let [state, other_state] = &mut states;
    let [report, other_report] = &mut reports;
    let numbers = [
        ends_ffi::receiver_act(act, state, library, start, report),
        model_side::receiver_act(act, other_state, model, start, other_report),
    ];
    assert!(numbers[0] == numbers[1], "{numbers:?}: {act:?}, {words:?}");
    assert_eq!(states[0], states[1], "{act:?}, {words:?}");
    assert_eq!(reports[0], reports[1], "{act:?}, {words:?}");
    assert!(buffers[0] == buffers[1], "the replies differ: {act:?}");
    states[0]
}

fn compare_controls() {
    for settings in all_settings() {
        for message_type in [&b"ADT"[..], b"AD", b"adt"] {
            for number in [0, 1, MINUS_ONE] {
                for length in 30..52 {
                    let mut buffers = [vec![7; length], vec![7; length]];
                    let [library, model] = &mut buffers;
                    let mut reports = [[7; 2]; 2];
                    let [first, second] = &mut reports;
                    let numbers = [
                        ends_ffi::control_block(&settings, message_type, number, library, 1, first),
                        model_side::control_block(
                            &settings,
                            message_type,
                            number,
                            model,
                            1,
                            second,
                        ),
                    ];
                    assert_eq!(numbers[0], numbers[1], "{settings:?}, {number}");
                    assert!(buffers[0] == buffers[1] && reports[0] == reports[1]);
                }
            }
        }
    }
}
