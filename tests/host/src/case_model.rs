//! What the model, and what the library, makes of a call of tests/cases.

use crate::case_text::{Answer, Call};
use crate::compare::{expected_read, expected_write, ReadCall, WriteCall, GUARD_BYTE, GUARD_WORD};
use crate::guarded::{same, Guarded};
use crate::library;
use host::field_model::{Fields, NEXT_WORDS};
use host::master_model::{self, MasterAct, MasterActed, MASTER_WORDS};
use host::message_model::{self, Memory, Written};
use host::model::{self, Settings};
use host::receiver_model::{self, Incoming, ReceiverAct, RECEIVER_WORDS};
use host::sender_model::{self, Act};
use host::station_model::{self, Lengths, Unit, STATION_WORDS};
use host::{ends_ffi, ffi, master_ffi, station_ffi};

fn settings(call: &Call) -> Settings {
    if call.function.starts_with("hybrid") {
        let (start, end) = (call.number("start_block"), call.number("end_block"));
        Settings::hybrid(start, end, call.number("data_limit"))
    } else {
        Settings::minimal(call.number("data_limit"))
    }
}

/// The function's name without the layer.
fn of_layer(call: &Call) -> &str {
    let name = call.function.as_str();
    let bare = name.strip_prefix("hybrid_");
    bare.or(name.strip_prefix("minimal_")).unwrap_or(name)
}

fn start(call: &Call) -> usize {
    call.number("start") as usize
}

/// A minimal block has no type.
fn block_type(call: &Call) -> u64 {
    match call.function.as_str() {
        "hybrid_write" => call.number("type"),
        _ => 0,
    }
}

fn memory(call: &Call) -> Memory {
    Memory {
        buffer_length: call.writable.buffer.len(),
        start: start(call),
        report_words: call.writable.words.len(),
    }
}

fn incoming(call: &Call) -> Incoming<'_> {
    Incoming {
        number: call.number("block_number"),
        block_type: call.number("block_type"),
        data: &call.read,
    }
}

fn receiver_act(call: &Call) -> Option<ReceiverAct<'_>> {
    Some(match call.function.as_str() {
        "receiver_decide" => ReceiverAct::Decide {
            application: call.number("application"),
            block_type: call.number("block_type"),
            data: &call.read,
        },
        "hybrid_answer" | "minimal_answer" => ReceiverAct::Report {
            settings: settings(call),
            stored: call.number("stored"),
        },
        "hybrid_nak" => ReceiverAct::Nak {
            settings: settings(call),
            number: call.number("block_number"),
        },
        _ => return None,
    })
}

/// Where a reply starts; a decision writes none.
fn reply_start(act: &ReceiverAct, call: &Call) -> usize {
    match act {
        ReceiverAct::Decide { .. } => 0,
        ReceiverAct::Report { .. } | ReceiverAct::Nak { .. } => start(call),
    }
}

fn sender_act(call: &Call) -> Option<Act<'_>> {
    Some(match call.function.as_str() {
        "sender_submit" => Act::Submit {
            limit: call.number("data_limit"),
            message: &call.read,
        },
        "sender_open" => Act::Open,
        "sender_ended" => Act::Ended,
        "sender_reset" => Act::Reset,
        "sender_timer" => Act::Timer {
            resends: call.number("resends"),
        },
        "sender_block" => Act::Block {
            resends: call.number("resends"),
            block: incoming(call),
        },
        _ => return None,
    })
}

fn station_unit(call: &Call) -> Option<Unit<'_>> {
    Some(match call.function.as_str() {
        "station_open" => Unit::Opened,
        "station_bad" => Unit::Bad,
        "station_enquiry" => Unit::Enquiry,
        "station_end" => Unit::End,
        "station_bare_enq" => Unit::BareEnq,
        "station_interrupt" => Unit::Interrupt,
        "station_block" => Unit::Block {
            number: call.number("number"),
            ending: call.number("ending"),
            text: &call.read,
        },
        _ => return None,
    })
}

fn master_act(call: &Call) -> Option<MasterAct> {
    Some(match call.function.as_str() {
        "master_open" => MasterAct::Open,
        "master_timer" => MasterAct::Timer,
        "master_close" => MasterAct::Close,
        "master_enquire" => MasterAct::Enquire,
        "master_may_receive" => MasterAct::MayReceive,
        "master_start" => MasterAct::Start {
            message_length: call.number("message_length"),
            block_size: call.number("block_size"),
        },
        "master_reply" => MasterAct::Reply {
            reply: call.number("reply"),
            number: call.number("number"),
        },
        _ => return None,
    })
}

/// An answer in the making: nothing changed yet.
fn answer(call: &Call, number: u64) -> Answer {
    Answer {
        number,
        writable: call.writable.clone(),
    }
}

/// The first words are these; or 2, where there are fewer than needed.
fn words_written(call: &Call, words: &[u64]) -> Answer {
    if call.writable.words.len() < words.len() {
        return answer(call, 2);
    }
    let mut then = answer(call, 0);
    then.writable.words[..words.len()].copy_from_slice(words);
    then
}

fn words_read(call: &Call, words: Option<&[u64]>) -> Answer {
    match words {
        _ if call.writable.words.len() < call.need[1] => answer(call, 2),
        Some(words) => words_written(call, words),
        None => answer(call, 9),
    }
}

fn bytes_written(call: &Call, bytes: &[u8]) -> Answer {
    let mut then = words_written(call, &[bytes.len() as u64, 0]);
    then.writable.buffer[start(call)..][..bytes.len()].copy_from_slice(bytes);
    then
}

fn message_written(call: &Call, written: &Written) -> Answer {
    match written {
        Written::Nothing(number) => answer(call, *number),
        Written::Refused(number, offset) => Answer {
            number: *number,
            ..words_written(call, &[0, *offset])
        },
        Written::Bytes(bytes) => bytes_written(call, bytes),
    }
}

fn checked(call: &Call) -> Answer {
    let settings = settings(call);
    if let Some(number) = model::check_refusal(&settings, call.writable.words.len()) {
        return answer(call, number);
    }
    let verdict = model::check(&settings, &call.read);
    let words = verdict.words(settings.data_offset() + 1, call.read.len());
    Answer {
        number: verdict.number,
        ..words_written(call, &words)
    }
}

fn read(call: &Call) -> Answer {
    let given = ReadCall {
        settings: settings(call),
        state: &call.writable.state,
        part: &call.read,
        buffer: &call.writable.buffer,
        verdict_words: call.writable.words.len(),
    };
    let expected = expected_read(&given, &call.writable.words);
    let mut then = answer(call, expected.number);
    then.writable.state = expected.state;
    then.writable.buffer = expected.buffer;
    then.writable.words = expected.words;
    then
}

fn written(call: &Call) -> Answer {
    let given = WriteCall {
        settings: settings(call),
        block_type: block_type(call),
        content: &call.read,
        buffer: &call.writable.buffer,
        start: start(call),
        report_words: call.writable.words.len(),
    };
    let expected = expected_write(&given, &call.writable.words);
    let mut then = answer(call, expected.number);
    then.writable.buffer = expected.buffer;
    then.writable.words = expected.words;
    then
}

fn receiver_acted(call: &Call, act: &ReceiverAct) -> Answer {
    let start = reply_start(act, call);
    let memory = Memory {
        buffer_length: call.writable.buffer.len(),
        start,
        report_words: call.writable.words.len(),
    };
    match receiver_model::act_on_words(act, &call.writable.state, &memory) {
        receiver_model::Acted::Refused(number) => answer(call, number),
        receiver_model::Acted::Done {
            state,
            report,
            reply,
        } => {
            let mut then = words_written(call, &report);
            if let Some(state) = state {
                then.writable.state[..RECEIVER_WORDS].copy_from_slice(&state);
            }
            if !reply.is_empty() {
                then.writable.buffer[start..][..reply.len()].copy_from_slice(&reply);
            }
            then
        }
    }
}

fn acted(call: &Call, act: &Act) -> Answer {
    match sender_model::act_on_words(act, &call.writable.state, call.writable.words.len()) {
        sender_model::Acted::Unchanged(number) => answer(call, number),
        sender_model::Acted::Reported(number, state, report) => {
            let mut then = words_written(call, &report);
            then.number = number;
            then.writable.state[..state.len()].copy_from_slice(&state);
            then
        }
    }
}

fn station_acted(call: &Call, unit: &Unit) -> Answer {
    let lengths = Lengths {
        buffer: call.writable.buffer.len(),
        report: call.writable.words.len(),
    };
    match station_model::act_on_words(unit, &call.writable.state, &lengths) {
        station_model::Acted::Refused(number) => answer(call, number),
        station_model::Acted::Done(state, report, offset) => {
            let mut then = words_written(call, &report);
            then.writable.state[..state.len()].copy_from_slice(&state);
            if let Some(offset) = offset {
                then.writable.buffer[offset..][..call.read.len()].copy_from_slice(&call.read);
            }
            then
        }
    }
}

fn master_acted(call: &Call, act: &MasterAct) -> Answer {
    match master_model::act_on_words(act, &call.writable.state, call.writable.words.len()) {
        MasterActed::Refused(number) => answer(call, number),
        MasterActed::Done(master, report) => {
            let mut then = words_written(call, &report.words());
            then.writable.state[..MASTER_WORDS].copy_from_slice(&master.words());
            then
        }
    }
}

fn control_block_written(call: &Call) -> Answer {
    let (settings, memory) = (settings(call), memory(call));
    match sender_model::control_block(&settings, &call.read, call.number("number"), &memory) {
        Ok(block) => bytes_written(call, &block),
        Err(number) => answer(call, number),
    }
}

fn message_modelled(call: &Call) -> Option<Answer> {
    let bytes = &call.read;
    Some(match call.function.as_str() {
        "header_read" => {
            let words = message_model::header(bytes).map(|header| header.words());
            words_read(call, words.as_ref().map(|words| &words[..]))
        }
        "answer_read" => {
            let words = message_model::answer(bytes).map(|answer| answer.words());
            words_read(call, words.as_ref().map(|words| &words[..]))
        }
        "field_next" => {
            let next: [u64; NEXT_WORDS] = Fields::new(bytes).next(call.number("position") as usize);
            words_written(call, &next)
        }
        "answer_write" => {
            let (code, number) = (call.number("code"), call.number("number"));
            let written = message_model::answer_written(bytes, code, number, &memory(call));
            message_written(call, &written)
        }
        "control_write" => {
            let number = call.number("number");
            let written = message_model::control_written(bytes, number, &memory(call));
            message_written(call, &written)
        }
        _ => return None,
    })
}

/// What the model answers, and what it leaves.
pub fn modelled(call: &Call) -> Answer {
    if let Some(act) = receiver_act(call) {
        return receiver_acted(call, &act);
    }
    if let Some(act) = sender_act(call) {
        return acted(call, &act);
    }
    if let Some(unit) = station_unit(call) {
        return station_acted(call, &unit);
    }
    if let Some(act) = master_act(call) {
        return master_acted(call, &act);
    }
    if let Some(answer) = message_modelled(call) {
        return answer;
    }
    match of_layer(call) {
        "reader_fresh" => words_written(call, &[0; 4]),
        "receiver_fresh" => words_written(call, &[0; RECEIVER_WORDS]),
        "station_fresh" => words_written(call, &[0; STATION_WORDS]),
        "master_fresh" => words_written(call, &[0; MASTER_WORDS]),
        "sender_fresh" => {
            match sender_model::fresh(call.number("first"), call.writable.words.len()) {
                Ok(words) => words_written(call, &words),
                Err(number) => answer(call, number),
            }
        }
        "read" => read(call),
        "check" => checked(call),
        "write" => written(call),
        "control_block" => control_block_written(call),
        other => panic!("no model of {other}"),
    }
}

/// The library's functions for messages.
fn message_number(call: &Call, buffer: &mut [u8], words: &mut [u64]) -> Option<u64> {
    let bytes = &call.read;
    Some(match call.function.as_str() {
        "header_read" => ffi::header_read(bytes, words),
        "answer_read" => ffi::answer_read(bytes, words),
        "field_next" => ffi::field_next(bytes, call.number("position") as usize, words),
        "answer_write" => {
            let (code, number) = (call.number("code"), call.number("number"));
            ffi::answer_write(bytes, code, number, buffer, start(call), words)
        }
        "control_write" => {
            ffi::control_write(bytes, call.number("number"), buffer, start(call), words)
        }
        _ => return None,
    })
}

/// The library's functions for a first state.
fn fresh_number(call: &Call, words: &mut [u64]) -> Option<u64> {
    Some(match call.function.as_str() {
        "reader_fresh" => ffi::reader_fresh(words),
        "receiver_fresh" => ends_ffi::receiver_fresh(words),
        "station_fresh" => station_ffi::station_fresh(words),
        "master_fresh" => master_ffi::master_fresh(words),
        "sender_fresh" => ends_ffi::sender_fresh(call.number("first"), words),
        _ => return None,
    })
}

/// The library's functions for the acts of the receiver, of the sender and of the two stations.
fn act_number(call: &Call, buffer: &mut [u8], state: &mut [u64], words: &mut [u64]) -> Option<u64> {
    if let Some(act) = receiver_act(call) {
        let start = reply_start(&act, call);
        return Some(ends_ffi::receiver_act(&act, state, buffer, start, words));
    }
    if let Some(act) = sender_act(call) {
        return Some(ends_ffi::sender_act(&act, state, words));
    }
    if let Some(unit) = station_unit(call) {
        return Some(station_ffi::station_act(&unit, buffer, state, words));
    }
    let act = master_act(call)?;
    Some(master_ffi::master_act(&act, state, words))
}

/// What the library answers.
fn library_number(call: &Call, buffer: &mut [u8], state: &mut [u64], words: &mut [u64]) -> u64 {
    let number = act_number(call, buffer, state, words)
        .or_else(|| fresh_number(call, words))
        .or_else(|| message_number(call, buffer, words));
    if let Some(number) = number {
        return number;
    }
    let bytes = &call.read;
    match of_layer(call) {
        "read" => library::read(&settings(call), state, bytes, buffer, words),
        "check" => library::check(&settings(call), bytes, words),
        "write" => {
            let (link, block_type) = (settings(call), block_type(call));
            library::write(&link, block_type, bytes, buffer, start(call), words)
        }
        "control_block" => {
            let (link, number) = (settings(call), call.number("number"));
            ends_ffi::control_block(&link, bytes, number, buffer, start(call), words)
        }
        other => panic!("{other} is not called"),
    }
}

/// The library answers this, and leaves this.
pub fn library_gives(call: &Call, expected: &Answer) -> Result<(), String> {
    let given = call.clone();
    let mut buffer = Guarded::new(&call.writable.buffer, GUARD_BYTE);
    let mut state = Guarded::new(&call.writable.state, GUARD_WORD);
    let mut words = Guarded::new(&call.writable.words, GUARD_WORD);
    let number = library_number(
        &given,
        buffer.content_mut(),
        state.content_mut(),
        words.content_mut(),
    );
    same("number", &[number], &[expected.number])?;
    buffer.compare("buffer", &expected.writable.buffer)?;
    state.compare("state", &expected.writable.state)?;
    words.compare("words", &expected.writable.words)?;
    same("bytes read", &given.read, &call.read)
}
