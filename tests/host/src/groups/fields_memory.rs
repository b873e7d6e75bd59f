//! The reader over a message at the C boundary: too few words, and memory at the edge of what may be
//! touched.

use super::memory::Pages;
use crate::compare::{Compare, Outcome};
use crate::compare_fields::FAR;
use crate::guarded::same;
use crate::library;
use crate::make_messages::{self, ANSWER_17};
use host::ffi;
use host::field_model::{Fields, NEXT_WORDS};

/// Too few words are 2 and nothing changes, whatever message and position are; more than needed stay
/// as they were.
pub fn field_words(compare: &mut Compare) -> Outcome {
    let mut messages: Vec<Vec<u8>> = [&b""[..], b"|", b"\r", b"x", b"x|\r", ANSWER_17]
        .map(<[u8]>::to_vec)
        .into();
    for _ in 0..100 {
        messages.push(make_messages::pieces(&mut compare.random).bytes());
    }
    for message in &messages {
        let inside = [0, 1, 3, message.len() / 2, message.len(), message.len() + 1];
        for position in inside.into_iter().chain(FAR) {
            for words in 0..NEXT_WORDS + 5 {
                compare.field_with(message, position, words)?;
            }
        }
    }
    Ok(())
}

/// One set of pages for the message, and one for the words.
struct GuardPages {
    text: Pages,
    words: Pages,
}

/// Messages without any delimiter, which are searched to their end, ones with a delimiter as their
/// last byte, and messages of random fields, with all memory at the edge of what may be touched.
pub fn field_guard_pages(compare: &mut Compare) -> Outcome {
    let mut guarded = GuardPages {
        text: Pages::new(1),
        words: Pages::new(1),
    };
    for length in (0..140).chain([4_095, 4_096]) {
        for last in *b"A|\r\x00" {
            let mut message = vec![b'A'; length];
            if let Some(byte) = message.last_mut() {
                *byte = last;
            }
            guarded_walk(compare, &mut guarded, &message, length < 140)?;
        }
    }
    for _ in 0..3_000 {
        let mut message = make_messages::pieces(&mut compare.random).bytes();
        message.truncate(compare.random.below(message.len() + 1));
        guarded_walk(compare, &mut guarded, &message, false)?;
    }
    Ok(())
}

/// Both ends of the pages; all positions, or those that a walk from the start comes to.
fn guarded_walk(
    compare: &mut Compare,
    guarded: &mut GuardPages,
    message: &[u8],
    everywhere: bool,
) -> Outcome {
    let fields = Fields::new(message);
    for at_end in [true, false] {
        let text = guarded.text.bytes(message.len(), at_end);
        text.copy_from_slice(message);
        let mut position = 0;
        while position < message.len() + 3 {
            let words = guarded.words.words(NEXT_WORDS, at_end);
            words.fill(77);
            let answer = ffi::field_next(text, position, words);
            let next = fields.next(position);
            compare.fields.calls += 1;
            compare.fields.add(&next);
            same("answer", &[answer], &[0])
                .and_then(|()| same("words", words, &next))
                .map_err(|why| format!("position {position}: {why}; {}", library::text(message)))?;
            let step = if everywhere { 0 } else { next[4] as usize };
            position = step.max(position + 1);
        }
    }
    Ok(())
}
