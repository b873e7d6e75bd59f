//! Reading calls that start from any words whatever.

use crate::compare::{Compare, Outcome, ReadCall};
use crate::guarded::same;
use crate::library;
use crate::make;
use host::model::{self, Settings};

/// A length that is often near what fits, or absurd.
fn body_length(compare: &mut Compare, settings: &Settings) -> u64 {
    let random = &mut compare.random;
    let fits = settings.fits() as u64;
    match random.below(6) {
        0 => random.below(settings.fits() + 1) as u64,
        1 => fits.saturating_sub(random.below(3) as u64),
        2 => fits + random.below(4) as u64,
        3 => random.draw(),
        4 => random.pick(&[
            1 << 32,
            (1 << 32) + 5,
            u64::MAX,
            u64::MAX - 1,
            1 << 63,
            fits << 8,
        ]),
        _ => random.below(16) as u64,
    }
}

fn offset(compare: &mut Compare) -> u64 {
    let near = compare.random.below(100) as u64;
    let any = compare.random.draw();
    compare
        .random
        .pick(&[0, near, any, u64::MAX, u64::MAX - near])
}

fn position(compare: &mut Compare, part_length: usize) -> u64 {
    let last = u64::MAX - part_length as u64;
    let any = compare.random.draw();
    let near = compare.random.below(1000) as u64;
    let choices = [
        0,
        near,
        any,
        last,
        last - 1,
        last.saturating_add(1),
        u64::MAX,
    ];
    compare.random.pick(&choices)
}

fn phase(compare: &mut Compare) -> u64 {
    if compare.random.one_in(12) {
        let any = compare.random.draw();
        let wide = [
            3,
            4,
            255,
            256,
            257,
            258,
            1 << 32,
            (1 << 32) + 1,
            (1 << 32) + 2,
            u64::MAX,
        ];
        let wrong = compare.random.pick(&wide);
        return compare.random.pick(&[wrong, any]);
    }
    compare.random.below(3) as u64
}

/// Memory for a call: a state of 4 words and some, a buffer that fits and some.
fn call(
    compare: &mut Compare,
    settings: &Settings,
    words: [u64; 4],
    part: &[u8],
    held: &[u8],
) -> Outcome {
    let tail = compare.random.below(3);
    let mut state = words.to_vec();
    state.extend(compare.random.words(tail));
    let longer = compare.random.pick(&[0, 0, 1, 5, 30]);
    let mut buffer = held.to_vec();
    let missing = settings.fits().saturating_sub(held.len());
    buffer.extend(compare.random.bytes(missing + longer));
    let verdict_words = 8 + compare.random.below(3);
    compare.read_call(&ReadCall {
        settings: *settings,
        state: &state,
        part,
        buffer: &buffer,
        verdict_words,
    })
}

fn some_part(compare: &mut Compare, settings: &Settings) -> Vec<u8> {
    let random = &mut compare.random;
    match random.below(5) {
        0 => Vec::new(),
        1 => {
            let special = [settings.start as u8, settings.end as u8, 0x0D, b'A'];
            let length = random.between(1, 3);
            (0..length).map(|_| random.pick(&special)).collect()
        }
        2 => make::noise(random),
        _ => {
            let pieces = random.between(1, 2);
            let bytes = make::stream(random, settings, pieces);
            let from = random.below(bytes.len() + 1);
            bytes[from..].to_vec()
        }
    }
}

/// Random words, parts and buffers. Words 1 and 2 are not 0 between blocks only where the part
/// is empty or has an SB; `between_words` asks the rest.
pub fn any_state(compare: &mut Compare) -> Outcome {
    for _ in 0..150_000 {
        let settings = make::settings(&mut compare.random);
        let part = some_part(compare, &settings);
        let mut words = [
            phase(compare),
            body_length(compare, &settings),
            offset(compare),
            position(compare, part.len()),
        ];
        let skips = !part.is_empty() && !part.contains(&(settings.start as u8));
        if words[0] == 0 && skips {
            words[1] = 0;
            words[2] = 0;
        }
        call(compare, &settings, words, &part, &[])?;
    }
    Ok(())
}

/// A block half read by nobody: its bytes are put into the buffer, and the rest is the part.
pub fn held_blocks(compare: &mut Compare) -> Outcome {
    for _ in 0..80_000 {
        let settings = make::settings(&mut compare.random);
        let block = if compare.random.one_in(2) {
            make::good(&mut compare.random, &settings)
        } else {
            make::piece(&mut compare.random, &settings)
        };
        let Some(end) = block.iter().rposition(|&byte| byte == settings.end as u8) else {
            continue;
        };
        let body = &block[1.min(end)..end];
        let known = compare.random.below(body.len() + 1);
        let ended = known == body.len() && compare.random.one_in(2);
        let (phase, part) = if ended {
            (2, &block[end + 1..])
        } else {
            (1, &block[block.len().min(1 + known)..])
        };
        let mut length = known as u64;
        if compare.random.one_in(8) {
            length = (length + 2).saturating_sub(compare.random.below(5) as u64);
        }
        let words = [
            phase,
            length,
            offset(compare),
            position(compare, part.len()),
        ];
        call(compare, &settings, words, part, &body[..known])?;
    }
    Ok(())
}

/// Every length from 0 to two over what fits, and absurd ones, in phases 1 and 2, with every
/// short part.
pub fn lengths_in_state(compare: &mut Compare) -> Outcome {
    for limit in [1, 2, 12, 13, 20] {
        let hybrid = make::hybrid_settings(&mut compare.random, limit);
        for settings in [hybrid, Settings::minimal(limit)] {
            let mut lengths: Vec<u64> = (0..=settings.fits() as u64 + 3).collect();
            lengths.extend([1 << 32, (1 << 32) + 1, u64::MAX - 1, u64::MAX]);
            for length in lengths {
                for phase in [1, 2] {
                    with_length(compare, &settings, phase, length)?;
                }
            }
        }
    }
    Ok(())
}

fn with_length(compare: &mut Compare, settings: &Settings, phase: u64, length: u64) -> Outcome {
    let (start, end) = (settings.start as u8, settings.end as u8);
    let tails: [&[u8]; 8] = [
        &[],
        &[start],
        &[end],
        &[0x0D],
        b"x",
        &[end, 0x0D],
        &[end, start],
        &[end, b'x'],
    ];
    for fill in 0..5 {
        let filling = make::data(&mut compare.random, fill);
        for tail in tails {
            let part = [&filling[..], tail].concat();
            let words = [
                phase,
                length,
                offset(compare),
                position(compare, part.len()),
            ];
            let held = make::data(&mut compare.random, settings.fits());
            call(compare, settings, words, &part, &held)?;
        }
    }
    Ok(())
}

/// Positions at which the stream's offsets end, with real blocks.
pub fn position_limit(compare: &mut Compare) -> Outcome {
    for _ in 0..20_000 {
        let settings = make::settings(&mut compare.random);
        let input = make::stream(&mut compare.random, &settings, 2);
        let last = u64::MAX - input.len() as u64;
        let words = [0, 0, 0, last];
        call(compare, &settings, words, &input, &[])?;
        let words = [0, 0, 0, last.saturating_add(1)];
        call(compare, &settings, words, &input, &[])?;
        let words = [0, 0, 0, u64::MAX];
        call(compare, &settings, words, &input, &[])?;
        call(compare, &settings, words, &[], &[])?;
        self_check(&settings, &input, compare)?;
    }
    Ok(())
}

/// The model's two definitions agree: a stream resumed at each verdict and at random offsets has
/// the states and the buffer of the whole input. Calls nothing of the library.
fn self_check(settings: &Settings, input: &[u8], compare: &mut Compare) -> Outcome {
    let blocks = model::blocks(settings, input);
    let mut buffer = vec![0; settings.fits()];
    let mut whole = buffer.clone();
    let mut words = [0; 4];
    let mut from = 0;
    while from < input.len() {
        let to = compare.random.between(from, input.len());
        let resumed = model::resume(settings, words, &input[from..to], &mut buffer);
        words = resumed.state;
        from += resumed.used;
        let expected = model::state_after(settings, &blocks, from);
        same("the model's state", &words, &expected)
            .map_err(|why| format!("{why}; input {}", library::hex(input)))?;
    }
    model::fill_buffer(settings, input, &blocks, 0..input.len(), &mut whole);
    same("the model's buffer", &buffer, &whole)
        .map_err(|why| format!("{why}; input {}", library::hex(input)))
}

/// Between blocks with words 1 and 2 that no run leaves there, and bytes that are skipped.
pub fn between_words(compare: &mut Compare) -> Outcome {
    for _ in 0..20_000 {
        let settings = make::settings(&mut compare.random);
        let mut part = make::noise(&mut compare.random);
        part.retain(|&byte| byte != settings.start as u8);
        let length = body_length(compare, &settings);
        let words = [0, length, offset(compare), position(compare, part.len())];
        call(compare, &settings, words, &part, &[])?;
    }
    Ok(())
}

/// A fresh state of any number of words.
pub fn fresh_state(compare: &mut Compare) -> Outcome {
    for count in 0..12 {
        for _ in 0..200 {
            compare.inputs += 1;
            let before = compare.random.words(count);
            let mut state = before.clone();
            let number = host::ffi::reader_fresh(&mut state);
            let mut expected = before;
            if count >= 4 {
                expected[..4].fill(0);
            }
            if number != if count < 4 { 2 } else { 0 } {
                return Err(format!("{count} words: answered {number}"));
            }
            same("state", &state, &expected).map_err(|why| format!("{count} words: {why}"))?;
        }
    }
    Ok(())
}
