//! Refusals 1, 2 and 11: when, in which order, and with nothing changed.

use crate::compare::{Compare, Outcome, ReadCall, WriteCall};
use crate::make;
use host::model::{Layer, Settings};

/// One call of each function with these settings, good or bad.
fn every_function(compare: &mut Compare, settings: &Settings) -> Outcome {
    let block = make::block(settings, b'D', b"A");
    let size = 140
        + if settings.limit < 100_000 {
            settings.limit as usize
        } else {
            0
        };
    let buffer = compare.random.bytes(size);
    compare.check(settings, &block)?;
    compare.read_call(&ReadCall {
        settings: *settings,
        state: &[0, 0, 0, 7],
        part: &block,
        buffer: &buffer,
        verdict_words: 9,
    })?;
    compare.write_call(&WriteCall {
        settings: *settings,
        block_type: u64::from(b'D'),
        content: b"A",
        buffer: &buffer,
        start: 3,
        report_words: 3,
    })
}

/// All pairs of bytes as SB and EB.
pub fn setting_pairs(compare: &mut Compare) -> Outcome {
    for start in 0..256 {
        for end in 0..256 {
            every_function(compare, &Settings::hybrid(start, end, 9))?;
        }
    }
    Ok(())
}

/// Numbers for SB and EB, most of them no byte.
const WIDE: [u64; 11] = [
    0x0B,
    0x1C,
    256,
    256 + 0x0B,
    256 + 0x1C,
    65_536 + 0x0B,
    (1 << 32) + 0x0B,
    (1 << 32) + 0x1C,
    1 << 63,
    u64::MAX,
    u64::MAX - 0xF4,
];

const LIMITS: [u64; 16] = [
    0,
    1,
    2,
    127,
    128,
    4_096,
    99_993,
    99_994,
    99_995,
    99_999,
    100_000,
    1 << 32,
    (1 << 32) + 1,
    1 << 63,
    u64::MAX - 11,
    u64::MAX,
];

/// Numbers that are no byte, and data limits at the ends of their range.
pub fn setting_numbers(compare: &mut Compare) -> Outcome {
    for start in WIDE {
        for end in WIDE {
            every_function(compare, &Settings::hybrid(start, end, 9))?;
        }
    }
    for limit in LIMITS {
        for _ in 0..20 {
            let hybrid = make::hybrid_settings(&mut compare.random, limit);
            every_function(compare, &hybrid)?;
            every_function(compare, &Settings::minimal(limit))?;
        }
        every_function(compare, &Settings::hybrid(0x0B, 0x0B, limit))?;
    }
    Ok(())
}

/// Every mixture of a wrong setting, too few words or bytes, and a state that applies to nothing.
pub fn refusal_order(compare: &mut Compare) -> Outcome {
    let settings = [
        Settings::hybrid(0x0B, 0x1C, 5),
        Settings::hybrid(0x0B, 0x1C, 0),
        Settings::hybrid(0x0D, 0x1C, 5),
        Settings::hybrid(0x0B, 0x0B, 5),
        Settings::minimal(5),
        Settings::minimal(99_995),
    ];
    for settings in settings {
        for state_words in 0..=6 {
            for verdict_words in 0..=10 {
                read_refusals(compare, &settings, state_words, verdict_words)?;
            }
        }
        for verdict_words in 0..=10 {
            let block = make::block(&settings, b'D', b"A");
            compare.check_with(&settings, &block, verdict_words)?;
            compare.check_with(&settings, b"", verdict_words)?;
        }
        write_refusals(compare, &settings)?;
    }
    Ok(())
}

fn read_refusals(
    compare: &mut Compare,
    settings: &Settings,
    state_words: usize,
    verdict_words: usize,
) -> Outcome {
    let block = make::block(settings, b'D', b"A");
    for size in [0, 1, 4, 5, 6, 16, 17, 18, 40] {
        for phase in [0, 1, 2, 3, 256, u64::MAX] {
            for position in [0, u64::MAX - 3, u64::MAX] {
                let mut state = vec![phase, 0, 0, position, 9, 9];
                state.truncate(state_words);
                for part in [&block[..], &block[..3], b""] {
                    let buffer = compare.random.bytes(size);
                    compare.read_call(&ReadCall {
                        settings: *settings,
                        state: &state,
                        part,
                        buffer: &buffer,
                        verdict_words,
                    })?;
                }
            }
        }
    }
    Ok(())
}

fn write_refusals(compare: &mut Compare, settings: &Settings) -> Outcome {
    let contents: [&[u8]; 7] = [
        b"",
        b"C",
        b"\x01",
        b"AB\x7F",
        b"ABCDE",
        b"ABCDEF",
        b"\x00BCDEF",
    ];
    let overhead = if settings.layer == Layer::Hybrid {
        15
    } else {
        3
    };
    for content in contents {
        for block_type in [b'D', b'N', b'X', 0] {
            for report_words in 0..=4 {
                for size in 0..=content.len() + overhead + 3 {
                    let buffer = compare.random.bytes(size);
                    let start = compare.random.pick(&[0, 0, 1, 2, 3, size, size + 1]);
                    compare.write_call(&WriteCall {
                        settings: *settings,
                        block_type: block_type.into(),
                        content,
                        buffer: &buffer,
                        start,
                        report_words,
                    })?;
                }
            }
        }
    }
    Ok(())
}
