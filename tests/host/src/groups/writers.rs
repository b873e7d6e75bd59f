//! The writers: what they write, what they refuse in which order, and every start.

use crate::compare::{Compare, Outcome, WriteCall};
use crate::make;
use host::model::{Layer, Settings};

const DATA: u64 = b'D' as u64;
const NAK: u64 = b'N' as u64;

/// Good blocks of all settings at random starts; what is written reads back.
pub fn writer(compare: &mut Compare) -> Outcome {
    for _ in 0..40_000 {
        let settings = make::settings(&mut compare.random);
        let length = make::length(&mut compare.random, &settings);
        let data = make::data(&mut compare.random, length);
        at_random_start(compare, &settings, DATA, &data)?;
        if settings.layer == Layer::Hybrid {
            let reason = [compare.random.pick(b"CXBG")];
            at_random_start(compare, &settings, NAK, &reason)?;
        }
    }
    for limit in [99_993, 99_994] {
        for length in [9_994, 9_995, 99_992, 99_993, 99_994, 99_995] {
            let data = make::data(&mut compare.random, length);
            let hybrid = make::hybrid_settings(&mut compare.random, limit);
            at_random_start(compare, &hybrid, DATA, &data)?;
            at_random_start(compare, &Settings::minimal(limit), DATA, &data)?;
        }
    }
    Ok(())
}

fn at_random_start(
    compare: &mut Compare,
    settings: &Settings,
    block_type: u64,
    content: &[u8],
) -> Outcome {
    let start = compare.random.below(20);
    let behind = compare.random.below(20);
    let need = content.len() + settings.overhead();
    let buffer = compare.random.bytes(start + need + behind);
    let report_words = 2 + compare.random.below(3);
    compare.write_call(&WriteCall {
        settings: *settings,
        block_type,
        content,
        buffer: &buffer,
        start,
        report_words,
    })
}

/// Wrong types, wrong NAK data, forbidden bytes and data over the limit, in all mixtures.
pub fn writer_refusals(compare: &mut Compare) -> Outcome {
    for byte in 0..=255 {
        let settings = make::settings(&mut compare.random);
        at_random_start(compare, &settings, NAK, &[byte])?;
        at_random_start(compare, &settings, DATA, &[byte])?;
        at_random_start(compare, &settings, byte.into(), b"C")?;
        at_random_start(compare, &settings, u64::from(byte) << 8, b"C")?;
        at_random_start(compare, &settings, (u64::from(byte) << 8) + DATA, b"A")?;
        at_random_start(compare, &settings, (u64::from(byte) << 56) + NAK, b"C")?;
        for offset in 0..6 {
            let mut data = b"ABCDEF".to_vec();
            data[offset] = byte;
            at_random_start(compare, &settings, DATA, &data)?;
        }
    }
    for _ in 0..60_000 {
        let limit = compare.random.between(1, 12) as u64;
        let settings = match compare.random.below(3) {
            0 => Settings::minimal(limit),
            _ => make::hybrid_settings(&mut compare.random, limit),
        };
        let length = compare.random.below(15);
        let mut data = make::data(&mut compare.random, length);
        for _ in 0..compare.random.below(3) {
            if length > 0 {
                let offset = compare.random.below(length);
                data[offset] = make::delimiter(&mut compare.random);
            }
        }
        let any = compare.random.draw();
        let types = [DATA, DATA, NAK, 0, b'd'.into(), DATA + (1 << 32), any];
        let block_type = compare.random.pick(&types);
        at_random_start(compare, &settings, block_type, &data)?;
    }
    Ok(())
}

/// Every start from 0 to behind the end of the buffer, and starts near 2^64.
pub fn writer_starts(compare: &mut Compare) -> Outcome {
    let contents: [&[u8]; 5] = [b"", b"A", b"A\rzz", b"ABCDEF", b"A\x01"];
    for limit in [1, 4, 5] {
        for content in contents {
            let hybrid = make::hybrid_settings(&mut compare.random, limit);
            for settings in [hybrid, Settings::minimal(limit)] {
                for size in 0..40 {
                    every_start(compare, &settings, content, size)?;
                }
            }
        }
    }
    Ok(())
}

fn every_start(compare: &mut Compare, settings: &Settings, content: &[u8], size: usize) -> Outcome {
    let need = content.len() + settings.overhead();
    let mut starts: Vec<usize> = (0..=size + 2).collect();
    starts.extend([
        usize::MAX,
        usize::MAX - need,
        usize::MAX - need + 1,
        1 << 63,
        1 << 32,
    ]);
    starts.extend((0..=20).map(|less| usize::MAX - less));
    for start in starts {
        let buffer = compare.random.bytes(size);
        compare.write_call(&WriteCall {
            settings: *settings,
            block_type: DATA,
            content,
            buffer: &buffer,
            start,
            report_words: 2,
        })?;
    }
    Ok(())
}
