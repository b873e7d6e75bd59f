//! Inputs against readers that take many bytes at a time: forbidden bytes at every offset, all
//! pairs of neighbours, and digits that only a careless sum takes for the right number.

use crate::compare::{Compare, Outcome, WriteCall};
use crate::make::{self, Fields};
use host::model::Settings;

const LENGTHS: [usize; 14] = [1, 7, 8, 15, 16, 17, 31, 32, 33, 63, 64, 65, 128, 129];

fn both_layers(compare: &mut Compare, limit: u64) -> [Settings; 2] {
    let hybrid = make::hybrid_settings(&mut compare.random, limit);
    [hybrid, Settings::minimal(limit)]
}

/// Reads the data as a block behind some noise, in one part and in some; checks and writes it.
fn data_everywhere(compare: &mut Compare, settings: &Settings, data: &[u8]) -> Outcome {
    let block = make::block(settings, b'D', data);
    compare.check(settings, &block)?;
    let noise = compare.random.below(20);
    let stream = [&vec![b' '; noise][..], &block[..]].concat();
    compare.stream(settings, &stream, &[])?;
    let part_ends = compare.random_part_ends(stream.len());
    compare.stream(settings, &stream, &part_ends)?;
    compare.write_call(&WriteCall {
        settings: *settings,
        block_type: u64::from(b'D'),
        content: data,
        buffer: &vec![0xEE; block.len() + noise + 2],
        start: noise,
        report_words: 2,
    })
}

/// One byte that is not plain data at every offset of data of many lengths, then several.
pub fn forbidden_bytes(compare: &mut Compare) -> Outcome {
    for length in LENGTHS {
        let [hybrid, minimal] = both_layers(compare, length as u64);
        for settings in [hybrid, minimal] {
            let delimiters = [settings.start as u8, settings.end as u8];
            let odd = [
                0x00, 0x09, 0x0A, 0x0C, 0x0E, 0x1F, 0x7F, 0x80, 0x8D, 0xA0, 0xFF,
            ];
            for offset in 0..length {
                for byte in odd.into_iter().chain(delimiters) {
                    let mut data = make::data(&mut compare.random, length);
                    data[offset] = byte;
                    data_everywhere(compare, &settings, &data)?;
                }
            }
        }
    }
    for _ in 0..30_000 {
        let settings = make::settings(&mut compare.random);
        let length = make::length(&mut compare.random, &settings);
        let mut data = make::data(&mut compare.random, length);
        for _ in 0..compare.random.between(1, 4) {
            if length > 0 {
                let offset = compare.random.below(length);
                data[offset] = make::forbidden(&mut compare.random, &settings);
            }
        }
        data_everywhere(compare, &settings, &data)?;
    }
    Ok(())
}

/// All pairs of bytes side by side in the data.
pub fn adjacent_pairs(compare: &mut Compare) -> Outcome {
    for pair in 0..=u16::MAX {
        for settings in [Settings::hybrid(0x0B, 0x1C, 24), Settings::minimal(24)] {
            let mut data = make::data(&mut compare.random, 24);
            let offset = compare.random.below(23);
            data[offset..offset + 2].copy_from_slice(&pair.to_be_bytes());
            let block = make::block(&settings, b'D', &data);
            compare.check(&settings, &block)?;
            compare.stream(&settings, &block, &[])?;
        }
        let settings = make::hybrid_settings(&mut compare.random, 24);
        let mut data = make::data(&mut compare.random, 24);
        let offset = compare.random.below(23);
        data[offset..offset + 2].copy_from_slice(&pair.to_be_bytes());
        data_everywhere(compare, &settings, &data)?;
    }
    Ok(())
}

/// Three bytes, not all of them digits, whose careless sum is the right checksum or 999 (or is
/// so but for a multiple of 256).
pub fn checksum_look_alikes(compare: &mut Compare) -> Outcome {
    for length in [0, 3, 40] {
        let settings = make::hybrid_settings(&mut compare.random, 40);
        let data = make::data(&mut compare.random, length);
        let good = Fields::new(&settings, b'D', &data);
        let sum = |digits: &[u8]| digits.iter().fold(0, |sum, digit| sum * 10 + *digit as i64);
        for target in [sum(&good.checksum), sum(b"999")] {
            for pair in 0..=u16::MAX {
                let [hundreds, tens] = pair.to_be_bytes();
                let rest = target - sum(&[hundreds, tens, 0]);
                let mut fields = good.clone();
                fields.checksum = vec![hundreds, tens, rest as u8];
                compare.check(&settings, &fields.bytes())?;
                if rest == rest & 0xFF {
                    compare.stream(&settings, &fields.bytes(), &[])?;
                }
            }
        }
    }
    Ok(())
}

/// Five bytes whose careless sum is the right count: one digit takes some tens of the next.
pub fn count_look_alikes(compare: &mut Compare) -> Outcome {
    for _ in 0..100_000 {
        let limit = compare.random.pick(&[12, 25, 120, 300, 1_200]);
        let settings = make::hybrid_settings(&mut compare.random, limit);
        let length = compare.random.below(limit as usize + 1);
        let data = make::data(&mut compare.random, length);
        let mut fields = Fields::new(&settings, b'D', &data);
        for _ in 0..compare.random.between(1, 3) {
            let offset = compare.random.below(4);
            let tens = compare.random.between(0, 24) as i64 - 5;
            let upper = fields.count[offset] as i64 - tens;
            let lower = fields.count[offset + 1] as i64 + 10 * tens;
            fields.count[offset] = upper as u8;
            fields.count[offset + 1] = lower as u8;
        }
        compare.check(&settings, &fields.bytes())?;
        compare.stream(&settings, &fields.bytes(), &[])?;
    }
    Ok(())
}
