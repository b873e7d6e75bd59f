//! Streams: every short one over a small alphabet, random ones in random parts, long ones, and
//! blocks that don't end.

use crate::compare::{Compare, Outcome};
use crate::make::{self, CARRIAGE_RETURN};
use host::model::Settings;

/// Gives each sequence of pieces with up to so many of them to the reader and to the check.
fn every_sequence(
    compare: &mut Compare,
    settings: &Settings,
    pieces: &[Vec<u8>],
    most: usize,
) -> Outcome {
    let mut indices: Vec<usize> = Vec::new();
    loop {
        let input: Vec<u8> = indices
            .iter()
            .flat_map(|&index| pieces[index].clone())
            .collect();
        compare.check(settings, &input)?;
        let part_end = compare.random.below(input.len() + 1);
        compare.stream(settings, &input, &[part_end])?;
        let mut position = 0;
        while position < indices.len() && indices[position] + 1 == pieces.len() {
            indices[position] = 0;
            position += 1;
        }
        if position < indices.len() {
            indices[position] += 1;
        } else if indices.len() < most {
            indices.push(0);
        } else {
            return Ok(());
        }
    }
}

pub fn every_short_stream(compare: &mut Compare) -> Outcome {
    let minimal: Vec<Vec<u8>> = [0x0B, 0x1C, CARRIAGE_RETURN, b'A', 0x01]
        .iter()
        .map(|&byte| vec![byte])
        .collect();
    for limit in [1, 2, 3] {
        every_sequence(compare, &Settings::minimal(limit), &minimal, 6)?;
    }
    for (start, end) in [(0x0B, 0x1C), (0x80, 0x7F)] {
        let settings = Settings::hybrid(start, end, 2);
        let inner = |block_type: u8, data: &[u8]| {
            let block = make::block(&settings, block_type, data);
            block[1..block.len() - 2].to_vec()
        };
        let hybrid = vec![
            vec![settings.start as u8],
            vec![settings.end as u8],
            vec![CARRIAGE_RETURN],
            inner(b'D', b"A"),
            inner(b'N', b"C"),
            inner(b'D', b"ABC"),
            b"x".to_vec(),
        ];
        every_sequence(compare, &settings, &hybrid, 5)?;
    }
    Ok(())
}

/// Random settings, pieces and parts.
pub fn streams_in_parts(compare: &mut Compare) -> Outcome {
    for _ in 0..60_000 {
        let settings = make::settings(&mut compare.random);
        let pieces = compare.random.between(1, 7);
        let input = make::stream(&mut compare.random, &settings, pieces);
        compare.stream_all_ways(&settings, &input)?;
    }
    Ok(())
}

/// A hundred pieces and more, in parts of up to a thousand bytes, and larger limits.
pub fn streams_of_many_blocks(compare: &mut Compare) -> Outcome {
    for round in 0..300 {
        let limit = compare.random.pick(&[1, 12, 128, 245, 700, 4_096]);
        let settings = if round % 3 == 0 {
            Settings::minimal(limit)
        } else {
            make::hybrid_settings(&mut compare.random, limit)
        };
        let pieces = compare.random.between(20, 100);
        let input = make::stream(&mut compare.random, &settings, pieces);
        let mut part_ends = Vec::new();
        let mut part_end = compare.random.below(1000);
        while part_end < input.len() {
            part_ends.push(part_end);
            part_end += compare.random.below(1000);
        }
        compare.stream(&settings, &input, &part_ends)?;
    }
    Ok(())
}

/// Blocks of thousands of bytes, good or with one byte changed, between others.
pub fn large_blocks(compare: &mut Compare) -> Outcome {
    for round in 0..600 {
        let limit = compare.random.pick(&[4_000, 4_096, 16_384, 60_000, 99_994]);
        let settings = if round % 3 == 0 {
            Settings::minimal(limit)
        } else {
            make::hybrid_settings(&mut compare.random, limit)
        };
        let length = compare.random.between(900, limit as usize);
        let data = make::data(&mut compare.random, length);
        let mut block = make::block(&settings, b'D', &data);
        if compare.random.one_in(2) {
            let offset = compare.random.below(block.len());
            block[offset] = compare.random.byte();
        }
        compare.check(&settings, &block)?;
        let mut stream = make::piece(&mut compare.random, &settings);
        stream.extend(block);
        stream.extend(make::good(&mut compare.random, &settings));
        let part_ends = compare.random_part_ends(stream.len());
        compare.stream(&settings, &stream, &part_ends)?;
    }
    Ok(())
}

/// Blocks far over the limit, and what may follow: nothing, SB, EB, EB CR, EB SB, EB x.
pub fn blocks_without_end(compare: &mut Compare) -> Outcome {
    for limit in [1, 2, 12, 13, 128, 4_096, 99_993, 99_994] {
        let hybrid = make::hybrid_settings(&mut compare.random, limit);
        for settings in [hybrid, Settings::minimal(limit)] {
            for extra in [0, 1, 2, 3, 255, 256, 257, 70_000] {
                let length = settings.fits() + extra;
                without_end(compare, &settings, length)?;
            }
        }
    }
    Ok(())
}

fn without_end(compare: &mut Compare, settings: &Settings, length: usize) -> Outcome {
    let (start, end) = (settings.start as u8, settings.end as u8);
    let mut open = vec![start];
    open.extend(make::data(&mut compare.random, length));
    let tails: [&[u8]; 5] = [
        &[],
        &[start],
        &[end],
        &[end, CARRIAGE_RETURN],
        &[end, start, end, b'x'],
    ];
    for tail in tails {
        let input = [&open[..], tail].concat();
        let part_ends = compare.random_part_ends(input.len());
        compare.stream(settings, &input, &part_ends)?;
        compare.check(settings, &input)?;
    }
    Ok(())
}
