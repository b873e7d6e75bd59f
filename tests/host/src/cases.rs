//! Runs the cases of tests/cases: what a line says that a call answers and leaves is what the model
//! says, and what the library does.

use crate::case_model::{library_gives, modelled};
use crate::case_text::{each_call, Answer, Call, Stream, PAINTED_BYTE};
use crate::compare::{Compare, Outcome};
use crate::guarded::same;
use host::model::{self, Settings};

/// The files, in the order of the layers.
pub const FILES: [&str; 8] = [
    "blocks", "messages", "fields", "receiver", "sender", "control", "station", "master",
];
const FOLDER: &str = concat!(env!("CARGO_MANIFEST_DIR"), "/../cases");
const MORE_WORDS: usize = 3;
const MORE_WORD: u64 = 0xDDDD_DDDD_DDDD_DDDD;

/// A file of that name in tests/cases.
pub fn file(compare: &mut Compare, name: &str) -> Outcome {
    file_at(compare, &format!("{FOLDER}/{name}.txt"))
}

/// Nothing lies in the folder that is not run.
pub fn every_file(_: &mut Compare) -> Outcome {
    let entries = std::fs::read_dir(FOLDER).map_err(|why| why.to_string())?;
    let mut found = Vec::new();
    for entry in entries {
        let name = entry.map_err(|why| why.to_string())?.file_name();
        found.push(name.to_string_lossy().into_owned());
    }
    found.sort();
    let mut expected: Vec<String> = FILES.iter().map(|name| format!("{name}.txt")).collect();
    expected.push("README.md".to_string());
    expected.sort();
    same("files of tests/cases", &found, &expected)
}

pub fn file_at(compare: &mut Compare, path: &str) -> Outcome {
    let text = std::fs::read_to_string(path).map_err(|why| format!("{path}: {why}"))?;
    if !text.ends_with('\n') {
        return Err(format!("{path}: its last line has no end"));
    }
    let mut cases_of_test = None;
    let mut cases = 0;
    for (index, line) in text.lines().enumerate() {
        let position = || format!("{path}:{}", index + 1);
        if line.is_empty() || line.starts_with('#') {
            continue;
        }
        if line.starts_with("== ") {
            if cases_of_test == Some(0) {
                return Err(format!(
                    "{}: a test without a case before this one",
                    position()
                ));
            }
            cases_of_test = Some(0);
            continue;
        }
        let Some(count) = &mut cases_of_test else {
            return Err(format!("{}: a case without a test", position()));
        };
        *count += 1;
        cases += 1;
        run_line(compare, line).map_err(|why| format!("{}: {why}", position()))?;
    }
    if cases == 0 || cases_of_test == Some(0) {
        return Err(format!("{path}: without a case, or at its end"));
    }
    Ok(())
}

fn run_line(compare: &mut Compare, line: &str) -> Outcome {
    let mut calls = 0;
    let mut streams = Vec::new();
    each_call(
        line,
        |call, answer| run_call(call, answer, &mut calls),
        |stream| {
            streams.push(stream_calls(stream)?);
            Ok(())
        },
    )?;
    compare.cases += calls;
    for (settings, input) in streams {
        parts_of_every_size(compare, &settings, &input)?;
    }
    Ok(())
}

/// The line, the model and the library say the same.
fn all_agree(call: &Call, expected: &Answer, calls: &mut u64) -> Outcome {
    *calls += 1;
    let model = modelled(call);
    if model != *expected {
        return Err(format!("the model gives {model:?}, not {expected:?}"));
    }
    library_gives(call, expected).map_err(|why| format!("the library: {why}; {call:?}"))
}

/// The call as it is; with words more than needed, which do not change; and with fewer: 2, or 1 where
/// it was 1, and nothing changes.
fn run_call(call: &Call, expected: &Answer, calls: &mut u64) -> Outcome {
    all_agree(call, expected, calls)?;
    let most = call.need[0].max(call.need[1]);
    for more in (1..=MORE_WORDS).take_while(|_| expected.number != 2) {
        let (mut given, mut then) = (call.clone(), expected.clone());
        for writable in [&mut given.writable, &mut then.writable] {
            if call.need[0] > 0 {
                writable
                    .state
                    .extend([MORE_WORD; MORE_WORDS].iter().take(more));
            }
            writable
                .words
                .extend([MORE_WORD; MORE_WORDS].iter().take(more));
        }
        all_agree(&given, &then, calls)?;
    }
    for words in 0..most {
        for (of_state, of_words) in [(true, false), (false, true), (true, true)] {
            fewer_words(call, expected, words, (of_state, of_words), calls)?;
        }
    }
    Ok(())
}

fn fewer_words(
    call: &Call,
    expected: &Answer,
    words: usize,
    (of_state, of_words): (bool, bool),
    calls: &mut u64,
) -> Outcome {
    let fewer_of_state = of_state && words < call.need[0];
    let fewer_of_words = of_words && words < call.need[1];
    if !fewer_of_state && !fewer_of_words {
        return Ok(());
    }
    let mut given = call.clone();
    if fewer_of_state {
        given.writable.state.truncate(words);
    }
    if fewer_of_words {
        given.writable.words.truncate(words);
    }
    let refused = Answer {
        number: if expected.number == 1 { 1 } else { 2 },
        writable: given.writable.clone(),
    };
    all_agree(&given, &refused, calls)
}

/// The model gives the stream's verdicts, and its state and buffer at the end.
fn stream_calls(stream: &Stream) -> Result<(Settings, Vec<u8>), String> {
    let settings = match stream.numbers[..] {
        [start, end, limit] if stream.hybrid => Settings::hybrid(start, end, limit),
        [limit] => Settings::minimal(limit),
        _ => return Err("not the settings of a stream".to_string()),
    };
    if settings.refused() || stream.buffer.len() > settings.fits() {
        return Err("settings that are refused, or too short for the buffer".to_string());
    }
    let input = &stream.input;
    let blocks = model::blocks(&settings, input);
    let found = blocks.iter().filter_map(|block| block.verdict.as_ref());
    let words = |verdict: &model::Verdict| verdict.words(settings.data_offset(), verdict.at + 1);
    let verdicts: Vec<[u64; 8]> = found.map(words).collect();
    same("the model's verdicts", &verdicts, &stream.verdicts)?;
    let state = model::state_after(&settings, &blocks, input.len());
    same("the model's state", &state[..], &stream.state)?;
    let mut expected = vec![PAINTED_BYTE; settings.fits()];
    let mut buffer = expected.clone();
    model::fill_buffer(&settings, input, &blocks, 0..input.len(), &mut buffer);
    expected[..stream.buffer.len()].copy_from_slice(&stream.buffer);
    same("the model's buffer", &buffer, &expected)?;
    Ok((settings, input.clone()))
}

/// The library reads the stream as the model does, call by call, whatever the parts.
fn parts_of_every_size(compare: &mut Compare, settings: &Settings, input: &[u8]) -> Outcome {
    for size in 1..=input.len() {
        let part_ends: Vec<usize> = (size..input.len()).step_by(size).collect();
        compare.cases += 1;
        compare.stream(settings, input, &part_ends)?;
    }
    compare.stream_all_ways(settings, input)
}
