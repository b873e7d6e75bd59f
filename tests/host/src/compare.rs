//! Each function here makes one or more calls of the library and compares the answer, and every
//! word and byte of the memory, with the model.

use crate::compare_fields::FieldCounts;
use crate::compare_master::MasterCounts;
use crate::compare_receiver::ReceiverCounts;
use crate::compare_station::StationCounts;
use crate::guarded::{same, Guarded};
use crate::library;
use host::model::{self, Block, Settings};
use host::prng::Random;

pub type Outcome = Result<(), String>;

pub const GUARD_WORD: u64 = 0x5A5A_A5A5_0FF0_F00F;
pub const GUARD_BYTE: u8 = 0xC3;

/// Draws random numbers for a group and counts what was compared: calls of the functions for
/// blocks, and messages that were read or written. Of the messages read, those with a header that
/// the model reads are counted too, and those with an answer. Acts are calls of the functions for
/// the receiver and the sender, the receiver's by kind too, and those on simulated links apart, with the
/// runs of such links; acts of stations and masters, acts on links of the two and runs of such links,
/// acts in walks of small links with the states found, calls of the field reader and calls of the cases
/// by hand are counted apart too.
pub struct Compare {
    pub random: Random,
    pub inputs: u64,
    pub messages: u64,
    pub headers: u64,
    pub answers: u64,
    pub acts: u64,
    pub link_acts: u64,
    pub link_runs: u64,
    pub kinds: Kinds,
    pub receiver: ReceiverCounts,
    pub station: StationCounts,
    pub master: MasterCounts,
    pub stations_acts: u64,
    pub stations_runs: u64,
    pub walk_acts: u64,
    pub walk_states: u64,
    pub fields: FieldCounts,
    pub cases: u64,
}

/// Acts by what every run promises: the receiver's by layer, the sender's by r (`RESENDS`), and those
/// of either on numbers near the ends of their range.
#[derive(Default)]
pub struct Kinds {
    pub hybrid: u64,
    pub minimal: u64,
    pub resends: [u64; 4],
    pub small: u64,
    pub large: u64,
}

/// The r that every run has.
pub const RESENDS: [u64; 4] = [0, 1, 3, 99];

/// One reading call, from any words.
#[derive(Clone, Copy)]
pub struct ReadCall<'a> {
    pub settings: Settings,
    pub state: &'a [u64],
    pub part: &'a [u8],
    pub buffer: &'a [u8],
    pub verdict_words: usize,
}

/// One writing call.
#[derive(Clone, Copy)]
pub struct WriteCall<'a> {
    pub settings: Settings,
    pub block_type: u64,
    pub content: &'a [u8],
    pub buffer: &'a [u8],
    pub start: usize,
    pub report_words: usize,
}

/// What a call must give: its number and the memory afterwards.
pub struct Expected {
    pub number: u64,
    pub state: Vec<u64>,
    pub buffer: Vec<u8>,
    pub words: Vec<u64>,
}

/// A reader in the middle of a stream, beside what its memory must be.
struct Reader {
    state: Guarded<u64>,
    buffer: Guarded<u8>,
    expected_state: Vec<u64>,
    expected_buffer: Vec<u8>,
    position: usize,
}

impl Reader {
    /// Brings the expected memory to where `count` bytes of the input have been read.
    fn expect(&mut self, settings: &Settings, input: &[u8], blocks: &[Block], count: usize) {
        let now = model::state_after(settings, blocks, count);
        self.expected_state[..4].copy_from_slice(&now);
        let read = self.position..count;
        model::fill_buffer(settings, input, blocks, read, &mut self.expected_buffer);
    }
}

pub fn same_number(found: u64, expected: u64) -> Outcome {
    if found == expected {
        Ok(())
    } else {
        Err(format!("answered {found}, expected {expected}"))
    }
}

fn no_verdict(used: usize) -> [u64; 8] {
    [0, 0, 0, 0, 0, 0, 0, used as u64]
}

impl Compare {
    pub fn new(seed: u64) -> Compare {
        Compare {
            random: Random::new(seed),
            inputs: 0,
            messages: 0,
            headers: 0,
            answers: 0,
            acts: 0,
            link_acts: 0,
            link_runs: 0,
            kinds: Kinds::default(),
            receiver: ReceiverCounts::default(),
            station: StationCounts::new(),
            master: MasterCounts::new(),
            stations_acts: 0,
            stations_runs: 0,
            walk_acts: 0,
            walk_states: 0,
            fields: FieldCounts::default(),
            cases: 0,
        }
    }

    /// Checks whole bytes, with a verdict of some more words than needed.
    pub fn check(&mut self, settings: &Settings, bytes: &[u8]) -> Outcome {
        let words = 8 + self.random.below(3);
        self.check_with(settings, bytes, words)
    }

    pub fn check_with(&mut self, settings: &Settings, bytes: &[u8], words: usize) -> Outcome {
        self.inputs += 1;
        let before = self.random.words(words);
        let mut verdict = Guarded::new(&before, GUARD_WORD);
        let found = library::check(settings, bytes, verdict.content_mut());
        let mut expected = before;
        let number = match model::check_refusal(settings, words) {
            Some(number) => number,
            None => {
                let answer = model::check(settings, bytes);
                let data_offset = settings.data_offset() + 1;
                expected[..8].copy_from_slice(&answer.words(data_offset, bytes.len()));
                answer.number
            }
        };
        same_number(found, number)
            .and_then(|()| verdict.compare("verdict", &expected))
            .map_err(|why| {
                let settings = library::settings_text(settings);
                format!(
                    "check, {settings}, {words} words: {why}; input {}",
                    library::hex(bytes)
                )
            })
    }

    /// One reading call from any state.
    pub fn read_call(&mut self, call: &ReadCall) -> Outcome {
        self.inputs += 1;
        let before = self.random.words(call.verdict_words);
        let expected = expected_read(call, &before);
        let mut state = Guarded::new(call.state, GUARD_WORD);
        let mut buffer = Guarded::new(call.buffer, GUARD_BYTE);
        let mut verdict = Guarded::new(&before, GUARD_WORD);
        let settings = call.settings;
        let found = library::read(
            &settings,
            state.content_mut(),
            call.part,
            buffer.content_mut(),
            verdict.content_mut(),
        );
        same_number(found, expected.number)
            .and_then(|()| verdict.compare("verdict", &expected.words))
            .and_then(|()| state.compare("state", &expected.state))
            .and_then(|()| buffer.compare("buffer", &expected.buffer))
            .map_err(|why| read_text(call, &why))
    }

    /// One writing call; what was written is then read back by the model and the library.
    pub fn write_call(&mut self, call: &WriteCall) -> Outcome {
        self.inputs += 1;
        let before = self.random.words(call.report_words);
        let expected = expected_write(call, &before);
        let mut buffer = Guarded::new(call.buffer, GUARD_BYTE);
        let mut report = Guarded::new(&before, GUARD_WORD);
        let settings = call.settings;
        let found = library::write(
            &settings,
            call.block_type,
            call.content,
            buffer.content_mut(),
            call.start,
            report.content_mut(),
        );
        same_number(found, expected.number)
            .and_then(|()| report.compare("report", &expected.words))
            .and_then(|()| buffer.compare("buffer", &expected.buffer))
            .map_err(|why| write_text(call, &why))?;
        if found == 0 {
            let end = call.start + report.content()[0] as usize;
            let block = buffer.content()[call.start..end].to_vec();
            self.reads_back(call, &block)?;
        }
        Ok(())
    }

    fn reads_back(&mut self, call: &WriteCall, block: &[u8]) -> Outcome {
        let verdict = model::check(&call.settings, block);
        same_number(verdict.number, 0)
            .and_then(|()| same("data read back", &verdict.data, call.content))
            .map_err(|why| write_text(call, &why))?;
        self.check(&call.settings, block)?;
        self.stream(&call.settings, block, &[])
    }

    /// Reads a stream in parts that end at the given offsets (in order, perhaps equal ones), and
    /// compares all memory after each call.
    pub fn stream(&mut self, settings: &Settings, input: &[u8], part_ends: &[usize]) -> Outcome {
        let blocks = model::blocks(settings, input);
        let given = input.to_vec();
        let mut reader = self.fresh_reader(settings)?;
        let mut from = 0;
        for &to in part_ends.iter().chain(&[input.len()]) {
            self.part(settings, &given, &blocks, &mut reader, from..to)
                .map_err(|why| {
                    let settings = library::settings_text(settings);
                    let hex = library::hex(input);
                    let position = reader.position;
                    format!(
                        "stream, {settings}, part ends {part_ends:?}, at {position}: {why}; \
                         input {hex}"
                    )
                })?;
            from = to;
        }
        if given != input {
            return Err(format!("the part changed; input {}", library::hex(input)));
        }
        Ok(())
    }

    /// The same in one part, in random parts, and (if short) byte by byte.
    pub fn stream_all_ways(&mut self, settings: &Settings, input: &[u8]) -> Outcome {
        self.stream(settings, input, &[])?;
        let part_ends = self.random_part_ends(input.len());
        self.stream(settings, input, &part_ends)?;
        if input.len() <= 64 && self.random.one_in(4) {
            let part_ends: Vec<usize> = (0..input.len()).collect();
            self.stream(settings, input, &part_ends)?;
        }
        Ok(())
    }

    pub fn random_part_ends(&mut self, length: usize) -> Vec<usize> {
        let count = self.random.below(6);
        let mut part_ends: Vec<usize> = (0..count).map(|_| self.random.below(length + 1)).collect();
        if count > 0 && self.random.one_in(3) {
            part_ends.push(part_ends[0]);
        }
        part_ends.sort_unstable();
        part_ends
    }

    fn fresh_reader(&mut self, settings: &Settings) -> Result<Reader, String> {
        self.inputs += 1;
        let state_words = 4 + self.random.below(3);
        let state_before = self.random.words(state_words);
        let longer = self.random.pick(&[0, 0, 1, 2, 3, 17]);
        let buffer_before = self.random.bytes(settings.fits() + longer);
        let mut state = Guarded::new(&state_before, GUARD_WORD);
        let number = host::ffi::reader_fresh(state.content_mut());
        let mut expected_state = state_before;
        expected_state[..4].fill(0);
        same_number(number, 0)
            .and_then(|()| state.compare("fresh state", &expected_state))
            .map_err(|why| format!("gmv_reader_fresh, {state_words} words: {why}"))?;
        Ok(Reader {
            state,
            buffer: Guarded::new(&buffer_before, GUARD_BYTE),
            expected_state,
            expected_buffer: buffer_before,
            position: 0,
        })
    }

    /// All calls that a part needs.
    fn part(
        &mut self,
        settings: &Settings,
        input: &[u8],
        blocks: &[Block],
        reader: &mut Reader,
        part: std::ops::Range<usize>,
    ) -> Outcome {
        loop {
            let rest = reader.position..part.end;
            let used = self.stream_call(settings, input, blocks, reader, rest)?;
            reader.position += used;
            if reader.position >= part.end {
                return Ok(());
            }
        }
    }

    /// One call on the bytes `rest` of the input; gives the bytes used.
    fn stream_call(
        &mut self,
        settings: &Settings,
        input: &[u8],
        blocks: &[Block],
        reader: &mut Reader,
        rest: std::ops::Range<usize>,
    ) -> Result<usize, String> {
        self.inputs += 1;
        let next = blocks
            .iter()
            .filter_map(|block| block.verdict.as_ref())
            .find(|verdict| rest.contains(&verdict.at));
        let used = next.map_or(rest.len(), |verdict| verdict.at + 1 - rest.start);
        let words = match next {
            Some(verdict) => verdict.words(settings.data_offset(), used),
            None => no_verdict(used),
        };
        reader.expect(settings, input, blocks, rest.start + used);
        let verdict_words = 8 + self.random.below(3);
        let mut expected_words = self.random.words(verdict_words);
        let mut verdict = Guarded::new(&expected_words, GUARD_WORD);
        expected_words[..8].copy_from_slice(&words);
        let state = reader.state.content_mut();
        let buffer = reader.buffer.content_mut();
        let found = library::read(settings, state, &input[rest], buffer, verdict.content_mut());
        same_number(found, 0)?;
        verdict.compare("verdict", &expected_words)?;
        reader.state.compare("state", &reader.expected_state)?;
        reader.buffer.compare("buffer", &reader.expected_buffer)?;
        if let Some(accepted) = next.filter(|verdict| verdict.number == 0) {
            let data = &reader.buffer.content()[words[5] as usize..][..words[6] as usize];
            same("data", data, &accepted.data)?;
        }
        Ok(used)
    }
}

pub fn expected_read(call: &ReadCall, verdict_before: &[u64]) -> Expected {
    let mut expected = Expected {
        number: 0,
        state: call.state.to_vec(),
        buffer: call.buffer.to_vec(),
        words: verdict_before.to_vec(),
    };
    let refusal = model::read_refusal(
        &call.settings,
        call.state,
        call.part.len(),
        call.buffer.len(),
        call.verdict_words,
    );
    if let Some(number) = refusal {
        expected.number = number;
        return expected;
    }
    let words = [call.state[0], call.state[1], call.state[2], call.state[3]];
    let resumed = model::resume(&call.settings, words, call.part, &mut expected.buffer);
    expected.state[..4].copy_from_slice(&resumed.state);
    let words = match &resumed.verdict {
        Some(verdict) => verdict.words(call.settings.data_offset(), resumed.used),
        None => no_verdict(resumed.used),
    };
    expected.words[..8].copy_from_slice(&words);
    expected
}

pub fn expected_write(call: &WriteCall, report_before: &[u64]) -> Expected {
    let mut expected = Expected {
        number: 0,
        state: Vec::new(),
        buffer: call.buffer.to_vec(),
        words: report_before.to_vec(),
    };
    let refusal = model::write_refusal(
        &call.settings,
        call.content.len(),
        call.buffer.len(),
        call.start,
        call.report_words,
    );
    if let Some(number) = refusal {
        expected.number = number;
        return expected;
    }
    match model::written(&call.settings, call.block_type, call.content) {
        Ok(block) => {
            expected.buffer[call.start..][..block.len()].copy_from_slice(&block);
            expected.words[..2].copy_from_slice(&[block.len() as u64, 0]);
        }
        Err((number, forbidden_offset)) => {
            expected.number = number;
            expected.words[..2].copy_from_slice(&[0, forbidden_offset]);
        }
    }
    expected
}

fn read_text(call: &ReadCall, why: &str) -> String {
    format!(
        "read, {}, state {:?}, {} verdict words: {why}; part {}; buffer {}",
        library::settings_text(&call.settings),
        call.state,
        call.verdict_words,
        library::hex(call.part),
        library::hex(call.buffer)
    )
}

fn write_text(call: &WriteCall, why: &str) -> String {
    format!(
        "write, {}, type {:#x}, start {}, {} buffer bytes, {} report words: {why}; data {}",
        library::settings_text(&call.settings),
        call.block_type,
        call.start,
        call.buffer.len(),
        call.report_words,
        library::hex(call.content)
    )
}
