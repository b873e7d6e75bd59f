//! The lines of tests/cases, whose README.md says what they are: each call that a line stands for, and
//! what it must answer and leave.

/// The functions: a name, and its parameters in the header's order, each with its kind: n a number, b
/// bytes that are read, o bytes that are written and given by their length, h bytes that are held and
/// may change, s words of a state and w words that are written, both with the count that is needed.
const FUNCTIONS: [(&str, &str); 42] = [
    ("reader_fresh", "w4:state"),
    ("hybrid_read", "HYBRID s4:state b:part h:buffer w8:verdict"),
    (
        "minimal_read",
        "MINIMAL s4:state b:part h:buffer w8:verdict",
    ),
    ("hybrid_check", "HYBRID b:block w8:verdict"),
    ("minimal_check", "MINIMAL b:block w8:verdict"),
    ("hybrid_write", "HYBRID n:type b:content WRITE"),
    ("minimal_write", "MINIMAL b:content WRITE"),
    ("header_read", "b:message w6:header"),
    ("answer_read", "b:message w9:answer"),
    ("field_next", "b:message n:position w5:field"),
    ("answer_write", "b:control_id n:code n:number WRITE"),
    ("control_write", "b:type n:number WRITE"),
    ("receiver_fresh", "w9:state"),
    (
        "receiver_decide",
        "n:application n:block_type b:data s9:state w5:report",
    ),
    ("hybrid_answer", "HYBRID n:stored s9:state WRITE"),
    ("minimal_answer", "MINIMAL n:stored s9:state WRITE"),
    ("hybrid_nak", "HYBRID n:block_number s9:state WRITE"),
    ("sender_fresh", "n:first w7:state"),
    ("sender_submit", "n:data_limit b:message SENDER"),
    ("sender_open", "SENDER"),
    ("sender_ended", "SENDER"),
    ("sender_reset", "SENDER"),
    ("sender_timer", "n:resends SENDER"),
    (
        "sender_block",
        "n:resends n:block_number n:block_type b:data SENDER",
    ),
    ("hybrid_control_block", "HYBRID b:type n:number WRITE"),
    ("minimal_control_block", "MINIMAL b:type n:number WRITE"),
    ("station_fresh", "w5:state"),
    ("station_open", "STATION"),
    (
        "station_block",
        "n:number n:ending b:text h:buffer s5:state w4:report",
    ),
    ("station_bad", "STATION"),
    ("station_enquiry", "STATION"),
    ("station_end", "STATION"),
    ("station_bare_enq", "STATION"),
    ("station_interrupt", "STATION"),
    ("master_fresh", "w10:state"),
    ("master_open", "MASTER"),
    ("master_start", "n:message_length n:block_size MASTER"),
    ("master_reply", "n:reply n:number MASTER"),
    ("master_timer", "MASTER"),
    ("master_close", "MASTER"),
    ("master_enquire", "MASTER"),
    ("master_may_receive", "MASTER"),
];

const COMMON: [(&str, &str); 6] = [
    ("HYBRID", "n:start_block n:end_block n:data_limit"),
    ("MINIMAL", "n:data_limit"),
    ("WRITE", "o:buffer n:start w2:report"),
    ("SENDER", "s7:state w8:report"),
    ("STATION", "s5:state w4:report"),
    ("MASTER", "s10:state w10:report"),
];

const LARGEST: usize = 110_000;
const TEXT_WORDS: usize = 3;
const TEXT_BYTES: usize = 8 * TEXT_WORDS;
pub const PAINTED_BYTE: u8 = 0x55;
const PAINTED_WORD: u64 = 0xEEEE_EEEE_EEEE_EEEE;

/// The memory of a call that may change; what a function does not take has no length.
#[derive(Clone, Debug, Default, PartialEq, Eq)]
pub struct Writable {
    pub buffer: Vec<u8>,
    pub state: Vec<u64>,
    pub words: Vec<u64>,
}

#[derive(Clone, Debug, Default)]
pub struct Call {
    pub function: String,
    pub numbers: Vec<(String, u64)>,
    pub read: Vec<u8>,
    pub writable: Writable,
    /// How many words of the state and of the written words are needed.
    pub need: [usize; 2],
}

#[derive(Clone, Debug, PartialEq, Eq)]
pub struct Answer {
    pub number: u64,
    pub writable: Writable,
}

impl Call {
    pub fn number(&self, name: &str) -> u64 {
        let found = self.numbers.iter().find(|(known, _)| known == name);
        found
            .unwrap_or_else(|| panic!("{} has no {name}", self.function))
            .1
    }
}

/// A stream read in parts of every size: the verdicts, and the state and the buffer at its end.
pub struct Stream {
    pub hybrid: bool,
    /// SB, EB and the data limit of a hybrid stream; the last of a minimal one.
    pub numbers: Vec<u64>,
    pub input: Vec<u8>,
    pub verdicts: Vec<[u64; 8]>,
    pub state: Vec<u64>,
    pub buffer: Vec<u8>,
}

/// A line from some position on, with the choices that are made in it.
pub struct Line<'a> {
    rest: &'a str,
    chosen: Vec<usize>,
    counts: Vec<usize>,
}

type Read<T> = Result<T, String>;

impl<'a> Line<'a> {
    pub fn new(text: &'a str) -> Line<'a> {
        Line {
            rest: text,
            chosen: Vec::new(),
            counts: Vec::new(),
        }
    }

    fn wrong<T>(&self, why: &str) -> Read<T> {
        Err(format!("{why} at '{}'", self.rest))
    }

    fn skip(&mut self, text: &str) -> Read<()> {
        match self.rest.strip_prefix(text) {
            Some(rest) => {
                self.rest = rest;
                Ok(())
            }
            None => self.wrong(&format!("no '{text}'")),
        }
    }

    fn skips(&mut self, text: &str) -> bool {
        self.skip(text).is_ok()
    }

    fn word(&mut self) -> &'a str {
        let end = self.rest.find([' ', '=']).unwrap_or(self.rest.len());
        let (word, rest) = self.rest.split_at(end);
        self.rest = rest;
        word
    }

    /// Which of so many alternatives this call takes.
    fn choose(&mut self, count: usize) -> Read<usize> {
        if count == 0 {
            return self.wrong("a choice of nothing");
        }
        let index = self.counts.len();
        self.counts.push(count);
        if index == self.chosen.len() {
            self.chosen.push(0);
        }
        Ok(self.chosen[index])
    }

    fn plain_number(&mut self) -> Read<u64> {
        let minus = self.skips("-");
        let digits = self.rest.bytes().take_while(u8::is_ascii_digit).count();
        let (text, rest) = self.rest.split_at(digits);
        if digits > 1 && text.starts_with('0') {
            return self.wrong("a zero too much");
        }
        match text.parse::<u64>() {
            Ok(value) => {
                self.rest = rest;
                Ok(if minus { value.wrapping_neg() } else { value })
            }
            Err(_) => self.wrong("no number"),
        }
    }

    /// A number, or {..} with numbers and ranges of numbers: one of them.
    fn number(&mut self) -> Read<u64> {
        if !self.skips("{") {
            return self.plain_number();
        }
        let mut ranges = Vec::new();
        loop {
            let first = self.plain_number()?;
            let last = if self.skips("..") {
                self.plain_number()?
            } else {
                first
            };
            let count = last.wrapping_sub(first).wrapping_add(1);
            ranges.push((first, count as usize));
            if !self.skips(" ") {
                break;
            }
        }
        self.skip("}")?;
        if ranges.iter().any(|range| range.1 > LARGEST) {
            return self.wrong("too long a range");
        }
        let mut which = self.choose(ranges.iter().map(|range| range.1).sum())?;
        for (first, count) in ranges {
            if which < count {
                return Ok(first.wrapping_add(which as u64));
            }
            which -= count;
        }
        self.wrong("no such choice")
    }

    fn hex(&mut self) -> Read<u8> {
        let is_digit = |byte: u8| byte.is_ascii_digit() || (b'a'..=b'f').contains(&byte);
        match self.rest.get(..2) {
            Some(digits) if digits.bytes().all(is_digit) => {
                self.rest = &self.rest[2..];
                u8::from_str_radix(digits, 16).map_err(|why| why.to_string())
            }
            _ => self.wrong("no two hex digits"),
        }
    }

    fn quoted_byte(&mut self) -> Read<u8> {
        for (escape, byte) in [
            ("\\r", b'\r'),
            ("\\n", b'\n'),
            ("\\\"", b'"'),
            ("\\\\", b'\\'),
        ] {
            if self.skips(escape) {
                return Ok(byte);
            }
        }
        if self.skips("\\x") {
            return self.hex();
        }
        match self.rest.bytes().next() {
            Some(byte @ 0x20..=0x7E) if byte != b'\\' => {
                self.rest = &self.rest[1..];
                Ok(byte)
            }
            _ => self.wrong("no byte of a text"),
        }
    }

    /// "..", perhaps after a count and *, perhaps before / and how many bytes of it are meant.
    fn quoted(&mut self) -> Read<Vec<u8>> {
        let mut times = 1;
        if self.rest.starts_with(|first: char| first.is_ascii_digit()) {
            times = self.plain_number()? as usize;
            self.skip("*")?;
        }
        self.skip("\"")?;
        let mut bytes = Vec::new();
        while !self.skips("\"") {
            bytes.push(self.quoted_byte()?);
        }
        if self.skips("/") {
            let first = self.number()? as usize;
            if first > bytes.len() {
                return self.wrong("more bytes than there are");
            }
            bytes.truncate(first);
        }
        if times > LARGEST || bytes.len() * times > LARGEST {
            return self.wrong("too many bytes");
        }
        Ok(bytes.repeat(times))
    }

    /// {"..." "..."}: one of these, its first { read already.
    fn one_of(&mut self) -> Read<Vec<u8>> {
        let index = self.counts.len();
        let which = self.choose(1)?;
        let mut alternatives = Vec::new();
        loop {
            let mut alternative = Vec::new();
            while !self.rest.starts_with([' ', '}']) {
                alternative.extend(self.quoted()?);
            }
            alternatives.push(alternative);
            if !self.skips(" ") {
                break;
            }
        }
        self.skip("}")?;
        self.counts[index] = alternatives.len();
        Ok(alternatives.swap_remove(which))
    }

    /// [00..1f 7f]: one byte, one of these, its first [ read already.
    fn one_byte(&mut self) -> Read<u8> {
        let mut bytes = Vec::new();
        loop {
            let first = self.hex()?;
            let last = if self.skips("..") { self.hex()? } else { first };
            bytes.extend(first..=last);
            if !self.skips(" ") {
                break;
            }
        }
        self.skip("]")?;
        Ok(bytes[self.choose(bytes.len())?])
    }

    fn bytes(&mut self) -> Read<Vec<u8>> {
        let mut bytes = Vec::new();
        loop {
            if self.skips("{") {
                bytes.extend(self.one_of()?);
            } else if self.skips("[") {
                bytes.push(self.one_byte()?);
            } else {
                bytes.extend(self.quoted()?);
            }
            if self.rest.is_empty() || self.rest.starts_with(' ') {
                return Ok(bytes);
            }
        }
    }

    /// A text among words: its length, and its bytes in three words, of which the first is the lowest.
    fn text_words(&mut self) -> Read<Vec<u64>> {
        let bytes = self.quoted()?;
        if bytes.len() > TEXT_BYTES {
            return self.wrong("too long a text among words");
        }
        let mut held = [0; TEXT_BYTES];
        held[..bytes.len()].copy_from_slice(&bytes);
        let word = |part: &[u8]| {
            part.iter()
                .rev()
                .fold(0, |sum, &byte| sum << 8 | u64::from(byte))
        };
        let words = held.chunks(TEXT_BYTES / TEXT_WORDS).map(word);
        Ok([bytes.len() as u64].into_iter().chain(words).collect())
    }

    fn words(&mut self) -> Read<Vec<u64>> {
        let mut words = Vec::new();
        self.skip("(")?;
        while !self.skips(")") {
            if self.rest.starts_with('"') {
                words.extend(self.text_words()?);
            } else {
                words.push(self.number()?);
            }
            if !self.rest.starts_with(')') {
                self.skip(" ")?;
            }
        }
        Ok(words)
    }

    fn named(&mut self, name: &str) -> Read<()> {
        self.skip(" ")?;
        self.skip(name)?;
        self.skip("=")
    }

    fn length(&mut self) -> Read<usize> {
        match self.number()? as usize {
            length if length <= LARGEST => Ok(length),
            _ => self.wrong("too large a length"),
        }
    }

    /// The inputs of a function, by its signature.
    fn inputs(&mut self, function: &str, signature: &[Parameter]) -> Read<Call> {
        let mut call = Call {
            function: function.to_string(),
            ..Call::default()
        };
        for parameter in signature {
            let (name, need) = (&parameter.name, parameter.need);
            if parameter.kind == 'w' {
                call.need[1] = need;
                let given = self.rest.starts_with(&format!(" {name}_words="));
                let count = if given {
                    self.named(&format!("{name}_words"))?;
                    self.length()?
                } else {
                    need
                };
                call.writable.words = vec![PAINTED_WORD; count];
                continue;
            }
            if parameter.kind == 'o' {
                self.named(&format!("{name}_length"))?;
                call.writable.buffer = vec![PAINTED_BYTE; self.length()?];
                continue;
            }
            self.named(name)?;
            match parameter.kind {
                'n' => call.numbers.push((name.clone(), self.number()?)),
                'b' => call.read = self.bytes()?,
                'h' => call.writable.buffer = self.bytes()?,
                _ => {
                    call.need[0] = need;
                    call.writable.state = self.words()?;
                }
            }
        }
        Ok(call)
    }

    fn words_at_exit(&mut self, need: usize, words: &mut [u64]) -> Read<()> {
        if self.skips("same") {
            return Ok(());
        }
        let exit = self.words()?;
        if exit.len() != need || need > words.len() {
            return self.wrong("not as many words as are written");
        }
        words[..need].copy_from_slice(&exit);
        Ok(())
    }

    fn bytes_at_exit(&mut self, buffer: &mut [u8]) -> Read<()> {
        if self.skips("same") {
            return Ok(());
        }
        let offset = self.plain_number()? as usize;
        self.skip(":")?;
        let bytes = self.bytes()?;
        let held = buffer.get_mut(offset..).unwrap_or_default();
        match held.get_mut(..bytes.len()) {
            Some(position) => position.copy_from_slice(&bytes),
            None => return self.wrong("more at exit than was writable"),
        }
        Ok(())
    }

    fn exits(&mut self, call: &Call, signature: &[Parameter]) -> Read<Answer> {
        let choices = self.counts.len();
        self.skip(" -> ")?;
        let mut answer = Answer {
            number: self.plain_number()?,
            writable: call.writable.clone(),
        };
        if self.rest == " same" {
            return Ok(answer);
        }
        for parameter in signature {
            if matches!(parameter.kind, 'n' | 'b') {
                continue;
            }
            self.named(&parameter.name)?;
            match parameter.kind {
                's' => self.words_at_exit(parameter.need, &mut answer.writable.state)?,
                'w' => self.words_at_exit(parameter.need, &mut answer.writable.words)?,
                _ => self.bytes_at_exit(&mut answer.writable.buffer)?,
            }
        }
        if self.counts.len() != choices || !self.rest.is_empty() {
            return self.wrong("more than a case");
        }
        Ok(answer)
    }

    fn stream(&mut self, function: &str) -> Read<Stream> {
        let hybrid = function == "hybrid_stream";
        let names: &[&str] = match hybrid {
            true => &["start_block", "end_block", "data_limit"],
            false => &["data_limit"],
        };
        let mut numbers = Vec::new();
        for name in names {
            self.named(name)?;
            numbers.push(self.plain_number()?);
        }
        self.named("input")?;
        let input = self.bytes()?;
        self.skip(" ->")?;
        self.named("verdicts")?;
        let mut verdicts = Vec::new();
        while self.rest.starts_with('(') {
            let words = self.words()?;
            verdicts.push(words.try_into().map_err(|_| "a verdict has eight words")?);
        }
        self.named("state")?;
        let state = self.words()?;
        self.named("buffer")?;
        self.skip("0:")?;
        let buffer = self.bytes()?;
        if !self.rest.is_empty() || !self.counts.is_empty() {
            return self.wrong("more than a case");
        }
        Ok(Stream {
            hybrid,
            numbers,
            input,
            verdicts,
            state,
            buffer,
        })
    }

    /// Goes to the next combination of choices; false after the last one.
    fn next_combination(&mut self) -> bool {
        for (chosen, count) in self.chosen.iter_mut().zip(&self.counts).rev() {
            *chosen += 1;
            if *chosen < *count {
                return true;
            }
            *chosen = 0;
        }
        false
    }
}

struct Parameter {
    kind: char,
    need: usize,
    name: String,
}

fn signature_of(function: &str) -> Option<Vec<Parameter>> {
    let (_, signature) = FUNCTIONS.iter().find(|(name, _)| *name == function)?;
    let mut text = signature.to_string();
    for (name, parameters) in COMMON {
        text = text.replace(name, parameters);
    }
    let parameters = text.split(' ').map(|parameter| {
        let (kind, name) = parameter.split_once(':').expect("a kind and a name");
        Parameter {
            kind: kind.chars().next().expect("a kind"),
            need: kind[1..].parse().unwrap_or(0),
            name: name.to_string(),
        }
    });
    Some(parameters.collect())
}

/// Does something with each call that a line stands for, or with its stream.
pub fn each_call(
    text: &str,
    mut call: impl FnMut(&Call, &Answer) -> Result<(), String>,
    stream: impl FnOnce(&Stream) -> Result<(), String>,
) -> Result<(), String> {
    let mut line = Line::new(text);
    let function = line.word();
    if ["hybrid_stream", "minimal_stream"].contains(&function) {
        return stream(&line.stream(function)?);
    }
    let Some(signature) = signature_of(function) else {
        return Err(format!("'{function}' is no function"));
    };
    let inputs = line.rest;
    loop {
        line.rest = inputs;
        line.counts.clear();
        let given = line.inputs(function, &signature)?;
        let answer = line.exits(&given, &signature)?;
        call(&given, &answer)?;
        if !line.next_combination() {
            return Ok(());
        }
    }
}
