//! Replays recorded cases: reads a stream of calls in one pass and prints
//! what each answers. The format is described in README.md; the writer of
//! streams stands here too, so that both sides are seen together.

use crate::answer::{Decoded, Input, Reader, Tested};
use crate::book::Refusal;
use crate::cases::{Case, Sizes};
use crate::compare::Buffers;
use crate::record::{Record, Status};
use crate::settings::Raw;
use std::fmt::Write;

/// Garbage byte at index i of a lent buffer.
pub fn garbage_byte(i: usize) -> u8 {
    ((37 * i + 101) % 256) as u8
}

/// Garbage number at index i of a lent buffer.
pub fn garbage_number(i: usize) -> i32 {
    ((7919 * i + 104_729) % 65_521) as i32 - 30_000
}

/// Walk entries that are printed; the sums cover all of them.
pub const WALK_PRINTED: usize = 48;

/// Operations of the stream of calls.
pub mod op {
    pub const END: u8 = 0;
    pub const BOOK: u8 = 1;
    pub const PATCH: u8 = 2;
    pub const LOAD: u8 = 3;
    pub const ENCODE: u8 = 4;
    pub const TEST: u8 = 5;
    pub const READ: u8 = 6;
    pub const MAKE: u8 = 7;
    pub const RECORD: u8 = 8;
    pub const PLAIN: u8 = 9;
    pub const HOOK: u8 = 10;
}

/// Operations of the stream for the program `walk`.
pub mod walk_op {
    pub const END: u8 = 0;
    pub const INPUT: u8 = 1;
    pub const PATCH: u8 = 2;
    pub const RUN: u8 = 3;
    pub const RUN_LONGER: u8 = 4;
}

/// Writes a stream.
#[derive(Default)]
pub struct Stream(pub Vec<u8>);

impl Stream {
    pub fn byte(&mut self, value: u8) {
        self.0.push(value);
    }

    pub fn two(&mut self, value: usize) {
        self.0.extend((value as u16).to_be_bytes());
    }

    pub fn four(&mut self, value: usize) {
        self.0.extend((value as u32).to_be_bytes());
    }

    pub fn bytes(&mut self, bytes: &[u8]) {
        self.two(bytes.len());
        self.0.extend(bytes);
    }

    pub fn book(&mut self, book: &[u8]) {
        self.byte(op::BOOK);
        self.bytes(book);
    }

    pub fn patch(&mut self, at: usize, value: u8) {
        self.byte(op::PATCH);
        self.two(at);
        self.byte(value);
    }

    pub fn load(&mut self, length: usize) {
        self.byte(op::LOAD);
        self.two(length);
    }

    pub fn encode(&mut self, data: &[u8], word_length: usize) {
        self.byte(op::ENCODE);
        self.two(word_length);
        self.bytes(data);
    }

    pub fn test(&mut self, word: &[u8]) {
        self.byte(op::TEST);
        self.bytes(word);
    }

    pub fn read(&mut self, word: &[u8], data_length: usize) {
        self.byte(op::READ);
        self.two(data_length);
        self.bytes(word);
    }

    pub fn make(&mut self, record: &Record, data_length: usize) {
        self.byte(op::MAKE);
        self.two(data_length);
        self.byte(record.plant);
        self.four(record.carcass as usize);
        self.byte(record.side);
        self.byte(record.status.number());
    }

    pub fn record(&mut self, data: &[u8]) {
        self.byte(op::RECORD);
        self.bytes(data);
    }

    pub fn decode(&mut self, case: &Case) {
        self.byte(if case.hook { op::HOOK } else { op::PLAIN });
        self.two(case.raw.l as usize);
        self.two(case.raw.d as usize);
        self.four(case.raw.t as usize);
        self.two(case.sizes.word);
        self.two(case.sizes.data);
        self.four(case.sizes.numbers);
        self.four(case.sizes.bytes);
        for walk in case.sizes.walk {
            self.four(walk);
        }
        self.two(case.values.len());
        for value in &case.values {
            self.0.extend(value.to_be_bytes());
        }
    }
}

/// Reads a stream; what it must hold and does not is an error of the file.
struct Source<'a> {
    left: &'a [u8],
}

impl<'a> Source<'a> {
    fn take(&mut self, count: usize) -> Result<&'a [u8], String> {
        let (taken, left) = self
            .left
            .split_at_checked(count)
            .ok_or("the stream ends too early")?;
        self.left = left;
        Ok(taken)
    }

    fn number(&mut self, width: usize) -> Result<usize, String> {
        let bytes = self.take(width)?;
        Ok(bytes.iter().fold(0, |s, &byte| s << 8 | byte as usize))
    }

    fn byte(&mut self) -> Result<u8, String> {
        Ok(self.number(1)? as u8)
    }

    fn bytes(&mut self) -> Result<&'a [u8], String> {
        let count = self.number(2)?;
        self.take(count)
    }
}

/// Sum over the entries of a buffer; negative numbers as unsigned 32-bit.
pub fn checksum(entries: impl IntoIterator<Item = u32>) -> u32 {
    let step = |s: u32, entry: u32| (s * 31 + entry % 65_521) % 65_521;
    entries.into_iter().fold(0, step)
}

fn sum_bytes(bytes: &[u8]) -> u32 {
    checksum(bytes.iter().map(|&byte| byte as u32))
}

fn sum_numbers(numbers: &[i32]) -> u32 {
    checksum(numbers.iter().map(|&number| number as u32))
}

fn answer(refusal: Option<Refusal>) -> u8 {
    refusal.map_or(0, Refusal::number)
}

/// Bits as digits; "-" where there are none to print.
fn digits(refused: bool, bits: &[u8]) -> String {
    if refused || bits.is_empty() {
        return String::from("-");
    }
    bits.iter().map(|&bit| (b'0' + bit) as char).collect()
}

fn garbage(count: usize) -> Vec<u8> {
    (0..count).map(garbage_byte).collect()
}

fn record_text(record: &Record) -> String {
    let status = record.status.number();
    format!(
        "{} {} {} {status}",
        record.plant, record.carcass, record.side
    )
}

/// Replays a stream of calls.
pub fn calls(reader: &mut dyn Reader, stream: &[u8]) -> Result<String, String> {
    let mut replay = Replay {
        reader,
        source: Source { left: stream },
        book: Vec::new(),
        case: 0,
        out: String::new(),
    };
    while replay.step()? {}
    Ok(replay.out)
}

struct Replay<'a> {
    reader: &'a mut dyn Reader,
    source: Source<'a>,
    book: Vec<u8>,
    case: usize,
    out: String,
}

impl Replay<'_> {
    fn step(&mut self) -> Result<bool, String> {
        let op = self.source.byte()?;
        match op {
            op::END => return Ok(false),
            op::BOOK => self.book = self.source.bytes()?.to_vec(),
            op::PATCH => {
                let at = self.source.number(2)?;
                let value = self.source.byte()?;
                *self.book.get_mut(at).ok_or("a patch past the book")? = value;
            }
            _ => {
                self.case += 1;
                self.call(op)?;
            }
        }
        Ok(true)
    }

    fn call(&mut self, op: u8) -> Result<(), String> {
        match op {
            op::LOAD => self.load(),
            op::ENCODE => self.encode(),
            op::TEST => self.test(),
            op::READ => self.read(),
            op::MAKE => self.make(),
            op::RECORD => self.record(),
            op::PLAIN => self.decode(false),
            op::HOOK => self.decode(true),
            _ => Err(format!("operation {op} is not known")),
        }
    }

    fn line(&mut self, text: &str) {
        let _ = writeln!(self.out, "{} {text}", self.case);
    }

    fn load(&mut self) -> Result<(), String> {
        let length = self.source.number(2)?;
        let book = self.book.get(..length).ok_or("a load past the book")?;
        let loaded = self.reader.load(book);
        let (n, k, v) = (loaded.n, loaded.k, loaded.v);
        self.line(&format!("load {} {n} {k} {v}", answer(loaded.refusal)));
        Ok(())
    }

    fn encode(&mut self) -> Result<(), String> {
        let mut word = garbage(self.source.number(2)?);
        let data = self.source.bytes()?;
        let refusal = self.reader.encode(&self.book, data, &mut word);
        let sums = format!("{} {}", sum_bytes(data), sum_bytes(&word));
        let shown = digits(refusal.is_some(), &word);
        self.line(&format!("encode {} {shown} {sums}", answer(refusal)));
        Ok(())
    }

    fn test(&mut self) -> Result<(), String> {
        let word = self.source.bytes()?;
        let (number, shown) = match self.reader.test(&self.book, word) {
            Tested::InCode => (0, "yes"),
            Tested::NotInCode => (0, "no"),
            Tested::Refused(refusal) => (refusal.number(), "-"),
        };
        self.line(&format!("test {number} {shown} {}", sum_bytes(word)));
        Ok(())
    }

    fn read(&mut self) -> Result<(), String> {
        let mut data = garbage(self.source.number(2)?);
        let word = self.source.bytes()?;
        let refusal = self.reader.read_data(&self.book, word, &mut data);
        let sums = format!("{} {}", sum_bytes(word), sum_bytes(&data));
        let shown = digits(refusal.is_some(), &data);
        self.line(&format!("read {} {shown} {sums}", answer(refusal)));
        Ok(())
    }

    fn make(&mut self) -> Result<(), String> {
        let mut data = garbage(self.source.number(2)?);
        let record = Record {
            plant: self.source.byte()?,
            carcass: self.source.number(4)? as u32,
            side: self.source.byte()?,
            status: Status::of(self.source.byte()? as u32).ok_or("a status above 4")?,
        };
        let refusal = self.reader.make_record(&self.book, &record, &mut data);
        let shown = digits(refusal.is_some(), &data);
        let sum = sum_bytes(&data);
        self.line(&format!("make {} {shown} {sum}", answer(refusal)));
        Ok(())
    }

    fn record(&mut self) -> Result<(), String> {
        let data = self.source.bytes()?;
        let (refusal, record) = self.reader.read_record(&self.book, data);
        let (number, shown) = (answer(refusal), record_text(&record));
        self.line(&format!("record {number} {shown} {}", sum_bytes(data)));
        Ok(())
    }

    fn settings(&mut self) -> Result<(Raw, Sizes), String> {
        let raw = Raw {
            l: self.source.number(2)? as u32,
            d: self.source.number(2)? as u32,
            t: self.source.number(4)? as u32,
        };
        let source = &mut self.source;
        let sizes = Sizes {
            word: source.number(2)?,
            data: source.number(2)?,
            numbers: source.number(4)?,
            bytes: source.number(4)?,
            walk: [source.number(4)?, source.number(4)?, source.number(4)?],
        };
        Ok((raw, sizes))
    }

    fn decode(&mut self, hook: bool) -> Result<(), String> {
        let (raw, sizes) = self.settings()?;
        let count = self.source.number(2)?;
        let pairs = self.source.take(2 * count)?.chunks_exact(2);
        let values: Vec<i16> = pairs.map(|p| i16::from_be_bytes([p[0], p[1]])).collect();
        let mut buffers = Buffers::new(&sizes);
        let input = Input {
            book: &self.book,
            raw,
            values: &values,
            hook,
        };
        let decoded = self.reader.decode(input, &mut buffers.lend());
        self.show(hook, &decoded, &buffers, &values);
        Ok(())
    }

    fn show(&mut self, hook: bool, decoded: &Decoded, buffers: &Buffers, values: &[i16]) {
        let counts = decoded.counts;
        let mut first = String::from(if hook { "hook" } else { "plain" });
        let (e, c) = (counts.extractions, counts.crowded);
        let (o, d) = (counts.outrun, counts.discrepancy);
        let _ = write!(first, " {} {e} {c} {o} {d}", answer(decoded.refusal));
        if hook {
            let _ = write!(first, " {}", record_text(&decoded.record));
        }
        self.line(&first);
        let mut walk = String::from("walk");
        for entry in 0..(e as usize).min(WALK_PRINTED) {
            for column in &buffers.walk {
                let _ = write!(walk, " {}", column[entry]);
            }
        }
        self.line(&walk);
        let refused = decoded.refusal.is_some();
        let word = digits(refused, &buffers.word);
        self.line(&format!("word {word} {}", digits(refused, &buffers.data)));
        let mut sums = vec![checksum(values.iter().map(|&value| value as i32 as u32))];
        sums.extend([sum_bytes(&buffers.word), sum_bytes(&buffers.data)]);
        sums.extend([sum_numbers(&buffers.numbers), sum_bytes(&buffers.bytes)]);
        sums.extend(buffers.walk.iter().map(|walk| sum_numbers(walk)));
        let sums: Vec<String> = sums.iter().map(|sum| sum.to_string()).collect();
        self.line(&format!("sums {}", sums.join(" ")));
    }
}

/// Replays a stream for the program `walk`.
pub fn walks(reader: &mut dyn Reader, stream: &[u8]) -> Result<String, String> {
    let mut source = Source { left: stream };
    let mut input: Vec<u8> = Vec::new();
    let mut out = String::new();
    let mut case = 0;
    loop {
        let given = match source.byte()? {
            walk_op::END => return Ok(out),
            walk_op::INPUT => {
                let count = source.number(4)?;
                input = source.take(count)?.to_vec();
                continue;
            }
            walk_op::PATCH => {
                let at = source.number(4)?;
                *input.get_mut(at).ok_or("a patch past the input")? = source.byte()?;
                continue;
            }
            walk_op::RUN => {
                let length = source.number(4)?;
                input.get(..length).ok_or("a run past the input")?.to_vec()
            }
            walk_op::RUN_LONGER => {
                let count = source.number(4)?;
                let mut given = input.clone();
                given.resize(input.len() + count, source.byte()?);
                given
            }
            other => return Err(format!("operation {other} is not known")),
        };
        case += 1;
        let _ = write!(out, "case {case}\n{}", reader.walk(&given));
    }
}
