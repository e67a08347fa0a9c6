//! The plain reader: every call of document 01 as its refusal table and its
//! "Lent" paragraph word them, over `judge` and the plain machine.

use crate::answer::{Counts, Decoded, Input, Lent, Loaded, Reader, Removed, Tested};
use crate::book::{Book, Refusal, Role};
use crate::judge::judge;
use crate::machine::{Machine, Run};
use crate::record::{Record, Status};
use crate::settings::Raw;

/// Entry (row, column) of A: each of the m factors has a 0 only at row 0,
/// column 1.
fn entry(row: usize, column: usize) -> u8 {
    (!row & column == 0) as u8
}

/// Bits times A, entry by entry.
pub fn product(bits: &[u8]) -> Vec<u8> {
    let column = |c: usize| (0..bits.len()).fold(0, |s, r| s ^ (bits[r] & entry(r, c)));
    (0..bits.len()).map(column).collect()
}

/// The bits of u that the data, zeros and ties make.
fn fill(book: &Book, data: &[u8]) -> Vec<u8> {
    let mut u: Vec<u8> = Vec::new();
    let mut data = data.iter();
    for role in &book.roles {
        u.push(match role {
            Role::Free => *data.next().expect("k data bits"),
            Role::Zero => 0,
            Role::Tied(terms) => {
                let sum: usize = terms.iter().map(|&t| u[t as usize] as usize).sum();
                (sum % 2) as u8
            }
        });
    }
    u
}

fn free_bits(book: &Book, u: &[u8]) -> Vec<u8> {
    (0..book.n())
        .filter(|&i| book.roles[i] == Role::Free)
        .map(|i| u[i])
        .collect()
}

/// A field's bits, highest first.
fn bits_of(value: u32, width: u32) -> impl Iterator<Item = u8> {
    (0..width).rev().map(move |i| (value >> i & 1) as u8)
}

fn number_of(bits: &[u8]) -> u32 {
    bits.iter().fold(0, |s, &bit| 2 * s + bit as u32)
}

fn record_data(record: &Record) -> Vec<u8> {
    let mut data: Vec<u8> = bits_of(record.plant as u32, 6).collect();
    data.extend(bits_of(record.carcass, 20));
    data.extend(bits_of(record.side as u32, 1));
    data.extend(bits_of(record.status.number() as u32, 3));
    data.extend([0, 0]);
    data
}

fn data_record(data: &[u8]) -> Result<Record, Refusal> {
    let status = match number_of(&data[27..30]) {
        0 => Status::Passed,
        1 => Status::HeldForLaboratory,
        2 => Status::HeldForVeterinarian,
        3 => Status::HeldForOwner,
        4 => Status::Condemned,
        _ => return Err(Refusal::Unreadable),
    };
    if data[30] == 1 || data[31] == 1 {
        return Err(Refusal::Unreadable);
    }
    Ok(Record {
        plant: number_of(&data[0..6]) as u8,
        carcass: number_of(&data[6..26]),
        side: data[26],
        status,
    })
}

fn demand(holds: bool, refusal: Refusal) -> Result<(), Refusal> {
    if holds {
        Ok(())
    } else {
        Err(refusal)
    }
}

fn all_bits(bytes: &[u8]) -> bool {
    bytes.iter().all(|&byte| byte < 2)
}

fn good_settings(raw: Raw) -> bool {
    1 <= raw.l && raw.l <= 32 && 2 <= raw.d && raw.d <= 256 && raw.t <= 1_048_576
}

fn lengths_fit(book: &Book, input: &Input, lent: &Lent) -> bool {
    let (n, k, v) = (book.n(), book.k(), book.v());
    let (l, d) = (input.raw.l as usize, input.raw.d as usize);
    let walks = [&lent.walk_path, &lent.walk_blocks, &lent.walk_score];
    input.values.len() == n
        && lent.word.len() == n
        && lent.data.len() == k
        && lent.numbers.len() >= d * (2 * n + 32)
        && lent.bytes.len() >= d * (2 * n)
        && walks.iter().all(|walk| walk.len() > l * v)
        && (!input.hook || k == 32)
}

/// The plain reader, with the numbers removed by its last run.
#[derive(Default)]
pub struct Plain {
    removed: Vec<Removed>,
}

impl Plain {
    fn run(&mut self, input: &Input, lent: &Lent) -> Result<(Book, Run), Refusal> {
        let book = judge(input.book)?;
        demand(good_settings(input.raw), Refusal::BadSetting)?;
        demand(lengths_fit(&book, input, lent), Refusal::Misfit)?;
        let in_range = |v: &i16| (-2047..=2047).contains(v);
        demand(input.values.iter().all(in_range), Refusal::BadValue)?;
        let (l, d) = (input.raw.l as usize, input.raw.d as usize);
        let run = Machine::new(&book, l, d, input.values).run();
        Ok((book, run))
    }
}

/// What a run leaves in workspace and walk, whatever its answer.
fn leave(book: &Book, run: &Run, d: usize, lent: &mut Lent) {
    let n = book.n();
    lent.numbers[..d * (2 * n + 32)].fill(0);
    lent.bytes[..d * 2 * n].fill(0);
    for (e, step) in run.steps.iter().enumerate() {
        lent.walk_path[e] = step.path as i32;
        lent.walk_blocks[e] = step.blocks as i32;
        lent.walk_score[e] = step.score;
    }
}

/// The answer after a run: 10, then in the hook call the record and 11.
fn verdict(run: &Run, input: &Input) -> Result<Record, Refusal> {
    demand(run.discrepancy as u32 <= input.raw.t, Refusal::Faint)?;
    if input.hook {
        data_record(&run.data)
    } else {
        Ok(Record::NONE)
    }
}

impl Reader for Plain {
    fn load(&mut self, book: &[u8]) -> Loaded {
        match judge(book) {
            Ok(book) => Loaded {
                refusal: None,
                n: book.n(),
                k: book.k(),
                v: book.v(),
            },
            Err(refusal) => Loaded {
                refusal: Some(refusal),
                n: 0,
                k: 0,
                v: 0,
            },
        }
    }

    fn encode(&mut self, book: &[u8], data: &[u8], word: &mut [u8]) -> Option<Refusal> {
        let judged = judge(book).and_then(|book| {
            let fits = data.len() == book.k() && word.len() == book.n();
            demand(fits, Refusal::Misfit)?;
            demand(all_bits(data), Refusal::BadValue)?;
            Ok(product(&fill(&book, data)))
        });
        judged.map(|made| word.copy_from_slice(&made)).err()
    }

    fn test(&mut self, book: &[u8], word: &[u8]) -> Tested {
        let judged = judge(book).and_then(|book| {
            demand(word.len() == book.n(), Refusal::Misfit)?;
            demand(all_bits(word), Refusal::BadValue)?;
            let u = product(word);
            Ok(u == fill(&book, &free_bits(&book, &u)))
        });
        match judged {
            Ok(true) => Tested::InCode,
            Ok(false) => Tested::NotInCode,
            Err(refusal) => Tested::Refused(refusal),
        }
    }

    fn read_data(&mut self, book: &[u8], word: &[u8], data: &mut [u8]) -> Option<Refusal> {
        let judged = judge(book).and_then(|book| {
            let fits = word.len() == book.n() && data.len() == book.k();
            demand(fits, Refusal::Misfit)?;
            demand(all_bits(word), Refusal::BadValue)?;
            Ok(free_bits(&book, &product(word)))
        });
        judged.map(|read| data.copy_from_slice(&read)).err()
    }

    fn make_record(&mut self, book: &[u8], record: &Record, data: &mut [u8]) -> Option<Refusal> {
        let judged = judge(book).and_then(|book| {
            let fits = book.k() == 32 && data.len() == 32;
            demand(fits, Refusal::Misfit)?;
            let small = record.plant < 64 && record.carcass < 1 << 20 && record.side < 2;
            demand(small, Refusal::BadValue)
        });
        judged
            .map(|()| data.copy_from_slice(&record_data(record)))
            .err()
    }

    fn read_record(&mut self, book: &[u8], data: &[u8]) -> (Option<Refusal>, Record) {
        let judged = judge(book).and_then(|book| {
            let fits = book.k() == 32 && data.len() == 32;
            demand(fits, Refusal::Misfit)?;
            demand(all_bits(data), Refusal::BadValue)?;
            data_record(data)
        });
        (judged.err(), judged.unwrap_or(Record::NONE))
    }

    fn decode(&mut self, input: Input, lent: &mut Lent) -> Decoded {
        self.removed.clear();
        let (book, run) = match self.run(&input, lent) {
            Ok(ran) => ran,
            Err(refusal) => {
                return Decoded {
                    refusal: Some(refusal),
                    counts: Counts::default(),
                    record: Record::NONE,
                }
            }
        };
        leave(&book, &run, input.raw.d as usize, lent);
        let verdict = verdict(&run, &input);
        if verdict.is_ok() {
            lent.word.copy_from_slice(&run.word);
            lent.data.copy_from_slice(&run.data);
        }
        self.removed = run.steps.iter().map(removed_of).collect();
        Decoded {
            refusal: verdict.err(),
            counts: Counts {
                extractions: run.steps.len() as i32,
                crowded: run.crowded() as i32,
                outrun: run.outrun() as i32,
                discrepancy: run.discrepancy,
            },
            record: verdict.unwrap_or(Record::NONE),
        }
    }

    fn removed(&self) -> &[Removed] {
        &self.removed
    }

    fn walk(&mut self, input: &[u8]) -> String {
        match walk_run(input) {
            Ok(run) => walk_text(&run),
            Err(refusal) => format!("refused {}\n", refusal.number()),
        }
    }
}

fn removed_of(step: &crate::machine::Step) -> Removed {
    Removed {
        crowded: step.crowded.clone(),
        outrun: step.outrun.clone(),
    }
}

/// The program `walk`, judged field by field in the order of document 01.
fn walk_run(input: &[u8]) -> Result<Run, Refusal> {
    let field = |from: usize, width: usize| {
        let bytes = input.get(from..from + width).ok_or(Refusal::Misfit)?;
        Ok(bytes.iter().fold(0u32, |s, &byte| s << 8 | byte as u32))
    };
    let book_end = 2 + field(0, 2)? as usize;
    let raw = Raw {
        l: field(book_end, 1)?,
        d: field(book_end + 1, 2)?,
        t: field(book_end + 3, 4)?,
    };
    let book = judge(&input[2..book_end])?;
    demand(book.m <= 6 && raw.d <= 64, Refusal::BadSetting)?;
    demand(good_settings(raw), Refusal::BadSetting)?;
    let tail = &input[book_end + 7..];
    demand(tail.len() == 2 * book.n(), Refusal::Misfit)?;
    let pairs = tail.chunks(2);
    let values: Vec<i16> = pairs.map(|p| i16::from_be_bytes([p[0], p[1]])).collect();
    let in_range = |v: &i16| (-2047..=2047).contains(v);
    demand(values.iter().all(in_range), Refusal::BadValue)?;
    let run = Machine::new(&book, raw.l as usize, raw.d as usize, &values).run();
    demand(run.discrepancy as u32 <= raw.t, Refusal::Faint)?;
    Ok(run)
}

fn walk_text(run: &Run) -> String {
    let mut text = String::from("no path blocks score\n");
    for (e, step) in run.steps.iter().enumerate() {
        let line = format!("{} {} {} {}\n", e + 1, step.path, step.blocks, step.score);
        text.push_str(&line);
    }
    let word: String = run.word.iter().map(|bit| bit.to_string()).collect();
    text.push_str(&format!("word {} {}\n", word, run.discrepancy));
    text
}
