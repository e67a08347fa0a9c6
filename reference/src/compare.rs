//! The comparison of the plain reader with the fast one, call by call:
//! refusal, counts, the whole walk, the numbers crowded out and outrun at
//! each extraction, word, data, record, and every lent buffer to its end.

use crate::answer::{Decoded, Input, Lent, Reader, Removed, Tested};
use crate::calls::Fast;
use crate::cases::{Case, Maker, Sizes};
use crate::model::Plain;
use crate::replay::{garbage_byte, garbage_number};

/// The buffers of a decoding call, with garbage before it.
#[derive(Clone, PartialEq, Eq)]
pub struct Buffers {
    pub word: Vec<u8>,
    pub data: Vec<u8>,
    pub numbers: Vec<i32>,
    pub bytes: Vec<u8>,
    pub walk: [Vec<i32>; 3],
}

impl Buffers {
    pub fn new(sizes: &Sizes) -> Buffers {
        let bytes = |count: usize| (0..count).map(garbage_byte).collect();
        let numbers = |count: usize| (0..count).map(garbage_number).collect();
        Buffers {
            word: bytes(sizes.word),
            data: bytes(sizes.data),
            numbers: numbers(sizes.numbers),
            bytes: bytes(sizes.bytes),
            walk: sizes.walk.map(numbers),
        }
    }

    pub fn lend(&mut self) -> Lent<'_> {
        let [path, blocks, score] = &mut self.walk;
        Lent {
            word: &mut self.word,
            data: &mut self.data,
            numbers: &mut self.numbers,
            bytes: &mut self.bytes,
            walk_path: path,
            walk_blocks: blocks,
            walk_score: score,
        }
    }
}

/// Everything one reader makes of a case.
#[derive(PartialEq, Eq)]
struct Seen {
    loaded: crate::answer::Loaded,
    encoded: (Option<crate::book::Refusal>, Vec<u8>),
    tested: Tested,
    read: (Option<crate::book::Refusal>, Vec<u8>),
    made: (Option<crate::book::Refusal>, Vec<u8>),
    record: (Option<crate::book::Refusal>, crate::record::Record),
    decoded: Decoded,
    removed: Vec<Removed>,
    buffers: Buffers,
    walk: String,
}

fn see(reader: &mut dyn Reader, case: &Case) -> Seen {
    let book = &case.book;
    let bytes = |count: usize| -> Vec<u8> { (0..count).map(garbage_byte).collect() };
    let mut word = bytes(case.word_length);
    let encoded = reader.encode(book, &case.data, &mut word);
    let mut data = bytes(case.data_length);
    let read = reader.read_data(book, &case.word, &mut data);
    let mut record = bytes(case.record_length);
    let made = reader.make_record(book, &case.record, &mut record);
    let mut buffers = Buffers::new(&case.sizes);
    let input = Input {
        book,
        raw: case.raw,
        values: &case.values,
        hook: case.hook,
    };
    let decoded = reader.decode(input, &mut buffers.lend());
    let removed = reader.removed().to_vec();
    Seen {
        loaded: reader.load(book),
        encoded: (encoded, word),
        tested: reader.test(book, &case.word),
        read: (read, data),
        made: (made, record),
        record: reader.read_record(book, &case.record_data),
        decoded,
        removed,
        buffers,
        walk: reader.walk(&case.walk),
    }
}

/// The parts of a case in which two readers differ.
fn differences(a: &Seen, b: &Seen) -> Vec<&'static str> {
    let parts = [
        ("load", a.loaded == b.loaded),
        ("encode", a.encoded == b.encoded),
        ("test", a.tested == b.tested),
        ("read data", a.read == b.read),
        ("make record", a.made == b.made),
        ("read record", a.record == b.record),
        ("answer, counts or record", a.decoded == b.decoded),
        ("numbers crowded out or outrun", a.removed == b.removed),
        ("word", a.buffers.word == b.buffers.word),
        ("data", a.buffers.data == b.buffers.data),
        ("workspace numbers", a.buffers.numbers == b.buffers.numbers),
        ("workspace bytes", a.buffers.bytes == b.buffers.bytes),
        ("walk buffers", a.buffers.walk == b.buffers.walk),
        ("walk text", a.walk == b.walk),
    ];
    let differ = parts.iter().filter(|(_, same)| !same);
    differ.map(|(name, _)| *name).collect()
}

/// What has been met so far.
#[derive(Default)]
pub struct Tally {
    pub cases: u64,
    pub by_m: [u64; 10],
    pub by_height: [u64; 6],
    /// Decoding answers; 0 stands for success.
    pub answers: [u64; 12],
    pub loads: [u64; 12],
    pub hooks: u64,
    pub runs: u64,
    pub runs_by_m: [u64; 10],
    pub extractions: u64,
    pub longest: i32,
    pub crowded: u64,
    pub outrun: u64,
    pub tied_books: u64,
    pub most_ties: usize,
    pub walks: u64,
}

fn number(refusal: Option<crate::book::Refusal>) -> usize {
    refusal.map_or(0, |refusal| refusal.number() as usize)
}

impl Tally {
    fn count(&mut self, case: &Case, seen: &Seen) {
        self.cases += 1;
        self.by_m[case.m as usize] += 1;
        self.loads[number(seen.loaded.refusal)] += 1;
        self.answers[number(seen.decoded.refusal)] += 1;
        self.hooks += case.hook as u64;
        self.walks += seen.walk.starts_with("no") as u64;
        if let Ok(book) = crate::book::load(&case.book) {
            for block in &book.blocks {
                self.by_height[block.j as usize] += 1;
            }
            let tied = |role: &&crate::book::Role| matches!(role, crate::book::Role::Tied(_));
            let ties = book.roles.iter().filter(tied).count();
            self.tied_books += (ties > 0) as u64;
            self.most_ties = self.most_ties.max(ties);
        }
        let counts = seen.decoded.counts;
        if counts.extractions > 0 {
            self.runs += 1;
            self.runs_by_m[case.m as usize] += 1;
            self.extractions += counts.extractions as u64;
            self.longest = self.longest.max(counts.extractions);
            self.crowded += counts.crowded as u64;
            self.outrun += counts.outrun as u64;
        }
    }

    /// The tally as text.
    pub fn report(&self) -> String {
        let lines = [
            format!("cases {}", self.cases),
            format!("cases with m 2 to 9: {:?}", &self.by_m[2..]),
            format!("loads by answer 0 to 6: {:?}", &self.loads[..7]),
            format!("decoding calls by answer 0 to 11: {:?}", self.answers),
            format!("hook calls {}", self.hooks),
            format!(
                "runs {}, with m 2 to 9: {:?}",
                self.runs,
                &self.runs_by_m[2..]
            ),
            format!("extractions {}, most {}", self.extractions, self.longest),
            format!("crowded out {}, outrun {}", self.crowded, self.outrun),
            format!("blocks with j 0 to 5: {:?}", self.by_height),
            format!(
                "books with ties {}, most {}",
                self.tied_books, self.most_ties
            ),
            format!("walk listings {}", self.walks),
        ];
        lines.join("\n")
    }
}

/// The two readers, what makes their cases, and the tally.
pub struct Comparison {
    maker: Maker,
    plain: Plain,
    fast: Fast,
    narrow: Fast,
    pub tally: Tally,
}

impl Default for Comparison {
    fn default() -> Self {
        let mut narrow = Fast::logging();
        narrow.workspace.narrow();
        Comparison {
            maker: Maker::default(),
            plain: Plain::default(),
            fast: Fast::logging(),
            narrow,
            tally: Tally::default(),
        }
    }
}

impl Comparison {
    /// Compares case `index` under `seed`; a difference is described so that
    /// it can be made again.
    pub fn check(&mut self, seed: u64, index: u64) -> Result<(), String> {
        let case = self.maker.case(seed, index);
        let plain = see(&mut self.plain, &case);
        let fast = match index % 4 {
            0 => see(&mut self.narrow, &case),
            _ => see(&mut self.fast, &case),
        };
        self.tally.count(&case, &plain);
        let mut found = differences(&plain, &fast);
        let refusal = number(plain.loaded.refusal) as u8;
        if case.expected.is_some_and(|expected| expected != refusal) {
            found.push("refusal the book was made for");
        }
        if found.is_empty() {
            return Ok(());
        }
        Err(describe(seed, index, &case, &plain, &fast, &found))
    }
}

fn describe(
    seed: u64,
    index: u64,
    case: &Case,
    plain: &Seen,
    fast: &Seen,
    found: &[&str],
) -> String {
    let hex: String = case.book.iter().map(|byte| format!("{byte:02x}")).collect();
    format!(
        "seed {seed} case {index}: {found:?}\nbook {hex} (made for {:?})\n{:?} hook {} values {:?}\n\
         sizes {:?}\nplain {:?} {:?}\nfast  {:?} {:?}\nplain walk {:?}\nfast walk  {:?}",
        case.expected,
        case.raw,
        case.hook,
        case.values,
        case.sizes,
        plain.loaded,
        plain.decoded,
        fast.loaded,
        fast.decoded,
        plain.buffers.walk.clone().map(|walk| walk[..walk.len().min(40)].to_vec()),
        fast.buffers.walk.clone().map(|walk| walk[..walk.len().min(40)].to_vec()),
    )
}
