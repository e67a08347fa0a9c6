//! Random cases for the comparison and the recorded cases: everything a set
//! of calls takes, sound or wrong in one or several ways.

use crate::book;
use crate::calls::{walk_size, workspace_size};
use crate::code;
use crate::damage;
use crate::design::{Bounds, Draft};
use crate::fast::Workspace;
use crate::plan::Plan;
use crate::record::{Record, Status};
use crate::rng::Rng;
use crate::settings::Raw;

/// Lengths of the buffers lent to a decoding call.
#[derive(Clone, Copy, Debug)]
pub struct Sizes {
    pub word: usize,
    pub data: usize,
    pub numbers: usize,
    pub bytes: usize,
    pub walk: [usize; 3],
}

/// One case: a book and the input of every call.
#[derive(Clone, Debug)]
pub struct Case {
    pub m: u8,
    pub book: Vec<u8>,
    /// The refusal a damage was made for, where it is known.
    pub expected: Option<u8>,
    pub raw: Raw,
    pub values: Vec<i16>,
    pub hook: bool,
    pub sizes: Sizes,
    /// Data to encode and the length of the word lent.
    pub data: Vec<u8>,
    pub word_length: usize,
    /// Word to test and to read, and the length of the data lent.
    pub word: Vec<u8>,
    pub data_length: usize,
    /// Record to make, the length of the data lent, and data to read.
    pub record: Record,
    pub record_length: usize,
    pub record_data: Vec<u8>,
    /// Standard input of the program `walk`.
    pub walk: Vec<u8>,
}

/// How m is spread: mostly small, but each in numbers.
const SPREAD: [u8; 40] = [
    2, 2, 2, 2, 3, 3, 3, 3, 3, 3, 3, 4, 4, 4, 4, 4, 4, 4, 4, 4, 4, 5, 5, 5, 5, 5, 5, 5, 6, 6, 6, 6,
    6, 6, 7, 7, 7, 8, 8, 9,
];

/// Steps of the plain machine that a rare case may take, and a usual one by
/// its m.
const RARE_WORK: usize = 300_000_000;

fn usual_work(m: u8) -> usize {
    match m {
        2..=6 => 5_000_000,
        7 => 15_000_000,
        8 => 40_000_000,
        _ => 160_000_000,
    }
}

/// Makes cases; its decoder finds the discrepancies that limits are set to.
#[derive(Default)]
pub struct Maker {
    workspace: Workspace,
    /// Whether the cases may be more than the plain machine can follow.
    heavy: bool,
}

impl Maker {
    /// One whose cases have the widest blocks and as many visits at any m.
    pub fn heavy() -> Maker {
        Maker {
            heavy: true,
            ..Maker::default()
        }
    }

    /// Case `index` under `seed`.
    pub fn case(&mut self, seed: u64, index: u64) -> Case {
        let mut rng = Rng::of_case(seed, index);
        let m = rng.pick(&SPREAD);
        self.case_of(&mut rng, m)
    }

    /// A case with this m, unless a damage changes it.
    pub fn case_of(&mut self, rng: &mut Rng, m: u8) -> Case {
        let rare = rng.one_in(if m < 7 { 20 } else { 400 }) || self.heavy;
        let budget = match rare {
            _ if self.heavy => usize::MAX,
            true => RARE_WORK,
            false => usual_work(m),
        };
        let bounds = bounds(rng, m, rare);
        let records = m >= 5 && rng.one_in(3);
        let draft = match records {
            true => Draft::for_records(rng, m, bounds),
            false => Draft::random(rng, m, bounds),
        };
        let (book, expected) = if rng.one_in(6) {
            damage::damaged(rng, &draft)
        } else {
            (draft.bytes(rng), Some(0))
        };
        let mut l = rng.pick(&[1, 1, 2, 3, 4, 6, 8, 16, 31, 32]);
        while l > 1 && draft.work(l) > budget {
            l -= 1;
        }
        let d = rng.pick(&[2, 2, 3, 4, 5, 8, 16, 64, 255, 256]);
        let d = if d == 64 { 2 + rng.below(255) } else { d };
        let mut case = self.fill(rng, &draft, book, l, d);
        case.expected = expected;
        case
    }

    /// The calls' input for a book; every length and setting sound at first.
    fn fill(&mut self, rng: &mut Rng, draft: &Draft, book: Vec<u8>, l: usize, d: usize) -> Case {
        let (n, k, v) = (draft.n(), draft.k(), draft.blocks.len());
        let values = values(rng, draft);
        let t = self.limit(rng, &book, l, d, &values);
        let (numbers, bytes) = workspace_size(n, d);
        let walk = walk_size(l, v);
        let sizes = Sizes {
            word: n,
            data: k,
            numbers: numbers + more(rng),
            bytes: bytes + more(rng),
            walk: [walk + more(rng), walk + more(rng), walk + more(rng)],
        };
        let mut case = Case {
            m: draft.m,
            book,
            expected: None,
            raw: Raw {
                l: l as u32,
                d: d as u32,
                t,
            },
            values,
            hook: k == 32 && rng.one_in(2) || rng.one_in(30),
            sizes,
            data: bits(rng, k),
            word_length: n,
            word: any_word(rng, draft),
            data_length: k,
            record: record(rng),
            record_length: 32,
            record_data: record_data(rng),
            walk: Vec::new(),
        };
        if rng.one_in(7) {
            spoil(rng, &mut case);
        }
        spoil_codec(rng, &mut case);
        case.walk = walk_input(rng, &case);
        case
    }

    /// A limit: at its ends, at the discrepancy found, one below, or any.
    fn limit(&mut self, rng: &mut Rng, book: &[u8], l: usize, d: usize, values: &[i16]) -> u32 {
        let any = rng.between(0, 1_048_576) as u32;
        let Ok(book) = book::load(book) else {
            return any;
        };
        if book.n() != values.len() {
            return any;
        }
        let plan = Plan::new(&book);
        let ran = self.workspace.run(&plan, l, d, values, &mut ());
        let found = ran.discrepancy as u32;
        match rng.below(10) {
            0 => 0,
            1 => found.saturating_sub(1),
            2 | 3 => found,
            4 => any,
            _ => 1_048_576,
        }
    }
}

fn bounds(rng: &mut Rng, m: u8, rare: bool) -> Bounds {
    let words = match m {
        _ if rare => 8192,
        2..=6 => rng.pick(&[64, 256, 1024, 8192]),
        7 => rng.pick(&[32, 64, 256, 1024]),
        8 => rng.pick(&[32, 64, 256]),
        _ => rng.pick(&[16, 32, 64]),
    };
    Bounds {
        free: if rng.one_in(3) { rng.below(9) } else { 8 }.max(1),
        words: words.max(2),
    }
}

/// Entries of a lent buffer beyond those asked: mostly none.
pub fn more(rng: &mut Rng) -> usize {
    if rng.one_in(4) {
        rng.below(9)
    } else {
        0
    }
}

pub fn bits(rng: &mut Rng, count: usize) -> Vec<u8> {
    (0..count).map(|_| rng.bit()).collect()
}

/// A word of the code, or, where the record's data fit, of a record.
fn code_word(rng: &mut Rng, draft: &Draft) -> Vec<u8> {
    let bytes = draft.bytes(rng);
    let mut word = vec![0; draft.n()];
    if let Ok(book) = book::load(&bytes) {
        let data = match draft.k() {
            32 => record_data(rng),
            k => bits(rng, k),
        };
        code::unpack(&code::encode(&book, &data), &mut word);
    }
    word
}

/// A word of the code, one with a bit turned, or any.
fn any_word(rng: &mut Rng, draft: &Draft) -> Vec<u8> {
    let mut word = code_word(rng, draft);
    match rng.below(3) {
        0 => word = bits(rng, draft.n()),
        1 => word[rng.below(draft.n())] ^= 1,
        _ => {}
    }
    word
}

/// Soft values of many kinds, those with many equals first.
fn values(rng: &mut Rng, draft: &Draft) -> Vec<i16> {
    let n = draft.n();
    let word = code_word(rng, draft);
    let style = rng.below(12);
    let size = rng.pick(&[1, 2, 3, 7, 100, 1024, 2047]) as i64;
    let noise = rng.pick(&[0.3, 0.6, 0.9, 1.3]);
    let one = |i: usize, rng: &mut Rng| {
        let sign = 1 - 2 * word[i] as i64;
        match style {
            0 => 0,
            1 => rng.pick(&[-size, size]),
            2 => rng.pick(&[-size, 0, size]),
            3 => rng.between(-2, 2),
            4 => sign * size,
            5 if rng.one_in(8) => -sign * size,
            5 => sign * size,
            6 if rng.one_in(4) => 0,
            6 => sign * rng.between(1, 3),
            7 => rng.pick(&[-2047, 2047]),
            8 => rng.between(-2047, 2047),
            _ => {
                let value = (sign as f64 + noise * rng.normal()) * size as f64;
                (value as i64).clamp(-2047, 2047)
            }
        }
    };
    (0..n).map(|i| one(i, rng) as i16).collect()
}

/// Data of a record, sometimes with a bad status or spare bit.
fn record_data(rng: &mut Rng) -> Vec<u8> {
    let mut data = bits(rng, 32);
    if !rng.one_in(4) {
        let status = rng.below(5);
        for i in 0..3 {
            data[27 + i] = (status >> (2 - i) & 1) as u8;
        }
        data[30] = 0;
        data[31] = 0;
    }
    data
}

fn record(rng: &mut Rng) -> Record {
    let status = Status::of(rng.below(5) as u32).unwrap_or(Status::Passed);
    let mut record = Record {
        plant: rng.pick(&[0, 63, 1, 42]),
        carcass: rng.pick(&[0, 0xF_FFFF, rng.clone().next() as u32 & 0xF_FFFF]),
        side: rng.bit(),
        status,
    };
    match rng.below(9) {
        0 => record.plant = rng.pick(&[64, 255]),
        1 => record.carcass = rng.pick(&[1 << 20, u32::MAX]),
        2 => record.side = rng.pick(&[2, 255]),
        _ => {}
    }
    record
}

/// One less or one more, not below 0.
fn off_by_one(rng: &mut Rng, length: usize) -> usize {
    if length > 0 && rng.one_in(2) {
        length - 1
    } else {
        length + 1
    }
}

/// Makes the decoding call wrong in one to three ways.
fn spoil(rng: &mut Rng, case: &mut Case) {
    let ways = rng.pick(&[1, 1, 1, 2, 3]);
    for _ in 0..ways {
        match rng.below(18) {
            0 => case.raw.l = rng.pick(&[0, 33, 255, 65535]),
            1 => case.raw.d = rng.pick(&[0, 1, 257, 65535]),
            2 => case.raw.t = rng.pick(&[1_048_577, u32::MAX, 1 << 31]),
            3 => spoil_values_length(rng, case),
            4 => case.sizes.word = off_by_one(rng, case.sizes.word),
            5 => case.sizes.data = off_by_one(rng, case.sizes.data),
            6 => case.sizes.numbers = short_by_one(case, 0),
            7 => case.sizes.bytes = short_by_one(case, 1),
            8..=10 => case.sizes.walk[rng.below(3)] = short_by_one(case, 2),
            11 => case.hook = true,
            _ if case.values.is_empty() => {}
            _ => {
                let at = rng.below(case.values.len());
                case.values[at] = rng.pick(&[2048, -2048, i16::MAX, i16::MIN]);
            }
        }
    }
}

fn spoil_values_length(rng: &mut Rng, case: &mut Case) {
    let length = off_by_one(rng, case.values.len());
    case.values.resize(length, 1);
}

/// One less than asked: workspace numbers, workspace bytes, walk.
fn short_by_one(case: &Case, which: usize) -> usize {
    let Ok(book) = book::load(&case.book) else {
        return 0;
    };
    let (l, d) = (case.raw.l.min(32) as usize, case.raw.d.min(256) as usize);
    let (numbers, bytes) = workspace_size(book.n(), d);
    let asked = [numbers, bytes, walk_size(l, book.v())][which];
    asked.saturating_sub(1)
}

/// Makes the codec and record calls wrong at times.
fn spoil_codec(rng: &mut Rng, case: &mut Case) {
    match rng.below(16) {
        0 => case.data.push(1),
        1 => drop(case.data.pop()),
        2 => case.word_length = off_by_one(rng, case.word_length),
        3 => case.word.push(0),
        4 => drop(case.word.pop()),
        5 => case.data_length = off_by_one(rng, case.data_length),
        6 => case.record_length = off_by_one(rng, case.record_length),
        7 => drop(case.record_data.pop()),
        8 => case.record_data.push(0),
        _ => {}
    }
    for bytes in [&mut case.data, &mut case.word, &mut case.record_data] {
        if rng.one_in(12) && !bytes.is_empty() {
            let at = rng.below(bytes.len());
            bytes[at] = rng.pick(&[2, 3, 128, 255]);
        }
    }
}

/// Standard input for `walk`, at times cut, lengthened or with a wrong book
/// length.
fn walk_input(rng: &mut Rng, case: &Case) -> Vec<u8> {
    let mut out = (case.book.len() as u16).to_be_bytes().to_vec();
    out.extend(&case.book);
    out.push(case.raw.l as u8);
    let d = match case.raw.d {
        d @ 65..=256 if !rng.one_in(8) => 2 + d % 63,
        d => d,
    };
    out.extend((d as u16).to_be_bytes());
    out.extend(case.raw.t.to_be_bytes());
    out.extend(case.values.iter().flat_map(|value| value.to_be_bytes()));
    match rng.below(12) {
        0 => out.truncate(rng.clone().below(out.len() + 1)),
        1 => out.extend(bits(rng, 1 + rng.clone().below(3))),
        2 => out.truncate(out.len() - 1),
        3 => out[rng.below(2)] ^= 1 << rng.below(8),
        _ => {}
    }
    out
}
