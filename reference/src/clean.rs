//! Clean hooks: soft values that are all non-zero and have the signs of a
//! word of the code, with a book whose biases never rise. For the tests and
//! the recorded cases.

use crate::answer::{Counts, Reader};
use crate::book::{self, Block, Book, Role, BIAS_MAX};
use crate::cases::bits;
use crate::design::{Bounds, Draft};
use crate::model::{product, Plain};
use crate::record::{Record, Status, RECORD_BITS};
use crate::rng::Rng;
use crate::settings::Raw;

/// A book with one of its words and the data of that word.
pub struct Hook {
    pub book: Book,
    pub bytes: Vec<u8>,
    pub data: Vec<u8>,
    pub word: Vec<u8>,
}

impl Hook {
    pub fn new(bytes: Vec<u8>, data: Vec<u8>) -> Hook {
        let book = book::load(&bytes).expect("a sound book");
        let word = word_of(&book, &data);
        Hook {
            book,
            bytes,
            data,
            word,
        }
    }

    /// A random word of a book.
    pub fn random(rng: &mut Rng, bytes: Vec<u8>) -> Hook {
        let k = book::load(&bytes).expect("a sound book").k();
        Hook::new(bytes, bits(rng, k))
    }

    /// These magnitudes with the signs of the word.
    pub fn values(&self, mut magnitude: impl FnMut(usize) -> i16) -> Vec<i16> {
        let bits = self.word.iter().enumerate();
        bits.map(|(i, &bit)| match bit {
            0 => magnitude(i),
            _ => -magnitude(i),
        })
        .collect()
    }

    /// Whether no bias is above the one before it, and every value has the
    /// sign of its bit.
    pub fn is_clean(&self, values: &[i16]) -> bool {
        let falls = |pair: &[Block]| pair[1].bias <= pair[0].bias;
        let mut signs = self.word.iter().zip(values);
        self.book.blocks.windows(2).all(falls)
            && values.len() == self.book.n()
            && signs.all(|(&bit, &value)| value != 0 && (value < 0) == (bit == 1))
    }

    /// Blocks but the last one that hold a free index: each leaves one copy.
    pub fn copies(&self) -> i32 {
        let but_last = &self.book.blocks[..self.book.v() - 1];
        let holds_free = |block: &&Block| self.book.free_between(block.start, block.end()) > 0;
        but_last.iter().filter(holds_free).count() as i32
    }

    /// What a clean hook counts.
    pub fn counts(&self, raw: Raw) -> Counts {
        let copies = self.copies();
        let (crowded, outrun) = match raw.l {
            1 => (0, copies),
            _ => ((copies - (raw.d as i32 - 1)).max(0), 0),
        };
        Counts {
            extractions: self.book.v() as i32 + 1,
            crowded,
            outrun,
            discrepancy: 0,
        }
    }
}

/// The word of these data, from the definition.
fn word_of(book: &Book, data: &[u8]) -> Vec<u8> {
    let mut u: Vec<u8> = Vec::new();
    let mut data = data.iter();
    for role in &book.roles {
        let bit = match role {
            Role::Free => *data.next().expect("k bits"),
            Role::Zero => 0,
            Role::Tied(terms) => terms.iter().fold(0, |s, &t| s ^ u[t as usize]),
        };
        u.push(bit);
    }
    product(&u)
}

/// Settings at, near and between their ends.
pub fn random_raw(rng: &mut Rng) -> Raw {
    let d = rng.between(2, 256) as u32;
    Raw {
        l: rng.pick(&[1, 1, 2, 2, 3, 8, 31, 32]),
        d: rng.pick(&[2, 2, 3, 5, 9, 17, 256, d]),
        t: rng.pick(&[0, 0, 1, 100, 1_048_576]),
    }
}

/// Values of a hook: magnitudes all least, all most, at the ends, small, or
/// any.
pub fn random_values(rng: &mut Rng, hook: &Hook) -> Vec<i16> {
    let style = rng.below(6);
    hook.values(|_| match style {
        0 => 1,
        1 => 2047,
        2 => rng.pick(&[1, 2047]),
        3 => rng.between(1, 3) as i16,
        _ => rng.between(1, 2047) as i16,
    })
}

/// A random book with its biases put into falling order; with `records` one
/// with k = 32.
pub fn falling(rng: &mut Rng, m: u8, records: bool) -> Draft {
    let free = if m < 7 { 8 } else { 4 + rng.below(3) };
    let words = if m < 7 { 8192 } else { 512 };
    let bounds = Bounds { free, words };
    let mut draft = match records {
        true => Draft::for_records(rng, m, bounds),
        false => Draft::random(rng, m, bounds),
    };
    let mut biases: Vec<i32> = draft.blocks.iter().map(|&(_, bias)| bias).collect();
    biases.sort_unstable_by(|a, b| b.cmp(a));
    for (block, bias) in draft.blocks.iter_mut().zip(biases) {
        block.1 = bias;
    }
    draft
}

/// Such a book with one bias lifted above the one before it.
pub fn rising(rng: &mut Rng, m: u8, records: bool) -> Draft {
    loop {
        let mut draft = falling(rng, m, records);
        let b = 1 + rng.below(draft.blocks.len());
        let lifted = draft.blocks[b - 1].1 + rng.pick(&[1, 50, 3_000, 200_000]);
        if b < draft.blocks.len() && lifted <= BIAS_MAX && draft.k() > 0 {
            draft.blocks[b].1 = lifted;
            return draft;
        }
    }
}

/// A record of random fields.
pub fn random_record(rng: &mut Rng) -> Record {
    Record {
        plant: rng.below(64) as u8,
        carcass: rng.below(1 << 20) as u32,
        side: rng.bit(),
        status: Status::of(rng.below(5) as u32).expect("a status"),
    }
}

/// The data that hold a record, for a book with k = 32.
pub fn record_data(book: &[u8], record: &Record) -> Vec<u8> {
    let mut data = vec![9; RECORD_BITS];
    let refusal = Plain::default().make_record(book, record, &mut data);
    assert_eq!(refusal, None);
    data
}

/// Changes the data of a record so that they hold none: a status above 4, or
/// a spare bit.
pub fn undo_record(rng: &mut Rng, data: &mut [u8]) {
    match rng.below(3) {
        0 => data[27..30].copy_from_slice(&rng.pick(&[[1, 0, 1], [1, 1, 0], [1, 1, 1]])),
        other => data[29 + other] = 1,
    }
}
