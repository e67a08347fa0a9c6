//! The plain machine of document 01 ("The queue" and "The marker's plain
//! machine"), literal and slow. It shares nothing with the fast decoder but
//! the parsed book.

use crate::book::{Book, Role};
use crate::soft;

/// One extraction: what was taken and which numbers were removed.
#[derive(Clone, Debug, PartialEq, Eq)]
pub struct Step {
    pub path: u32,
    pub blocks: usize,
    pub score: i32,
    pub crowded: Vec<u32>,
    pub outrun: Vec<u32>,
}

/// A finished run.
#[derive(Clone, Debug, PartialEq, Eq)]
pub struct Run {
    pub steps: Vec<Step>,
    pub word: Vec<u8>,
    pub data: Vec<u8>,
    pub discrepancy: i32,
}

impl Run {
    pub fn crowded(&self) -> usize {
        self.steps.iter().map(|step| step.crowded.len()).sum()
    }

    pub fn outrun(&self) -> usize {
        self.steps.iter().map(|step| step.outrun.len()).sum()
    }
}

/// Bits times the A of their size: at every size (left + right | right).
pub fn times_a(bits: &[u8]) -> Vec<u8> {
    let mut out = bits.to_vec();
    halves(&mut out);
    out
}

fn halves(bits: &mut [u8]) {
    let mut half = 1;
    if bits.len() >= 8 {
        bits.chunks_exact_mut(8).for_each(eighths);
        half = 8;
    }
    while half < bits.len() {
        for both in bits.chunks_exact_mut(2 * half) {
            let (left, right) = both.split_at_mut(half);
            for (a, b) in left.iter_mut().zip(right) {
                *a ^= *b;
            }
        }
        half *= 2;
    }
}

/// The sizes up to eight at once, eight bytes as one number.
fn eighths(bits: &mut [u8]) {
    let mut all = 0u64;
    for (i, &bit) in bits.iter().enumerate() {
        all |= (bit as u64) << (8 * i);
    }
    all ^= all >> 8 & 0x0001_0001_0001_0001;
    all ^= all >> 16 & 0x0000_0101_0000_0101;
    all ^= all >> 32 & 0x0101_0101;
    for (i, bit) in bits.iter_mut().enumerate() {
        *bit = (all >> (8 * i)) as u8;
    }
}

/// The value of bit i over these values, given the bits before it: by halves
/// down to one value.
pub fn bit_value(values: &[i32], bits: &[u8], i: usize) -> i32 {
    let mut room = [0; 512];
    let mut held = &mut room[..values.len()];
    held.copy_from_slice(values);
    let (mut bits, mut i) = (bits, i);
    while held.len() > 1 {
        let half = held.len() / 2;
        let (a, b) = held.split_at_mut(half);
        if i < half {
            for (a, b) in a.iter_mut().zip(b) {
                *a = soft::q(*a, *b);
            }
        } else {
            let mut v = [0; 256];
            v[..half].copy_from_slice(&bits[..half]);
            halves(&mut v[..half]);
            for ((a, b), v) in a.iter_mut().zip(b).zip(v) {
                *a = soft::p(v, *a, *b);
            }
            bits = &bits[half..];
            i -= half;
        }
        held = a;
    }
    held[0]
}

/// A queued path: its number, its blocks, its bits of u so far, and its R,
/// which is summed anew whenever the bits change.
#[derive(Clone)]
struct Path {
    number: u32,
    blocks: usize,
    bits: Vec<u8>,
    r: i32,
}

/// A word of a block: its sum of penalties, its number and its bits of u.
struct Word {
    sum: i32,
    number: u32,
    bits: Vec<u8>,
}

pub struct Machine<'a> {
    book: &'a Book,
    l: usize,
    d: usize,
    values: Vec<i32>,
    queue: Vec<Path>,
    next_number: u32,
    visits: Vec<usize>,
}

impl<'a> Machine<'a> {
    pub fn new(book: &'a Book, l: usize, d: usize, values: &[i16]) -> Self {
        Machine {
            book,
            l,
            d,
            values: values.iter().map(|&v| v as i32).collect(),
            queue: Vec::new(),
            next_number: 1,
            visits: vec![0; book.v()],
        }
    }

    /// Sum of the penalties of the bits from `from` on.
    fn penalties(&self, bits: &[u8], from: usize) -> i32 {
        (from..bits.len())
            .map(|i| soft::penalty(bit_value(&self.values, bits, i), bits[i]))
            .sum()
    }

    fn score(&self, path: &Path) -> i32 {
        if path.blocks == 0 {
            return 0;
        }
        path.r - self.book.blocks[path.blocks - 1].bias
    }

    /// The words of block b after these earlier bits, nearest first.
    fn words(&self, earlier: &[u8], b: usize) -> Vec<Word> {
        let block = self.book.blocks[b];
        let free = self.book.free_between(block.start, block.end());
        let settings = 0..1u32 << free;
        let mut words: Vec<Word> = settings
            .map(|setting| self.word(earlier, b, setting))
            .collect();
        words.sort_by_key(|word| (-word.sum, word.number));
        words
    }

    /// The word of one setting of the block's free bits; zeros and ties follow.
    fn word(&self, earlier: &[u8], b: usize, setting: u32) -> Word {
        let block = self.book.blocks[b];
        let mut bits = earlier.to_vec();
        let mut left = setting;
        for role in &self.book.roles[block.start..block.end()] {
            let bit = match role {
                Role::Zero => 0,
                Role::Free => {
                    let bit = (left & 1) as u8;
                    left >>= 1;
                    bit
                }
                Role::Tied(terms) => terms.iter().fold(0, |s, &t| s ^ bits[t as usize]),
            };
            bits.push(bit);
        }
        let word = times_a(&bits[block.start..]);
        let number = word.iter().rev().fold(0, |s, &bit| s << 1 | bit as u32);
        Word {
            sum: self.penalties(&bits, block.start),
            number,
            bits: bits[block.start..].to_vec(),
        }
    }

    /// The word after the path's own in its last block, if there is one.
    fn next_word(&self, path: &Path) -> Option<Vec<u8>> {
        if path.blocks == 0 {
            return None;
        }
        let start = self.book.blocks[path.blocks - 1].start;
        let words = self.words(&path.bits[..start], path.blocks - 1);
        let own = words.iter().position(|w| w.bits == path.bits[start..]);
        let after = own.expect("a path's own word is one of its block's") + 1;
        words.into_iter().nth(after).map(|word| word.bits)
    }

    /// Replaces the bits from `from` on, and sums R anew.
    fn give(&self, path: &mut Path, from: usize, bits: &[u8]) {
        path.bits.truncate(from);
        path.bits.extend_from_slice(bits);
        path.r = self.penalties(&path.bits, 0);
    }

    /// Puts the queue into its order: higher score, more blocks, lower number.
    fn order(&mut self) {
        let mut queue = std::mem::take(&mut self.queue);
        queue.sort_by_key(|p| (-self.score(p), std::cmp::Reverse(p.blocks), p.number));
        self.queue = queue;
    }

    /// Step 2: crowds out and queues the copy, if there is a next word.
    fn copy(&mut self, path: &Path) -> Vec<u32> {
        let Some(bits) = self.next_word(path) else {
            return Vec::new();
        };
        let mut crowded = Vec::new();
        while self.queue.len() > self.d - 2 {
            crowded.extend(self.queue.pop().map(|last| last.number));
        }
        let mut copy = path.clone();
        copy.number = self.next_number;
        self.next_number += 1;
        let start = self.book.blocks[path.blocks - 1].start;
        self.give(&mut copy, start, &bits);
        self.queue.push(copy);
        crowded
    }

    /// Step 4: counts the visit and removes what is outrun.
    fn visit(&mut self, b: usize) -> Vec<u32> {
        self.visits[b] += 1;
        if self.visits[b] != self.l {
            return Vec::new();
        }
        let gone = self.queue.iter().filter(|path| path.blocks <= b);
        let outrun = gone.map(|path| path.number).collect();
        self.queue.retain(|path| path.blocks > b);
        outrun
    }

    /// Runs from path 0 alone until step 1 stops.
    pub fn run(mut self) -> Run {
        self.queue.push(Path {
            number: 0,
            blocks: 0,
            bits: Vec::new(),
            r: 0,
        });
        let mut steps = Vec::new();
        loop {
            self.order();
            let mut path = self.queue.remove(0);
            let b = path.blocks;
            let mut step = Step {
                path: path.number,
                blocks: b,
                score: self.score(&path),
                crowded: Vec::new(),
                outrun: Vec::new(),
            };
            if b == self.book.v() {
                steps.push(step);
                return self.finish(path, steps);
            }
            step.crowded = self.copy(&path);
            let nearest = self.words(&path.bits, b).swap_remove(0);
            let start = self.book.blocks[b].start;
            self.give(&mut path, start, &nearest.bits);
            path.blocks += 1;
            self.queue.push(path);
            step.outrun = self.visit(b);
            step.crowded.sort_unstable();
            step.outrun.sort_unstable();
            steps.push(step);
        }
    }

    fn finish(&self, path: Path, steps: Vec<Step>) -> Run {
        let free = self.book.roles.iter().zip(&path.bits);
        let data = free.filter(|(role, _)| **role == Role::Free);
        Run {
            steps,
            word: times_a(&path.bits),
            data: data.map(|(_, &bit)| bit).collect(),
            discrepancy: -path.r,
        }
    }
}
