//! Random subcodes with ties, and words received over a channel with white
//! noise: what the timings decode.
//!
//! The free indices are the most reliable by polarisation weight, the ties
//! and their terms are random, the blocks are the largest that may stand, and
//! the bias of a block is the mean penalty of the true path (002, (2)),
//! measured at the same noise.

use crate::book::{Book, Role};
use crate::code;
use crate::design::Draft;
use crate::rng::Rng;
use crate::soft;

/// How many words are received.
pub const INPUTS: usize = 1024;
/// Soft values are hundredths of a log-likelihood ratio.
const SCALE: f64 = 100.0;

/// A code and a decoder's settings: n, k, the number of ties, L and D.
pub struct Setup {
    pub n: usize,
    pub k: usize,
    pub ties: usize,
    pub l: usize,
    pub d: usize,
}

/// The codes and settings that are timed.
pub fn setups() -> [Setup; 4] {
    let setup = |n, k, ties, l, d| Setup { n, k, ties, l, d };
    [
        setup(16, 10, 3, 4, 8),
        setup(64, 32, 12, 8, 32),
        setup(256, 128, 32, 32, 128),
        setup(512, 256, 32, 32, 256),
    ]
}

/// The k most reliable indices.
fn reliable(n: usize, k: usize) -> Vec<bool> {
    let beta = 2f64.powf(0.25);
    let weight = |i: usize| -> f64 {
        let bits = (0..9).filter(|b| i >> b & 1 == 1);
        bits.map(|b| beta.powi(b)).sum()
    };
    let mut order: Vec<usize> = (0..n).collect();
    order.sort_by(|&a, &b| weight(b).total_cmp(&weight(a)));
    let mut free = vec![false; n];
    order[..k].iter().for_each(|&i| free[i] = true);
    free
}

/// Roles with ties at the last frozen indices, each to one to eight earlier
/// free ones.
fn roles(rng: &mut Rng, setup: &Setup) -> Vec<Role> {
    let free = reliable(setup.n, setup.k);
    let role = |&free: &bool| if free { Role::Free } else { Role::Zero };
    let mut roles: Vec<Role> = free.iter().map(role).collect();
    let mut left = setup.ties;
    for i in (0..setup.n).rev() {
        let mut earlier: Vec<u16> = (0..i as u16).filter(|&e| free[e as usize]).collect();
        if free[i] || left == 0 || earlier.is_empty() {
            continue;
        }
        let count = (1 + rng.below(8)).min(earlier.len());
        for t in 0..count {
            let other = t + rng.below(earlier.len() - t);
            earlier.swap(t, other);
        }
        earlier.truncate(count);
        roles[i] = Role::Tied(earlier);
        left -= 1;
    }
    roles
}

/// Heights of the largest blocks that may stand.
fn largest(roles: &[Role]) -> Vec<u8> {
    let mut out = Vec::new();
    let mut start = 0;
    while start < roles.len() {
        let may = |j: &u8| {
            let end = start + (1usize << j);
            let fits = start % (1 << j) == 0 && end <= roles.len();
            fits && roles[start..end]
                .iter()
                .filter(|r| **r == Role::Free)
                .count()
                <= 8
        };
        let j = (0..=5).rev().find(may).unwrap_or(0);
        out.push(j);
        start += 1 << j;
    }
    out
}

/// White noise.
pub struct Channel {
    sigma: f64,
}

impl Channel {
    pub fn new(rate: f64, decibel: f64) -> Channel {
        let ratio = 10f64.powf(decibel / 10.0);
        Channel {
            sigma: (1.0 / (2.0 * rate * ratio)).sqrt(),
        }
    }

    fn value(&self, rng: &mut Rng, bit: u8) -> i16 {
        let received = 1.0 - 2.0 * bit as f64 + self.sigma * rng.normal();
        let value = 2.0 * received / (self.sigma * self.sigma) * SCALE;
        value.round().clamp(-2047.0, 2047.0) as i16
    }
}

/// Adds the penalties of the zero path, block by block, to `sums`.
fn penalties(values: &[i32], start: usize, blocks: &[(usize, usize)], sums: &mut [f64]) {
    let at = blocks.iter().position(|b| *b == (start, values.len()));
    if let Some(b) = at {
        let sum: i32 = values.iter().map(|&value| value.min(0)).sum();
        sums[b] += sum as f64;
        return;
    }
    let half = values.len() / 2;
    let (a, b) = values.split_at(half);
    let pairs = || a.iter().zip(b);
    let left: Vec<i32> = pairs().map(|(&a, &b)| soft::q(a, b)).collect();
    let right: Vec<i32> = pairs().map(|(&a, &b)| soft::p(0, a, b)).collect();
    penalties(&left, start, blocks, sums);
    penalties(&right, start + half, blocks, sums);
}

/// Mean penalty of the true path up to the end of each block.
fn biases(rng: &mut Rng, n: usize, heights: &[u8], channel: &Channel) -> Vec<i32> {
    let mut blocks = Vec::new();
    let mut start = 0;
    for &j in heights {
        blocks.push((start, 1 << j));
        start += 1 << j;
    }
    let mut sums = vec![0.0; blocks.len()];
    let draws = 2000;
    for _ in 0..draws {
        let values: Vec<i32> = (0..n).map(|_| channel.value(rng, 0) as i32).collect();
        penalties(&values, 0, &blocks, &mut sums);
    }
    let mut total = 0.0;
    let mean = sums.iter().map(|sum| {
        total += sum / draws as f64;
        total.round() as i32
    });
    mean.collect()
}

fn draft(rng: &mut Rng, setup: &Setup, channel: &Channel) -> Draft {
    let roles = roles(rng, setup);
    let heights = largest(&roles);
    let biases = biases(rng, setup.n, &heights, channel);
    Draft {
        m: setup.n.trailing_zeros() as u8,
        roles,
        blocks: heights.into_iter().zip(biases).collect(),
    }
}

/// What the book for the setup and the channel says.
pub fn make_draft(setup: &Setup, channel: &Channel) -> Draft {
    draft(&mut Rng::new(setup.n as u64), setup, channel)
}

/// A book for the setup and the channel.
pub fn make_book(setup: &Setup, channel: &Channel) -> Vec<u8> {
    let mut rng = Rng::new(setup.n as u64);
    draft(&mut rng, setup, channel).bytes(&mut rng)
}

/// Received values of random words, and the words, without end.
pub fn stream<'a>(
    book: &'a Book,
    channel: &'a Channel,
) -> impl Iterator<Item = (Vec<i16>, code::Bits)> + 'a {
    let mut rng = Rng::new(99);
    std::iter::repeat_with(move || {
        let data: Vec<u8> = (0..book.k()).map(|_| rng.bit()).collect();
        let sent = code::encode(book, &data);
        let mut word = vec![0; book.n()];
        code::unpack(&sent, &mut word);
        let values = word.iter().map(|&bit| channel.value(&mut rng, bit));
        (values.collect(), sent)
    })
}

/// The first of these.
pub fn receive(book: &Book, channel: &Channel) -> Vec<(Vec<i16>, code::Bits)> {
    stream(book, channel).take(INPUTS).collect()
}
