//! Random books, good ones and damaged ones (document 01, "The code book"),
//! for the comparison and the recorded cases.

use crate::book::{Role, BIAS_MAX};
use crate::rng::Rng;

/// A book to be written: sound unless damaged afterwards.
#[derive(Clone, Debug)]
pub struct Draft {
    pub m: u8,
    pub roles: Vec<Role>,
    /// Height and bias of each block.
    pub blocks: Vec<(u8, i32)>,
}

/// What a draft may hold, so that the plain machine can follow it.
#[derive(Clone, Copy)]
pub struct Bounds {
    /// Most free indices of a block.
    pub free: usize,
    /// Most words of a block times its length.
    pub words: usize,
}

impl Bounds {
    pub const WIDEST: Bounds = Bounds {
        free: 8,
        words: 8192,
    };
}

impl Draft {
    pub fn n(&self) -> usize {
        1 << self.m
    }

    pub fn k(&self) -> usize {
        self.roles.iter().filter(|r| **r == Role::Free).count()
    }

    /// A random sound book.
    pub fn random(rng: &mut Rng, m: u8, bounds: Bounds) -> Draft {
        let mut roles = free_pattern(rng, m);
        tie_some(rng, &mut roles);
        let heights = heights(rng, &roles, bounds);
        let biases = biases(rng, heights.len());
        Draft {
            m,
            roles,
            blocks: heights.into_iter().zip(biases).collect(),
        }
    }

    /// A random sound book with k = 32; m at least 5.
    pub fn for_records(rng: &mut Rng, m: u8, bounds: Bounds) -> Draft {
        let mut draft = Draft::random(rng, m, bounds);
        let n = draft.n();
        while draft.k() != 32 {
            let i = rng.below(n);
            let more = draft.k() < 32;
            if more == (draft.roles[i] != Role::Free) {
                draft.roles[i] = if more { Role::Free } else { Role::Zero };
            }
        }
        let heights = heights(rng, &draft.roles, bounds);
        let biases = biases(rng, heights.len());
        draft.blocks = heights.into_iter().zip(biases).collect();
        draft
    }

    /// The commands of the book, runs whole or cut at random.
    pub fn commands(&self, rng: &mut Rng) -> Vec<Vec<u8>> {
        match rng.one_in(2) {
            true => self.cut(|same| same),
            false => self.cut(|same| 1 + rng.below(same)),
        }
    }

    /// The commands of the book; `take` says how many of the equal indices
    /// that come next one command takes.
    pub fn cut(&self, mut take: impl FnMut(usize) -> usize) -> Vec<Vec<u8>> {
        let mut out = vec![vec![0x10, self.m]];
        let mut at = 0;
        while at < self.n() {
            let role = &self.roles[at];
            if let Role::Tied(terms) = role {
                for (t, &term) in terms.iter().enumerate() {
                    out.push(index_command(if t == 0 { 0x03 } else { 0x04 }, term));
                }
                at += 1;
                continue;
            }
            let same = self.roles[at..].iter().take_while(|r| *r == role).count();
            let count = take(same);
            let byte = if *role == Role::Free { 0x01 } else { 0x02 };
            out.push(index_command(byte, count as u16));
            at += count;
        }
        out.extend(self.blocks.iter().map(|&(j, bias)| block_command(j, bias)));
        out.push(vec![0x7F]);
        out
    }

    pub fn bytes(&self, rng: &mut Rng) -> Vec<u8> {
        self.commands(rng).concat()
    }

    /// The steps of the plain machine, roughly, for this many visits.
    pub fn work(&self, l: usize) -> usize {
        let mut start = 0;
        let mut sum = 0;
        for &(j, _) in &self.blocks {
            let end = start + (1 << j);
            let inside = self.roles[start..end].iter();
            let free = inside.filter(|r| **r == Role::Free).count();
            sum += (2 << free << j) + 2 * end;
            start = end;
        }
        sum * l * 2 * self.n()
    }
}

pub fn index_command(byte: u8, operand: u16) -> Vec<u8> {
    let [high, low] = operand.to_be_bytes();
    vec![byte, high, low]
}

pub fn block_command(j: u8, bias: i32) -> Vec<u8> {
    let mut out = vec![0x05, j];
    out.extend(bias.to_be_bytes());
    out
}

/// Which indices are free, the others zero.
fn free_pattern(rng: &mut Rng, m: u8) -> Vec<Role> {
    let n = 1usize << m;
    let style = rng.below(6);
    let share = rng.pick(&[0.0, 0.1, 0.3, 0.5, 0.7, 0.9, 1.0]);
    let threshold = rng.unit() * m as f64;
    let mut eight = 0;
    let mut out = Vec::new();
    for i in 0..n {
        if i % 8 == 0 {
            eight = rng.pick(&EIGHTS);
        }
        let free = match style {
            0 => rng.unit() < share,
            1 => rng.unit() < (i as f64 + 0.5) / n as f64,
            2 | 3 => i.count_ones() as f64 + 0.7 * rng.normal() > threshold,
            _ => eight >> (i % 8) & 1 == 1,
        };
        out.push(if free { Role::Free } else { Role::Zero });
    }
    out
}

/// Free indices of eight that make outer codes named in 002, IV: none,
/// repetition, first-order Reed-Muller, a single parity check, every word.
const EIGHTS: [u8; 6] = [0x00, 0x80, 0xE8, 0xFE, 0xFE, 0xFF];

/// Ties up to 32 of the indices to earlier ones.
fn tie_some(rng: &mut Rng, roles: &mut [Role]) {
    let n = roles.len();
    let most = (n - 1).min(32);
    let count = match rng.below(6) {
        0 => 0,
        1 => most,
        2 => 1.min(most),
        _ => rng.below(most + 1),
    };
    let keep_free = rng.one_in(2);
    let mut tied = 0;
    for _ in 0..4 * count {
        let i = 1 + rng.below(n - 1);
        if tied == count {
            break;
        }
        if roles[i] == Role::Zero || (!keep_free && roles[i] == Role::Free) {
            roles[i] = Role::Tied(Vec::new());
            tied += 1;
        }
    }
    for i in 1..n {
        if matches!(roles[i], Role::Tied(_)) {
            roles[i] = Role::Tied(terms(rng, &roles[..i]));
        }
    }
}

/// Terms of a tie: to free, zero or tied indices, one, few, many or all.
fn terms(rng: &mut Rng, earlier: &[Role]) -> Vec<u16> {
    let style = rng.below(8);
    let wanted = |role: &Role| match style {
        0 => *role == Role::Free,
        1 => *role == Role::Zero,
        2 => matches!(role, Role::Tied(_)),
        _ => true,
    };
    let all = 0..earlier.len() as u16;
    let mut left: Vec<u16> = all.filter(|&i| wanted(&earlier[i as usize])).collect();
    if left.is_empty() {
        left = (0..earlier.len() as u16).collect();
    }
    let count = match style {
        3 => left.len(),
        4 => 1 + rng.below(left.len()),
        _ => 1 + rng.below(left.len().min(4)),
    };
    for t in 0..count {
        let other = t + rng.below(left.len() - t);
        left.swap(t, other);
    }
    left.truncate(count);
    left
}

/// Heights of blocks that cover the indices.
fn heights(rng: &mut Rng, roles: &[Role], bounds: Bounds) -> Vec<u8> {
    let style = rng.below(5);
    let mut out = Vec::new();
    let mut start = 0;
    while start < roles.len() {
        let may = |j: &u8| {
            let end = start + (1 << j);
            if start % (1 << j) != 0 || end > roles.len() {
                return false;
            }
            let inside = roles[start..end].iter();
            let free = inside.filter(|r| **r == Role::Free).count();
            free <= bounds.free && (1usize << free << j) <= bounds.words
        };
        let allowed: Vec<u8> = (0..=5).filter(may).collect();
        let j = match style {
            0 if rng.one_in(4) => 0,
            1 => rng.pick(&allowed),
            2 if rng.one_in(3) => rng.pick(&allowed),
            _ => allowed.last().copied().unwrap_or(0),
        };
        out.push(j);
        start += 1 << j;
    }
    out
}

/// Biases: none, extreme, rising, falling, as 002 designs them, or small.
fn biases(rng: &mut Rng, count: usize) -> Vec<i32> {
    let style = rng.below(9);
    let slope = 1 + rng.below(400) as i32;
    let mut out: Vec<i32> = (0..count as i32)
        .map(|b| match style {
            0 => 0,
            1 => rng.pick(&[-BIAS_MAX, BIAS_MAX]),
            2 => rng.pick(&[-BIAS_MAX, BIAS_MAX, 0, 1, -1]),
            3 | 4 => rng.between(-BIAS_MAX as i64, BIAS_MAX as i64) as i32,
            5 | 6 => -slope * (b + 1),
            7 => slope * (b + 1),
            _ => rng.between(-3, 3) as i32,
        })
        .collect();
    match style {
        3 => out.sort_unstable(),
        4 => out.sort_unstable_by(|a, b| b.cmp(a)),
        _ => {}
    }
    out
}

/// The longest sound book: 52,083 bytes.
pub fn longest() -> Vec<u8> {
    let mut out = vec![0x10, 9];
    for i in 0..480u16 {
        out.extend(index_command(if i % 60 == 0 { 0x01 } else { 0x02 }, 1));
    }
    for i in 480..512u16 {
        for term in 0..i {
            out.extend(index_command(if term == 0 { 0x03 } else { 0x04 }, term));
        }
    }
    for b in 0..512 {
        out.extend(block_command(0, -b));
    }
    out.push(0x7F);
    out
}
