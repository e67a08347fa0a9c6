//! A book made ready for the fast decoder (002, III-A and V-B): for each
//! block its words as a coset of a linear code with a reduced basis, and the
//! effect of each word on the parities of the ties.
//!
//! The basis of a block is reduced on the highest positions and the coset's
//! leader is 0 there. So the words, counted by the basis vectors they hold,
//! rise as numbers do, and equals are ordered by that count.

use crate::book::{Block, Book, Role};
use crate::code::transform_word;
use crate::kernel::lanes_of;
use crate::vector::LANES;

/// A word of a block and the ties whose parity it turns.
#[derive(Clone, Copy, Debug, Default, PartialEq, Eq)]
pub struct Effect {
    pub word: u32,
    pub ties: u32,
}

impl Effect {
    #[inline(always)]
    pub fn plus(self, other: Effect) -> Effect {
        Effect {
            word: self.word ^ other.word,
            ties: self.ties ^ other.ties,
        }
    }
}

/// A tied index of a block: its bit among the parities and what a 1 adds.
#[derive(Clone, Copy, Debug)]
pub struct Coset {
    pub tie: u32,
    pub effect: Effect,
}

/// How the correlations of a block's words are found.
#[derive(Clone, Copy, Debug, PartialEq, Eq)]
pub enum Method {
    /// At most one position is no pivot.
    Straight,
    Transform,
}

/// Blocks of at most 8 positions whose words near the hard decisions are
/// known without a search (002, IV-C and IV-E).
#[derive(Clone, Copy, Debug, PartialEq, Eq)]
pub enum Near {
    No,
    /// Every word.
    All,
    /// A single parity check over every position.
    Parity,
}

/// One block, ready.
#[derive(Clone, Debug)]
pub struct PlanBlock {
    pub start: usize,
    pub j: usize,
    /// Number of free indices.
    pub free: usize,
    pub bias: i32,
    /// Layer of the block's values: m - j.
    pub layer: usize,
    /// First layer to be computed on entering the block, and whether that is
    /// by P, from an odd phase.
    pub first: usize,
    pub odd: bool,
    /// Whether the words' second half is the first with every bit turned.
    pub half: bool,
    pub near: Near,
    pub method: Method,
    /// Rows of correlations that are found.
    pub row_count: usize,
    /// Highest positions of the basis, rising, and as a mask.
    pub pivots: [u8; 8],
    pub pivot_mask: u32,
    /// For each position, the basis vectors that hold it: row and lane.
    pub rows: [u8; 32],
    pub lanes: [u8; 32],
    /// The position that is no pivot, and the rows where it counts against.
    pub other: Option<u8>,
    pub other_rows: u32,
    /// Sums of the first four basis vectors, and of the others.
    low: [Effect; 16],
    high: [Effect; 16],
    /// Its tied indices in the plan's list.
    pub cosets: (usize, usize),
}

impl PlanBlock {
    /// The sum of the basis vectors in x.
    #[inline(always)]
    pub fn span(&self, x: usize) -> Effect {
        self.low[x % 16].plus(self.high[x / 16 % 16])
    }
}

/// A book made ready.
#[derive(Clone, Debug)]
pub struct Plan {
    pub m: usize,
    pub n: usize,
    pub blocks: Vec<PlanBlock>,
    pub cosets: Vec<Coset>,
}

impl Plan {
    pub fn new(book: &Book) -> Plan {
        let maker = Maker::new(book);
        let mut plan = Plan {
            m: book.m as usize,
            n: book.n(),
            blocks: Vec::with_capacity(book.v()),
            cosets: Vec::new(),
        };
        for block in &book.blocks {
            let made = maker.block(block, &mut plan.cosets);
            plan.blocks.push(made);
        }
        plan
    }
}

struct Maker<'a> {
    book: &'a Book,
    /// For each index, the ties that name it.
    named_by: [u32; 512],
    /// For each tied index, its bit among the ties.
    tie_of: [u32; 512],
}

impl<'a> Maker<'a> {
    fn new(book: &'a Book) -> Self {
        let mut maker = Maker {
            book,
            named_by: [0; 512],
            tie_of: [0; 512],
        };
        let mut count = 0;
        for (i, role) in book.roles.iter().enumerate() {
            if let Role::Tied(terms) = role {
                maker.tie_of[i] = count;
                for &t in terms {
                    maker.named_by[t as usize] |= 1 << count;
                }
                count += 1;
            }
        }
        maker
    }

    /// What a 1 at index `source` brings about in its block, where the ties
    /// at the indices `tied` follow.
    fn effect(&self, block: &Block, source: usize, tied: &[usize]) -> Effect {
        let mut u = 1u32 << (source - block.start);
        let mut ties = self.named_by[source];
        for &i in tied.iter().filter(|&&i| i > source) {
            if ties >> self.tie_of[i] & 1 == 1 {
                u |= 1 << (i - block.start);
                ties ^= self.named_by[i];
            }
        }
        Effect {
            word: transform_word(u, block.j),
            ties,
        }
    }

    fn block(&self, block: &Block, cosets: &mut Vec<Coset>) -> PlanBlock {
        let mut held = [0; 32];
        let mut count = 0;
        let roles = &self.book.roles[block.start..block.end()];
        for (i, role) in (block.start..).zip(roles) {
            if let Role::Tied(_) = role {
                held[count] = i;
                count += 1;
            }
        }
        let tied = &held[..count];
        let mut basis = Basis::default();
        for (i, role) in (block.start..).zip(roles) {
            if *role == Role::Free {
                basis.add(self.effect(block, i, tied));
            }
        }
        let first_coset = cosets.len();
        cosets.extend(tied.iter().map(|&i| Coset {
            tie: self.tie_of[i],
            effect: basis.reduce(self.effect(block, i, tied)),
        }));
        let cosets = (first_coset, cosets.len());
        finished(self.book.m as usize, block, &basis, cosets)
    }
}

/// The layers computed on entering a block (002, Fig. 8a, lines 1 to 5).
fn layers(m: usize, block: &Block) -> (usize, usize, bool) {
    let layer = m - block.j as usize;
    let phase = block.start >> block.j;
    if phase == 0 {
        return (layer, 1, false);
    }
    (layer, layer - phase.trailing_zeros() as usize, true)
}

fn top(word: u32) -> u32 {
    31 - word.leading_zeros()
}

/// A basis reduced on its highest positions, in their rising order.
#[derive(Default)]
struct Basis {
    vectors: [Effect; 8],
    len: usize,
}

impl Basis {
    fn vectors(&self) -> &[Effect] {
        &self.vectors[..self.len]
    }

    /// Takes out of an effect the vectors whose highest position it holds.
    fn reduce(&self, effect: Effect) -> Effect {
        let mut out = effect;
        for vector in self.vectors() {
            if out.word >> top(vector.word) & 1 == 1 {
                out = out.plus(*vector);
            }
        }
        out
    }

    fn add(&mut self, vector: Effect) {
        let fresh = self.reduce(vector);
        let pivot = top(fresh.word);
        for old in &mut self.vectors[..self.len] {
            if old.word >> pivot & 1 == 1 {
                *old = old.plus(fresh);
            }
        }
        let mut at = self.len;
        while at > 0 && self.vectors[at - 1].word > fresh.word {
            self.vectors[at] = self.vectors[at - 1];
            at -= 1;
        }
        self.vectors[at] = fresh;
        self.len += 1;
    }

    /// The vectors that hold position i.
    fn column(&self, i: usize) -> usize {
        let vectors = self.vectors().iter().enumerate();
        vectors.fold(0, |s, (t, v)| s | ((v.word >> i & 1) as usize) << t)
    }
}

/// Every sum of vectors, by doubling.
fn sums(vectors: &[Effect]) -> [Effect; 16] {
    let mut out = [Effect::default(); 16];
    for (t, vector) in vectors.iter().enumerate() {
        let half = 1 << t;
        for x in 0..half {
            out[half + x] = out[x].plus(*vector);
        }
    }
    out
}

fn finished(m: usize, block: &Block, basis: &Basis, cosets: (usize, usize)) -> PlanBlock {
    let (layer, first, odd) = layers(m, block);
    let (free, len) = (basis.len, block.size());
    let mut out = PlanBlock {
        start: block.start,
        j: block.j as usize,
        free,
        bias: block.bias,
        layer,
        first,
        odd,
        half: false,
        near: Near::No,
        method: Method::Transform,
        row_count: 0,
        pivots: [0; 8],
        pivot_mask: 0,
        rows: [0; 32],
        lanes: [0; 32],
        other: None,
        other_rows: 0,
        low: sums(&basis.vectors()[..free.min(4)]),
        high: sums(&basis.vectors()[free.min(4)..]),
        cosets,
    };
    for (t, vector) in basis.vectors().iter().enumerate() {
        out.pivots[t] = top(vector.word) as u8;
        out.pivot_mask |= 1 << out.pivots[t];
    }
    let ones = ((1u64 << len) - 1) as u32;
    out.half = free > 3 && out.span((1 << free) - 1).word == ones;
    let counted = if out.half { free - 1 } else { free };
    out.row_count = lanes_of(1 << counted);
    columns(&mut out, basis, len, (1 << counted) - 1);
    out
}

/// The method that the basis allows, and the columns it needs: without the
/// last vector where only half of the words are counted.
fn columns(out: &mut PlanBlock, basis: &Basis, len: usize, counted: usize) {
    let mut take = |i: usize| {
        let column = basis.column(i) & counted;
        out.rows[i] = (column / LANES) as u8;
        out.lanes[i] = (column % LANES) as u8;
    };
    if len > out.free + 1 {
        (0..len).for_each(take);
        return;
    }
    out.method = Method::Straight;
    if len == out.free {
        out.near = Near::All;
        return;
    }
    let other = (!out.pivot_mask).trailing_zeros() as usize;
    take(other);
    if other == 0 && basis.column(0) == (1 << out.free) - 1 {
        out.near = Near::Parity;
    }
    out.other = Some(other as u8);
    let column = out.rows[other] as u32;
    for r in 0..out.row_count as u32 {
        out.other_rows |= ((r & column).count_ones() & 1) << r;
    }
}
