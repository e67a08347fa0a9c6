//! The inner loops of the fast decoder: Q and P of a layer (002, Fig. 8a),
//! hard decisions (002, III-D) and the search for a block's two next words.
//!
//! The correlations of all words of a block come from a Hadamard transform
//! (002, IV-B, here for any block) or, for rate 1 and a single parity check,
//! straight from the values. Where the word of ones is in the outer code,
//! half of them are the other half with the sign turned. For short blocks
//! of these two kinds the words next to the hard decisions differ from them
//! in the least reliable positions (002, IV-C and IV-E), zeros and equals
//! included, and need no search.

use crate::code::Bits;
use crate::plan::{Method, PlanBlock};
use crate::vector::{Lane, Vector, LANES, NONE};

/// The values of a block: at most 32.
pub type Soft = [Lane; 4];

/// Lanes that hold `count` values.
pub const fn lanes_of(count: usize) -> usize {
    count.div_ceil(LANES)
}

/// Q of the two halves of `from`, `count` values.
#[inline(always)]
pub fn q_layer<V: Vector>(from: &[Lane], to: &mut [Lane], count: usize) {
    if count < LANES {
        let low = from[0];
        for i in 0..count {
            to[0].0[i] = crate::soft::q(low.0[i], low.0[i + count]);
        }
        return;
    }
    let (a, b) = from.split_at(count / LANES);
    for ((to, a), b) in to.iter_mut().zip(a).zip(b) {
        V::load(a).q(V::load(b)).store(to);
    }
}

/// P of the two halves of `from`, `count` values, by the partial sums that
/// start at bit `at`.
#[inline(always)]
pub fn p_layer<V: Vector>(from: &[Lane], to: &mut [Lane], count: usize, sums: &Bits, at: usize) {
    let piece = |bit: usize| sums[bit / 64 % 8] >> (bit % 64);
    if count < LANES {
        let low = from[0];
        let bits = piece(at);
        for i in 0..count {
            let turn = -((bits >> i & 1) as i32);
            to[0].0[i] = low.0[i + count] + ((low.0[i] ^ turn) - turn);
        }
        return;
    }
    let (a, b) = from.split_at(count / LANES);
    let pairs = to.iter_mut().zip(a).zip(b);
    for (t, ((to, a), b)) in pairs.enumerate() {
        let turns = V::turns_of(piece(at + t * LANES) as u32);
        V::load(b).plus(V::load(a).turned(turns)).store(to);
    }
}

/// The hard decisions of a block's values.
#[inline(always)]
pub fn hard_decisions<V: Vector>(soft: &Soft, count: usize) -> u32 {
    let signs = |t: usize| V::load(&soft[t]).signs();
    if count <= LANES {
        return signs(0) & ((1 << count) - 1);
    }
    let low = signs(0) | signs(1) << 8;
    if count == 2 * LANES {
        return low;
    }
    low | signs(2) << 16 | signs(3) << 24
}

/// Sum of |value| at the positions in `differs`.
#[inline(always)]
pub fn distance<V: Vector>(soft: &Soft, count: usize, differs: u32) -> i32 {
    let mut sums = V::all(0);
    for (t, lane) in soft[..lanes_of(count)].iter().enumerate() {
        let mask = V::turns_of(differs >> (t * LANES));
        sums = sums.plus(V::load(lane).magnitude().masked(mask));
    }
    sums.sum()
}

/// Signs of the lanes: entry (a, b) is -1 where a and b share an odd number
/// of bits, else 0.
static TURNS: [Lane; LANES] = turns();

const fn turns() -> [Lane; LANES] {
    let mut out = [Lane([0; LANES]); LANES];
    let mut a = 0;
    while a < LANES {
        let mut b = 0;
        while b < LANES {
            out[a].0[b] = -(((a & b).count_ones() & 1) as i32);
            b += 1;
        }
        a += 1;
    }
    out
}

/// Keys of two words. A word's key is its sum times 256, plus its count: the
/// word of count x is the coset's leader plus the basis vectors in x. So keys
/// have document 01's order of words.
#[derive(Clone, Copy, Debug, PartialEq, Eq)]
pub struct Two {
    pub first: i32,
    pub second: i32,
}

/// The two least keys above `above`; `base` is the leader of the coset.
#[inline(always)]
pub fn two_least<V: Vector>(block: &PlanBlock, soft: &Soft, base: u32, above: i32) -> Two {
    match block.row_count {
        1 => search::<V, 1>(block, soft, base, above),
        2 => search::<V, 2>(block, soft, base, above),
        4 => search::<V, 4>(block, soft, base, above),
        8 => search::<V, 8>(block, soft, base, above),
        16 => search::<V, 16>(block, soft, base, above),
        _ => search::<V, 32>(block, soft, base, above),
    }
}

/// The block's values with the leader's signs, and the sum of magnitudes.
#[inline(always)]
fn turned<V: Vector>(soft: &Soft, count: usize, base: u32) -> (Soft, i32) {
    let mut out = [Lane::default(); 4];
    let mut sums = V::all(0);
    for t in 0..lanes_of(count) {
        let lane = V::load(&soft[t & 3]);
        lane.turned(V::turns_of(base >> (t * LANES)))
            .store(&mut out[t & 3]);
        sums = sums.plus(lane.magnitude());
    }
    let mut total = sums.sum();
    if count < LANES {
        total = soft[0].0[..count].iter().map(|value| value.abs()).sum();
    }
    (out, total)
}

/// Above every magnitude, and small enough for a key of two.
const FAR: i32 = 1 << 21;

/// Lanes of a block of 2^j positions, j up to 3, that hold no value.
static BEYOND: [Lane; 4] = [
    Lane([0, FAR, FAR, FAR, FAR, FAR, FAR, FAR]),
    Lane([0, 0, FAR, FAR, FAR, FAR, FAR, FAR]),
    Lane([0, 0, 0, 0, FAR, FAR, FAR, FAR]),
    Lane([0; LANES]),
];

/// The bits of a lane's position and of the position `by` further on.
const fn pairs(by: usize, shift: usize) -> Lane {
    let mut out = Lane([0; LANES]);
    let mut i = 0;
    while i < LANES {
        let other = if by == 0 { 0 } else { 1 << ((i + by) % LANES) };
        out.0[i] = (1 << i ^ other) >> shift;
        i += 1;
    }
    out
}

/// The magnitudes, far where there is no value.
#[inline(always)]
fn magnitudes<V: Vector>(block: &PlanBlock, soft: &Soft) -> V {
    let beyond = V::load(&BEYOND[block.j & 3]);
    V::load(&soft[0]).magnitude().greatest(beyond)
}

/// The two nearest of the words that differ in one position from the hard
/// decisions. Counts are words shifted by SHIFT: the positions below are no
/// pivots.
#[inline(always)]
pub fn one_turned<V: Vector, const SHIFT: usize>(block: &PlanBlock, soft: &Soft, hard: u32) -> Two {
    const { assert!(SHIFT < 2) }
    let turns = if SHIFT == 0 {
        const { pairs(0, 0) }
    } else {
        const { pairs(0, 1) }
    };
    let counts = V::all((hard >> SHIFT) as i32).xor(V::load(&turns));
    let keys = magnitudes::<V>(block, soft).key::<8>(counts);
    let first = keys.minimum();
    let second = keys.without(first).minimum();
    Two { first, second }
}

/// The nearest of the words that differ in two positions from the hard
/// decisions, where position 0 is no pivot.
#[inline(always)]
pub fn two_turned<V: Vector>(block: &PlanBlock, soft: &Soft, hard: u32) -> i32 {
    let sizes = magnitudes::<V>(block, soft);
    let counts = V::all((hard >> 1) as i32);
    let keys = |sums: V, turns: Lane| sums.key::<8>(counts.xor(V::load(&turns)));
    let a = keys(sizes.plus(sizes.rotated::<1>()), const { pairs(1, 1) });
    let b = keys(sizes.plus(sizes.rotated::<2>()), const { pairs(2, 1) });
    let c = keys(sizes.plus(sizes.rotated::<3>()), const { pairs(3, 1) });
    let d = keys(sizes.plus(sizes.rotated::<4>()), const { pairs(4, 1) });
    a.least(b).least(c.least(d)).minimum()
}

#[inline(always)]
fn search<V: Vector, const R: usize>(block: &PlanBlock, soft: &Soft, base: u32, above: i32) -> Two {
    let (values, total) = turned::<V>(soft, 1 << block.j, base);
    let rows: [V; R] = match block.method {
        Method::Straight => straight(block, &values),
        Method::Transform => transformed(block, &values),
    };
    let (total, above) = (V::all(total), V::all(above));
    let top = (1 << block.free) - 1;
    let mut least = [V::all(NONE); 2];
    let mut count = V::count();
    for row in rows {
        let mut low = total.minus(row).key::<7>(count);
        if R == 1 && block.free < 3 {
            let mut lane = Lane::default();
            low.store(&mut lane);
            lane.0[1 << block.free..].fill(NONE);
            low = V::load(&lane);
        }
        see(&mut least, low.only_above(above));
        if block.half {
            let high = total.plus(row).key::<7>(V::all(top).minus(count));
            see(&mut least, high.only_above(above));
        }
        count = count.plus(V::all(LANES as i32));
    }
    let first = least[0].minimum();
    let second = least[0].without(first).least(least[1]).minimum();
    Two { first, second }
}

/// Takes keys into the two least of each lane.
#[inline(always)]
fn see<V: Vector>(least: &mut [V; 2], keys: V) {
    let larger = least[0].greatest(keys);
    least[0] = least[0].least(keys);
    least[1] = least[1].least(larger);
}

/// Correlations by the transform: each value is added to its column, then
/// the columns are transformed over the rows.
#[inline(always)]
fn transformed<V: Vector, const R: usize>(block: &PlanBlock, values: &Soft) -> [V; R] {
    let mut rows = [V::all(0); R];
    for i in 0..1usize << block.j {
        let value = V::all(values[(i / LANES) & 3].0[i % LANES]);
        let turns = V::load(&TURNS[block.lanes[i & 31] as usize % LANES]);
        let row = &mut rows[block.rows[i & 31] as usize % R];
        *row = row.plus(value.turned(turns));
    }
    let mut step = 1;
    while step < R {
        for r in (0..R).filter(|r| r & step == 0) {
            let (a, b) = (rows[r], rows[r + step]);
            rows[r] = a.plus(b);
            rows[r + step] = a.minus(b);
        }
        step *= 2;
    }
    rows
}

/// Correlations where at most one position is no pivot: the pivots' parts
/// stand apart, those of the lowest three in the lanes, the others' by rows.
#[inline(always)]
fn straight<V: Vector, const R: usize>(block: &PlanBlock, values: &Soft) -> [V; R] {
    let value = |position: u8| {
        let position = position as usize;
        V::all(values[(position / LANES) & 3].0[position % LANES])
    };
    let mut lanes = V::all(0);
    for t in 0..block.free.min(3) {
        lanes = lanes.plus(value(block.pivots[t]).turned(V::load(&TURNS[1 << t])));
    }
    if block.half {
        lanes = lanes.plus(value(block.pivots[(block.free - 1) & 7]));
    }
    let mut sides = [lanes; 2];
    if let Some(other) = block.other {
        let turns = V::load(&TURNS[block.lanes[other as usize & 31] as usize % LANES]);
        let part = value(other).turned(turns);
        sides = [lanes.plus(part), lanes.minus(part)];
    }
    let mut rows = [V::all(0); R];
    for (r, row) in rows.iter_mut().enumerate() {
        *row = sides[(block.other_rows >> r & 1) as usize];
    }
    let mut step = 1;
    let mut t = 3;
    while step < R {
        let part = value(block.pivots[t & 7]);
        for (r, row) in rows.iter_mut().enumerate() {
            *row = if r & step == 0 {
                row.plus(part)
            } else {
                row.minus(part)
            };
        }
        step *= 2;
        t += 1;
    }
    rows
}
