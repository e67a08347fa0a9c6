//! 002's block sequential decoder (Figs. 2, 3 and 8 to 11) with document
//! 01's order, steps and scores, made for speed.
//!
//! Layer values stand in shared arrays with reference counts. Partial sums
//! are packed bits, each node's sums at the node's own indices, so that a
//! path holds all of them in 64 bytes and a copy takes them along. The words
//! of a block are found two at a time from its values, which a path keeps
//! and its copy takes along (002's Z); where the hard decisions are a word,
//! the search waits until a next word is wanted (III-D).

use crate::code::Bits;
use crate::kernel::{self, Soft};
use crate::plan::{Effect, Near, Plan, PlanBlock};
#[cfg(target_arch = "x86_64")]
use crate::vector::Wide;
use crate::vector::{Lane, Narrow, Vector, LANES};

const PATHS: usize = 256;
const LAYERS: usize = 10;
const VALUES: usize = 512;
const QUEUE: usize = 1024;

/// Sees each extraction and each removal. `()` sees nothing and costs nothing.
pub trait Observer {
    fn extraction(&mut self, path: u32, blocks: usize, score: i32);
    fn crowded(&mut self, path: u32);
    fn outrun(&mut self, path: u32);
}

impl Observer for () {
    fn extraction(&mut self, _: u32, _: usize, _: i32) {}
    fn crowded(&mut self, _: u32) {}
    fn outrun(&mut self, _: u32) {}
}

/// What a run answers; its word stays in the workspace.
#[derive(Clone, Copy, Debug, Default, PartialEq, Eq)]
pub struct Ran {
    pub extractions: i32,
    pub crowded: i32,
    pub outrun: i32,
    pub discrepancy: i32,
}

/// A path of the search.
#[derive(Clone, Copy, Default)]
#[repr(align(64))]
struct Path {
    /// Partial sums, each finished node at its own indices.
    sums: Bits,
    /// Parities of the ties over the bits so far.
    ties: u32,
    r: i32,
    /// Key of its word in its last block, and of the next one if it is known.
    key: i32,
    next: i32,
    /// Words before its own in its last block.
    rank: u16,
    /// Layers whose arrays it holds: 1 to depth.
    depth: u8,
    /// Its array for each layer.
    arrays: [u8; LAYERS],
    /// The values of its last block.
    soft: Soft,
}

/// The next word's key is not known.
const UNKNOWN: i32 = -1;

/// The arrays of layer values with their reference counts (002, App. B).
struct Arrays {
    pools: [Vec<Lane>; LAYERS],
    counts: [[u16; PATHS]; LAYERS],
    spare: [[u8; PATHS]; LAYERS],
    spares: [usize; LAYERS],
    fresh: [usize; LAYERS],
    m: usize,
}

impl Arrays {
    fn new() -> Self {
        let size = |layer: usize| match layer {
            0 => kernel::lanes_of(VALUES),
            _ => PATHS * kernel::lanes_of(VALUES >> layer),
        };
        Arrays {
            pools: std::array::from_fn(|layer| vec![Lane::default(); size(layer)]),
            counts: [[0; PATHS]; LAYERS],
            spare: [[0; PATHS]; LAYERS],
            spares: [0; LAYERS],
            fresh: [0; LAYERS],
            m: 0,
        }
    }

    #[inline(always)]
    fn start(&mut self, m: usize, values: &[i16]) {
        self.m = m;
        self.spares = [0; LAYERS];
        self.fresh = [0; LAYERS];
        let whole = values.chunks_exact(LANES);
        if values.len() < LANES {
            for (to, &value) in self.pools[0][0].0.iter_mut().zip(values) {
                *to = value as i32;
            }
        }
        for (lane, chunk) in self.pools[0].iter_mut().zip(whole) {
            for i in 0..LANES {
                lane.0[i] = chunk[i] as i32;
            }
        }
    }

    /// A free array of this layer (002, Fig. 11).
    #[inline(always)]
    fn allocate(&mut self, layer: usize) -> u8 {
        let array = if self.spares[layer] > 0 {
            self.spares[layer] -= 1;
            self.spare[layer][self.spares[layer] % PATHS]
        } else {
            self.fresh[layer] += 1;
            (self.fresh[layer] - 1) as u8
        };
        self.counts[layer][array as usize] = 1;
        array
    }

    #[inline(always)]
    fn let_go(&mut self, layer: usize, array: u8) {
        let count = &mut self.counts[layer][array as usize];
        *count -= 1;
        if *count == 0 {
            self.spare[layer][self.spares[layer] % PATHS] = array;
            self.spares[layer] += 1;
        }
    }

    /// Gives the path an array of its own on this layer (002, Fig. 9).
    #[inline(always)]
    fn write(&mut self, path: &mut Path, layer: usize) {
        if layer <= path.depth as usize {
            let held = path.arrays[layer];
            if self.counts[layer][held as usize] == 1 {
                return;
            }
            self.counts[layer][held as usize] -= 1;
        } else {
            path.depth = layer as u8;
        }
        path.arrays[layer] = self.allocate(layer);
    }

    #[inline(always)]
    fn place(&self, path: &Path, layer: usize) -> std::ops::Range<usize> {
        let lanes = kernel::lanes_of(1 << (self.m - layer));
        let from = if layer == 0 {
            0
        } else {
            path.arrays[layer] as usize * lanes
        };
        from..from + lanes
    }

    /// Computes the values of a block for the path that enters it (002,
    /// Fig. 8a). Those of the block's own layer are the path's alone.
    #[inline(always)]
    fn enter<V: Vector>(&mut self, path: &mut Path, block: &PlanBlock) {
        for layer in block.first..block.layer {
            self.write(path, layer);
            let from = self.place(path, layer - 1);
            let to = self.place(path, layer);
            let (above, below) = self.pools.split_at_mut(layer);
            let (from, to) = (&above[layer - 1][from], &mut below[0][to]);
            let count = 1 << (self.m - layer);
            if block.odd && layer == block.first {
                kernel::p_layer::<V>(from, to, count, &path.sums, block.start - count);
            } else {
                kernel::q_layer::<V>(from, to, count);
            }
        }
        let count = 1 << block.j;
        if block.layer == 0 {
            let lanes = kernel::lanes_of(count);
            path.soft[..lanes].copy_from_slice(&self.pools[0][..lanes]);
            return;
        }
        let from = self.place(path, block.layer - 1);
        let from = &self.pools[block.layer - 1][from];
        let to = &mut path.soft[..kernel::lanes_of(count)];
        if block.odd && block.layer == block.first {
            kernel::p_layer::<V>(from, to, count, &path.sums, block.start - count);
        } else {
            kernel::q_layer::<V>(from, to, count);
        }
    }

    /// Lets a copy hold its original's arrays of layers 1 to depth.
    #[inline(always)]
    fn share(&mut self, copy: &mut Path, depth: usize) {
        copy.depth = depth as u8;
        for layer in 1..=depth {
            self.counts[layer][copy.arrays[layer] as usize] += 1;
        }
    }

    #[inline(always)]
    fn release(&mut self, path: &Path) {
        for layer in 1..=path.depth as usize {
            self.let_go(layer, path.arrays[layer]);
        }
    }
}

/// The queue: packed keys in rising order, the first path last.
///
/// A key holds, from the highest bit: score, blocks, number turned round,
/// and the slot of the path. So the greatest key is document 01's first.
struct Queue {
    keys: Box<[u64; QUEUE]>,
    low: usize,
    high: usize,
}

const SCORE_ZERO: i32 = 1 << 22;
const NUMBER_TOP: u64 = 0xFFFF;

#[inline(always)]
fn key_of(score: i32, blocks: usize, number: u32, slot: usize) -> u64 {
    let high = ((score + SCORE_ZERO) as u64) << 34 | (blocks as u64) << 24;
    high | (NUMBER_TOP - number as u64) << 8 | slot as u64
}

#[inline(always)]
fn slot_of(key: u64) -> usize {
    (key & 0xFF) as usize
}

#[inline(always)]
fn number_of(key: u64) -> u32 {
    (NUMBER_TOP - (key >> 8 & NUMBER_TOP)) as u32
}

#[inline(always)]
fn blocks_of(key: u64) -> usize {
    (key >> 24 & 0x3FF) as usize
}

#[inline(always)]
fn score_of(key: u64) -> i32 {
    (key >> 34) as i32 - SCORE_ZERO
}

impl Queue {
    fn new() -> Self {
        Queue {
            keys: Box::new([0; QUEUE]),
            low: 0,
            high: 0,
        }
    }

    #[inline(always)]
    fn clear(&mut self) {
        self.low = 0;
        self.high = 0;
    }

    #[inline(always)]
    fn len(&self) -> usize {
        self.high - self.low
    }

    #[inline(always)]
    fn push(&mut self, key: u64) {
        if self.high == QUEUE {
            self.keys.copy_within(self.low..QUEUE, 0);
            self.high -= self.low;
            self.low = 0;
        }
        let keys = &mut self.keys[self.low..=self.high];
        let end = keys.len() - 1;
        self.high += 1;
        if end == 0 || keys[end - 1] < key {
            keys[end] = key;
            return;
        }
        let at = keys[..end].partition_point(|&other| other < key);
        keys.copy_within(at..end, at + 1);
        keys[at] = key;
    }

    #[inline(always)]
    fn take_first(&mut self) -> u64 {
        self.high -= 1;
        self.keys[self.high]
    }

    #[inline(always)]
    fn take_last(&mut self) -> u64 {
        self.low += 1;
        self.keys[self.low - 1]
    }

    /// Keeps the paths with more than `b` blocks; hands out the others.
    #[inline(always)]
    fn outrun(&mut self, b: usize, mut gone: impl FnMut(u64)) {
        let mut kept = self.low;
        for at in self.low..self.high {
            let key = self.keys[at];
            if blocks_of(key) > b {
                self.keys[kept] = key;
                kept += 1;
            } else {
                gone(key);
            }
        }
        self.high = kept;
    }
}

/// The path slots in use and free.
struct Slots {
    paths: Vec<Path>,
    spare: [u8; PATHS],
    spares: usize,
    fresh: usize,
}

impl Slots {
    fn new() -> Self {
        Slots {
            paths: vec![Path::default(); PATHS],
            spare: [0; PATHS],
            spares: 0,
            fresh: 0,
        }
    }

    #[inline(always)]
    fn allocate(&mut self) -> usize {
        if self.spares > 0 {
            self.spares -= 1;
            return self.spare[self.spares % PATHS] as usize;
        }
        self.fresh += 1;
        self.fresh - 1
    }

    #[inline(always)]
    fn free(&mut self, slot: usize) {
        self.spare[self.spares % PATHS] = slot as u8;
        self.spares += 1;
    }
}

/// Everything a run needs, allocated once for every book and setting.
pub struct Workspace {
    arrays: Arrays,
    slots: Slots,
    queue: Queue,
    visits: [u32; VALUES],
    next_number: u32,
    /// The final word of the last run.
    pub word: Bits,
    /// Whether the processor has the wide lanes.
    wide: bool,
}

impl Default for Workspace {
    fn default() -> Self {
        Self::new()
    }
}

#[cfg(target_arch = "x86_64")]
fn wide() -> bool {
    is_x86_feature_detected!("avx2")
        && is_x86_feature_detected!("bmi1")
        && is_x86_feature_detected!("bmi2")
}

#[cfg(not(target_arch = "x86_64"))]
fn wide() -> bool {
    false
}

impl Workspace {
    pub fn new() -> Self {
        Workspace {
            arrays: Arrays::new(),
            slots: Slots::new(),
            queue: Queue::new(),
            visits: [0; VALUES],
            next_number: 0,
            word: [0; 8],
            wide: wide(),
        }
    }

    /// Whether the run uses the processor's wide lanes.
    pub fn is_wide(&self) -> bool {
        self.wide
    }

    /// Takes the wide lanes away, to test the other build of the same run.
    pub fn narrow(&mut self) {
        self.wide = false;
    }

    /// Decodes the values; L visits and D paths within their bounds, as many
    /// values as the plan's n.
    pub fn run<O: Observer>(
        &mut self,
        plan: &Plan,
        l: usize,
        d: usize,
        values: &[i16],
        observer: &mut O,
    ) -> Ran {
        let search = Search {
            plan,
            l: l as u32,
            d,
            ran: Ran::default(),
            ws: self,
            observer,
        };
        search.dispatch(values)
    }
}

struct Search<'a, O: Observer> {
    plan: &'a Plan,
    l: u32,
    d: usize,
    ran: Ran,
    ws: &'a mut Workspace,
    observer: &'a mut O,
}

impl<O: Observer> Search<'_, O> {
    #[cfg(target_arch = "x86_64")]
    fn dispatch(self, values: &[i16]) -> Ran {
        if self.ws.wide {
            // Sound: `wide` is true only where the processor has these features.
            unsafe { self.run_wide(values) }
        } else {
            self.run::<Narrow>(values)
        }
    }

    #[cfg(not(target_arch = "x86_64"))]
    fn dispatch(self, values: &[i16]) -> Ran {
        self.run::<Narrow>(values)
    }

    #[cfg(target_arch = "x86_64")]
    #[target_feature(enable = "avx2,bmi1,bmi2")]
    unsafe fn run_wide(self, values: &[i16]) -> Ran {
        self.run::<Wide>(values)
    }

    #[inline(always)]
    fn start(&mut self, values: &[i16]) {
        self.ws.arrays.start(self.plan.m, values);
        self.ws.slots.spares = 0;
        self.ws.slots.fresh = 0;
        self.ws.queue.clear();
        self.ws.visits[..self.plan.blocks.len()].fill(0);
        self.ws.next_number = 1;
        let slot = self.ws.slots.allocate();
        self.ws.slots.paths[slot] = Path::default();
        self.ws.queue.push(key_of(0, 0, 0, slot));
    }

    /// 002, Fig. 2a, with document 01's steps.
    #[inline(always)]
    fn run<V: Vector>(mut self, values: &[i16]) -> Ran {
        self.start(values);
        loop {
            let key = self.ws.queue.take_first();
            let (slot, b) = (slot_of(key), blocks_of(key));
            self.ran.extractions += 1;
            self.observer.extraction(number_of(key), b, score_of(key));
            if b == self.plan.blocks.len() {
                return self.finish(slot);
            }
            let last_visit = self.ws.visits[b] + 1 == self.l;
            if b > 0 {
                self.backward::<V>(slot, b, last_visit);
            }
            self.forward::<V>(slot, b, number_of(key));
            self.ws.visits[b] += 1;
            if last_visit {
                self.outrun(b);
            }
        }
    }

    #[inline(always)]
    fn finish(mut self, slot: usize) -> Ran {
        let path = &mut self.ws.slots.paths[slot];
        combine(&mut path.sums, self.plan.blocks.last().expect("V is not 0"));
        self.ws.word = path.sums;
        self.ran.discrepancy = -path.r;
        self.ran
    }

    /// Step 2 (002, Fig. 2d), then the path's own partial sums (Fig. 8b). At
    /// a block's last visit the copy is outrun at once, so it only gets its
    /// number.
    #[inline(always)]
    fn backward<V: Vector>(&mut self, slot: usize, b: usize, last_visit: bool) {
        let block = &self.plan.blocks[b - 1];
        if (self.ws.slots.paths[slot].rank + 1) >> block.free == 0 {
            self.crowd_out();
            let number = self.ws.next_number;
            self.ws.next_number += 1;
            if last_visit {
                self.ran.outrun += 1;
                self.observer.outrun(number);
            } else {
                self.copy::<V>(slot, b, number);
            }
        }
        combine(&mut self.ws.slots.paths[slot].sums, block);
    }

    #[inline(always)]
    fn crowd_out(&mut self) {
        while self.ws.queue.len() > self.d - 2 {
            let key = self.ws.queue.take_last();
            self.kill(key);
            self.ran.crowded += 1;
            self.observer.crowded(number_of(key));
        }
    }

    #[inline(always)]
    fn kill(&mut self, key: u64) {
        let slot = slot_of(key);
        self.ws.arrays.release(&self.ws.slots.paths[slot]);
        self.ws.slots.free(slot);
    }

    /// Queues a copy of the path with the next word in its last block.
    #[inline(always)]
    fn copy<V: Vector>(&mut self, slot: usize, b: usize, number: u32) {
        let block = &self.plan.blocks[b - 1];
        let to = self.ws.slots.allocate();
        let paths = &mut self.ws.slots.paths;
        paths[to] = paths[slot];
        let copy = &mut paths[to];
        let (mut key, mut next) = (copy.next, UNKNOWN);
        if key == UNKNOWN {
            (key, next) = next_words::<V>(block, copy);
        }
        let change = block.span((key ^ copy.key) as usize & 0xFF);
        place_word(&mut copy.sums, block, change.word);
        copy.ties ^= change.ties;
        copy.r += (copy.key >> 8) - (key >> 8);
        copy.key = key;
        copy.next = next;
        copy.rank += 1;
        let next = self.plan.blocks.get(b);
        let depth = next.map_or(0, |next| next.first - 1);
        self.ws.arrays.share(copy, depth);
        let score = copy.r - block.bias;
        self.ws.queue.push(key_of(score, b, number, to));
    }

    /// Step 3 (002, Fig. 2c): the path enters block b with its nearest word.
    #[inline(always)]
    fn forward<V: Vector>(&mut self, slot: usize, b: usize, number: u32) {
        let block = &self.plan.blocks[b];
        let path = &mut self.ws.slots.paths[slot];
        self.ws.arrays.enter::<V>(path, block);
        let base = coset(self.plan, block, path.ties);
        let hard = kernel::hard_decisions::<V>(&path.soft, 1 << block.j);
        let count = V::gather(hard, block.pivot_mask);
        let nearest = base.word ^ block.span(count).word;
        path.rank = 0;
        path.next = UNKNOWN;
        path.key = if nearest == hard {
            count as i32
        } else if block.free == 0 {
            kernel::distance::<V>(&path.soft, 1 << block.j, nearest ^ hard) << 8
        } else {
            let two = if block.near == Near::Parity {
                kernel::one_turned::<V, 1>(block, &path.soft, hard)
            } else {
                kernel::two_least::<V>(block, &path.soft, base.word, -1)
            };
            path.next = two.second;
            two.first
        };
        let effect = base.plus(block.span(path.key as usize & 0xFF));
        place_word(&mut path.sums, block, effect.word);
        path.ties ^= effect.ties;
        path.r -= path.key >> 8;
        let score = path.r - block.bias;
        self.ws.queue.push(key_of(score, b + 1, number, slot));
    }

    /// Step 4, at the last visit to block b.
    #[inline(always)]
    fn outrun(&mut self, b: usize) {
        let Workspace {
            queue,
            arrays,
            slots,
            ..
        } = &mut *self.ws;
        let (ran, observer) = (&mut self.ran, &mut *self.observer);
        queue.outrun(b, |key| {
            arrays.release(&slots.paths[slot_of(key)]);
            slots.free(slot_of(key));
            ran.outrun += 1;
            observer.outrun(number_of(key));
        });
    }
}

/// The keys of the next word of a path's last block, and of the one after it
/// where that comes along. A path whose sum in the block is 0 and whose rank
/// is 0 holds the hard decisions.
#[inline(always)]
fn next_words<V: Vector>(block: &PlanBlock, path: &Path) -> (i32, i32) {
    let word = word_at(&path.sums, block);
    let hard = path.rank == 0 && path.key < 256;
    if hard && block.near == Near::All {
        let two = kernel::one_turned::<V, 0>(block, &path.soft, word);
        return (two.first, two.second);
    }
    if hard && block.near == Near::Parity {
        return (kernel::two_turned::<V>(block, &path.soft, word), UNKNOWN);
    }
    let base = word ^ block.span(path.key as usize & 0xFF).word;
    let two = kernel::two_least::<V>(block, &path.soft, base, path.key);
    (two.first, two.second)
}

/// The leader of the block's coset after these parities (002, GetCoset), and
/// what it does to the parities (Fig. 3).
#[inline(always)]
fn coset(plan: &Plan, block: &PlanBlock, ties: u32) -> Effect {
    let mut out = Effect::default();
    for coset in &plan.cosets[block.cosets.0..block.cosets.1] {
        let on = (ties >> coset.tie & 1).wrapping_neg();
        out.word ^= coset.effect.word & on;
        out.ties ^= coset.effect.ties & on;
    }
    out
}

#[inline(always)]
fn word_at(sums: &Bits, block: &PlanBlock) -> u32 {
    let piece = sums[block.start / 64 % 8] >> (block.start % 64);
    (piece & ((1 << (1 << block.j)) - 1)) as u32
}

/// Adds a word at the block's place.
#[inline(always)]
fn place_word(sums: &mut Bits, block: &PlanBlock, word: u32) {
    sums[block.start / 64 % 8] ^= (word as u64) << (block.start % 64);
}

/// Partial sums after a block (002, Fig. 8b): while the finished node is a
/// right half, its sums are added to the left half's, in place.
#[inline(always)]
fn combine(sums: &mut Bits, block: &PlanBlock) {
    let mut size = 1 << block.j;
    let mut start = block.start;
    while start & size != 0 {
        start -= size;
        let (left, right) = (start, start + size);
        if size < 64 {
            let piece = &mut sums[left / 64 % 8];
            let moved = *piece >> (right % 64) & ((1 << size) - 1);
            *piece ^= moved << (left % 64);
        } else {
            for t in 0..size / 64 {
                sums[(left / 64 + t) % 8] ^= sums[(right / 64 + t) % 8];
            }
        }
        size *= 2;
    }
}
