//! Times the proved run beside the independent decoder (reference/), on the
//! same words in turn, and compares the walk of every word. bench/decoder
//! builds the library that it links: the proved loader and run, lent under
//! their own `requires`.
//!
//! "Readied and run" is what the proved run does too, since it finds each
//! block's words as it goes: the reference readies the loaded book, then runs.
//! "Run alone" has the reference's book made ready before. "Whole" is loading
//! (and readying), the run, and the workspace cleared.

use reference::answer::{Input, Lent, Reader};
use reference::book;
use reference::calls::{walk_size, workspace_size, Fast};
use reference::fast::Workspace;
use reference::noise::{make_book, receive, setups, Channel, Setup, INPUTS};
use reference::plan::Plan;
use reference::settings::Raw;
use std::time::Instant;

extern "C" {
    fn measured_load(
        book: *const u8,
        book_len: usize,
        kinds: *mut u8,
        terms: *mut u32,
        heights: *mut u8,
        starts: *mut u16,
        biases: *mut i32,
    ) -> u32;
    fn measured_run(
        m: u32,
        blocks: u32,
        visits: u32,
        paths: u32,
        values: *const i16,
        values_len: usize,
        kinds: *const u8,
        terms: *const u32,
        heights: *const u8,
        starts: *const u16,
        biases: *const i32,
        numbers: *mut i32,
        numbers_len: usize,
        bytes: *mut u8,
        bytes_len: usize,
        walk_path: *mut i32,
        walk_path_len: usize,
        walk_blocks: *mut i32,
        walk_blocks_len: usize,
        walk_score: *mut i32,
        walk_score_len: usize,
    ) -> u32;
}

/// What the proved run is lent.
struct Proved {
    m: usize,
    blocks: usize,
    kinds: [u8; 512],
    terms: [u32; 512],
    heights: [u8; 512],
    starts: [u16; 512],
    biases: [i32; 512],
    numbers: Vec<i32>,
    bytes: Vec<u8>,
    walk: [Vec<i32>; 3],
}

impl Proved {
    fn new(m: usize, numbers: usize, bytes: usize, entries: usize) -> Proved {
        Proved {
            m,
            blocks: 0,
            kinds: [0; 512],
            terms: [0; 512],
            heights: [0; 512],
            starts: [0; 512],
            biases: [0; 512],
            numbers: vec![77; numbers],
            bytes: vec![77; bytes],
            walk: [vec![0; entries], vec![0; entries], vec![0; entries]],
        }
    }

    fn load(&mut self, book: &[u8]) {
        // SAFETY: every array has the length that the function names.
        self.blocks = unsafe {
            measured_load(
                book.as_ptr(),
                book.len(),
                self.kinds.as_mut_ptr(),
                self.terms.as_mut_ptr(),
                self.heights.as_mut_ptr(),
                self.starts.as_mut_ptr(),
                self.biases.as_mut_ptr(),
            )
        } as usize;
    }

    fn run(&mut self, l: usize, d: usize, values: &[i16]) -> u32 {
        let [path, blocks, score] = &mut self.walk;
        // SAFETY: a sound book is loaded, the settings and values are in
        // range, and workspace and walk have the sizes asked for.
        unsafe {
            measured_run(
                self.m as u32,
                self.blocks as u32,
                l as u32,
                d as u32,
                values.as_ptr(),
                values.len(),
                self.kinds.as_ptr(),
                self.terms.as_ptr(),
                self.heights.as_ptr(),
                self.starts.as_ptr(),
                self.biases.as_ptr(),
                self.numbers.as_mut_ptr(),
                self.numbers.len(),
                self.bytes.as_mut_ptr(),
                self.bytes.len(),
                path.as_mut_ptr(),
                path.len(),
                blocks.as_mut_ptr(),
                blocks.len(),
                score.as_mut_ptr(),
                score.len(),
            )
        }
    }

    fn clear(&mut self) {
        self.numbers.fill(0);
        self.bytes.fill(0);
    }
}

/// Nanoseconds a word of each of these, taken in turn round by round: the
/// median of the rounds.
fn times(rounds: usize, works: &mut [&mut dyn FnMut(usize)]) -> Vec<f64> {
    let mut all = vec![Vec::new(); works.len()];
    for _ in 0..rounds {
        for (work, taken) in works.iter_mut().zip(&mut all) {
            let began = Instant::now();
            (0..INPUTS).for_each(&mut **work);
            taken.push(began.elapsed().as_nanos() as f64 / INPUTS as f64);
        }
    }
    let median = |mut taken: Vec<f64>| {
        taken.sort_by(f64::total_cmp);
        taken[taken.len() / 2]
    };
    all.into_iter().map(median).collect()
}

fn beside(setup: &Setup, decibel: f64, rounds: usize) {
    let (l, d) = (setup.l, setup.d);
    let channel = Channel::new(setup.k as f64 / setup.n as f64, decibel);
    let bytes = make_book(setup, &channel);
    let book = book::load(&bytes).expect("a sound book");
    let plan = Plan::new(&book);
    let inputs: Vec<Vec<i16>> = receive(&book, &channel).into_iter().map(|(v, _)| v).collect();
    let (numbers, work) = workspace_size(book.n(), d);
    let entries = walk_size(l, book.v());
    let m = book.n().trailing_zeros() as usize;

    let mut reader = Fast::default();
    let (mut word, mut data) = (vec![0; book.n()], vec![0; book.k()]);
    let (mut lent_numbers, mut lent_bytes) = (vec![0; numbers], vec![0; work]);
    let mut walk = [vec![0; entries], vec![0; entries], vec![0; entries]];
    let raw = Raw {
        l: l as u32,
        d: d as u32,
        t: 1_048_576,
    };
    let mut call = |i: usize, walk: &mut [Vec<i32>; 3]| {
        let [walk_path, walk_blocks, walk_score] = walk;
        let mut lent = Lent {
            word: &mut word,
            data: &mut data,
            numbers: &mut lent_numbers,
            bytes: &mut lent_bytes,
            walk_path,
            walk_blocks,
            walk_score,
        };
        let input = Input {
            book: &bytes,
            raw,
            values: &inputs[i],
            hook: false,
        };
        std::hint::black_box(reader.decode(input, &mut lent));
    };

    let mut ready = Proved::new(m, numbers, work, entries);
    ready.load(&bytes);
    let mut extractions = 0;
    for (i, values) in inputs.iter().enumerate() {
        let steps = ready.run(l, d, values) as usize;
        call(i, &mut walk);
        for (ours, theirs) in ready.walk.iter().zip(&walk) {
            assert_eq!(ours[..steps], theirs[..steps], "word {i}: the walks differ");
        }
        extractions += steps;
    }
    let per = extractions as f64 / INPUTS as f64;

    let (mut readied, mut alone) = (Workspace::new(), Workspace::new());
    let (mut readied_narrow, mut alone_narrow) = (Workspace::new(), Workspace::new());
    readied_narrow.narrow();
    alone_narrow.narrow();
    let mut whole = Proved::new(m, numbers, work, entries);
    let t = times(
        rounds,
        &mut [
            &mut |i| {
                std::hint::black_box(ready.run(l, d, &inputs[i]));
            },
            &mut |i| {
                let plan = Plan::new(&book);
                std::hint::black_box(readied.run(&plan, l, d, &inputs[i], &mut ()));
            },
            &mut |i| {
                let plan = Plan::new(&book);
                std::hint::black_box(readied_narrow.run(&plan, l, d, &inputs[i], &mut ()));
            },
            &mut |i| {
                std::hint::black_box(alone.run(&plan, l, d, &inputs[i], &mut ()));
            },
            &mut |i| {
                std::hint::black_box(alone_narrow.run(&plan, l, d, &inputs[i], &mut ()));
            },
            &mut |i| {
                whole.load(&bytes);
                std::hint::black_box(whole.run(l, d, &inputs[i]));
                whole.clear();
            },
            &mut |i| call(i, &mut walk),
        ],
    );
    println!(
        "| ({},{}) | {} | {} | {} | {decibel:.1} | {per:.1} | {:.0} | {:.0} | {:.0} | {:.2} | {:.2} | {:.0} | {:.0} | {:.0} | {:.0} | {:.2} |",
        setup.n,
        setup.k,
        book.v(),
        l,
        d,
        t[0] / per,
        t[1] / per,
        t[2] / per,
        t[0] / t[1],
        t[0] / t[2],
        t[3] / per,
        t[4] / per,
        t[5],
        t[6],
        t[5] / t[6],
    );
}

fn main() {
    let rounds = std::env::args().nth(1).and_then(|s| s.parse().ok());
    let rounds = rounds.unwrap_or(15);
    println!(
        "| code | V | L | D | dB | extractions | proved run, ns an extraction | reference readied and run, wide | narrow \
         | to wide | to narrow | its run alone, wide | narrow | proved whole, ns | reference whole | to it |"
    );
    println!("|{}", "---|".repeat(16));
    for setup in &setups() {
        for decibel in [1.0, 1.5, 2.5, 4.0] {
            beside(setup, decibel, rounds);
        }
    }
}
