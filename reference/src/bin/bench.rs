//! Times the fast decoder on random subcodes with ties over a channel with
//! white noise: `bench [SECONDS [N]]`, one line for each code and noise level.

use reference::answer::{Input, Lent, Reader};
use reference::book::{self, Book};
use reference::calls::{walk_size, workspace_size, Fast};
use reference::fast::Workspace;
use reference::noise::{make_book, receive, setups, Channel, Setup, INPUTS};
use reference::plan::Plan;
use reference::settings::Raw;
use std::time::Instant;

/// Nanoseconds of one call of `work`, cycling through the inputs: the best
/// round over all inputs, so that other work on the machine matters little.
fn time(seconds: f64, mut work: impl FnMut(usize)) -> f64 {
    (0..INPUTS).for_each(&mut work);
    let began = Instant::now();
    let mut best = f64::INFINITY;
    while began.elapsed().as_secs_f64() < seconds {
        let round = Instant::now();
        (0..INPUTS).for_each(&mut work);
        best = best.min(round.elapsed().as_nanos() as f64 / INPUTS as f64);
    }
    best
}

/// Nanoseconds of the whole plain call: loading, decoding, clearing.
fn time_call(seconds: f64, bytes: &[u8], book: &Book, raw: Raw, inputs: &[Vec<i16>]) -> f64 {
    let mut reader = Fast::default();
    let (numbers, work) = workspace_size(book.n(), raw.d as usize);
    let entries = walk_size(raw.l as usize, book.v());
    let (mut word, mut data) = (vec![0; book.n()], vec![0; book.k()]);
    let (mut numbers, mut work) = (vec![0; numbers], vec![0; work]);
    let mut walk = [vec![0; entries], vec![0; entries], vec![0; entries]];
    time(seconds, |i| {
        let [walk_path, walk_blocks, walk_score] = &mut walk;
        let mut lent = Lent {
            word: &mut word,
            data: &mut data,
            numbers: &mut numbers,
            bytes: &mut work,
            walk_path,
            walk_blocks,
            walk_score,
        };
        let input = Input {
            book: bytes,
            raw,
            values: &inputs[i],
            hook: false,
        };
        std::hint::black_box(reader.decode(input, &mut lent));
    })
}

fn bench(setup: &Setup, decibel: f64, seconds: f64) {
    let channel = Channel::new(setup.k as f64 / setup.n as f64, decibel);
    let bytes = make_book(setup, &channel);
    let book = book::load(&bytes).expect("a sound book");
    let plan = Plan::new(&book);
    let received = receive(&book, &channel);
    let (l, d) = (setup.l, setup.d);
    let mut workspace = Workspace::new();
    let (mut extractions, mut wrong) = (0, 0);
    for (values, sent) in &received {
        let ran = workspace.run(&plan, l, d, values, &mut ());
        extractions += ran.extractions as usize;
        wrong += (workspace.word != *sent) as usize;
    }
    let inputs: Vec<Vec<i16>> = received.into_iter().map(|(values, _)| values).collect();
    let wide = time(seconds, |i| {
        std::hint::black_box(workspace.run(&plan, l, d, &inputs[i], &mut ()));
    });
    workspace.narrow();
    let narrow = time(seconds, |i| {
        std::hint::black_box(workspace.run(&plan, l, d, &inputs[i], &mut ()));
    });
    let raw = Raw {
        l: l as u32,
        d: d as u32,
        t: 1_048_576,
    };
    let call = time_call(seconds, &bytes, &book, raw, &inputs);
    println!(
        "({:3},{:3}) ties {:2} V {:3} L {l:2} D {d:3} {decibel:.1} dB: {:7.2} extractions, {:5.3} wrong, \
         {wide:8.0} ns wide, {narrow:8.0} ns narrow, {call:8.0} ns whole call",
        setup.n,
        setup.k,
        setup.ties,
        book.v(),
        extractions as f64 / INPUTS as f64,
        wrong as f64 / INPUTS as f64,
    );
}

fn main() {
    let seconds = std::env::args().nth(1).and_then(|s| s.parse().ok());
    let seconds = seconds.unwrap_or(0.5);
    let lanes = if Workspace::new().is_wide() {
        "yes"
    } else {
        "no"
    };
    println!("wide lanes: {lanes}");
    let only: Option<usize> = std::env::args().nth(2).and_then(|n| n.parse().ok());
    for setup in setups().iter().filter(|s| only.is_none_or(|n| s.n == n)) {
        for decibel in [1.5, 2.5, 4.0] {
            bench(setup, decibel, seconds);
        }
    }
}
