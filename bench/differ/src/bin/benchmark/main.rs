//! `benchmark [SECONDS] [--plots DIR]`: times the proved library through its
//! C interface beside the independent decoder, on the same noisy words in
//! turn, and prints a Markdown table. Both make the whole plain decoding call:
//! loading, the run, word and data, the walk, the workspace cleared. Every
//! word, walk and count is compared before. With --plots three pictures are
//! written.

mod chart;
mod decoders;
mod rows;

use chart::{Chart, Series};
use reference::calls::Fast;
use reference::code::pack;
use reference::noise::{stream, INPUTS};
use rows::{lengths, rows, Noise, Row};
use std::hint::black_box;
use std::path::{Path, PathBuf};
use std::time::Instant;

/// Fewest rounds of a row, whatever the time, and the words of a turn.
const ROUNDS: usize = 5;
const TURN: usize = 64;

/// For the word error rate: a point ends after so many wrong words, or so many
/// words, and is shown with at least so many wrong ones.
const ENOUGH: u32 = 200;
const MOST: u32 = 40_000;
const LEAST: u32 = 10;

/// What is found for a row.
struct Figures {
    extractions: f64,
    /// Share of wrong words.
    wrong: f64,
    /// Nanoseconds a call: the library, the reference wide, and narrow.
    times: [f64; 3],
}

/// Nanoseconds a word of each work. They take turns of a few words, so that
/// other work on the machine meets all of them; the median of the rounds is
/// taken turn by turn.
fn times<const N: usize>(seconds: f64, mut works: [&mut dyn FnMut(usize); N]) -> [f64; N] {
    let began = Instant::now();
    let mut turns: Vec<[Vec<u128>; N]> = vec![std::array::from_fn(|_| Vec::new()); INPUTS / TURN];
    while turns[0][0].len() < ROUNDS || began.elapsed().as_secs_f64() < seconds {
        for (i, turn) in turns.iter_mut().enumerate() {
            for (work, taken) in works.iter_mut().zip(turn) {
                let start = Instant::now();
                (i * TURN..(i + 1) * TURN).for_each(&mut **work);
                taken.push(start.elapsed().as_nanos());
            }
        }
    }
    let mut sums = [0; N];
    for turn in &mut turns {
        for (sum, taken) in sums.iter_mut().zip(turn) {
            taken.sort_unstable();
            *sum += taken[taken.len() / 2];
        }
    }
    sums.map(|sum| sum as f64 / INPUTS as f64)
}

fn measure(row: &Row, seconds: f64) -> Figures {
    let job = row.job();
    let words = row.words(&job);
    let (mut ours, mut theirs) = (job.buffers(), job.buffers());
    let (mut wide, mut narrow) = (Fast::default(), Fast::default());
    narrow.workspace.narrow();
    let (mut extractions, mut wrong) = (0, 0);
    for (i, (values, sent)) in words.iter().enumerate() {
        let counts = job.library(values, &mut ours);
        for reader in [&mut wide, &mut narrow] {
            assert_eq!(
                counts,
                job.reference(reader, values, &mut theirs),
                "word {i}: the counts differ"
            );
            assert!(ours == theirs, "word {i}: the buffers differ");
        }
        extractions += counts[0];
        wrong += (pack(&ours.word) != *sent) as u32;
    }
    let mut last = job.buffers();
    let times = times(
        seconds,
        [
            &mut |i| {
                black_box(job.library(&words[i].0, &mut ours));
            },
            &mut |i| {
                black_box(job.reference(&mut wide, &words[i].0, &mut theirs));
            },
            &mut |i| {
                black_box(job.reference(&mut narrow, &words[i].0, &mut last));
            },
        ],
    );
    Figures {
        extractions: extractions as f64 / INPUTS as f64,
        wrong: wrong as f64 / INPUTS as f64,
        times,
    }
}

/// Prints the table; answers its rows.
fn table(seconds: f64) -> Vec<(Row, Figures)> {
    println!(
        "| code | book, bytes | V | L | D | dB | extractions | word error rate | library, ns a call | an extraction \
         | reference wide, a call | an extraction | narrow, a call | an extraction | to wide | to narrow |"
    );
    println!("|{}", "---|".repeat(16));
    let rows = rows();
    let share = seconds / rows.len() as f64;
    let mut logs = [0.0; 2];
    let mut out = Vec::new();
    for row in &rows {
        let figures = measure(row, share);
        let (job, [library, wide, narrow], per) = (row.job(), figures.times, figures.extractions);
        let noise = match row.noise {
            Noise::Walk => "01's walk".to_string(),
            Noise::Decibel(decibel) => format!("{decibel:.1}"),
        };
        println!(
            "| ({},{}) | {} | {} | {} | {} | {noise} | {per:.1} | {:.3} | {library:.0} | {:.0} | {wide:.0} | {:.0} | {narrow:.0} \
             | {:.0} | {:.2} | {:.2} |",
            row.n,
            job.book.k(),
            job.bytes.len(),
            job.book.v(),
            row.l,
            row.d,
            figures.wrong,
            library / per,
            wide / per,
            narrow / per,
            library / wide,
            library / narrow,
        );
        logs[0] += (library / wide).ln();
        logs[1] += (library / narrow).ln();
        out.push((*row, figures));
    }
    let [wide, narrow] = logs.map(|sum| (sum / rows.len() as f64).exp());
    println!(
        "\nMean ratio (geometric, {} rows): {wide:.2} to wide, {narrow:.2} to narrow.",
        rows.len()
    );
    out
}

/// What the library makes of the words of a row: words, wrong words and
/// extractions, up to `enough` wrong words or `most` words.
fn hear(row: &Row, enough: u32, most: u32) -> [u32; 3] {
    let job = row.job();
    let mut lent = job.buffers();
    let (mut words, mut wrong, mut extractions) = (0, 0, 0);
    for (values, sent) in stream(&job.book, &row.channel()).take(most as usize) {
        extractions += job.library(&values, &mut lent)[0];
        words += 1;
        wrong += (pack(&lent.word) != sent) as u32;
        if wrong == enough {
            break;
        }
    }
    [words, wrong, extractions]
}

fn time_chart(measured: &[(Row, Figures)]) -> String {
    let lengths = lengths();
    let shown = || measured.iter().filter(|(row, _)| lengths.contains(row));
    let names = ["library", "reference, wide", "reference, narrow"];
    let series = names.iter().enumerate().map(|(i, name)| {
        let points = shown().map(|(row, figures)| (row.n as f64, figures.times[i] / 1000.0));
        (name.to_string(), points.collect())
    });
    Chart {
        title: "Time of a decoding call",
        across: "length n",
        up: "microseconds a call",
        doubling: true,
        caption: &[
            format!("L {}, D {}, 2.5 dB; n 16 is document 01's hook, the others have rate 1/2 and ties.", lengths[0].l, lengths[0].d),
            format!("The whole call: loading, run, clearing. {INPUTS} noisy words, medians of the rounds."),
        ],
        series: series.collect(),
    }
    .draw()
}

fn extractions_chart() -> String {
    let words = INPUTS as u32;
    let series = [64, 128, 256, 512].map(|n| -> Series {
        let point = |half: i32| {
            let decibel = half as f64 / 2.0;
            let [_, _, extractions] = hear(&Row::new(n, 32, 256, decibel), u32::MAX, words);
            (decibel, extractions as f64 / words as f64)
        };
        (format!("({n},{})", n / 2), (0..=8).map(point).collect())
    });
    Chart {
        title: "Extractions of a decoding call",
        across: "Eb/N0, dB (less noise to the right)",
        up: "extractions, mean",
        doubling: false,
        caption: &[format!(
            "L 32, D 256; {words} words a point. Each book has the biases of its noise."
        )],
        series: series.into(),
    }
    .draw()
}

fn errors_chart() -> String {
    let series = [1, 4, 32].map(|l| -> Series {
        let point = |half: i32| {
            let decibel = half as f64 / 2.0;
            let [words, wrong, _] = hear(&Row::new(128, l, 256, decibel), ENOUGH, MOST);
            (wrong >= LEAST).then_some((decibel, wrong as f64 / words as f64))
        };
        (format!("L {l}"), (0..=8).filter_map(point).collect())
    });
    Chart {
        title: "Wrong words of the (128,64) subcode",
        across: "Eb/N0, dB (less noise to the right)",
        up: "word error rate",
        doubling: false,
        caption: &[
            format!("D 256. Words are decoded until {ENOUGH} are wrong, at most {MOST}; points with fewer than"),
            format!("{LEAST} wrong ones are left out. With {ENOUGH} a point is sure to about 14 % (two deviations)."),
        ],
        series: series.into(),
    }
    .draw()
}

fn plots(folder: &Path, measured: &[(Row, Figures)]) -> std::io::Result<()> {
    std::fs::create_dir_all(folder)?;
    std::fs::write(folder.join("time.svg"), time_chart(measured))?;
    std::fs::write(folder.join("extractions.svg"), extractions_chart())?;
    std::fs::write(folder.join("errors.svg"), errors_chart())
}

/// The seconds and the folder for pictures.
fn arguments() -> Option<(f64, Option<PathBuf>)> {
    let (mut seconds, mut folder) = (90.0, None);
    let mut given = std::env::args().skip(1);
    while let Some(word) = given.next() {
        match word.as_str() {
            "--plots" => folder = Some(given.next()?.into()),
            word => seconds = word.parse().ok()?,
        }
    }
    Some((seconds, folder))
}

fn main() -> std::io::Result<()> {
    let Some((seconds, folder)) = arguments() else {
        eprintln!("benchmark [SECONDS] [--plots DIR]");
        std::process::exit(2);
    };
    let measured = table(seconds);
    folder.map_or(Ok(()), |folder| plots(&folder, &measured))
}
