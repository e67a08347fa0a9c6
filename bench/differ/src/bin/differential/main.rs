//! `differential [SECONDS [SEED [INDEX]]]`: fresh random cases, one after the
//! other, each tried on every function of the proved library's C interface
//! and compared with the independent decoder to the last entry of every
//! buffer. Starts at case INDEX, 0 unless given, and tries at least one. Ends
//! with 1 at the first difference.

mod guard;
mod trial;

use reference::calls::Fast;
use reference::cases::{Case, Maker};
use reference::rng::Rng;
use std::time::{Instant, SystemTime, UNIX_EPOCH};
use trial::{vary, Trial, FUNCTIONS, NOT_IN_CODE};

/// Answers 0 to 11, and "no".
const ANSWERS: usize = 13;

/// Calls by function and by answer, and cases by m.
#[derive(Default)]
struct Tally {
    cases: u64,
    by_m: [u64; 10],
    calls: [[u64; ANSWERS]; FUNCTIONS.len()],
}

impl Tally {
    fn print(&self) {
        println!("cases {}, with m 2 to 9: {:?}", self.cases, &self.by_m[2..]);
        let head = (0..ANSWERS).map(|answer| match answer {
            12 => format!("{NOT_IN_CODE:>8}"),
            answer => format!("{answer:>8}"),
        });
        println!("{:12}{:>9}{}", "answers", "all", head.collect::<String>());
        for (name, answers) in FUNCTIONS.iter().zip(&self.calls) {
            let all: u64 = answers.iter().sum();
            let each: String = answers.iter().map(|count| format!("{count:>8}")).collect();
            println!("{name:12}{all:>9}{each}");
        }
    }
}

/// The case that does it, in full.
fn describe(case: &Case) -> String {
    let hex: String = case.book.iter().map(|byte| format!("{byte:02x}")).collect();
    format!(
        "book {hex}\n{:?} hook {} {:?}\nvalues {:?}\ndata {:?} for a word of {}\nword {:?} for data of {}\n\
         {:?} for data of {}\nrecord's data {:?}",
        case.raw,
        case.hook,
        case.sizes,
        case.values,
        case.data,
        case.word_length,
        case.word,
        case.data_length,
        case.record,
        case.record_length,
        case.record_data,
    )
}

fn main() {
    let numbers = std::env::args().skip(1).map(|text| text.parse());
    let Ok(given) = numbers.collect::<Result<Vec<u64>, _>>() else {
        eprintln!("differential [SECONDS [SEED [INDEX]]]");
        std::process::exit(2);
    };
    let clock = SystemTime::now().duration_since(UNIX_EPOCH);
    let clock = clock.map_or(0, |since| since.as_micros() as u64);
    let seconds = given.first().copied().unwrap_or(60);
    let seed = given.get(1).copied().unwrap_or(clock);
    let first = given.get(2).copied().unwrap_or(0);
    println!("seed {seed}");

    let (mut usual, mut heavy) = (Maker::default(), Maker::heavy());
    let mut reader = Fast::default();
    let mut tally = Tally::default();
    let began = Instant::now();
    for index in first.. {
        let maker = if index % 4 == 3 {
            &mut heavy
        } else {
            &mut usual
        };
        let mut case = maker.case(seed, index);
        let mut rng = Rng::of_case(!seed, index);
        vary(&mut rng, &mut case);
        let mut trial = Trial {
            case: &case,
            rng,
            reader: &mut reader,
        };
        let functions = if trial.is_hook() { 8 } else { 7 };
        for (function, name) in FUNCTIONS.iter().enumerate().take(functions) {
            match trial.call(function) {
                Ok(answer) => tally.calls[function][answer.min(12) as usize] += 1,
                Err(difference) => {
                    println!("{name}: {difference}\n{}", describe(&case));
                    println!(
                        "seed {seed} case {index}; again: bench/differential 0 {seed} {index}"
                    );
                    std::process::exit(1);
                }
            }
        }
        tally.cases += 1;
        tally.by_m[case.m as usize] += 1;
        if began.elapsed().as_secs() >= seconds {
            break;
        }
    }
    tally.print();
    let took = began.elapsed().as_secs_f64();
    println!(
        "no difference; {:.0} cases a second, seed {seed}",
        tally.cases as f64 / took
    );
}
