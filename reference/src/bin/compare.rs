//! Compares the plain reader with the fast one: `compare COUNT SEED [FIRST]`.
//! Stops at the first difference with all that is needed to make it again.

use reference::compare::Comparison;
use std::process::ExitCode;
use std::time::Instant;

fn argument(at: usize) -> Option<u64> {
    std::env::args().nth(at)?.parse().ok()
}

fn main() -> ExitCode {
    let (Some(count), Some(seed)) = (argument(1), argument(2)) else {
        eprintln!("usage: compare COUNT SEED [FIRST]");
        return ExitCode::from(2);
    };
    let first = argument(3).unwrap_or(0);
    let began = Instant::now();
    let mut comparison = Comparison::default();
    for index in first..first + count {
        if let Err(difference) = comparison.check(seed, index) {
            println!("{difference}");
            return ExitCode::FAILURE;
        }
    }
    println!("seed {seed}, first case {first}");
    println!("{}", comparison.tally.report());
    println!("no difference; {:.0} s", began.elapsed().as_secs_f64());
    ExitCode::SUCCESS
}
