//! The recorded cases: made again from their seed, they are the same bytes,
//! and the fast reader prints their expected output.

use reference::answer::Reader;
use reference::book::Role;
use reference::calls::Fast;
use reference::cases::Case;
use reference::clean::Hook;
use reference::model::Plain;
use reference::recorder::{clean_hooks, inputs, near_misses, Recorded};
use reference::rng::Rng;

/// The seed the recorded cases were written with.
const SEED: u64 = 20_261_115;

fn recorded(name: &str, ending: &str) -> Vec<u8> {
    let root = env!("CARGO_MANIFEST_DIR");
    let path = format!("{root}/cases/{name}.{ending}");
    std::fs::read(&path).expect("a recorded file")
}

/// Where two texts first differ, by line.
fn first_difference(a: &str, b: &str) -> Option<String> {
    let pairs = a.lines().zip(b.lines()).enumerate();
    let found = pairs.into_iter().find(|(_, (a, b))| a != b);
    found.map(|(line, (a, b))| format!("line {}: {a} / {b}", line + 1))
}

#[test]
fn inputs_come_from_the_seed() {
    for file in inputs(SEED) {
        assert!(file.input == recorded(file.name, "in"), "{}", file.name);
    }
}

#[test]
fn outputs_are_printed() {
    let names = [
        "load", "codec", "records", "decode", "clean", "walk", "vectors",
    ];
    for name in names {
        let file = Recorded {
            name,
            input: recorded(name, "in"),
        };
        let text = file.replay(&mut Fast::default()).expect("a sound stream");
        let expected = String::from_utf8(recorded(name, "out")).expect("plain text");
        assert_eq!(first_difference(&text, &expected), None, "{name}");
        assert_eq!(text.len(), expected.len(), "{name}");
    }
}

fn digits(bits: &[u8]) -> String {
    match bits {
        [] => String::from("-"),
        _ => bits.iter().map(|bit| bit.to_string()).collect(),
    }
}

/// What a clean hook prints as this case: the line of its answer, and that of
/// its word.
fn clean_lines(number: usize, hook: &Hook, case: &Case) -> [String; 2] {
    let counts = hook.counts(case.raw);
    let (e, c, o) = (counts.extractions, counts.crowded, counts.outrun);
    let (word, data) = (digits(&hook.word), digits(&hook.data));
    let word = format!("{number} word {word} {data}");
    if !case.hook {
        return [format!("{number} plain 0 {e} {c} {o} 0"), word];
    }
    match Plain::default().read_record(&hook.bytes, &hook.data) {
        (None, record) => {
            let (carcass, status) = (record.carcass, record.status.number());
            let fields = format!("{} {carcass} {} {status}", record.plant, record.side);
            [format!("{number} hook 0 {e} {c} {o} 0 {fields}"), word]
        }
        _ => {
            let none = format!("{number} hook 11 {e} {c} {o} 0 0 0 0 0");
            [none, format!("{number} word - -")]
        }
    }
}

/// The first cases of `clean` are clean hooks and answered as such, the others
/// neither.
#[test]
fn clean_hooks_are_recorded() {
    let text = String::from_utf8(recorded("clean", "out")).expect("plain text");
    let lines: Vec<&str> = text.lines().collect();
    let answered = |at: usize| [lines[4 * at], lines[4 * at + 2]];
    let mut rng = Rng::of_case(SEED, 6);
    let (hooks, misses) = (clean_hooks(&mut rng), near_misses(&mut rng));
    assert_eq!(lines.len(), 4 * (hooks.len() + misses.len()));
    for (at, (hook, case)) in hooks.iter().enumerate() {
        assert!(hook.is_clean(&case.values), "case {}", at + 1);
        assert_eq!(answered(at), clean_lines(at + 1, hook, case));
    }
    for (at, (hook, case)) in (hooks.len()..).zip(&misses) {
        assert!(!hook.is_clean(&case.values), "case {}", at + 1);
        assert_ne!(answered(at), clean_lines(at + 1, hook, case));
    }
}

/// The recorded clean hooks have every length, every size of block, ties, and
/// the least settings often.
#[test]
fn recorded_clean_hooks_vary() {
    let hooks = clean_hooks(&mut Rng::of_case(SEED, 6));
    let count = |holds: &dyn Fn(&Hook, &Case) -> bool| {
        let found = hooks.iter().filter(|(hook, case)| holds(hook, case));
        found.count()
    };
    for m in 2..=9 {
        assert!(count(&|hook, _| hook.book.m == m) > 4, "m {m}");
    }
    for j in 0..=5 {
        let met = count(&|hook, _| hook.book.blocks.iter().any(|block| block.j == j));
        assert!(met > 10, "blocks of height {j}: {met}");
    }
    let is_tied = |role: &Role| matches!(role, Role::Tied(_));
    let often = [
        count(&|hook, _| hook.book.roles.iter().any(is_tied)),
        count(&|_, case| case.raw.l == 1),
        count(&|_, case| case.raw.d == 2),
        count(&|_, case| case.raw.t == 0),
    ];
    assert!(often.iter().all(|&met| met > 25), "too few: {often:?}");
    assert_eq!(count(&|hook, _| hook.data.is_empty()), 2);
}
