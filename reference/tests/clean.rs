//! A clean hook: soft values that are all non-zero and have the signs of a
//! word of the code. Where no bias is above the one before it, both readers
//! find that word in V + 1 extractions, whatever the magnitudes and settings.
//! A bias that rises, or a value of 0, can undo each part of this.

use reference::answer::{Counts, Decoded, Input, Reader};
use reference::book::{Refusal, Role};
use reference::calls::{walk_size, workspace_size, Fast};
use reference::cases::Sizes;
use reference::clean::{falling, random_raw, random_record, random_values};
use reference::clean::{record_data, undo_record, Hook};
use reference::compare::Buffers;
use reference::model::Plain;
use reference::record::Record;
use reference::rng::Rng;
use reference::settings::Raw;

const SEED: u64 = 20_261_117;

/// The plain reader, and the fast one in both of its builds.
fn readers() -> [Box<dyn Reader>; 3] {
    let mut narrow = Fast::default();
    narrow.workspace.narrow();
    [
        Box::new(Plain::default()),
        Box::new(Fast::default()),
        Box::new(narrow),
    ]
}

/// What a clean hook leaves of these buffers.
fn leave(hook: &Hook, raw: Raw, written: bool, buffers: &mut Buffers) {
    if written {
        buffers.word.copy_from_slice(&hook.word);
        buffers.data.copy_from_slice(&hook.data);
    }
    let (numbers, bytes) = workspace_size(hook.book.n(), raw.d as usize);
    buffers.numbers[..numbers].fill(0);
    buffers.bytes[..bytes].fill(0);
    for e in 0..=hook.book.v() {
        let bias = e.checked_sub(1).map_or(0, |b| hook.book.blocks[b].bias);
        buffers.walk[0][e] = 0;
        buffers.walk[1][e] = e as i32;
        buffers.walk[2][e] = -bias;
    }
}

/// Garbage in buffers of the right lengths, `more` beyond where they may be
/// longer.
fn buffers_for(hook: &Hook, raw: Raw, more: usize) -> Buffers {
    let (numbers, bytes) = workspace_size(hook.book.n(), raw.d as usize);
    Buffers::new(&Sizes {
        word: hook.book.n(),
        data: hook.book.k(),
        numbers: numbers + more,
        bytes: bytes + more,
        walk: [walk_size(raw.l as usize, hook.book.v()) + more; 3],
    })
}

fn decode(reader: &mut dyn Reader, hook: &Hook, raw: Raw, values: &[i16]) -> (Decoded, Buffers) {
    let mut buffers = buffers_for(hook, raw, 0);
    let input = Input {
        book: &hook.bytes,
        raw,
        values,
        hook: false,
    };
    (reader.decode(input, &mut buffers.lend()), buffers)
}

/// Hangs a clean hook in each reader, and compares all that comes back; with
/// `record` in the hook call. Returns the counts.
fn check(rng: &mut Rng, hook: &Hook, record: Option<Result<Record, Refusal>>) -> Counts {
    let raw = random_raw(rng);
    let values = random_values(rng, hook);
    let before = buffers_for(hook, raw, rng.below(3));
    let answer = record.unwrap_or(Ok(Record::NONE));
    let expected = Decoded {
        refusal: answer.err(),
        counts: hook.counts(raw),
        record: answer.unwrap_or(Record::NONE),
    };
    let mut after = before.clone();
    leave(hook, raw, answer.is_ok(), &mut after);
    for (which, mut reader) in readers().into_iter().enumerate() {
        let mut buffers = before.clone();
        let input = Input {
            book: &hook.bytes,
            raw,
            values: &values,
            hook: record.is_some(),
        };
        let decoded = reader.decode(input, &mut buffers.lend());
        let case = format!(
            "reader {which}, {raw:?}, book {:02x?}, values {values:?}",
            hook.bytes
        );
        assert_eq!(decoded, expected, "{case}");
        assert!(
            buffers.word == after.word && buffers.data == after.data,
            "word: {case}"
        );
        assert!(buffers.walk == after.walk, "walk: {case}");
        assert!(buffers == after, "workspace: {case}");
    }
    expected.counts
}

/// How the books of m 2 to 9 are spread.
const SPREAD: [u8; 20] = [2, 3, 3, 3, 4, 4, 4, 4, 4, 5, 5, 5, 6, 6, 6, 7, 7, 8, 8, 9];

#[test]
fn clean_hooks_read_clean() {
    let (mut crowded, mut outrun, mut empty, mut tied) = (0, 0, 0, 0);
    for index in 0..2_000 {
        let mut rng = Rng::of_case(SEED, index);
        let m = SPREAD[index as usize % SPREAD.len()];
        let bytes = falling(&mut rng, m, false).bytes(&mut rng);
        let hook = Hook::random(&mut rng, bytes);
        let counts = check(&mut rng, &hook, None);
        let is_tied = |role: &Role| matches!(role, Role::Tied(_));
        empty += hook.data.is_empty() as u32;
        tied += hook.book.roles.iter().any(is_tied) as u32;
        crowded += (counts.crowded > 0) as u32;
        outrun += (counts.outrun > 0) as u32;
    }
    let met = [empty, tied, crowded, outrun];
    assert!(met.iter().all(|&count| count > 50), "too few: {met:?}");
}

#[test]
fn clean_hooks_give_their_records() {
    for index in 0..300 {
        let mut rng = Rng::of_case(SEED + 1, index);
        let m = rng.pick(&[5, 6, 6, 7, 8]);
        let bytes = falling(&mut rng, m, true).bytes(&mut rng);
        let record = random_record(&mut rng);
        let mut data = record_data(&bytes, &record);
        check(
            &mut rng,
            &Hook::new(bytes.clone(), data.clone()),
            Some(Ok(record)),
        );
        undo_record(&mut rng, &mut data);
        let hook = Hook::new(bytes, data);
        check(&mut rng, &hook, Some(Err(Refusal::Unreadable)));
    }
}

/// The small book of examples/c/clean.c, n = 16 and k = 8, with these biases.
fn small(biases: [i32; 5]) -> Vec<u8> {
    let mut book = vec![
        0x10, 4, // length 2^4
        0x01, 0, 1, 0x02, 0, 2, 0x01, 0, 1, // 0 free, 1 and 2 zero, 3 free
        0x02, 0, 1, 0x01, 0, 1, // 4 zero, 5 free
        0x03, 0, 3, 0x04, 0, 5, 0x01, 0, 1, // 6 tied to 3 and 5, 7 free
        0x02, 0, 3, 0x01, 0, 1, // 8 to 10 zero, 11 free
        0x03, 0, 0, 0x04, 0, 7, 0x01, 0, 3, // 12 tied to 0 and 7, 13 to 15 free
    ];
    for (j, bias) in [0u8, 0, 1, 2, 3].into_iter().zip(biases) {
        book.extend([0x05, j]);
        book.extend(bias.to_be_bytes());
    }
    book.push(0x7F);
    book
}

const FALLING: [i32; 5] = [30, 30, -12, -40, -56];
const RISING: [i32; 5] = [30, 30, -12, -40, 0];
const WIDE: Raw = Raw {
    l: 8,
    d: 8,
    t: 1_000,
};
const NARROW: Raw = Raw {
    l: 2,
    d: 2,
    t: 1_000,
};

/// The hook of the small book whose data are this number, and its values.
fn small_hook(biases: [i32; 5], number: usize) -> (Hook, Vec<i16>) {
    let data = (0..8).map(|i| (number >> (7 - i) & 1) as u8).collect();
    let hook = Hook::new(small(biases), data);
    let magnitudes = [1, 40, 7, 2047, 300, 2, 95];
    let values = hook.values(|i| magnitudes[(i + number) % 7]);
    (hook, values)
}

#[test]
fn every_word_of_a_small_book_reads_clean() {
    let mut rng = Rng::new(SEED + 2);
    for number in 0..256 {
        let (hook, values) = small_hook(FALLING, number);
        check(&mut rng, &hook, None);
        for mut reader in readers() {
            for raw in [WIDE, NARROW] {
                let (decoded, buffers) = decode(&mut *reader, &hook, raw, &values);
                assert_eq!(decoded.counts, hook.counts(raw), "word {number}");
                assert_eq!(buffers.word, hook.word, "word {number}");
            }
        }
    }
}

/// With the last bias above the one before it, the same hooks take 10
/// extractions, not 6; with few visits and paths they are read as other words.
#[test]
fn a_rising_bias_undoes_a_clean_hook() {
    for number in 0..256 {
        let (hook, values) = small_hook(RISING, number);
        for mut reader in readers() {
            let (decoded, buffers) = decode(&mut *reader, &hook, WIDE, &values);
            assert_eq!(decoded.counts.extractions, 10, "word {number}");
            assert_eq!(buffers.word, hook.word, "word {number}");
            let (decoded, buffers) = decode(&mut *reader, &hook, NARROW, &values);
            assert_eq!(decoded.counts.extractions, 7, "word {number}");
            assert_eq!(decoded.refusal, None, "word {number}");
            assert_ne!(buffers.word, hook.word, "word {number}");
            let raw = Raw { t: 0, ..NARROW };
            let (decoded, _) = decode(&mut *reader, &hook, raw, &values);
            assert_eq!(decoded.refusal, Some(Refusal::Faint), "word {number}");
        }
    }
}

/// One value 0 in the hook of data 10000000: at position 0 the word takes 14
/// extractions, not 6; at position 2 another word is read.
#[test]
fn a_value_0_undoes_a_clean_hook() {
    let (hook, values) = small_hook(FALLING, 128);
    for mut reader in readers() {
        let mut zeroed = values.clone();
        zeroed[0] = 0;
        let (decoded, buffers) = decode(&mut *reader, &hook, WIDE, &zeroed);
        assert_eq!(decoded.counts.extractions, 14);
        assert_eq!(decoded.counts.discrepancy, 0);
        assert_eq!(buffers.word, hook.word);
        let mut zeroed = values.clone();
        zeroed[2] = 0;
        let (decoded, buffers) = decode(&mut *reader, &hook, WIDE, &zeroed);
        assert_eq!(decoded.counts.extractions, 9);
        assert_eq!(decoded.counts.discrepancy, 8);
        assert_ne!(buffers.word, hook.word);
    }
}
