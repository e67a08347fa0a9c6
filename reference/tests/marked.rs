//! M1 to M11 and the "Also run" cases of document 01, in both readers.

use reference::answer::{Counts, Decoded, Input, Lent, Reader};
use reference::book::Refusal;
use reference::calls::Fast;
use reference::machine;
use reference::model::{self, Plain};
use reference::settings::Raw;
use reference::{code, soft};

const VALUES: [i16; 16] = [
    44, 746, 719, 282, 563, 978, 606, -12, -64, 938, 1087, 1300, 1343, 943, 202, 1320,
];

/// The (16,10) book of document 01: 45 bytes.
fn book() -> Vec<u8> {
    let mut book = vec![0x10, 4];
    for (byte, count) in [
        (0x02, 1u16),
        (0x01, 3),
        (0x02, 1),
        (0x01, 3),
        (0x02, 3),
        (0x01, 1),
        (0x02, 1),
        (0x01, 3),
    ] {
        book.push(byte);
        book.extend(count.to_be_bytes());
    }
    for (j, bias) in [(2u8, -47i32), (2, -52), (3, -56)] {
        book.extend([0x05, j]);
        book.extend(bias.to_be_bytes());
    }
    book.push(0x7F);
    book
}

fn readers() -> [Box<dyn Reader>; 2] {
    [Box::new(Plain::default()), Box::new(Fast::logging())]
}

/// One decoding of the (16,10) book: answer, word and walk.
fn decode(reader: &mut dyn Reader, raw: Raw, values: &[i16]) -> (Decoded, Vec<u8>, Vec<[i32; 3]>) {
    let book = book();
    let mut word = vec![9; 16];
    let mut data = vec![9; 10];
    let d = raw.d.min(256) as usize;
    let mut numbers = vec![7; d * 64];
    let mut bytes = vec![7; d * 32];
    let mut walk = [vec![7; 97], vec![7; 97], vec![7; 97]];
    let [path, blocks, score] = &mut walk;
    let mut lent = Lent {
        word: &mut word,
        data: &mut data,
        numbers: &mut numbers,
        bytes: &mut bytes,
        walk_path: path,
        walk_blocks: blocks,
        walk_score: score,
    };
    let input = Input {
        book: &book,
        raw,
        values,
        hook: false,
    };
    let decoded = reader.decode(input, &mut lent);
    let entries = 0..decoded.counts.extractions as usize;
    let walk = entries.map(|e| [walk[0][e], walk[1][e], walk[2][e]]);
    (decoded, word, walk.collect())
}

const M7: Raw = Raw { l: 4, d: 8, t: 100 };

#[test]
fn m1_to_m3_layer_values() {
    assert_eq!(soft::q(-44, 563), -44);
    assert_eq!(soft::q(0, 5), 0);
    assert_eq!(soft::p(1, -44, 563), 607);
}

#[test]
fn m4_and_m5_transform() {
    for (u, c) in [([0, 1, 1, 0], [0, 1, 1, 0]), ([0, 1, 1, 1], [1, 0, 0, 1])] {
        assert_eq!(machine::times_a(&u), c);
        assert_eq!(model::product(&u), c);
        let mut bits = code::pack(&u);
        code::transform(&mut bits, 2);
        assert_eq!(bits, code::pack(&c));
    }
}

#[test]
fn m6_tie() {
    let book = [
        0x10, 2, 0x02, 0, 1, 0x01, 0, 1, 0x03, 0, 1, 0x01, 0, 1, 0x05, 2, 0, 0, 0, 0, 0x7F,
    ];
    for mut reader in readers() {
        let mut word = [9; 4];
        assert_eq!(reader.encode(&book, &[1, 1], &mut word), None);
        assert_eq!(word, [1, 0, 0, 1]);
    }
}

#[test]
fn m7_walk() {
    let book = book();
    assert_eq!(book.len(), 45);
    let mut input = 45u16.to_be_bytes().to_vec();
    input.extend(&book);
    input.push(4);
    input.extend(8u16.to_be_bytes());
    input.extend(100u32.to_be_bytes());
    input.extend(VALUES.iter().flat_map(|value| value.to_be_bytes()));
    let expected = "no path blocks score\n1 0 0 0\n2 0 1 47\n3 1 1 -9\n4 1 2 -4\n5 1 3 -20\n\
                    word 0000000000000000 76\n";
    for mut reader in readers() {
        assert_eq!(reader.walk(&input), expected);
        let (decoded, word, walk) = decode(&mut *reader, M7, &VALUES);
        assert_eq!(decoded.refusal, None);
        assert_eq!(word, [0; 16]);
        assert_eq!(decoded.counts.discrepancy, 76);
        let scores: Vec<i32> = walk.iter().map(|entry| entry[2]).collect();
        assert_eq!(scores, [0, 47, -9, -4, -20]);
    }
}

#[test]
fn m8_and_m9_one_visit() {
    for mut reader in readers() {
        let raw = Raw { l: 1, t: 402, ..M7 };
        let (decoded, word, _) = decode(&mut *reader, raw, &VALUES);
        assert_eq!(decoded.refusal, None);
        assert_eq!(word, [1, 0, 0, 1, 0, 0, 0, 0, 0, 0, 0, 0, 0, 0, 0, 0]);
        assert_eq!(decoded.counts.discrepancy, 402);
        assert_eq!(decoded.counts.extractions, 4);
        let raw = Raw { t: 401, ..raw };
        let (decoded, word, walk) = decode(&mut *reader, raw, &VALUES);
        assert_eq!(decoded.refusal, Some(Refusal::Faint));
        assert_eq!(decoded.counts.extractions, 4);
        assert_eq!(word, [9; 16]);
        assert_eq!(walk.len(), 4);
    }
}

#[test]
fn m10_two_paths() {
    for mut reader in readers() {
        let (decoded, word, _) = decode(&mut *reader, Raw { d: 2, ..M7 }, &VALUES);
        assert_eq!(decoded.refusal, None);
        assert_eq!(word, [0; 16]);
        assert_eq!(decoded.counts.crowded, 2);
    }
}

#[test]
fn m11_all_zero() {
    for mut reader in readers() {
        let (decoded, word, _) = decode(&mut *reader, Raw { t: 0, ..M7 }, &[0; 16]);
        assert_eq!(decoded.refusal, None);
        assert_eq!(word, [0; 16]);
        assert_eq!(decoded.counts.discrepancy, 0);
        assert_eq!(decoded.counts.extractions, 4);
    }
}

#[test]
fn also_run() {
    for mut reader in readers() {
        let mut values = [2047; 16];
        assert_eq!(decode(&mut *reader, M7, &values).0.refusal, None);
        values[15] = 2048;
        let refused = decode(&mut *reader, M7, &values).0;
        assert_eq!(refused.refusal, Some(Refusal::BadValue));
        assert_eq!(refused.counts, Counts::default());
        let refused = decode(&mut *reader, Raw { d: 1, ..M7 }, &VALUES).0;
        assert_eq!(refused.refusal, Some(Refusal::BadSetting));
        let loaded = reader.load(&[]);
        assert_eq!(loaded.refusal, Some(Refusal::Short));
        assert_eq!((loaded.n, loaded.k, loaded.v), (0, 0, 0));
    }
}

#[test]
fn refusals_have_the_tables_numbers_and_words() {
    let words = [
        (Refusal::Short, 1, "short"),
        (Refusal::Strange, 2, "strange"),
        (Refusal::Misplaced, 3, "misplaced"),
        (Refusal::OffRange, 4, "off range"),
        (Refusal::Overtied, 5, "overtied"),
        (Refusal::Heavy, 6, "heavy"),
        (Refusal::Misfit, 7, "misfit"),
        (Refusal::BadSetting, 8, "bad setting"),
        (Refusal::BadValue, 9, "bad value"),
        (Refusal::Faint, 10, "faint"),
        (Refusal::Unreadable, 11, "unreadable"),
    ];
    for (refusal, number, word) in words {
        assert_eq!(refusal.number(), number);
        assert_eq!(refusal.word(), word);
    }
}
