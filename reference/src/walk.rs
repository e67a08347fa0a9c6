//! The program `walk` over the fast reader's plain decoding call
//! (document 01, "The walk of the (16,10) hook").

use crate::answer::{Input, Lent, Reader};
use crate::book::{self, Refusal};
use crate::calls::{walk_size, workspace_size, Fast};
use crate::settings::{Raw, Settings};

/// Bounds of the program beyond those of the settings.
const M_MAX: u8 = 6;
const D_MAX: u32 = 64;

const HEADER: &str = "no path blocks score\n";

/// What the program prints for this standard input.
pub fn walk(reader: &mut Fast, input: &[u8]) -> String {
    match listing(reader, input) {
        Ok(text) => text,
        Err(refusal) => format!("refused {}\n", refusal.number()),
    }
}

/// The input's book, settings and the bytes of its values; 7 where it ends
/// before T is whole.
fn split(input: &[u8]) -> Option<(&[u8], Raw, &[u8])> {
    let (length, rest) = input.split_first_chunk::<2>()?;
    let (book, rest) = rest.split_at_checked(u16::from_be_bytes(*length) as usize)?;
    let (l, rest) = rest.split_first()?;
    let (d, rest) = rest.split_first_chunk::<2>()?;
    let (t, values) = rest.split_first_chunk::<4>()?;
    let raw = Raw {
        l: *l as u32,
        d: u16::from_be_bytes(*d) as u32,
        t: u32::from_be_bytes(*t),
    };
    Some((book, raw, values))
}

fn listing(reader: &mut Fast, input: &[u8]) -> Result<String, Refusal> {
    let (bytes, raw, tail) = split(input).ok_or(Refusal::Misfit)?;
    let book = book::load(bytes)?;
    if book.m > M_MAX || raw.d > D_MAX {
        return Err(Refusal::BadSetting);
    }
    let settings = Settings::new(raw)?;
    if tail.len() != 2 * book.n() {
        return Err(Refusal::Misfit);
    }
    let pairs = tail.chunks_exact(2);
    let values: Vec<i16> = pairs.map(|p| i16::from_be_bytes([p[0], p[1]])).collect();
    let (numbers, work) = workspace_size(book.n(), settings.paths);
    let entries = walk_size(settings.visits, book.v());
    let (mut word, mut data) = (vec![0; book.n()], vec![0; book.k()]);
    let mut walk = [vec![0; entries], vec![0; entries], vec![0; entries]];
    let [path, blocks, score] = &mut walk;
    let mut lent = Lent {
        word: &mut word,
        data: &mut data,
        numbers: &mut vec![0; numbers],
        bytes: &mut vec![0; work],
        walk_path: path,
        walk_blocks: blocks,
        walk_score: score,
    };
    let input = Input {
        book: bytes,
        raw,
        values: &values,
        hook: false,
    };
    let decoded = reader.decode(input, &mut lent);
    if let Some(refusal) = decoded.refusal {
        return Err(refusal);
    }
    let counts = decoded.counts;
    Ok(text(
        &walk,
        counts.extractions as usize,
        &word,
        counts.discrepancy,
    ))
}

fn text(walk: &[Vec<i32>; 3], extractions: usize, word: &[u8], discrepancy: i32) -> String {
    let mut out = String::from(HEADER);
    for e in 0..extractions {
        let (path, blocks, score) = (walk[0][e], walk[1][e], walk[2][e]);
        out.push_str(&format!("{} {path} {blocks} {score}\n", e + 1));
    }
    out.push_str("word ");
    out.extend(word.iter().map(|&bit| (b'0' + bit) as char));
    out.push_str(&format!(" {discrepancy}\n"));
    out
}
