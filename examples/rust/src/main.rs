//! Decodes a telegram and shows its record, from Rust: the hook call over
//! safe slices, and every refusal told apart. examples/rust/run builds the
//! library that it links.

mod saddlemint;

use saddlemint::{saddlemint_decode_hook, saddlemint_encode, saddlemint_load};
use std::fmt;

/// A (64,32) book with k = 32 for records: docs/code-books.md takes it apart.
const BOOK: &[u8] = &[
    0x10, 6, 0x02, 0, 15, 0x01, 0, 1, 0x02, 0, 7, 0x01, 0, 1, 0x02, 0, 3, 0x01, 0, 1, 0x03, 0, 15, 0x04, 0, 23, 0x01, 0, 3, 0x02, 0, 3,
    0x01, 0, 1, 0x02, 0, 1, 0x01, 0, 3, 0x03, 0, 27, 0x04, 0, 31, 0x01, 0, 7, 0x03, 0, 29, 0x04, 0, 30, 0x04, 0, 39, 0x01, 0, 15, 0x05,
    5, 0xff, 0xff, 0xfd, 0xbb, 0x05, 3, 0xff, 0xff, 0xfd, 0x4e, 0x05, 3, 0xff, 0xff, 0xfd, 0x3d, 0x05, 3, 0xff, 0xff, 0xfd, 0x33, 0x05,
    3, 0xff, 0xff, 0xfd, 0x33, 0x7f,
];

/// What a reader received: a record sent through noise of 2.5 dB.
const RECEIVED: [i16; 64] = [
    287, 492, 295, 272, 108, -413, -59, -243, -79, -289, -250, 405, -800, -128, -221, 489, -95, -821, 118, 231, 437, 343, 495, -527,
    -273, 461, 179, 102, -207, 675, -521, -553, -447, 327, 524, 422, -475, -611, -494, -30, -571, 421, 469, -753, -343, 704, -182, -441,
    -384, -574, 488, 339, -746, 576, 534, -103, 29, -259, -324, 9, -192, -519, 235, 18,
];

/// Why there is no record.
#[derive(Debug, PartialEq, Eq)]
enum Refusal {
    /// 1 to 6: the book is at fault.
    Book(u32),
    Misfit,
    BadSetting,
    BadValue,
    Faint,
    Unreadable,
}

impl fmt::Display for Refusal {
    fn fmt(&self, f: &mut fmt::Formatter) -> fmt::Result {
        match self {
            Refusal::Book(number) => write!(f, "the book is refused: {number}"),
            Refusal::Misfit => write!(f, "a length is wrong, or k is not 32"),
            Refusal::BadSetting => write!(f, "visits, paths or limit out of range"),
            Refusal::BadValue => write!(f, "a soft value out of range"),
            Refusal::Faint => write!(f, "faint: read again, nearer or longer"),
            Refusal::Unreadable => write!(f, "a word of the code, but no record"),
        }
    }
}

#[derive(Debug)]
struct Record {
    plant: u32,
    carcass: u32,
    right: bool,
    status: u32,
}

const STATUS: [&str; 5] = ["passed", "held for laboratory", "held for veterinarian", "held for owner", "condemned"];

impl fmt::Display for Record {
    fn fmt(&self, f: &mut fmt::Formatter) -> fmt::Result {
        let side = if self.right { "right" } else { "left" };
        write!(f, "plant {}, carcass {}, {side} side, {}", self.plant, self.carcass, STATUS[self.status as usize])
    }
}

/// The refusal of an answer other than 0.
fn refusal(answer: u32) -> Refusal {
    match answer {
        7 => Refusal::Misfit,
        8 => Refusal::BadSetting,
        9 => Refusal::BadValue,
        10 => Refusal::Faint,
        11 => Refusal::Unreadable,
        number => Refusal::Book(number),
    }
}

/// A decoder with its workspace, for one book; and the counts of its last call: extractions, crowded out, outrun, discrepancy.
struct Decoder<'a> {
    book: &'a [u8],
    visits: u32,
    paths: u32,
    word: Vec<u8>,
    data: Vec<u8>,
    numbers: Vec<i32>,
    bytes: Vec<u8>,
    walk: [Vec<i32>; 3],
    counts: [u32; 4],
}

impl<'a> Decoder<'a> {
    fn new(book: &'a [u8], visits: u32, paths: u32) -> Result<Decoder<'a>, Refusal> {
        let mut shape = [0u32; 3];
        let answer = unsafe { saddlemint_load(book.as_ptr(), book.len(), shape.as_mut_ptr(), shape.len()) };
        if answer != 0 {
            return Err(refusal(answer));
        }
        let [n, _, blocks] = shape.map(|x| x as usize);
        let entries = visits as usize * blocks + 1;
        Ok(Decoder {
            book,
            visits,
            paths,
            word: vec![0; n],
            data: vec![0; 32],
            numbers: vec![0; paths as usize * (2 * n + 32)],
            bytes: vec![0; paths as usize * 2 * n],
            walk: [vec![0; entries], vec![0; entries], vec![0; entries]],
            counts: [0; 4],
        })
    }

    fn decode(&mut self, values: &[i16], limit: u32) -> Result<Record, Refusal> {
        let mut record = [0u32; 4];
        let [path, blocks, score] = &mut self.walk;
        // Each pointer comes with the length of the slice that it is of, and no two overlap: all that the library asks.
        let answer = unsafe {
            saddlemint_decode_hook(
                self.book.as_ptr(), self.book.len(),
                self.visits, self.paths, limit,
                values.as_ptr(), values.len(),
                self.word.as_mut_ptr(), self.word.len(),
                self.data.as_mut_ptr(), self.data.len(),
                self.numbers.as_mut_ptr(), self.numbers.len(),
                self.bytes.as_mut_ptr(), self.bytes.len(),
                path.as_mut_ptr(), path.len(),
                blocks.as_mut_ptr(), blocks.len(),
                score.as_mut_ptr(), score.len(),
                self.counts.as_mut_ptr(), self.counts.len(),
                record.as_mut_ptr(), record.len(),
            )
        };
        let [plant, carcass, side, status] = record;
        match answer {
            0 => Ok(Record { plant, carcass, right: side == 1, status }),
            _ => Err(refusal(answer)),
        }
    }
}

/// The values of a word received without noise, whose data have the status 7: there is no such status.
fn no_record() -> Vec<i16> {
    let (mut data, mut word) = ([0u8; 32], [0u8; 64]);
    data[27..30].fill(1);
    let answer = unsafe { saddlemint_encode(BOOK.as_ptr(), BOOK.len(), data.as_ptr(), data.len(), word.as_mut_ptr(), word.len()) };
    assert_eq!(answer, 0);
    word.iter().map(|&bit| if bit == 1 { -500 } else { 500 }).collect()
}

fn main() {
    let mut decoder = Decoder::new(BOOK, 8, 16).expect("a sound book");
    for limit in [1000, 100, 1048577] {
        match decoder.decode(&RECEIVED, limit) {
            Ok(record) => println!("limit {limit}: {record}; {} extractions, discrepancy {}", decoder.counts[0], decoder.counts[3]),
            Err(refusal) => println!("limit {limit}: {refusal}"),
        }
    }
    println!("status 7: {}", decoder.decode(&no_record(), 1000).unwrap_err());
    println!("a book cut by one byte: {}", Decoder::new(&BOOK[..BOOK.len() - 1], 8, 16).err().expect("a refusal"));
    let mut spoiled = RECEIVED;
    spoiled[9] = 2048;
    println!("a value of 2048: {}", decoder.decode(&spoiled, 1000).unwrap_err());
    println!("63 values: {}", decoder.decode(&RECEIVED[1..], 1000).unwrap_err());
}
