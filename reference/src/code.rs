//! The code on packed bits: the transform, filling, encoding, testing and
//! reading data (document 01, "The code"; 002, II-A and V-A).

use crate::book::{Book, Role};

/// Up to 512 bits; bit i stands in piece i / 64 at i % 64.
pub type Bits = [u64; 8];

pub fn get(bits: &Bits, i: usize) -> u64 {
    bits[i / 64] >> (i % 64) & 1
}

pub fn set(bits: &mut Bits, i: usize, bit: u64) {
    bits[i / 64] |= bit << (i % 64);
}

pub fn pack(bytes: &[u8]) -> Bits {
    let mut bits = [0; 8];
    for (i, &byte) in bytes.iter().enumerate() {
        set(&mut bits, i, byte as u64);
    }
    bits
}

pub fn unpack(bits: &Bits, bytes: &mut [u8]) {
    for (i, byte) in bytes.iter_mut().enumerate() {
        *byte = get(bits, i) as u8;
    }
}

/// Positions whose bit of weight 2^s is 0, for s below 6.
const LEFT: [u64; 6] = [
    0x5555_5555_5555_5555,
    0x3333_3333_3333_3333,
    0x0F0F_0F0F_0F0F_0F0F,
    0x00FF_00FF_00FF_00FF,
    0x0000_FFFF_0000_FFFF,
    0x0000_0000_FFFF_FFFF,
];

/// Times A, in place; the same step goes back.
pub fn transform(bits: &mut Bits, m: u8) {
    for s in 0..(m as usize).min(6) {
        for piece in bits.iter_mut() {
            *piece ^= *piece >> (1 << s) & LEFT[s];
        }
    }
    for s in 6..m as usize {
        let step = 1 << (s - 6);
        for piece in (0..8).filter(|piece| piece & step == 0) {
            bits[piece] ^= bits[piece + step];
        }
    }
}

/// Times the A of size 2^j, for a word of at most 32 bits.
pub fn transform_word(word: u32, j: u8) -> u32 {
    let mut w = word;
    for s in 0..j as usize {
        w ^= w >> (1 << s) & LEFT[s] as u32;
    }
    w
}

fn tie_value(u: &Bits, terms: &[u16]) -> u64 {
    terms.iter().fold(0, |s, &t| s ^ get(u, t as usize))
}

/// The word of these data bits.
pub fn encode(book: &Book, data: &[u8]) -> Bits {
    let mut u = [0; 8];
    let mut next = 0;
    for (i, role) in book.roles.iter().enumerate() {
        let bit = match role {
            Role::Zero => 0,
            Role::Tied(terms) => tie_value(&u, terms),
            Role::Free => {
                next += 1;
                data[next - 1] as u64
            }
        };
        set(&mut u, i, bit);
    }
    transform(&mut u, book.m);
    u
}

/// Whether the word keeps every zero and every tie.
pub fn in_code(book: &Book, word: &Bits) -> bool {
    let mut u = *word;
    transform(&mut u, book.m);
    book.roles.iter().enumerate().all(|(i, role)| match role {
        Role::Free => true,
        Role::Zero => get(&u, i) == 0,
        Role::Tied(terms) => get(&u, i) == tie_value(&u, terms),
    })
}

/// The bits of u at the free indices, in rising order.
pub fn read_data(book: &Book, word: &Bits, data: &mut [u8]) {
    let mut u = *word;
    transform(&mut u, book.m);
    let free = book.roles.iter().enumerate();
    let free = free.filter(|(_, role)| **role == Role::Free);
    for ((i, _), byte) in free.zip(data) {
        *byte = get(&u, i) as u8;
    }
}
