//! The second loader, document 01 word for word: the book is first cut into
//! commands, then each command is asked for every fault by itself, against
//! the facts that the commands before it have laid down. It shares no step
//! with `book::load`.

use crate::book::{Block, Book, Refusal, Role};

/// A command byte and as many of its operand bytes as the book holds.
struct Piece<'a> {
    byte: u8,
    operands: &'a [u8],
}

/// Width of the operands of a listed command.
fn width(byte: u8) -> Option<usize> {
    match byte {
        0x10 => Some(1),
        0x01..=0x04 => Some(2),
        0x05 => Some(5),
        0x7F => Some(0),
        _ => None,
    }
}

/// Cuts the book into pieces; an unlisted byte takes no operands.
fn pieces(bytes: &[u8]) -> Vec<Piece<'_>> {
    let mut out = Vec::new();
    let mut at = 0;
    while at < bytes.len() {
        let to = (at + 1 + width(bytes[at]).unwrap_or(0)).min(bytes.len());
        out.push(Piece {
            byte: bytes[at],
            operands: &bytes[at + 1..to],
        });
        at = to;
    }
    out
}

impl Piece<'_> {
    fn whole(&self) -> bool {
        width(self.byte) == Some(self.operands.len())
    }

    /// The operand of one or two bytes as a number.
    fn number(&self) -> usize {
        self.operands
            .iter()
            .fold(0, |s, &byte| s * 256 + byte as usize)
    }

    /// The bias of a block command.
    fn bias(&self) -> i64 {
        let bits = self.operands[1..]
            .iter()
            .fold(0i64, |s, &byte| s * 256 + byte as i64);
        if bits < 1 << 31 {
            bits
        } else {
            bits - (1 << 32)
        }
    }

    fn is_tie_part(&self) -> bool {
        self.byte == 0x03 || self.byte == 0x04
    }
}

/// What the commands before the judged one have said; all of them sound.
#[derive(Default)]
struct Facts {
    commands: usize,
    m: usize,
    roles: Vec<Role>,
    ties: usize,
    /// Terms of the tie that is being written; none after another command.
    terms: Vec<u16>,
    blocks: Vec<Block>,
    ended: bool,
}

impl Facts {
    fn n(&self) -> usize {
        1 << self.m
    }

    fn filled(&self) -> usize {
        self.roles.len()
    }

    fn covered(&self) -> usize {
        self.blocks.last().map_or(0, Block::end)
    }

    /// Takes a sound command into the facts.
    fn accept(&mut self, piece: &Piece) {
        self.commands += 1;
        if !piece.is_tie_part() {
            self.terms.clear();
        }
        match piece.byte {
            0x10 => self.m = piece.number(),
            0x01 => self
                .roles
                .resize(self.filled() + piece.number(), Role::Free),
            0x02 => self
                .roles
                .resize(self.filled() + piece.number(), Role::Zero),
            0x03 => {
                self.ties += 1;
                self.terms = vec![piece.number() as u16];
                self.roles.push(Role::Tied(self.terms.clone()));
            }
            0x04 => {
                self.terms.push(piece.number() as u16);
                if let Some(Role::Tied(terms)) = self.roles.last_mut() {
                    terms.push(piece.number() as u16);
                }
            }
            0x05 => self.blocks.push(Block {
                start: self.covered(),
                j: piece.operands[0],
                bias: piece.bias() as i32,
            }),
            _ => self.ended = true,
        }
    }

    fn misplaced(&self, piece: &Piece) -> bool {
        if self.commands == 0 {
            return piece.byte != 0x10;
        }
        let all_filled = self.filled() == self.n();
        let all_covered = self.covered() == self.n();
        match piece.byte {
            0x10 => true,
            0x01..=0x03 => all_filled,
            0x04 => self.terms.is_empty(),
            0x05 => !all_filled || all_covered,
            _ => !all_covered,
        }
    }

    fn off_range(&self, piece: &Piece) -> bool {
        let (n, filled, start) = (self.n(), self.filled(), self.covered());
        match piece.byte {
            0x10 => piece.number() < 2 || piece.number() > 9,
            0x01 | 0x02 => piece.number() == 0 || filled + piece.number() > n,
            0x03 => piece.number() >= filled,
            0x04 => {
                let index = piece.number();
                index >= filled - 1 || self.terms.contains(&(index as u16))
            }
            0x05 => {
                let j = piece.operands[0];
                let bias = piece.bias();
                j > 5
                    || !(-1_048_576..=1_048_576).contains(&bias)
                    || start % (1 << j) != 0
                    || start + (1 << j) > n
            }
            _ => false,
        }
    }

    fn heavy(&self, piece: &Piece) -> bool {
        if piece.byte != 0x05 {
            return false;
        }
        let start = self.covered();
        let held = &self.roles[start..start + (1 << piece.operands[0])];
        held.iter().filter(|role| **role == Role::Free).count() > 8
    }

    /// The faults of one command, tried 2, 3, 1, 4, 5, 6; any byte after 7F
    /// is 3.
    fn fault(&self, piece: &Piece) -> Option<Refusal> {
        if self.ended {
            return Some(Refusal::Misplaced);
        }
        if width(piece.byte).is_none() {
            return Some(Refusal::Strange);
        }
        if self.misplaced(piece) {
            return Some(Refusal::Misplaced);
        }
        if !piece.whole() {
            return Some(Refusal::Short);
        }
        if self.off_range(piece) {
            return Some(Refusal::OffRange);
        }
        if piece.byte == 0x03 && self.ties == 32 {
            return Some(Refusal::Overtied);
        }
        self.heavy(piece).then_some(Refusal::Heavy)
    }
}

/// Judges a book; the first faulty command decides.
pub fn judge(bytes: &[u8]) -> Result<Book, Refusal> {
    let mut facts = Facts::default();
    for piece in &pieces(bytes) {
        if let Some(refusal) = facts.fault(piece) {
            return Err(refusal);
        }
        facts.accept(piece);
    }
    if !facts.ended {
        return Err(Refusal::Short);
    }
    Ok(Book {
        m: facts.m as u8,
        roles: facts.roles,
        blocks: facts.blocks,
    })
}
