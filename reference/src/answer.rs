//! What the calls take and answer: one trait, so that the plain reader and
//! the fast one can be driven by the same hands (document 01, "Refusal
//! table" and "Lent").

use crate::book::Refusal;
use crate::record::Record;
use crate::settings::Raw;

/// Answer of loading; all 0 when refused.
#[derive(Clone, Copy, Debug, PartialEq, Eq)]
pub struct Loaded {
    pub refusal: Option<Refusal>,
    pub n: usize,
    pub k: usize,
    pub v: usize,
}

/// Answer of testing a word.
#[derive(Clone, Copy, Debug, PartialEq, Eq)]
pub enum Tested {
    InCode,
    NotInCode,
    Refused(Refusal),
}

/// The counts of a run; all 0 when no run was made.
#[derive(Clone, Copy, Debug, Default, PartialEq, Eq)]
pub struct Counts {
    pub extractions: i32,
    pub crowded: i32,
    pub outrun: i32,
    pub discrepancy: i32,
}

/// Answer of a decoding call; the plain call's record is always the empty one.
#[derive(Clone, Copy, Debug, PartialEq, Eq)]
pub struct Decoded {
    pub refusal: Option<Refusal>,
    pub counts: Counts,
    pub record: Record,
}

/// The buffers lent to a decoding call besides the values.
pub struct Lent<'a> {
    pub word: &'a mut [u8],
    pub data: &'a mut [u8],
    pub numbers: &'a mut [i32],
    pub bytes: &'a mut [u8],
    pub walk_path: &'a mut [i32],
    pub walk_blocks: &'a mut [i32],
    pub walk_score: &'a mut [i32],
}

/// The path numbers removed at one extraction, each list rising.
#[derive(Clone, Debug, Default, PartialEq, Eq)]
pub struct Removed {
    pub crowded: Vec<u32>,
    pub outrun: Vec<u32>,
}

/// A decoding call's input.
#[derive(Clone, Copy)]
pub struct Input<'a> {
    pub book: &'a [u8],
    pub raw: Raw,
    pub values: &'a [i16],
    pub hook: bool,
}

/// Every public call of document 01.
pub trait Reader {
    fn load(&mut self, book: &[u8]) -> Loaded;
    fn encode(&mut self, book: &[u8], data: &[u8], word: &mut [u8]) -> Option<Refusal>;
    fn test(&mut self, book: &[u8], word: &[u8]) -> Tested;
    fn read_data(&mut self, book: &[u8], word: &[u8], data: &mut [u8]) -> Option<Refusal>;
    fn make_record(&mut self, book: &[u8], record: &Record, data: &mut [u8]) -> Option<Refusal>;
    fn read_record(&mut self, book: &[u8], data: &[u8]) -> (Option<Refusal>, Record);
    fn decode(&mut self, input: Input, lent: &mut Lent) -> Decoded;
    /// The numbers removed at each extraction of the last decoding call.
    fn removed(&self) -> &[Removed];
    /// What the program `walk` prints for this standard input.
    fn walk(&mut self, input: &[u8]) -> String;
}
