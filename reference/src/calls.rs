//! Every public call of document 01 on lent buffers, over the fast decoder
//! ("Refusal table" and "Lent").

use crate::answer::{Counts, Decoded, Input, Lent, Loaded, Reader, Removed, Tested};
use crate::book::{self, Book, Refusal};
use crate::code;
use crate::fast::{Observer, Workspace};
use crate::plan::Plan;
use crate::record::{Record, RECORD_BITS};
use crate::settings::Settings;
use crate::walk;

/// Largest magnitude of a soft value.
pub const VALUE_MAX: i16 = 2047;

/// Numbers and bytes of workspace asked of a caller.
pub fn workspace_size(n: usize, d: usize) -> (usize, usize) {
    (d * (2 * n + 32), d * 2 * n)
}

/// Entries asked of each walk buffer.
pub fn walk_size(l: usize, v: usize) -> usize {
    l * v + 1
}

fn bits_only(bytes: &[u8]) -> Result<(), Refusal> {
    match bytes.iter().any(|&byte| byte > 1) {
        true => Err(Refusal::BadValue),
        false => Ok(()),
    }
}

fn fit(fits: bool) -> Result<(), Refusal> {
    match fits {
        true => Ok(()),
        false => Err(Refusal::Misfit),
    }
}

/// Writes the walk into the lent buffers as the run goes.
struct WalkWriter<'a> {
    at: usize,
    path: &'a mut [i32],
    blocks: &'a mut [i32],
    score: &'a mut [i32],
    log: Option<&'a mut Vec<Removed>>,
}

impl Observer for WalkWriter<'_> {
    fn extraction(&mut self, path: u32, blocks: usize, score: i32) {
        self.path[self.at] = path as i32;
        self.blocks[self.at] = blocks as i32;
        self.score[self.at] = score;
        self.at += 1;
        if let Some(log) = &mut self.log {
            log.push(Removed::default());
        }
    }

    fn crowded(&mut self, path: u32) {
        if let Some(removed) = self.log.as_mut().and_then(|log| log.last_mut()) {
            removed.crowded.push(path);
        }
    }

    fn outrun(&mut self, path: u32) {
        if let Some(removed) = self.log.as_mut().and_then(|log| log.last_mut()) {
            removed.outrun.push(path);
        }
    }
}

/// The fast reader: the workspace of its decoder, and on demand the numbers
/// removed by its last run.
#[derive(Default)]
pub struct Fast {
    pub workspace: Workspace,
    pub logs: bool,
    removed: Vec<Removed>,
}

impl Fast {
    /// A reader that keeps the numbers removed.
    pub fn logging() -> Fast {
        Fast {
            logs: true,
            ..Fast::default()
        }
    }

    /// What must hold before a run: the book, then 8, 7 and 9.
    fn admit(input: &Input, lent: &Lent) -> Result<(Book, Settings), Refusal> {
        let book = book::load(input.book)?;
        let settings = Settings::new(input.raw)?;
        let (numbers, bytes) = workspace_size(book.n(), settings.paths);
        let walk = walk_size(settings.visits, book.v());
        fit(input.values.len() == book.n() && lent.word.len() == book.n())?;
        fit(lent.data.len() == book.k())?;
        fit(lent.numbers.len() >= numbers && lent.bytes.len() >= bytes)?;
        fit(lent.walk_path.len() >= walk && lent.walk_blocks.len() >= walk)?;
        fit(lent.walk_score.len() >= walk)?;
        fit(!input.hook || book.k() == RECORD_BITS)?;
        let range = -VALUE_MAX..=VALUE_MAX;
        if input.values.iter().any(|value| !range.contains(value)) {
            return Err(Refusal::BadValue);
        }
        Ok((book, settings))
    }

    fn run(&mut self, book: &Book, settings: Settings, input: &Input, lent: &mut Lent) -> Counts {
        let plan = Plan::new(book);
        let mut writer = WalkWriter {
            at: 0,
            path: lent.walk_path,
            blocks: lent.walk_blocks,
            score: lent.walk_score,
            log: self.logs.then_some(&mut self.removed),
        };
        let (l, d) = (settings.visits, settings.paths);
        let ran = self.workspace.run(&plan, l, d, input.values, &mut writer);
        let (numbers, bytes) = workspace_size(book.n(), d);
        lent.numbers[..numbers].fill(0);
        lent.bytes[..bytes].fill(0);
        for removed in &mut self.removed {
            removed.crowded.sort_unstable();
            removed.outrun.sort_unstable();
        }
        Counts {
            extractions: ran.extractions,
            crowded: ran.crowded,
            outrun: ran.outrun,
            discrepancy: ran.discrepancy,
        }
    }

    /// The answer after a run, with word and data written on success alone.
    fn settle(
        &self,
        book: &Book,
        limit: i32,
        discrepancy: i32,
        hook: bool,
        lent: &mut Lent,
    ) -> Result<Record, Refusal> {
        if discrepancy > limit {
            return Err(Refusal::Faint);
        }
        let mut data = [0; 1 << book::M_MAX];
        let data = &mut data[..book.k()];
        code::read_data(book, &self.workspace.word, data);
        let record = match hook {
            true => Record::unpack(gather(data))?,
            false => Record::NONE,
        };
        code::unpack(&self.workspace.word, lent.word);
        lent.data.copy_from_slice(data);
        Ok(record)
    }
}

/// Bits, the first highest, as a number.
fn gather(bits: &[u8]) -> u32 {
    bits.iter().fold(0, |s, &bit| s << 1 | bit as u32)
}

impl Reader for Fast {
    fn load(&mut self, book: &[u8]) -> Loaded {
        let loaded = book::load(book);
        let sizes = loaded.as_ref().map(|book| (book.n(), book.k(), book.v()));
        let (n, k, v) = sizes.unwrap_or((0, 0, 0));
        let refusal = loaded.err();
        Loaded { refusal, n, k, v }
    }

    fn encode(&mut self, book: &[u8], data: &[u8], word: &mut [u8]) -> Option<Refusal> {
        let mut call = || {
            let book = book::load(book)?;
            fit(data.len() == book.k() && word.len() == book.n())?;
            bits_only(data)?;
            code::unpack(&code::encode(&book, data), word);
            Ok(())
        };
        call().err()
    }

    fn test(&mut self, book: &[u8], word: &[u8]) -> Tested {
        let call = || {
            let book = book::load(book)?;
            fit(word.len() == book.n())?;
            bits_only(word)?;
            Ok(code::in_code(&book, &code::pack(word)))
        };
        match call() {
            Ok(true) => Tested::InCode,
            Ok(false) => Tested::NotInCode,
            Err(refusal) => Tested::Refused(refusal),
        }
    }

    fn read_data(&mut self, book: &[u8], word: &[u8], data: &mut [u8]) -> Option<Refusal> {
        let mut call = || {
            let book = book::load(book)?;
            fit(data.len() == book.k() && word.len() == book.n())?;
            bits_only(word)?;
            code::read_data(&book, &code::pack(word), data);
            Ok(())
        };
        call().err()
    }

    fn make_record(&mut self, book: &[u8], record: &Record, data: &mut [u8]) -> Option<Refusal> {
        let mut call = || {
            let book = book::load(book)?;
            fit(book.k() == RECORD_BITS && data.len() == RECORD_BITS)?;
            let bits = record.pack()?;
            for (i, byte) in data.iter_mut().enumerate() {
                *byte = (bits >> (31 - i) & 1) as u8;
            }
            Ok(())
        };
        call().err()
    }

    fn read_record(&mut self, book: &[u8], data: &[u8]) -> (Option<Refusal>, Record) {
        let call = || {
            let book = book::load(book)?;
            fit(book.k() == RECORD_BITS && data.len() == RECORD_BITS)?;
            bits_only(data)?;
            Record::unpack(gather(data))
        };
        match call() {
            Ok(record) => (None, record),
            Err(refusal) => (Some(refusal), Record::NONE),
        }
    }

    fn decode(&mut self, input: Input, lent: &mut Lent) -> Decoded {
        self.removed.clear();
        let (book, settings) = match Fast::admit(&input, lent) {
            Ok(admitted) => admitted,
            Err(refusal) => {
                return Decoded {
                    refusal: Some(refusal),
                    counts: Counts::default(),
                    record: Record::NONE,
                }
            }
        };
        let counts = self.run(&book, settings, &input, lent);
        let (limit, found) = (settings.limit, counts.discrepancy);
        let settled = self.settle(&book, limit, found, input.hook, lent);
        Decoded {
            refusal: settled.err(),
            counts,
            record: settled.unwrap_or(Record::NONE),
        }
    }

    fn removed(&self) -> &[Removed] {
        &self.removed
    }

    fn walk(&mut self, input: &[u8]) -> String {
        walk::walk(self, input)
    }
}
