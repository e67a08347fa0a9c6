//! One case tried on every function of the library. What a function should
//! answer and write comes from the reference's fast reader, on buffers with
//! other garbage.

use crate::guard::{Entry, Guarded};
use differ::*;
use reference::answer::{Input, Reader, Tested};
use reference::book::{self, Refusal};
use reference::calls::{walk_size, workspace_size, Fast};
use reference::cases::Case;
use reference::compare::Buffers;
use reference::record::Record;
use reference::rng::Rng;
use reference::settings::Settings;

/// The answer "no" of the test.
pub const NOT_IN_CODE: u32 = 255;

/// What the reference's own buffers hold before a call of the codec.
const OTHER_GARBAGE: u8 = 165;

/// A call that turns one buffer of bytes into another: encoding, reading data.
type Turn = unsafe extern "C" fn(*const u8, usize, *const u8, usize, *mut u8, usize) -> u32;

/// The functions, in the order in which a case tries them.
pub const FUNCTIONS: [&str; 8] = [
    "load",
    "encode",
    "test",
    "read_data",
    "make_record",
    "read_record",
    "decode",
    "decode_hook",
];

pub struct Trial<'a> {
    pub case: &'a Case,
    pub rng: Rng,
    pub reader: &'a mut Fast,
}

/// What a decoding call should do: its answer, and the entries written at the
/// front of each buffer.
struct Expected {
    answer: u32,
    counts: Vec<u32>,
    record: Vec<u32>,
    lent: Buffers,
}

fn number(refusal: Option<Refusal>) -> u32 {
    refusal.map_or(0, |refusal| refusal.number() as u32)
}

fn fields(record: Record) -> Vec<u32> {
    vec![
        record.plant as u32,
        record.carcass,
        record.side as u32,
        record.status.number() as u32,
    ]
}

fn same(answer: u32, expected: u32) -> Result<(), String> {
    match answer == expected {
        true => Ok(()),
        false => Err(format!("answer {answer} and should be {expected}")),
    }
}

/// Changes a case for this run: workspace and walk are longer than asked as
/// often as exact, unless they were made short; at times a buffer has no
/// entry, and a setting is right in its low bits alone.
pub fn vary(rng: &mut Rng, case: &mut Case) {
    if rng.one_in(60) {
        let raw = &mut case.raw;
        let high = 1 << rng.pick(&[8, 16, 31]);
        match rng.below(3) {
            0 => raw.l |= high,
            1 => raw.d |= high << 1,
            _ => raw.t |= 1 << 31,
        }
    }
    let sizes = &mut case.sizes;
    if let (Ok(book), Ok(settings)) = (book::load(&case.book), Settings::new(case.raw)) {
        let mut stretch = |length: &mut usize, asked: usize| {
            if *length >= asked {
                *length = asked + rng.bit() as usize * (1 + rng.below(64));
            }
        };
        let (numbers, bytes) = workspace_size(book.n(), settings.paths);
        stretch(&mut sizes.numbers, numbers);
        stretch(&mut sizes.bytes, bytes);
        let walk = walk_size(settings.visits, book.v());
        sizes
            .walk
            .iter_mut()
            .for_each(|length| stretch(length, walk));
    }
    if rng.one_in(60) {
        match rng.below(5) {
            0 => sizes.word = 0,
            1 => sizes.data = 0,
            2 => sizes.numbers = 0,
            3 => sizes.bytes = 0,
            _ => sizes.walk[rng.below(3)] = 0,
        }
    }
}

impl Trial<'_> {
    fn garbage<T: Entry>(&mut self, name: &'static str, length: usize) -> Guarded<T> {
        Guarded::garbage(&mut self.rng, name, length)
    }

    fn book(&mut self) -> Guarded<u8> {
        self.input("book", &self.case.book)
    }

    fn input<T: Entry>(&mut self, name: &'static str, entries: &[T]) -> Guarded<T> {
        Guarded::holding(&mut self.rng, name, entries)
    }

    /// The length asked, at times none, one less or one more.
    fn near(&mut self, asked: usize) -> usize {
        match self.rng.one_in(12) {
            true => self.rng.pick(&[0, asked - 1, asked + 1]),
            false => asked,
        }
    }

    /// Whether the hook call is tried.
    pub fn is_hook(&mut self) -> bool {
        self.case.hook || self.reader.load(&self.case.book).k == 32
    }

    /// Tries a function: its answer, or how it differs.
    pub fn call(&mut self, function: usize) -> Result<u32, String> {
        match function {
            0 => self.load(),
            1 => self.encode(),
            2 => self.test(),
            3 => self.read_data(),
            4 => self.make_record(),
            5 => self.read_record(),
            6 => self.decode(false),
            _ => self.decode(true),
        }
    }

    fn load(&mut self) -> Result<u32, String> {
        let length = self.near(3);
        let mut book = self.book();
        let mut shape = self.garbage("shape", length);
        // SAFETY: every buffer has its length and overlaps no other; so below.
        let answer =
            unsafe { saddlemint_load(book.start(), book.length(), shape.start(), shape.length()) };
        let loaded = self.reader.load(&self.case.book);
        if length == 3 {
            same(answer, number(loaded.refusal))?;
            shape.holds(&[loaded.n as u32, loaded.k as u32, loaded.v as u32])?;
        } else {
            same(answer, number(loaded.refusal.or(Some(Refusal::Misfit))))?;
            shape.kept()?;
        }
        book.kept()?;
        Ok(answer)
    }

    fn encode(&mut self) -> Result<u32, String> {
        let case = self.case;
        let mut written = vec![OTHER_GARBAGE; case.word_length];
        let refusal = self.reader.encode(&case.book, &case.data, &mut written);
        let given = ("data", &case.data[..]);
        self.turned(saddlemint_encode, given, "word", &written, refusal)
    }

    fn read_data(&mut self) -> Result<u32, String> {
        let case = self.case;
        let mut written = vec![OTHER_GARBAGE; case.data_length];
        let refusal = self.reader.read_data(&case.book, &case.word, &mut written);
        let given = ("word", &case.word[..]);
        self.turned(saddlemint_read_data, given, "data", &written, refusal)
    }

    /// A call that turns one buffer of bytes into another, held to what the
    /// reference wrote.
    fn turned(
        &mut self,
        call: Turn,
        given: (&'static str, &[u8]),
        name: &'static str,
        written: &[u8],
        refusal: Option<Refusal>,
    ) -> Result<u32, String> {
        let mut book = self.book();
        let mut from = self.input(given.0, given.1);
        let mut to = self.garbage(name, written.len());
        let answer = unsafe {
            call(
                book.start(),
                book.length(),
                from.start(),
                from.length(),
                to.start(),
                to.length(),
            )
        };
        same(answer, number(refusal))?;
        book.kept()?;
        from.kept()?;
        to.holds(if refusal.is_none() { written } else { &[] })?;
        Ok(answer)
    }

    fn test(&mut self) -> Result<u32, String> {
        let case = self.case;
        let mut book = self.book();
        let mut word = self.input("word", &case.word);
        let answer =
            unsafe { saddlemint_test(book.start(), book.length(), word.start(), word.length()) };
        let expected = match self.reader.test(&case.book, &case.word) {
            Tested::InCode => 0,
            Tested::NotInCode => NOT_IN_CODE,
            Tested::Refused(refusal) => number(Some(refusal)),
        };
        same(answer, expected)?;
        book.kept()?;
        word.kept()?;
        Ok(answer)
    }

    /// The case's record, at times with a field that only C can lend; such a
    /// one is too large, and the reference gets a plant that is.
    fn make_record(&mut self) -> Result<u32, String> {
        let case = self.case;
        let mut given = fields(case.record);
        let mut record = case.record;
        if self.rng.one_in(6) {
            let high = 1 << self.rng.pick(&[8, 16, 31]);
            match self.rng.below(5) {
                0 => given[0] |= high,
                1 => given[1] |= 1 << 31,
                2 => given[2] |= high,
                3 => given[3] |= high,
                _ => given[3] = self.rng.pick(&[5, 6, 7, 8, u32::MAX]),
            }
            record.plant = 64;
        }
        let mut book = self.book();
        let mut data = self.garbage("data", case.record_length);
        let answer = unsafe {
            saddlemint_make_record(
                book.start(),
                book.length(),
                given[0],
                given[1],
                given[2],
                given[3],
                data.start(),
                data.length(),
            )
        };
        let mut written = vec![OTHER_GARBAGE; case.record_length];
        let refusal = self.reader.make_record(&case.book, &record, &mut written);
        same(answer, number(refusal))?;
        book.kept()?;
        data.holds(if refusal.is_none() { &written } else { &[] })?;
        Ok(answer)
    }

    fn read_record(&mut self) -> Result<u32, String> {
        let case = self.case;
        let length = self.near(4);
        let mut book = self.book();
        let mut data = self.input("data", &case.record_data);
        let mut record = self.garbage("record", length);
        let answer = unsafe {
            saddlemint_read_record(
                book.start(),
                book.length(),
                data.start(),
                data.length(),
                record.start(),
                record.length(),
            )
        };
        if length == 4 {
            let (refusal, read) = self.reader.read_record(&case.book, &case.record_data);
            same(answer, number(refusal))?;
            record.holds(&fields(read))?;
        } else {
            let refusal = self.reader.load(&case.book).refusal;
            same(answer, number(refusal.or(Some(Refusal::Misfit))))?;
            record.kept()?;
        }
        book.kept()?;
        data.kept()?;
        Ok(answer)
    }

    fn decode(&mut self, hook: bool) -> Result<u32, String> {
        let case = self.case;
        let (raw, sizes) = (case.raw, case.sizes);
        let lengths = (self.near(4), self.near(4));
        let mut book = self.book();
        let mut values = self.input("values", &case.values);
        let mut word = self.garbage("word", sizes.word);
        let mut data = self.garbage("data", sizes.data);
        let mut numbers = self.garbage("workspace numbers", sizes.numbers);
        let mut bytes = self.garbage("workspace bytes", sizes.bytes);
        let mut path = self.garbage("walk path", sizes.walk[0]);
        let mut blocks = self.garbage("walk blocks", sizes.walk[1]);
        let mut score = self.garbage("walk score", sizes.walk[2]);
        let mut counts = self.garbage("counts", lengths.0);
        let mut record = self.garbage("record", lengths.1);
        let answer = if hook {
            unsafe {
                saddlemint_decode_hook(
                    book.start(),
                    book.length(),
                    raw.l,
                    raw.d,
                    raw.t,
                    values.start(),
                    values.length(),
                    word.start(),
                    word.length(),
                    data.start(),
                    data.length(),
                    numbers.start(),
                    numbers.length(),
                    bytes.start(),
                    bytes.length(),
                    path.start(),
                    path.length(),
                    blocks.start(),
                    blocks.length(),
                    score.start(),
                    score.length(),
                    counts.start(),
                    counts.length(),
                    record.start(),
                    record.length(),
                )
            }
        } else {
            unsafe {
                saddlemint_decode(
                    book.start(),
                    book.length(),
                    raw.l,
                    raw.d,
                    raw.t,
                    values.start(),
                    values.length(),
                    word.start(),
                    word.length(),
                    data.start(),
                    data.length(),
                    numbers.start(),
                    numbers.length(),
                    bytes.start(),
                    bytes.length(),
                    path.start(),
                    path.length(),
                    blocks.start(),
                    blocks.length(),
                    score.start(),
                    score.length(),
                    counts.start(),
                    counts.length(),
                )
            }
        };
        let expected = self.expected(hook, lengths);
        let lent = &expected.lent;
        same(answer, expected.answer)?;
        book.kept()?;
        values.kept()?;
        word.holds(&lent.word)?;
        data.holds(&lent.data)?;
        numbers.holds(&lent.numbers)?;
        bytes.holds(&lent.bytes)?;
        path.holds(&lent.walk[0])?;
        blocks.holds(&lent.walk[1])?;
        score.holds(&lent.walk[2])?;
        counts.holds(&expected.counts)?;
        record.holds(if hook { &expected.record } else { &[] })?;
        Ok(answer)
    }

    /// What a decoding call should do with counts and record of these lengths.
    /// Where one is wrong, the other is zeros.
    fn expected(&mut self, hook: bool, (counts, record): (usize, usize)) -> Expected {
        let case = self.case;
        let mut lent = Buffers::new(&case.sizes);
        if counts != 4 || (record != 4 && hook) {
            let zeros = |length| if length == 4 { vec![0; 4] } else { Vec::new() };
            let refusal = book::load(&case.book).err();
            let refusal = refusal.or(Settings::new(case.raw).err());
            cut(&mut lent, 0, (0, 0), 0);
            return Expected {
                answer: number(refusal.or(Some(Refusal::Misfit))),
                counts: zeros(counts),
                record: zeros(record),
                lent,
            };
        }
        let input = Input {
            book: &case.book,
            raw: case.raw,
            values: &case.values,
            hook,
        };
        let decoded = self.reader.decode(input, &mut lent.lend());
        let counts = decoded.counts;
        let words = if decoded.refusal.is_none() {
            usize::MAX
        } else {
            0
        };
        match decoded.refusal {
            None | Some(Refusal::Faint | Refusal::Unreadable) => {
                let asked = workspace_size(case.values.len(), case.raw.d as usize);
                cut(&mut lent, words, asked, counts.extractions as usize);
            }
            _ => cut(&mut lent, 0, (0, 0), 0),
        }
        let counts = [
            counts.extractions,
            counts.crowded,
            counts.outrun,
            counts.discrepancy,
        ];
        Expected {
            answer: number(decoded.refusal),
            counts: counts.map(|count| count as u32).to_vec(),
            record: fields(decoded.record),
            lent,
        }
    }
}

/// Leaves at the front of each buffer what was written.
fn cut(lent: &mut Buffers, words: usize, workspace: (usize, usize), walk: usize) {
    lent.word.truncate(words);
    lent.data.truncate(words);
    lent.numbers.truncate(workspace.0);
    lent.bytes.truncate(workspace.1);
    lent.walk
        .iter_mut()
        .for_each(|buffer| buffer.truncate(walk));
}
