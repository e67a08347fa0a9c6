//! The two decoding calls that are timed, each on buffers of its own.

use differ::saddlemint_decode;
use reference::answer::{Counts, Input, Reader};
use reference::book::Book;
use reference::calls::{walk_size, workspace_size, Fast};
use reference::cases::Sizes;
use reference::compare::Buffers;
use reference::settings::Raw;

/// A book with settings that every word passes.
pub struct Job {
    pub bytes: Vec<u8>,
    pub book: Book,
    pub l: usize,
    pub d: usize,
}

impl Job {
    fn raw(&self) -> Raw {
        Raw {
            l: self.l as u32,
            d: self.d as u32,
            t: 1_048_576,
        }
    }

    /// Buffers of the lengths asked.
    pub fn buffers(&self) -> Buffers {
        let (numbers, bytes) = workspace_size(self.book.n(), self.d);
        Buffers::new(&Sizes {
            word: self.book.n(),
            data: self.book.k(),
            numbers,
            bytes,
            walk: [walk_size(self.l, self.book.v()); 3],
        })
    }

    /// The library's plain decoding call.
    pub fn library(&self, values: &[i16], lent: &mut Buffers) -> [u32; 4] {
        let (raw, mut counts) = (self.raw(), [0; 4]);
        let [path, blocks, score] = &mut lent.walk;
        // SAFETY: every buffer has its length and overlaps no other.
        let answer = unsafe {
            saddlemint_decode(
                self.bytes.as_ptr(),
                self.bytes.len(),
                raw.l,
                raw.d,
                raw.t,
                values.as_ptr(),
                values.len(),
                lent.word.as_mut_ptr(),
                lent.word.len(),
                lent.data.as_mut_ptr(),
                lent.data.len(),
                lent.numbers.as_mut_ptr(),
                lent.numbers.len(),
                lent.bytes.as_mut_ptr(),
                lent.bytes.len(),
                path.as_mut_ptr(),
                path.len(),
                blocks.as_mut_ptr(),
                blocks.len(),
                score.as_mut_ptr(),
                score.len(),
                counts.as_mut_ptr(),
                counts.len(),
            )
        };
        assert_eq!(answer, 0, "the library refuses");
        counts
    }

    /// The reference's plain decoding call.
    pub fn reference(&self, reader: &mut Fast, values: &[i16], lent: &mut Buffers) -> [u32; 4] {
        let input = Input {
            book: &self.bytes,
            raw: self.raw(),
            values,
            hook: false,
        };
        let decoded = reader.decode(input, &mut lent.lend());
        assert_eq!(decoded.refusal, None, "the reference refuses");
        let Counts {
            extractions,
            crowded,
            outrun,
            discrepancy,
        } = decoded.counts;
        [extractions, crowded, outrun, discrepancy].map(|count| count as u32)
    }
}
