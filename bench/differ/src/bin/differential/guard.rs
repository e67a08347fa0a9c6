//! Buffers as they are lent to the library: each a part of a larger
//! allocation that is full of garbage, so that every entry written beside it
//! is seen.

use reference::rng::Rng;
use std::fmt::Debug;

/// Most garbage entries before a buffer, and past it.
const GUARD: usize = 64;

/// An entry of a buffer, made from any 64 bits.
pub trait Entry: Copy + PartialEq + Debug {
    fn garbage(bits: u64) -> Self;
}

macro_rules! entries {
    ($($kind:ty)*) => {
        $(impl Entry for $kind {
            fn garbage(bits: u64) -> $kind {
                bits as $kind
            }
        })*
    };
}

entries!(u8 i16 i32 u32);

pub struct Guarded<T> {
    name: &'static str,
    /// The whole allocation now, and as it was before the call.
    all: Vec<T>,
    before: Vec<T>,
    /// Where the buffer starts in it, and its length.
    at: usize,
    length: usize,
}

impl<T: Entry> Guarded<T> {
    /// A buffer full of garbage.
    pub fn garbage(rng: &mut Rng, name: &'static str, length: usize) -> Guarded<T> {
        let at = 1 + rng.below(GUARD);
        let whole = at + length + 1 + rng.below(GUARD);
        let all: Vec<T> = (0..whole).map(|_| T::garbage(rng.next())).collect();
        Guarded {
            name,
            before: all.clone(),
            all,
            at,
            length,
        }
    }

    /// A buffer with these entries.
    pub fn holding(rng: &mut Rng, name: &'static str, entries: &[T]) -> Guarded<T> {
        let mut out = Guarded::garbage(rng, name, entries.len());
        out.all[out.at..out.at + out.length].copy_from_slice(entries);
        out.before.copy_from_slice(&out.all);
        out
    }

    /// Where the buffer starts; it stays within the whole allocation.
    pub fn start(&mut self) -> *mut T {
        self.all.as_mut_ptr().wrapping_add(self.at)
    }

    pub fn length(&self) -> usize {
        self.length
    }

    /// That the first entries are these, and that all others, within the
    /// buffer and beside it, are what they were.
    pub fn holds(&self, written: &[T]) -> Result<(), String> {
        let end = self.at + written.len();
        assert!(
            written.len() <= self.length,
            "{}: too much expected",
            self.name
        );
        let mut expected = self.before[..self.at]
            .iter()
            .chain(written)
            .chain(&self.before[end..]);
        let Some(i) = self
            .all
            .iter()
            .position(|entry| Some(entry) != expected.next())
        else {
            return Ok(());
        };
        let place = i as i64 - self.at as i64;
        let (kind, wanted) = match i {
            i if i < self.at || i >= self.at + self.length => ("guard", self.before[i]),
            i if i >= end => ("kept", self.before[i]),
            i => ("written", written[i - self.at]),
        };
        Err(format!(
            "{}: entry {place} of {} ({kind}) is {:?} and should be {wanted:?}",
            self.name, self.length, self.all[i]
        ))
    }

    /// That nothing was written.
    pub fn kept(&self) -> Result<(), String> {
        self.holds(&[])
    }
}
