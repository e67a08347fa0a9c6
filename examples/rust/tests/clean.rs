//! A clean hook: soft values that are all non-zero and have the signs of a
//! word. Where no bias of the book is above the one before it, the proved
//! library reads that word in V + 1 extractions, whatever the magnitudes and
//! settings. Every word of a small book, random words of large ones, records.

#[path = "../src/saddlemint.rs"]
mod saddlemint;

use saddlemint::{saddlemint_decode, saddlemint_decode_hook, saddlemint_encode, saddlemint_load};

const SEED: u64 = 20_261_117;

/// A small generator (splitmix64): the same numbers from the same seed.
struct Random(u64);

impl Random {
    fn next(&mut self) -> u64 {
        self.0 = self.0.wrapping_add(0x9E37_79B9_7F4A_7C15);
        let mut z = self.0;
        z = (z ^ z >> 30).wrapping_mul(0xBF58_476D_1CE4_E5B9);
        z = (z ^ z >> 27).wrapping_mul(0x94D0_49BB_1331_11EB);
        z ^ z >> 31
    }

    /// From `low` to `high`, both included.
    fn between(&mut self, low: i64, high: i64) -> i64 {
        low + (self.next() % (high - low + 1) as u64) as i64
    }

    fn pick<T: Copy>(&mut self, from: &[T]) -> T {
        from[self.between(0, from.len() as i64 - 1) as usize]
    }

    fn bits(&mut self, count: usize) -> Vec<u8> {
        (0..count).map(|_| self.between(0, 1) as u8).collect()
    }
}

/// What an index of u is; a tied one names its earlier terms.
#[derive(Clone, PartialEq)]
enum Role {
    Free,
    Zero,
    Tied(Vec<usize>),
}

/// A book before it is written: roles, and each block's height and bias.
struct Book {
    roles: Vec<Role>,
    blocks: Vec<(u32, i32)>,
}

impl Book {
    fn n(&self) -> usize {
        self.roles.len()
    }

    fn k(&self) -> usize {
        self.roles.iter().filter(|role| **role == Role::Free).count()
    }

    /// The commands, one for each index or term.
    fn bytes(&self) -> Vec<u8> {
        let mut out = vec![0x10, self.n().trailing_zeros() as u8];
        let mut command = |byte: u8, operand: usize| out.extend([byte, (operand >> 8) as u8, operand as u8]);
        for role in &self.roles {
            match role {
                Role::Free => command(0x01, 1),
                Role::Zero => command(0x02, 1),
                Role::Tied(terms) => terms.iter().enumerate().for_each(|(t, &term)| command(if t == 0 { 0x03 } else { 0x04 }, term)),
            }
        }
        for (j, bias) in &self.blocks {
            out.extend([0x05, *j as u8]);
            out.extend(bias.to_be_bytes());
        }
        out.push(0x7F);
        out
    }

    /// The word of these data: u filled in rising order, then times A.
    fn word(&self, data: &[u8]) -> Vec<u8> {
        let mut word: Vec<u8> = Vec::new();
        let mut data = data.iter();
        for role in &self.roles {
            let bit = match role {
                Role::Free => *data.next().expect("k bits"),
                Role::Zero => 0,
                Role::Tied(terms) => terms.iter().fold(0, |sum, &term| sum ^ word[term]),
            };
            word.push(bit);
        }
        for step in (0..self.n().trailing_zeros()).map(|s| 1 << s) {
            for i in (0..self.n()).filter(|i| i & step == 0) {
                word[i] ^= word[i + step];
            }
        }
        word
    }

    /// Blocks but the last one that hold a free index: each leaves one copy.
    fn copies(&self) -> usize {
        let (mut start, mut copies) = (0, 0);
        for (j, _) in &self.blocks[..self.blocks.len() - 1] {
            let end = start + (1 << j);
            copies += self.roles[start..end].contains(&Role::Free) as usize;
            start = end;
        }
        copies
    }
}

/// Every buffer that a call writes. Word and data are lent at exactly n and k
/// entries and are longer here; the others are lent whole.
#[derive(Clone, PartialEq)]
struct Buffers {
    word: Vec<u8>,
    data: Vec<u8>,
    numbers: Vec<i32>,
    bytes: Vec<u8>,
    walk: [Vec<i32>; 3],
    counts: [u32; 4],
    record: [u32; 4],
}

#[derive(Clone, Copy, Debug)]
struct Settings {
    visits: u32,
    paths: u32,
    limit: u32,
}

impl Settings {
    fn random(random: &mut Random) -> Settings {
        let (visits, paths, limit) = (random.between(1, 32), random.between(2, 256), random.between(0, 1_048_576));
        Settings {
            visits: random.pick(&[1, 1, 2, 2, 32, visits as u32, visits as u32]),
            paths: random.pick(&[2, 3, 20, 256, paths as u32, paths as u32]),
            limit: random.pick(&[0, 0, 1_048_576, limit as u32]),
        }
    }

    fn numbers(&self, n: usize) -> usize {
        self.paths as usize * (2 * n + 32)
    }

    fn bytes(&self, n: usize) -> usize {
        self.paths as usize * 2 * n
    }
}

impl Buffers {
    /// Garbage, some entries more than asked.
    fn garbage(random: &mut Random, book: &Book, settings: &Settings) -> Buffers {
        let more = random.between(0, 9) as usize;
        let walk = settings.visits as usize * book.blocks.len() + 1 + more;
        let bytes = |random: &mut Random, count: usize| (0..count).map(|_| random.next() as u8).collect::<Vec<u8>>();
        let numbers = |random: &mut Random, count: usize| (0..count).map(|_| random.next() as i32).collect::<Vec<i32>>();
        Buffers {
            word: bytes(random, book.n() + 4),
            data: bytes(random, book.k() + 4),
            numbers: numbers(random, settings.numbers(book.n()) + more),
            bytes: bytes(random, settings.bytes(book.n()) + more),
            walk: [numbers(random, walk), numbers(random, walk), numbers(random, walk)],
            counts: [random.next() as u32; 4],
            record: [random.next() as u32; 4],
        }
    }

    /// The plain call, or the hook call.
    fn decode(&mut self, book: &[u8], n: usize, k: usize, settings: &Settings, values: &[i16], hook: bool) -> u32 {
        let Settings { visits, paths, limit } = *settings;
        let (word, data) = (self.word[..n].as_mut_ptr(), self.data[..k].as_mut_ptr());
        let (numbers, bytes) = (self.numbers.as_mut_ptr(), self.bytes.as_mut_ptr());
        let (numbers_len, bytes_len, walk_len) = (self.numbers.len(), self.bytes.len(), self.walk[0].len());
        let [path, blocks, score] = self.walk.each_mut().map(|walk| walk.as_mut_ptr());
        let (counts, record) = (self.counts.as_mut_ptr(), self.record.as_mut_ptr());
        // Each pointer leads to at least as many entries as are named after it, and no two overlap.
        unsafe {
            if hook {
                return saddlemint_decode_hook(
                    book.as_ptr(), book.len(), visits, paths, limit, values.as_ptr(), values.len(), word, n, data, k, numbers, numbers_len,
                    bytes, bytes_len, path, walk_len, blocks, walk_len, score, walk_len, counts, 4, record, 4,
                );
            }
            saddlemint_decode(
                book.as_ptr(), book.len(), visits, paths, limit, values.as_ptr(), values.len(), word, n, data, k, numbers, numbers_len,
                bytes, bytes_len, path, walk_len, blocks, walk_len, score, walk_len, counts, 4,
            )
        }
    }

    /// What a clean hook makes of these buffers, but for the record.
    fn after(&self, book: &Book, data: &[u8], settings: &Settings, written: bool) -> Buffers {
        let mut out = self.clone();
        let n = book.n();
        if written {
            out.word[..n].copy_from_slice(&book.word(data));
            out.data[..data.len()].copy_from_slice(data);
        }
        out.numbers[..settings.numbers(n)].fill(0);
        out.bytes[..settings.bytes(n)].fill(0);
        let v = book.blocks.len();
        for e in 0..=v {
            out.walk[0][e] = 0;
            out.walk[1][e] = e as i32;
            out.walk[2][e] = if e == 0 { 0 } else { -book.blocks[e - 1].1 };
        }
        let copies = book.copies() as u32;
        let (crowded, outrun) = match settings.visits {
            1 => (0, copies),
            _ => (copies.saturating_sub(settings.paths - 1), 0),
        };
        out.counts = [v as u32 + 1, crowded, outrun, 0];
        out
    }
}

/// The signs of a word with magnitudes that are all 1, all 2047, one of these, or any.
fn clean_values(random: &mut Random, word: &[u8]) -> Vec<i16> {
    let style = random.between(0, 5);
    let mut magnitude = || match style {
        0 => 1,
        1 => 2047,
        2 => random.pick(&[1, 2047]),
        _ => random.between(1, 2047) as i16,
    };
    word.iter().map(|&bit| if bit == 1 { -magnitude() } else { magnitude() }).collect()
}

/// Loads the book and encodes the data: the shape and the word are the builder's.
fn check_book(book: &Book, data: &[u8]) {
    let bytes = book.bytes();
    let mut shape = [9; 3];
    let answer = unsafe { saddlemint_load(bytes.as_ptr(), bytes.len(), shape.as_mut_ptr(), 3) };
    assert_eq!((answer, shape.map(|x| x as usize)), (0, [book.n(), book.k(), book.blocks.len()]));
    let mut word = vec![9; book.n()];
    let answer = unsafe { saddlemint_encode(bytes.as_ptr(), bytes.len(), data.as_ptr(), data.len(), word.as_mut_ptr(), word.len()) };
    assert_eq!((answer, word), (0, book.word(data)));
}

/// Decodes the clean hook of these data, and compares all that comes back. `record` is what the hook call should answer; without it the plain
/// call is made. `case` makes the case again: its generator is started with it. Returns the counts.
fn check(case: u64, book: &Book, data: &[u8], record: Option<(u32, [u32; 4])>) -> [u32; 4] {
    check_book(book, data);
    let mut random = Random(case);
    let settings = Settings::random(&mut random);
    let values = clean_values(&mut random, &book.word(data));
    let before = Buffers::garbage(&mut random, book, &settings);
    let (wanted, fields) = record.unwrap_or((0, before.record));
    let mut after = before.after(book, data, &settings, wanted == 0);
    after.record = fields;
    let mut buffers = before;
    let answer = buffers.decode(&book.bytes(), book.n(), book.k(), &settings, &values, record.is_some());
    let case = format!("seed {SEED}, generator {case}, {settings:?}, data {data:?}");
    assert_eq!(answer, wanted, "{case}");
    assert_eq!(buffers.counts, after.counts, "{case}");
    assert_eq!(buffers.record, after.record, "{case}");
    assert!(buffers.word == after.word, "word: {case}");
    assert!(buffers.data == after.data, "data: {case}");
    assert!(buffers.walk == after.walk, "walk: {case}");
    assert!(buffers.numbers == after.numbers && buffers.bytes == after.bytes, "workspace: {case}");
    after.counts
}

/// The small book of examples/c/clean.c: n = 16, k = 8.
fn small() -> Book {
    let mut roles = vec![Role::Zero; 16];
    for i in [0, 3, 5, 7, 11, 13, 14, 15] {
        roles[i] = Role::Free;
    }
    roles[6] = Role::Tied(vec![3, 5]);
    roles[12] = Role::Tied(vec![0, 7]);
    Book { roles, blocks: vec![(0, 30), (0, 30), (1, -12), (2, -40), (3, -56)] }
}

/// Ties 32 of the zero indices, from index 1 on, to up to five earlier ones.
fn tie_some(random: &mut Random, roles: &mut [Role]) {
    let mut zeros: Vec<usize> = (1..roles.len()).filter(|&i| roles[i] == Role::Zero).collect();
    for _ in 0..32.min(zeros.len()) {
        let i = zeros.swap_remove(random.between(0, zeros.len() as i64 - 1) as usize);
        let mut terms: Vec<usize> = (0..random.between(1, 5)).map(|_| random.between(0, i as i64 - 1) as usize).collect();
        terms.sort();
        terms.dedup();
        roles[i] = Role::Tied(terms);
    }
}

/// A random book of length n: the `k` indices with most ones in their binary form are free, ties, blocks as high as they may be or less, and
/// biases that never rise.
fn random_book(random: &mut Random, n: usize, k: usize) -> Book {
    let mut order: Vec<usize> = (0..n).collect();
    order.sort_by_key(|i| std::cmp::Reverse(i.count_ones()));
    let mut roles = vec![Role::Zero; n];
    order[..k].iter().for_each(|&i| roles[i] = Role::Free);
    tie_some(random, &mut roles);
    let (mut blocks, mut start, mut bias) = (Vec::new(), 0, random.between(-2_000, 1_048_576) as i32);
    while start < n {
        let free = |j: &u32| roles[start..start + (1 << j)].iter().filter(|role| **role == Role::Free).count();
        let most = (0..=5u32).filter(|j| start % (1 << j) == 0).filter(|j| free(j) <= 8).last().expect("a block of 1");
        let j = if random.between(0, 3) == 0 { random.between(0, most as i64) as u32 } else { most };
        blocks.push((j, bias));
        start += 1 << j;
        bias = (bias - random.pick(&[0, 1, 30, 900])).max(-1_048_576);
    }
    Book { roles, blocks }
}

#[test]
fn every_word_of_a_small_book_reads_clean() {
    let book = small();
    for number in 0..256u64 {
        let data: Vec<u8> = (0..8).map(|i| (number >> (7 - i) & 1) as u8).collect();
        for again in 0..4 {
            check(SEED + 4 * number + again, &book, &data, None);
        }
    }
}

#[test]
fn random_words_of_large_books_read_clean() {
    let mut random = Random(SEED);
    let (mut met, mut heights) = ([0; 2], [0; 6]);
    for k in [256, 256, 120, 380, 32, 0] {
        let book = random_book(&mut random, 512, k);
        book.blocks.iter().for_each(|&(j, _)| heights[j as usize] += 1);
        for _ in 0..60 {
            let data = random.bits(k);
            let counts = check(random.next(), &book, &data, None);
            met[0] += (counts[1] > 0) as u32;
            met[1] += (counts[2] > 0) as u32;
        }
    }
    assert!(met.iter().all(|&count| count > 30), "too few with paths crowded out or outrun: {met:?}");
    assert!(heights.iter().all(|&count| count > 0), "too few blocks of some height: {heights:?}");
}

#[test]
fn clean_hooks_give_their_records() {
    let mut random = Random(SEED + 1);
    for n in [32, 64, 128, 512] {
        let book = random_book(&mut random, n, 32);
        for _ in 0..40 {
            let fields = [random.between(0, 63), random.between(0, 1_048_575), random.between(0, 1), random.between(0, 7)].map(|x| x as u32);
            let spare = random.pick(&[0, 0, 0, 1, 2, 3]);
            let packed = fields[0] << 26 | fields[1] << 6 | fields[2] << 5 | fields[3] << 2 | spare;
            let data: Vec<u8> = (0..32).map(|i| (packed >> (31 - i) & 1) as u8).collect();
            let readable = fields[3] <= 4 && spare == 0;
            let wanted = if readable { (0, fields) } else { (11, [0; 4]) };
            check(random.next(), &book, &data, Some(wanted));
        }
    }
}
