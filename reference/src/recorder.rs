//! Writes the recorded cases: the streams for each kind of call, made from a
//! seed, and the expected outputs, which both readers must print alike.

use crate::answer::{Input, Reader};
use crate::book::{self, Role};
use crate::calls::{walk_size, workspace_size, Fast};
use crate::cases::{more, Case, Maker, Sizes};
use crate::clean::{self, Hook};
use crate::compare::Buffers;
use crate::damage;
use crate::design::{self, block_command, index_command, Bounds, Draft};
use crate::model::Plain;
use crate::replay::{self, op, walk_op, Stream};
use crate::rng::Rng;
use crate::settings::Raw;

/// A recorded file without its endings, and its input.
pub struct Recorded {
    pub name: &'static str,
    pub input: Vec<u8>,
}

impl Recorded {
    /// What a reader prints for the input.
    pub fn replay(&self, reader: &mut dyn Reader) -> Result<String, String> {
        match self.name {
            "walk" => replay::walks(reader, &self.input),
            _ => replay::calls(reader, &self.input),
        }
    }

    /// The expected output: both readers' own, which must be the same.
    pub fn output(&self) -> Result<String, String> {
        let plain = self.replay(&mut Plain::default())?;
        let fast = self.replay(&mut Fast::default())?;
        if plain != fast {
            return Err(format!("the readers differ on {}", self.name));
        }
        Ok(fast)
    }
}

/// The inputs of all recorded files under a seed.
pub fn inputs(seed: u64) -> Vec<Recorded> {
    let file = |name, input: Stream| Recorded {
        name,
        input: input.0,
    };
    let mut files = vec![
        file("load", loads(&mut Rng::of_case(seed, 1))),
        file("codec", codec(&mut Rng::of_case(seed, 2))),
        file("records", records(&mut Rng::of_case(seed, 3))),
        file("decode", decodes(&mut Rng::of_case(seed, 4))),
        file("clean", clean(&mut Rng::of_case(seed, 6))),
        file("walk", walks(&mut Rng::of_case(seed, 5))),
    ];
    files.push(file("vectors", joined(&files[1..5])));
    files
}

/// The streams of several files one after the other, as one stream.
fn joined(files: &[Recorded]) -> Stream {
    let mut out = Stream::default();
    for file in files {
        out.0.extend(&file.input[..file.input.len() - 1]);
    }
    out.byte(op::END);
    out
}

/// The (16,10) book of document 01.
pub fn marked_book() -> Vec<u8> {
    let mut book = vec![0x10, 4];
    let runs = [
        (2, 1),
        (1, 3),
        (2, 1),
        (1, 3),
        (2, 3),
        (1, 1),
        (2, 1),
        (1, 3),
    ];
    for (byte, count) in runs {
        book.extend(index_command(byte, count));
    }
    for (j, bias) in [(2, -47), (2, -52), (3, -56)] {
        book.extend(block_command(j, bias));
    }
    book.push(0x7F);
    book
}

/// The values of document 01's walk.
pub const MARKED_VALUES: [i16; 16] = [
    44, 746, 719, 282, 563, 978, 606, -12, -64, 938, 1087, 1300, 1343, 943, 202, 1320,
];

/// Settings and values of M7 to M11 and of "Also run".
fn marked() -> Vec<(Raw, Vec<i16>)> {
    let raw = |l, d, t| Raw { l, d, t };
    let values = MARKED_VALUES.to_vec();
    let mut over = vec![2047; 16];
    over[7] = 2048;
    vec![
        (raw(4, 8, 100), values.clone()),
        (raw(1, 8, 402), values.clone()),
        (raw(1, 8, 401), values.clone()),
        (raw(4, 2, 100), values.clone()),
        (raw(4, 8, 0), vec![0; 16]),
        (raw(4, 8, 100), vec![2047; 16]),
        (raw(4, 8, 100), over),
        (raw(4, 1, 100), values),
    ]
}

/// A random sound book of at most `most` bytes.
fn small_book(rng: &mut Rng, m: u8, most: usize) -> (Draft, Vec<u8>) {
    loop {
        let draft = Draft::random(rng, m, Bounds::WIDEST);
        let bytes = draft.bytes(rng);
        if bytes.len() <= most {
            return (draft, bytes);
        }
    }
}

fn loads(rng: &mut Rng) -> Stream {
    let mut out = Stream::default();
    let whole = |out: &mut Stream, book: &[u8]| {
        out.book(book);
        out.load(book.len());
    };
    for m in 2..=9 {
        for _ in 0..16 {
            let (_, book) = small_book(rng, m, 3000);
            whole(&mut out, &book);
        }
    }
    for m in [2, 3, 3, 4, 4, 5] {
        let (_, book) = small_book(rng, m, 160);
        out.book(&book);
        (0..=book.len()).for_each(|length| out.load(length));
    }
    for which in 0..damage::DIRECTED {
        for _ in 0..8 {
            let m = 2 + rng.below(4) as u8;
            let draft = small_book(rng, m, 200).0;
            whole(&mut out, &damage::directed(rng, &draft, which).0);
        }
    }
    for _ in 0..400 {
        let m = 2 + rng.below(4) as u8;
        let draft = small_book(rng, m, 200).0;
        whole(&mut out, &damage::damaged(rng, &draft).0);
    }
    patches(&mut out, &marked_book());
    longest(rng, &mut out);
    out.byte(op::END);
    out
}

/// Every byte of a book changed to each of some others.
fn patches(out: &mut Stream, book: &[u8]) {
    out.book(book);
    for (at, &byte) in book.iter().enumerate() {
        let near = [byte.wrapping_add(1), byte.wrapping_sub(1), byte ^ 0x80];
        let listed = [0x10, 1, 2, 3, 4, 5, 0x7F, 0, 6, 0xFF];
        for value in near.into_iter().chain(listed) {
            out.patch(at, value);
            out.load(book.len());
        }
        out.patch(at, byte);
    }
}

/// The longest sound book, cut, whole, and with bytes after it.
fn longest(rng: &mut Rng, out: &mut Stream) {
    let mut book = design::longest();
    let length = book.len();
    book.resize(65_535, 0x7F);
    out.book(&book);
    for cut in [0, 1, 2, 3, 4] {
        out.load(length + cut);
        out.load(length - cut);
    }
    out.load(book.len());
    (0..6).for_each(|_| out.load(rng.below(length)));
}

fn codec(rng: &mut Rng) -> Stream {
    let mut out = Stream::default();
    let mut maker = Maker::default();
    let m6 = [
        0x10, 2, 2, 0, 1, 1, 0, 1, 3, 0, 1, 1, 0, 1, 5, 2, 0, 0, 0, 0, 0x7F,
    ];
    out.book(&m6);
    out.encode(&[1, 1], 4);
    for m in 2..=9u8 {
        let count = if m < 8 { 60 } else { 30 };
        for case in some_cases(rng, &mut maker, m, count, 1500) {
            out.book(&case.book);
            out.encode(&case.data, case.word_length);
            out.test(&case.word);
            out.read(&case.word, case.data_length);
            read_back(&mut out, &case);
        }
    }
    out.byte(op::END);
    out
}

/// Tests and reads the word that the case's data make.
fn read_back(out: &mut Stream, case: &Case) {
    let Ok(book) = book::load(&case.book) else {
        return;
    };
    let mut word = vec![0; book.n()];
    if case.data.len() == book.k() && case.data.iter().all(|&bit| bit < 2) {
        crate::code::unpack(&crate::code::encode(&book, &case.data), &mut word);
        out.test(&word);
        out.read(&word, case.data.len());
    }
}

/// Random cases whose book loads with k = 32, of at most `most` bytes.
fn record_cases(rng: &mut Rng, maker: &mut Maker, m: u8, count: usize, most: usize) -> Vec<Case> {
    let mut out = Vec::new();
    while out.len() < count {
        let case = maker.case_of(rng, m);
        let k = book::load(&case.book).map_or(0, |book| book.k());
        if k == 32 && case.book.len() <= most {
            out.push(case);
        }
    }
    out
}

/// Random cases whose book is of at most `most` bytes, but for one in 40.
fn some_cases(rng: &mut Rng, maker: &mut Maker, m: u8, count: usize, most: usize) -> Vec<Case> {
    let mut out = Vec::new();
    while out.len() < count {
        let case = maker.case_of(rng, m);
        let most = if rng.one_in(40) { 8 * most } else { most };
        if case.book.len() <= most {
            out.push(case);
        }
    }
    out
}

fn records(rng: &mut Rng) -> Stream {
    let mut out = Stream::default();
    let mut maker = Maker::default();
    for m in [3u8, 5, 5, 6, 6, 7, 8, 9] {
        let mut cases = some_cases(rng, &mut maker, m, 4, 700);
        if m >= 5 {
            cases.extend(record_cases(rng, &mut maker, m, 12, 700));
        }
        for case in cases {
            out.book(&case.book);
            for _ in 0..6 {
                let case = maker.case_of(rng, 5);
                out.make(&case.record, case.record_length);
                out.record(&case.record_data);
            }
        }
    }
    let draft = Draft::for_records(rng, 6, Bounds::WIDEST);
    out.book(&draft.bytes(rng));
    for bits in 0..64 {
        let mut data = vec![0; 32];
        for i in 0..6 {
            data[26 + i] = (bits >> (5 - i) & 1) as u8;
        }
        out.record(&data);
    }
    out.byte(op::END);
    out
}

/// A plain decoding call with its buffers exactly as asked.
fn sound_case(maker: &mut Maker, bytes: &[u8], raw: Raw, values: Vec<i16>) -> Case {
    let mut case = maker.case_of(&mut Rng::new(0), 4);
    let (n, k, v) = book::load(bytes).map_or((0, 0, 0), |book| (book.n(), book.k(), book.v()));
    let (numbers, work) = workspace_size(n, raw.d as usize);
    case.book = bytes.to_vec();
    case.raw = raw;
    case.values = values;
    case.hook = false;
    case.sizes = Sizes {
        word: n,
        data: k,
        numbers,
        bytes: work,
        walk: [walk_size(raw.l as usize, v); 3],
    };
    case
}

/// A book of 512 blocks of length 1 with these free indices, the others zero.
fn book_of_ones(free: &[u16], bias: impl Fn(i32) -> i32) -> Vec<u8> {
    let mut out = vec![0x10, 9];
    for i in 0..512 {
        let byte = if free.contains(&i) { 0x01 } else { 0x02 };
        out.extend(index_command(byte, 1));
    }
    (0..512).for_each(|b| out.extend(block_command(0, bias(b))));
    out.push(0x7F);
    out
}

/// The largest buffers a call can ask for, and many extractions.
fn large(rng: &mut Rng, maker: &mut Maker, out: &mut Stream) {
    let free = [127, 191, 223, 247, 251, 255, 383, 447, 479, 495, 507, 511];
    let most = Raw {
        l: 32,
        d: 256,
        t: 1_048_576,
    };
    let few = Raw {
        l: 4,
        d: 16,
        ..most
    };
    let books = [
        (book_of_ones(&[], |b| b), most),
        (book_of_ones(&free[11..], |_| 0), most),
        (book_of_ones(&free, |_| 0), few),
        (book_of_ones(&free, |b| -3 * b), few),
    ];
    for (book, raw) in books {
        let values = (0..512).map(|_| rng.between(-5, 9) as i16).collect();
        out.book(&book);
        out.decode(&sound_case(maker, &book, raw, values));
    }
}

fn decodes(rng: &mut Rng) -> Stream {
    let mut out = Stream::default();
    let mut maker = Maker::default();
    out.book(&marked_book());
    for (raw, values) in marked() {
        out.decode(&sound_case(&mut maker, &marked_book(), raw, values));
    }
    let counts = [90, 140, 260, 260, 220, 130, 80, 60];
    for (m, count) in (2..=9u8).zip(counts) {
        for case in some_cases(rng, &mut maker, m, count, 900) {
            out.book(&case.book);
            out.decode(&case);
        }
    }
    for m in 5..=9 {
        for mut case in record_cases(rng, &mut maker, m, 70 - 5 * m as usize, 900) {
            case.hook = true;
            out.book(&case.book);
            out.decode(&case);
        }
    }
    large(rng, &mut maker, &mut out);
    out.byte(op::END);
    out
}

/// A random book with falling biases and data to hold, not too long.
fn falling_book(rng: &mut Rng, m: u8, records: bool) -> Vec<u8> {
    let most = if m < 9 { 900 } else { 1500 };
    loop {
        let draft = clean::falling(rng, m, records);
        let book = draft.bytes(rng);
        if draft.k() > 0 && book.len() <= most {
            return book;
        }
    }
}

/// A random book with falling biases and k = 0.
fn empty_book(rng: &mut Rng, m: u8) -> Vec<u8> {
    let mut draft = clean::falling(rng, m, false);
    let free = |role: &&mut Role| **role == Role::Free;
    draft
        .roles
        .iter_mut()
        .filter(free)
        .for_each(|role| *role = Role::Zero);
    draft.bytes(rng)
}

/// A hook with a decoding call for it, plain or hook.
fn hung(rng: &mut Rng, maker: &mut Maker, hook: Hook, call: bool) -> (Hook, Case) {
    let raw = clean::random_raw(rng);
    let values = clean::random_values(rng, &hook);
    let mut case = sound_case(maker, &hook.bytes, raw, values);
    case.hook = call;
    case.sizes.numbers += more(rng);
    case.sizes.bytes += more(rng);
    case.sizes.walk = case.sizes.walk.map(|length| length + more(rng));
    (hook, case)
}

/// Clean hooks: in the plain call, then in the hook call with a record, then
/// with data that hold none.
pub fn clean_hooks(rng: &mut Rng) -> Vec<(Hook, Case)> {
    let mut maker = Maker::default();
    let mut out = Vec::new();
    for m in [2, 5] {
        let hook = Hook::new(empty_book(rng, m), Vec::new());
        out.push(hung(rng, &mut maker, hook, false));
    }
    for (m, count) in (2..=9).zip([10, 16, 22, 14, 12, 8, 5, 3]) {
        for _ in 0..count {
            let book = falling_book(rng, m, false);
            let hook = Hook::random(rng, book);
            out.push(hung(rng, &mut maker, hook, false));
        }
    }
    for (sound, counts) in [(true, [8, 10, 8, 5, 1]), (false, [6, 8, 6, 5, 1])] {
        for (m, count) in (5..=9).zip(counts) {
            for _ in 0..count {
                let book = falling_book(rng, m, true);
                let hook = record_hook(rng, book, sound);
                out.push(hung(rng, &mut maker, hook, true));
            }
        }
    }
    out
}

/// The word of a random record, or of data that are no sound one.
fn record_hook(rng: &mut Rng, book: Vec<u8>, sound: bool) -> Hook {
    let mut data = clean::record_data(&book, &clean::random_record(rng));
    if !sound {
        clean::undo_record(rng, &mut data);
    }
    Hook::new(book, data)
}

/// Whether a call answers otherwise than for a clean hook.
fn undone(hook: &Hook, case: &Case) -> bool {
    let mut buffers = Buffers::new(&case.sizes);
    let input = Input {
        book: &case.book,
        raw: case.raw,
        values: &case.values,
        hook: case.hook,
    };
    let decoded = Fast::default().decode(input, &mut buffers.lend());
    decoded.counts != hook.counts(case.raw) || buffers.word != hook.word
}

/// A hook with one bias that rises, or else one value 0.
fn near_miss(rng: &mut Rng, maker: &mut Maker, rises: bool, records: bool) -> (Hook, Case) {
    let m = if records { 5 } else { 3 } + rng.below(2) as u8;
    let book = match rises {
        true => clean::rising(rng, m, records).bytes(rng),
        false => falling_book(rng, m, records),
    };
    let hook = match records {
        true => record_hook(rng, book, true),
        false => Hook::random(rng, book),
    };
    let (hook, mut case) = hung(rng, maker, hook, records);
    if !rises {
        case.values[rng.below(hook.word.len())] = 0;
    }
    (hook, case)
}

/// Hooks that are not quite clean and so are undone: by turns a bias that
/// rises and a value 0, one in five in the hook call.
pub fn near_misses(rng: &mut Rng) -> Vec<(Hook, Case)> {
    let mut maker = Maker::default();
    let mut out = Vec::new();
    while out.len() < 20 {
        let (rises, records) = (out.len() % 2 == 0, out.len() % 5 == 4);
        let (hook, case) = near_miss(rng, &mut maker, rises, records);
        if undone(&hook, &case) {
            out.push((hook, case));
        }
    }
    out
}

/// Clean hooks, then near misses.
fn clean(rng: &mut Rng) -> Stream {
    let mut out = Stream::default();
    let hooks = clean_hooks(rng);
    for (_, case) in hooks.iter().chain(&near_misses(rng)) {
        out.book(&case.book);
        out.decode(case);
    }
    out.byte(op::END);
    out
}

fn walk_stream_input(out: &mut Stream, input: &[u8]) {
    out.byte(walk_op::INPUT);
    out.four(input.len());
    out.0.extend(input);
}

fn walk_stream_run(out: &mut Stream, length: usize) {
    out.byte(walk_op::RUN);
    out.four(length);
}

fn walk_stream_patch(out: &mut Stream, at: usize, value: u8) {
    out.byte(walk_op::PATCH);
    out.four(at);
    out.byte(value);
}

/// Standard input of `walk` for a book, settings and values.
pub fn walk_input(book: &[u8], raw: Raw, values: &[i16]) -> Vec<u8> {
    let mut out = (book.len() as u16).to_be_bytes().to_vec();
    out.extend(book);
    out.push(raw.l as u8);
    out.extend((raw.d as u16).to_be_bytes());
    out.extend(raw.t.to_be_bytes());
    out.extend(values.iter().flat_map(|value| value.to_be_bytes()));
    out
}

fn walks(rng: &mut Rng) -> Stream {
    let mut out = Stream::default();
    for (raw, values) in marked() {
        let input = walk_input(&marked_book(), raw, &values);
        walk_stream_input(&mut out, &input);
        walk_stream_run(&mut out, input.len());
    }
    let (raw, values) = marked().swap_remove(0);
    let input = walk_input(&marked_book(), raw, &values);
    walk_stream_input(&mut out, &input);
    (0..input.len()).for_each(|length| walk_stream_run(&mut out, length));
    for (count, value) in [(0, 0), (1, 0), (2, 0), (3, 255), (32, 7), (100_000, 0)] {
        out.byte(walk_op::RUN_LONGER);
        out.four(count);
        out.byte(value);
    }
    walk_patches(&mut out, &input);
    walk_settings(&mut out);
    walk_random(rng, &mut out);
    out.byte(walk_op::END);
    out
}

/// Every byte of an input changed to each of some others.
fn walk_patches(out: &mut Stream, input: &[u8]) {
    for (at, &byte) in input.iter().enumerate() {
        for value in [byte.wrapping_add(1), byte ^ 0x80, 0, 0x7F, 0xFF] {
            walk_stream_patch(out, at, value);
            walk_stream_run(out, input.len());
        }
        walk_stream_patch(out, at, byte);
    }
}

/// Settings at and past their ends, m = 7, a faulty book with m = 7, and 8
/// against 7 and 9.
fn walk_settings(out: &mut Stream) {
    let settings = [
        (0, 8, 100),
        (33, 8, 100),
        (255, 8, 100),
        (32, 64, 1_048_576),
        (32, 65, 1_048_576),
        (4, 0, 100),
        (4, 1, 100),
        (4, 2, 100),
        (4, 256, 100),
        (4, 257, 100),
        (4, 8, 1_048_577),
        (4, 8, 1 << 31),
        (4, 8, u32::MAX),
        (4, 8, 75),
        (4, 8, 76),
    ];
    let mut over = MARKED_VALUES.to_vec();
    over[0] = -2048;
    for (l, d, t) in settings {
        for values in [&MARKED_VALUES[..], &MARKED_VALUES[..15], &over] {
            let input = walk_input(&marked_book(), Raw { l, d, t }, values);
            walk_stream_input(out, &input);
            walk_stream_run(out, input.len());
        }
    }
    let mut long = vec![0x10, 7, 2, 0, 127, 1, 0, 1];
    (0..4).for_each(|_| long.extend(block_command(5, 0)));
    let raw = Raw { l: 4, d: 8, t: 100 };
    for tail in [&[0x7F][..], &[], &[0x7F, 0], &[0x44]] {
        let book = [&long[..], tail].concat();
        for values in [vec![5; 128], vec![5; 127], vec![3000; 128]] {
            let input = walk_input(&book, raw, &values);
            walk_stream_input(out, &input);
            walk_stream_run(out, input.len());
        }
    }
}

/// Random inputs, few of them with long listings.
fn walk_random(rng: &mut Rng, out: &mut Stream) {
    let mut maker = Maker::default();
    let mut reader = Fast::default();
    for m in [2u8, 3, 4, 4, 5, 5, 6, 6, 7] {
        for case in some_cases(rng, &mut maker, m, 45, 500) {
            let long = rng.one_in(20);
            if long || reader.walk(&case.walk).len() < 2500 {
                walk_stream_input(out, &case.walk);
                walk_stream_run(out, case.walk.len());
            }
        }
    }
}
