//! Damaged books: one for every refusal of a book and for every pair of
//! refusals that one command can have, with the refusal each must get
//! (document 01, "Refusal table"; readings 1 to 7), and blind damages.

use crate::book::{Role, BIAS_MAX};
use crate::design::{block_command, index_command, Bounds, Draft};
use crate::rng::Rng;

/// A damaged book and, where it is known, its refusal; 0 stands for none.
pub type Damaged = (Vec<u8>, Option<u8>);

type Commands = Vec<Vec<u8>>;

/// A command byte that is not listed.
fn unlisted(rng: &mut Rng) -> u8 {
    loop {
        let byte = rng.below(256) as u8;
        if !matches!(byte, 0x10 | 0x01..=0x05 | 0x7F) {
            return byte;
        }
    }
}

/// The number of directed damages.
pub const DIRECTED: usize = 34;

/// A random damage of the draft, or one that has a book of its own.
pub fn damaged(rng: &mut Rng, draft: &Draft) -> Damaged {
    match rng.below(DIRECTED + 12) {
        which if which < DIRECTED => directed(rng, draft, which),
        _ => blind(rng, draft),
    }
}

/// Bytes turned, put in or taken out anywhere.
fn blind(rng: &mut Rng, draft: &Draft) -> Damaged {
    let mut bytes = draft.bytes(rng);
    for _ in 0..1 + rng.below(3) {
        if bytes.is_empty() {
            break;
        }
        let at = rng.below(bytes.len());
        let listed = rng.pick(&[0x10, 1, 2, 3, 4, 5, 0x7F, 0, 255]);
        match rng.below(4) {
            0 => bytes[at] = listed,
            1 => bytes[at] ^= 1 << rng.below(8),
            2 => bytes.insert(at, listed),
            _ => drop(bytes.remove(at)),
        }
    }
    (bytes, None)
}

/// Where the index commands end and the block commands begin.
fn first_block(commands: &Commands) -> usize {
    let found = commands.iter().position(|command| command[0] == 0x05);
    found.unwrap_or(commands.len())
}

/// Puts a command in, drops what follows at random, and cuts its end.
fn put(rng: &mut Rng, commands: &Commands, at: usize, command: Vec<u8>, cut: usize) -> Vec<u8> {
    let mut out = commands[..at].concat();
    out.extend(&command[..command.len() - cut]);
    if cut == 0 && rng.one_in(2) {
        out.extend(commands[at..].concat());
    }
    out
}

/// Damage number `which`; each names its faults, the deciding one first.
pub fn directed(rng: &mut Rng, draft: &Draft, which: usize) -> Damaged {
    let commands = draft.commands(rng);
    match which {
        0..=9 => places(rng, &commands, which),
        10..=17 => operands(rng, draft, &commands, which),
        18..=22 => blocks(rng, draft, &commands, which),
        23..=27 => overtied(rng, which),
        _ => heavy(rng, which),
    }
}

/// Strange and misplaced commands, and those also cut or off range.
fn places(rng: &mut Rng, commands: &Commands, which: usize) -> Damaged {
    let end = commands.len();
    let filled = first_block(commands);
    let anywhere = rng.below(end);
    let strange = vec![unlisted(rng)];
    let cut = rng.below(2);
    let (bytes, refusal) = match which {
        // 1: nothing at all.
        0 => (Vec::new(), 1),
        // 2, at the end too.
        1 => (put(rng, commands, anywhere, strange, 0), 2),
        // 3, before 2: unlisted after 7F.
        2 => (put(rng, commands, end, strange, 0), 3),
        // 3 after 7F, any listed byte.
        3 => {
            let byte = rng.pick(&[0x10, 1, 2, 3, 4, 5, 0x7F]);
            (put(rng, commands, end, vec![byte], 0), 3)
        }
        // 3, and 1 or 4: a second length.
        4 => {
            let length = vec![0x10, rng.pick(&[4, 1, 10])];
            let at = 1 + rng.below(end - 1);
            (put(rng, commands, at, length, cut), 3)
        }
        // 3, and 1 or 4: the first command is not the length.
        5 => {
            let first = index_command(rng.pick(&[1, 2, 3, 4]), rng.pick(&[0, 1]));
            (put(rng, commands, 0, first, cut), 3)
        }
        // 3, and 1, 4 or 6: a block before all indices are filled.
        6 => {
            let block = block_command(rng.pick(&[0, 5, 9]), rng.pick(&[0, i32::MAX]));
            (put(rng, commands, 1, block, 2 * cut), 3)
        }
        // 3, and 1 or 4: an index command when all are filled.
        7 => {
            let index = index_command(rng.pick(&[1, 2, 3]), rng.pick(&[0, 1, 600]));
            let at = filled + rng.below(end - filled);
            (put(rng, commands, at, index, cut), 3)
        }
        // 3, and 1 or 4: a block past the last, after all are covered.
        8 => {
            let block = block_command(rng.pick(&[0, 6]), rng.pick(&[0, i32::MIN]));
            (put(rng, commands, end - 1, block, 3 * cut), 3)
        }
        // 3: the end before the blocks reach n.
        _ => {
            let at = 1 + rng.below(end - 2);
            (put(rng, commands, at, vec![0x7F], 0), 3)
        }
    };
    (bytes, Some(refusal))
}

/// Index commands and lengths off range or cut, and terms out of place.
fn operands(rng: &mut Rng, draft: &Draft, commands: &Commands, which: usize) -> Damaged {
    let n = draft.n() as u16;
    let filled = first_block(commands);
    let mut at = 1 + rng.below(filled - 1);
    let done = |at: usize| commands[1..at].iter().map(|c| covered_by(c)).sum::<u16>();
    if done(at) == n {
        at = 1;
    }
    let done = done(at);
    let run = rng.pick(&[1, 2]);
    let cut = rng.below(2);
    let (bytes, refusal) = match which {
        // 1: cut anywhere.
        10 => {
            let whole = commands.concat();
            (whole[..rng.below(whole.len())].to_vec(), 1)
        }
        // 4, or 1 before it: m off range.
        11 => {
            let length = vec![0x10, rng.pick(&[0, 1, 10, 255])];
            let bytes = put(rng, &vec![], 0, length, cut);
            (bytes, if cut == 0 { 4 } else { 1 })
        }
        // 4, or 1 before it: count 0.
        12 => (
            put(rng, commands, at, index_command(run, 0), cut),
            4 - 3 * cut,
        ),
        // 4: count past n.
        13 => {
            let count = rng.pick(&[n - done + 1, n + 1, 65535]);
            (put(rng, commands, at, index_command(run, count), 0), 4)
        }
        // 4, or 1 before it: a tie to itself or later.
        14 => {
            let index = rng.pick(&[done, done + 1, n, 65535]);
            (
                put(rng, commands, at, index_command(3, index), cut),
                4 - 3 * cut,
            )
        }
        _ => return terms(rng, commands, cut, which),
    };
    (bytes, Some(refusal as u8))
}

/// Terms out of place or off range.
fn terms(rng: &mut Rng, commands: &Commands, cut: usize, which: usize) -> Damaged {
    // 3, and 1 or 4: a term that follows no tie.
    if which == 15 {
        let at = [1, first_block(commands) + 1, commands.len() - 1];
        let at = rng.pick(&at).min(commands.len() - 1);
        let term = index_command(4, rng.pick(&[0, 600]));
        if commands[at - 1][0] == 3 || commands[at - 1][0] == 4 {
            return (commands.concat(), Some(0));
        }
        return (put(rng, commands, at, term, cut), Some(3));
    }
    // 4: a term named twice, or not below the tied index.
    let mut out = vec![0x10, 5, 1, 0, 9, 3, 0, 4];
    let more = if which == 16 { 0 } else { rng.below(4) as u16 };
    for term in 5..5 + more {
        out.extend(index_command(4, term));
    }
    let term = rng.pick(&[4, 4 + more, 9, 10, 31, 32, 65535]);
    out.extend(index_command(4, term));
    out.extend([2, 0, 22]);
    (out, Some(4))
}

/// Indices that a command fills.
fn covered_by(command: &[u8]) -> u16 {
    match command[0] {
        1 | 2 => u16::from_be_bytes([command[1], command[2]]),
        3 => 1,
        _ => 0,
    }
}

/// Block commands off range, cut, or both.
fn blocks(rng: &mut Rng, draft: &Draft, commands: &Commands, which: usize) -> Damaged {
    let filled = first_block(commands);
    let at = filled + rng.below(draft.blocks.len());
    let bias = rng.pick(&[BIAS_MAX + 1, -BIAS_MAX - 1, i32::MAX, i32::MIN]);
    let (bytes, refusal) = match which {
        // 4: j above 5.
        18 => {
            let block = block_command(rng.pick(&[6, 7, 32, 255]), 0);
            (put(rng, commands, at, block, 0), 4)
        }
        // 4: bias off range.
        19 => {
            let block = block_command(rng.pick(&[0, 5]), bias);
            (put(rng, commands, at, block, 0), 4)
        }
        // 1, before 4: j above 5 and the bias cut.
        20 => {
            let cut = 1 + rng.below(4);
            (put(rng, commands, at, block_command(9, bias), cut), 1)
        }
        // 4: a block longer than the code.
        21 => {
            let j = rng.pick(&[3, 4, 5]);
            let mut out = vec![0x10, 2, 2, 0, 4];
            out.extend(block_command(j, 0));
            (out, 4)
        }
        // 4: a block that starts at no multiple of its length.
        _ => {
            let mut out = vec![0x10, 5, 2, 0, 32];
            let first = rng.pick(&[0, 1, 2, 3]);
            out.extend(block_command(first, 0));
            out.extend(block_command(first + 1, rng.pick(&[0, bias])));
            (out, 4)
        }
    };
    (bytes, Some(refusal))
}

/// A 33rd tied index, also misplaced, cut or off range.
fn overtied(rng: &mut Rng, which: usize) -> Damaged {
    let m = if which == 26 {
        6
    } else {
        6 + rng.below(4) as u8
    };
    let n = 1u16 << m;
    let before = n
        - 32
        - if which == 26 {
            0
        } else {
            1 + rng.below(9) as u16
        };
    let mut out = vec![0x10, m];
    out.extend(index_command(rng.pick(&[1, 2]), before));
    for _ in 0..32 {
        out.extend(index_command(3, rng.below(before as usize) as u16));
    }
    let bad = rng.pick(&[before + 32, n, 65535]);
    let (command, cut, refusal) = match which {
        23 => (index_command(3, 0), 0, 5),
        24 => (index_command(3, bad), 0, 4),
        25 => (index_command(3, bad), 1 + rng.below(2), 1),
        // 3 before 5: all 64 are filled.
        26 => (index_command(3, 0), rng.below(3), 3),
        // 5: the terms of the last tie do not matter.
        _ => {
            out.extend(index_command(4, before + 1));
            (index_command(3, before), 0, 5)
        }
    };
    out.extend(&command[..command.len() - cut]);
    if cut == 0 && rng.one_in(2) {
        out.extend([0x7F]);
    }
    (out, Some(refusal))
}

/// A block with over 8 free indices, also cut, off range or misplaced.
fn heavy(rng: &mut Rng, which: usize) -> Damaged {
    let m = 4 + rng.below(6) as u8;
    let mut draft = Draft::random(rng, m, Bounds::WIDEST);
    let free = rng.pick(&[8, 9, 16]);
    for i in 0..16 {
        draft.roles[i] = if i < free { Role::Free } else { Role::Zero };
    }
    for i in 16..draft.n() {
        if let Role::Tied(_) = draft.roles[i] {
            draft.roles[i] = Role::Zero;
        }
    }
    draft.blocks = vec![(0, 0); draft.n()];
    let commands = draft.commands(rng);
    let at = first_block(&commands);
    let off = rng.pick(&[BIAS_MAX + 1, -BIAS_MAX - 1]);
    let is_heavy = free > 8;
    let (block, cut, refusal) = match which {
        28 | 29 if is_heavy => (block_command(4, BIAS_MAX), 0, 6),
        // Eight free indices are no fault; the next block then is misaligned
        // or not, so only the cut is judged.
        28 | 29 => (block_command(4, -BIAS_MAX), 1, 1),
        30 => (block_command(4, off), 0, 4),
        31 => (block_command(4, off), 1 + rng.below(4), 1),
        // 3 before 6: before all are filled.
        32 => {
            let bytes = put(rng, &commands, at - 1, block_command(4, 0), 0);
            return (bytes, Some(3));
        }
        // 1 before 6.
        _ => (block_command(4, 0), 1 + rng.below(4), 1),
    };
    (put(rng, &commands, at, block, cut), Some(refusal))
}
