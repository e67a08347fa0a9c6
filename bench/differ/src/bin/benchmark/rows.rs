//! What is timed: codes, settings, noise, and how the book is written.

use crate::decoders::Job;
use reference::book::{self, Role};
use reference::code::Bits;
use reference::design::Draft;
use reference::noise::{make_draft, receive, Channel, Setup, INPUTS};

/// Noise in dB: light, moderate, heavy.
const LIGHT: f64 = 4.0;
const MODERATE: f64 = 2.5;
const HEAVY: f64 = 1.0;

/// How a book says its code.
#[derive(Clone, Copy, PartialEq, Eq)]
pub enum Written {
    /// Runs of equal indices in one command.
    Short,
    /// A command for every index.
    Long,
    /// The same, and every tie names all earlier zeros besides: the same code.
    Longest,
}

#[derive(Clone, Copy, PartialEq)]
pub enum Noise {
    /// The values of document 01's walk.
    Walk,
    Decibel(f64),
}

#[derive(Clone, Copy, PartialEq)]
pub struct Row {
    pub n: usize,
    pub l: usize,
    pub d: usize,
    pub noise: Noise,
    pub written: Written,
}

/// The hook of document 01: its book, and the values of its walk.
fn hook() -> Draft {
    let zeros = [0, 4, 8, 9, 10, 12];
    let role = |i| {
        if zeros.contains(&i) {
            Role::Zero
        } else {
            Role::Free
        }
    };
    Draft {
        m: 4,
        roles: (0..16).map(role).collect(),
        blocks: vec![(2, -47), (2, -52), (3, -56)],
    }
}

const HOOK_VALUES: [i16; 16] = [
    44, 746, 719, 282, 563, 978, 606, -12, -64, 938, 1087, 1300, 1343, 943, 202, 1320,
];

/// The code of length n: document 01's hook, else a subcode of rate one half
/// with ties.
fn draft(n: usize, channel: &Channel) -> Draft {
    let ties = match n {
        16 => return hook(),
        64 => 12,
        128 => 22,
        _ => 32,
    };
    let (k, l, d) = (n / 2, 1, 2);
    make_draft(&Setup { n, k, ties, l, d }, channel)
}

impl Row {
    /// A row with a short book.
    pub fn new(n: usize, l: usize, d: usize, decibel: f64) -> Row {
        Row {
            n,
            l,
            d,
            noise: Noise::Decibel(decibel),
            written: Written::Short,
        }
    }

    /// White noise; the rate of the hook is ten in sixteen.
    pub fn channel(&self) -> Channel {
        let rate = if self.n == 16 { 0.625 } else { 0.5 };
        match self.noise {
            Noise::Walk => Channel::new(rate, MODERATE),
            Noise::Decibel(decibel) => Channel::new(rate, decibel),
        }
    }

    pub fn job(&self) -> Job {
        let mut draft = draft(self.n, &self.channel());
        if self.written == Written::Longest {
            let zero = draft.roles.iter().map(|role| *role == Role::Zero);
            let zero: Vec<bool> = zero.collect();
            for (i, role) in draft.roles.iter_mut().enumerate() {
                if let Role::Tied(terms) = role {
                    terms.extend((0..i as u16).filter(|&e| zero[e as usize]));
                }
            }
        }
        let commands = match self.written {
            Written::Short => draft.cut(|same| same),
            Written::Long | Written::Longest => draft.cut(|_| 1),
        };
        let bytes = commands.concat();
        Job {
            book: book::load(&bytes).expect("a sound book"),
            bytes,
            l: self.l,
            d: self.d,
        }
    }

    /// The values that are decoded, and the words sent.
    pub fn words(&self, job: &Job) -> Vec<(Vec<i16>, Bits)> {
        match self.noise {
            Noise::Walk => vec![(HOOK_VALUES.to_vec(), [0; 8]); INPUTS],
            Noise::Decibel(_) => receive(&job.book, &self.channel()),
        }
    }
}

/// The rows that the picture of time against n shows: one for each length.
pub fn lengths() -> [Row; 5] {
    [16, 64, 128, 256, 512].map(|n| Row::new(n, 4, 32, MODERATE))
}

/// The rows of the table.
pub fn rows() -> Vec<Row> {
    let mut out = vec![Row {
        noise: Noise::Walk,
        ..Row::new(16, 4, 8, MODERATE)
    }];
    out.extend([LIGHT, MODERATE, HEAVY].map(|decibel| Row::new(16, 4, 8, decibel)));
    out.extend(lengths());
    for (n, d) in [(64, 128), (128, 128), (256, 128), (512, 256)] {
        out.extend([LIGHT, MODERATE, HEAVY].map(|decibel| Row::new(n, 32, d, decibel)));
    }
    out.push(Row::new(256, 4, 128, HEAVY));
    out.push(Row::new(512, 4, 256, HEAVY));
    out.extend([8, 32, 256].map(|d| Row::new(256, 32, d, HEAVY)));
    out.extend([8, 32, 128].map(|d| Row::new(512, 32, d, HEAVY)));
    for n in [64, 512] {
        out.extend([Written::Long, Written::Longest].map(|written| Row {
            written,
            ..Row::new(n, 4, 32, MODERATE)
        }));
    }
    out
}
