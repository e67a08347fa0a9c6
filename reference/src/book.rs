//! The code book: its commands, the refusals and the loader
//! (document 01, "The code", "The code book", "Refusal table").

/// The refusals of document 01's table, in its order.
#[derive(Clone, Copy, Debug, PartialEq, Eq)]
pub enum Refusal {
    Short = 1,
    Strange = 2,
    Misplaced = 3,
    OffRange = 4,
    Overtied = 5,
    Heavy = 6,
    Misfit = 7,
    BadSetting = 8,
    BadValue = 9,
    Faint = 10,
    Unreadable = 11,
}

impl Refusal {
    /// The number in the refusal table.
    pub fn number(self) -> u8 {
        self as u8
    }

    /// The trade's word in the refusal table.
    pub fn word(self) -> &'static str {
        match self {
            Refusal::Short => "short",
            Refusal::Strange => "strange",
            Refusal::Misplaced => "misplaced",
            Refusal::OffRange => "off range",
            Refusal::Overtied => "overtied",
            Refusal::Heavy => "heavy",
            Refusal::Misfit => "misfit",
            Refusal::BadSetting => "bad setting",
            Refusal::BadValue => "bad value",
            Refusal::Faint => "faint",
            Refusal::Unreadable => "unreadable",
        }
    }
}

/// Bounds of document 01, all inclusive.
pub const M_MIN: u8 = 2;
pub const M_MAX: u8 = 9;
pub const J_MAX: u8 = 5;
pub const TIES_MAX: usize = 32;
pub const FREE_MAX: usize = 8;
pub const BIAS_MAX: i32 = 1_048_576;

/// What an index of u holds; a tied one names its earlier terms.
#[derive(Clone, Debug, PartialEq, Eq)]
pub enum Role {
    Free,
    Zero,
    Tied(Vec<u16>),
}

/// One block: its first index, its height j and its bias.
#[derive(Clone, Copy, Debug, PartialEq, Eq)]
pub struct Block {
    pub start: usize,
    pub j: u8,
    pub bias: i32,
}

impl Block {
    pub fn size(&self) -> usize {
        1 << self.j
    }

    pub fn end(&self) -> usize {
        self.start + self.size()
    }
}

/// A loaded book.
#[derive(Clone, Debug, PartialEq, Eq)]
pub struct Book {
    pub m: u8,
    pub roles: Vec<Role>,
    pub blocks: Vec<Block>,
}

impl Book {
    pub fn n(&self) -> usize {
        self.roles.len()
    }

    pub fn k(&self) -> usize {
        self.free_between(0, self.n())
    }

    pub fn v(&self) -> usize {
        self.blocks.len()
    }

    /// Number of free indices from `from` up to, not with, `to`.
    pub fn free_between(&self, from: usize, to: usize) -> usize {
        self.roles[from..to]
            .iter()
            .filter(|r| **r == Role::Free)
            .count()
    }
}

/// A command with its operands.
#[derive(Clone, Copy, Debug, PartialEq, Eq)]
pub enum Command {
    Length { m: u8 },
    Free { count: u16 },
    Zero { count: u16 },
    Tie { index: u16 },
    Term { index: u16 },
    Block { j: u8, bias: i32 },
    End,
}

/// The listed command bytes.
#[derive(Clone, Copy, PartialEq, Eq)]
enum Kind {
    Length,
    Free,
    Zero,
    Tie,
    Term,
    Block,
    End,
}

impl Kind {
    fn of(byte: u8) -> Option<Kind> {
        match byte {
            0x10 => Some(Kind::Length),
            0x01 => Some(Kind::Free),
            0x02 => Some(Kind::Zero),
            0x03 => Some(Kind::Tie),
            0x04 => Some(Kind::Term),
            0x05 => Some(Kind::Block),
            0x7F => Some(Kind::End),
            _ => None,
        }
    }
}

/// Loads a book: the first faulty command decides, its faults tried in the
/// order 2, 3, 1, 4, 5, 6.
pub fn load(bytes: &[u8]) -> Result<Book, Refusal> {
    let mut loader = Loader::new(bytes);
    loop {
        let kind = loader.kind()?;
        if loader.misplaced(kind) {
            return Err(Refusal::Misplaced);
        }
        let command = loader.operands(kind)?;
        if command == Command::End {
            break;
        }
        loader.obey(command)?;
    }
    if loader.at < bytes.len() {
        return Err(Refusal::Misplaced);
    }
    Ok(loader.book)
}

struct Loader<'a> {
    bytes: &'a [u8],
    at: usize,
    book: Book,
    /// 2^m, or 0 before the length command.
    n: usize,
    covered: usize,
    ties: usize,
    in_tie: bool,
    named: [bool; 1 << M_MAX],
}

impl<'a> Loader<'a> {
    fn new(bytes: &'a [u8]) -> Self {
        let book = Book {
            m: 0,
            roles: Vec::new(),
            blocks: Vec::new(),
        };
        Loader {
            bytes,
            at: 0,
            book,
            n: 0,
            covered: 0,
            ties: 0,
            in_tie: false,
            named: [false; 1 << M_MAX],
        }
    }

    fn kind(&mut self) -> Result<Kind, Refusal> {
        let Some(&byte) = self.bytes.get(self.at) else {
            return Err(Refusal::Short);
        };
        self.at += 1;
        Kind::of(byte).ok_or(Refusal::Strange)
    }

    fn misplaced(&self, kind: Kind) -> bool {
        let filled = self.book.roles.len() == self.n;
        if self.n == 0 {
            return kind != Kind::Length;
        }
        match kind {
            Kind::Length => true,
            Kind::Free | Kind::Zero | Kind::Tie => filled,
            Kind::Term => !self.in_tie,
            Kind::Block => !filled || self.covered == self.n,
            Kind::End => self.covered < self.n,
        }
    }

    fn take<const W: usize>(&mut self) -> Result<[u8; W], Refusal> {
        let Some(slice) = self.bytes.get(self.at..self.at + W) else {
            return Err(Refusal::Short);
        };
        let mut out = [0; W];
        out.copy_from_slice(slice);
        self.at += W;
        Ok(out)
    }

    fn operands(&mut self, kind: Kind) -> Result<Command, Refusal> {
        Ok(match kind {
            Kind::Length => Command::Length {
                m: self.take::<1>()?[0],
            },
            Kind::Free => Command::Free {
                count: u16::from_be_bytes(self.take()?),
            },
            Kind::Zero => Command::Zero {
                count: u16::from_be_bytes(self.take()?),
            },
            Kind::Tie => Command::Tie {
                index: u16::from_be_bytes(self.take()?),
            },
            Kind::Term => Command::Term {
                index: u16::from_be_bytes(self.take()?),
            },
            Kind::Block => {
                let [j, a, b, c, d] = self.take()?;
                let bias = i32::from_be_bytes([a, b, c, d]);
                Command::Block { j, bias }
            }
            Kind::End => Command::End,
        })
    }

    fn obey(&mut self, command: Command) -> Result<(), Refusal> {
        self.in_tie = matches!(command, Command::Tie { .. } | Command::Term { .. });
        match command {
            Command::Length { m } => self.length(m),
            Command::Free { count } => self.run(count, Role::Free),
            Command::Zero { count } => self.run(count, Role::Zero),
            Command::Tie { index } => self.tie(index),
            Command::Term { index } => self.term(index),
            Command::Block { j, bias } => self.block(j, bias),
            Command::End => Ok(()),
        }
    }

    fn length(&mut self, m: u8) -> Result<(), Refusal> {
        if !(M_MIN..=M_MAX).contains(&m) {
            return Err(Refusal::OffRange);
        }
        self.book.m = m;
        self.n = 1 << m;
        self.book.roles.reserve(self.n);
        Ok(())
    }

    fn run(&mut self, count: u16, role: Role) -> Result<(), Refusal> {
        let to = self.book.roles.len() + count as usize;
        if count == 0 || to > self.n {
            return Err(Refusal::OffRange);
        }
        self.book.roles.resize(to, role);
        Ok(())
    }

    fn tie(&mut self, index: u16) -> Result<(), Refusal> {
        if index as usize >= self.book.roles.len() {
            return Err(Refusal::OffRange);
        }
        if self.ties == TIES_MAX {
            return Err(Refusal::Overtied);
        }
        self.ties += 1;
        self.named = [false; 1 << M_MAX];
        self.named[index as usize] = true;
        self.book.roles.push(Role::Tied(vec![index]));
        Ok(())
    }

    fn term(&mut self, index: u16) -> Result<(), Refusal> {
        let tied = self.book.roles.len() - 1;
        if index as usize >= tied || self.named[index as usize] {
            return Err(Refusal::OffRange);
        }
        let Role::Tied(terms) = &mut self.book.roles[tied] else {
            return Err(Refusal::Misplaced);
        };
        terms.push(index);
        self.named[index as usize] = true;
        Ok(())
    }

    fn block(&mut self, j: u8, bias: i32) -> Result<(), Refusal> {
        if j > J_MAX || !(-BIAS_MAX..=BIAS_MAX).contains(&bias) {
            return Err(Refusal::OffRange);
        }
        let start = self.covered;
        let block = Block { start, j, bias };
        if start % block.size() != 0 || block.end() > self.n {
            return Err(Refusal::OffRange);
        }
        if self.book.free_between(start, block.end()) > FREE_MAX {
            return Err(Refusal::Heavy);
        }
        self.covered = block.end();
        self.book.blocks.push(block);
        Ok(())
    }
}
