//! The hook record (document 01, "The hook record").

use crate::book::Refusal;

/// Bits of a record, and the k it needs.
pub const RECORD_BITS: usize = 32;

#[derive(Clone, Copy, Debug, PartialEq, Eq)]
pub enum Status {
    Passed = 0,
    HeldForLaboratory = 1,
    HeldForVeterinarian = 2,
    HeldForOwner = 3,
    Condemned = 4,
}

impl Status {
    pub fn of(number: u32) -> Option<Status> {
        Some(match number {
            0 => Status::Passed,
            1 => Status::HeldForLaboratory,
            2 => Status::HeldForVeterinarian,
            3 => Status::HeldForOwner,
            4 => Status::Condemned,
            _ => return None,
        })
    }

    pub fn number(self) -> u8 {
        self as u8
    }
}

#[derive(Clone, Copy, Debug, PartialEq, Eq)]
pub struct Record {
    pub plant: u8,
    pub carcass: u32,
    pub side: u8,
    pub status: Status,
}

impl Record {
    /// The record that comes with any refusal.
    pub const NONE: Record = Record {
        plant: 0,
        carcass: 0,
        side: 0,
        status: Status::Passed,
    };

    /// The record as 32 bits, or 9 when a field is too large for its bits.
    pub fn pack(&self) -> Result<u32, Refusal> {
        if self.plant >= 1 << 6 || self.carcass >= 1 << 20 || self.side > 1 {
            return Err(Refusal::BadValue);
        }
        let fields = (self.plant as u32) << 26 | self.carcass << 6 | (self.side as u32) << 5;
        Ok(fields | (self.status as u32) << 2)
    }

    /// The record of 32 bits, or 11.
    pub fn unpack(bits: u32) -> Result<Record, Refusal> {
        let Some(status) = Status::of(bits >> 2 & 7) else {
            return Err(Refusal::Unreadable);
        };
        if bits & 3 != 0 {
            return Err(Refusal::Unreadable);
        }
        Ok(Record {
            plant: (bits >> 26) as u8,
            carcass: bits >> 6 & 0xF_FFFF,
            side: (bits >> 5 & 1) as u8,
            status,
        })
    }
}
