//! The settings L, D and T (document 01, "The queue").

use crate::book::Refusal;

/// Settings as they come with a call, not yet judged.
#[derive(Clone, Copy, Debug, PartialEq, Eq)]
pub struct Raw {
    pub l: u32,
    pub d: u32,
    pub t: u32,
}

/// Settings within their bounds.
#[derive(Clone, Copy, Debug, PartialEq, Eq)]
pub struct Settings {
    pub visits: usize,
    pub paths: usize,
    pub limit: i32,
}

impl Settings {
    pub const VISITS: std::ops::RangeInclusive<u32> = 1..=32;
    pub const PATHS: std::ops::RangeInclusive<u32> = 2..=256;
    pub const LIMIT: std::ops::RangeInclusive<u32> = 0..=1_048_576;

    pub fn new(raw: Raw) -> Result<Settings, Refusal> {
        let good = Self::VISITS.contains(&raw.l)
            && Self::PATHS.contains(&raw.d)
            && Self::LIMIT.contains(&raw.t);
        if !good {
            return Err(Refusal::BadSetting);
        }
        Ok(Settings {
            visits: raw.l as usize,
            paths: raw.d as usize,
            limit: raw.t as i32,
        })
    }
}
