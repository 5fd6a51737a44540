//! The reference: every entry once more in ordinary Rust, written from the specification and
//! sharing nothing with the proved crates. Here: the bounds, the reasons, refusals, and the
//! numbering of literals; each entry has a file of its own.

pub mod file;
pub mod play;
pub mod prefix;
pub mod program;
pub mod row;
pub mod steps;
pub mod tables;
pub mod text;
pub mod write;

#[cfg(test)]
mod long_distance;
#[cfg(test)]
mod positions;

pub const MAX_VARIABLE: usize = 1024;
pub const MAX_PREFIX_WORDS: usize = 3072;
pub const MAX_CLAUSES: usize = 8192;
pub const MAX_CLAUSE_WORDS: usize = 65_536;
pub const MAX_STEP_WORDS: usize = 1_048_576;
pub const MAX_TEXT: usize = 1_048_576;
/// The most variables of a formula that is played in full.
pub const MAX_PLAYED: usize = 16;
/// One byte for each variable number from 0.
pub const ROW_BYTES: usize = MAX_VARIABLE + 1;
/// The scratch that rows and the check of proofs ask for, and the one that their small entries ask for.
pub const SCRATCH_BYTES: usize = 8200;
pub const SMALL_SCRATCH_BYTES: usize = 640;

#[derive(Clone, Copy, Debug, PartialEq, Eq)]
pub enum Reason {
    Headless = 1,
    Oversized,
    NoRoom,
    BadToken,
    OutOfRange,
    BoundTwice,
    Unbound,
    Clash,
    Unfinished,
    Miscount,
    NoTrailer,
    OtherFormula,
    BrokenStep,
    NotEarlier,
    WrongPivot,
    Tautology,
    Blocked,
    Misstated,
    NoConclusion,
    NotUniversal,
    Afterword = 23,
}

impl Reason {
    pub fn number(self) -> u32 {
        self as u32
    }

    pub fn word(self) -> &'static str {
        match self {
            Reason::Headless => "headless",
            Reason::Oversized => "oversized",
            Reason::NoRoom => "no room",
            Reason::BadToken => "bad token",
            Reason::OutOfRange => "out of range",
            Reason::BoundTwice => "bound twice",
            Reason::Unbound => "unbound",
            Reason::Clash => "clash",
            Reason::Unfinished => "unfinished",
            Reason::Miscount => "miscount",
            Reason::NoTrailer => "no trailer",
            Reason::OtherFormula => "other formula",
            Reason::BrokenStep => "broken step",
            Reason::NotEarlier => "not earlier",
            Reason::WrongPivot => "wrong pivot",
            Reason::Tautology => "tautology",
            Reason::Blocked => "blocked",
            Reason::Misstated => "misstated",
            Reason::NoConclusion => "no conclusion",
            Reason::NotUniversal => "not universal",
            Reason::Afterword => "afterword",
        }
    }

    pub fn at(self, place: usize) -> Refusal {
        Refusal {
            reason: self,
            place,
            line: 0,
            column: 0,
            blocker: [0, 0],
        }
    }
}

/// Line and column are those of a place in a text, else 0. The blocker is the variable that blocks a reduction and
/// its block; it is zeros unless the reason is that.
#[derive(Clone, Copy, Debug, PartialEq, Eq)]
pub struct Refusal {
    pub reason: Reason,
    pub place: usize,
    pub line: usize,
    pub column: usize,
    pub blocker: [usize; 2],
}

impl Refusal {
    /// With the line and the column of its place in a text, both from 1; a bound that is passed has no place.
    pub fn in_text(self, text: &[u8]) -> Refusal {
        if self.reason == Reason::Oversized {
            return self;
        }
        let mut lines = text[..self.place].split(|&byte| byte == b'\n');
        let column = lines.next_back().map_or(0, <[u8]>::len) + 1;
        let line = lines.count() + 1;
        Refusal {
            line,
            column,
            ..self
        }
    }
}

/// How many literal indices there are: two for each variable number from 0.
pub const LITERALS: usize = 2 * ROW_BYTES;

/// The index of a literal of an admitted table: v at 2v, -v at 2v + 1.
pub fn literal_index(literal: i32) -> usize {
    2 * literal.unsigned_abs() as usize + usize::from(literal < 0)
}
