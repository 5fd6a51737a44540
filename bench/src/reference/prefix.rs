//! The prefix as a table of records, from outermost to innermost: an entry is three words, variable, quantifier
//! (1 existential, 2 universal) and block. Here: the entries of an admitted table, which quantifier binds each
//! variable and where it stands, and the table of variables given in short, v existential and -v universal.

use super::ROW_BYTES;

/// The words of an entry.
pub const ENTRY_WORDS: usize = 3;

#[derive(Clone, Copy, Debug, PartialEq, Eq)]
pub enum Quantifier {
    Existential = 1,
    Universal = 2,
}

impl Quantifier {
    /// The quantifier that a table's word stands for, if it stands for one.
    pub fn of(word: i32) -> Option<Quantifier> {
        match word {
            1 => Some(Quantifier::Existential),
            2 => Some(Quantifier::Universal),
            _ => None,
        }
    }
}

#[derive(Clone, Copy, Debug, PartialEq, Eq)]
pub struct Entry {
    pub variable: i32,
    pub quantifier: Quantifier,
    pub block: i32,
}

impl Entry {
    pub fn is_universal(&self) -> bool {
        self.quantifier == Quantifier::Universal
    }
}

/// The entries of a table. In one that is not admitted those without a quantifier, and what is left at the end,
/// are passed over.
pub fn entries(prefix: &[i32]) -> Vec<Entry> {
    let entry = |words: &[i32]| {
        Some(Entry {
            variable: words[0],
            quantifier: Quantifier::of(words[1])?,
            block: words[2],
        })
    };
    let records = prefix.chunks_exact(ENTRY_WORDS);
    records.filter_map(entry).collect()
}

/// The table of variables given in short.
pub fn records(short: &[i32]) -> Vec<i32> {
    let mut words = Vec::with_capacity(ENTRY_WORDS * short.len());
    let runs = short.chunk_by(|one, next| (*one > 0) == (*next > 0));
    for (run, block) in runs.zip(1..) {
        let quantifier = if run[0] > 0 {
            Quantifier::Existential
        } else {
            Quantifier::Universal
        };
        for word in run {
            words.extend([word.abs(), quantifier as i32, block]);
        }
    }
    words
}

/// What binds each variable number, from 0.
pub fn bindings(entries: &[Entry]) -> [Option<Quantifier>; ROW_BYTES] {
    let mut bindings = [None; ROW_BYTES];
    for entry in entries {
        bindings[entry.variable as usize] = Some(entry.quantifier);
    }
    bindings
}

/// Where each variable number, from 0, stands among the entries; 0 for those that are not bound.
pub fn places(entries: &[Entry]) -> [usize; ROW_BYTES] {
    let mut places = [0; ROW_BYTES];
    for (place, entry) in entries.iter().enumerate() {
        places[entry.variable as usize] = place;
    }
    places
}

#[cfg(test)]
mod tests {
    use super::*;

    #[test]
    fn records_and_entries() {
        assert_eq!(records(&[]), vec![]);
        let words = vec![1, 1, 1, 2, 2, 2, 3, 1, 3, 4, 1, 3];
        assert_eq!(records(&[1, -2, 3, 4]), words);
        let words = [9, 2, 1, 7, 2, 1, 8, 1, 2, 1024, 2, 3];
        assert_eq!(records(&[-9, -7, 8, -1024]), words);
        let entries = entries(&words);
        let blocks: Vec<i32> = entries.iter().map(|entry| entry.block).collect();
        assert_eq!(blocks, [1, 1, 2, 3]);
        let bindings = bindings(&entries);
        let bound = [9, 7, 8, 1024, 1].map(|v: usize| bindings[v].map(|q| q as i32));
        assert_eq!(bound, [Some(2), Some(2), Some(1), Some(2), None]);
        assert_eq!([9, 7, 8, 1024].map(|v| places(&entries)[v]), [0, 1, 2, 3]);
    }
}
