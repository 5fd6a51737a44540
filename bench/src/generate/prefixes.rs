//! Prefixes: damage to a word of an entry, to entries or to the length; and the prefixes and the rooms for them at each
//! bound and past it.

use super::scratch::{check_case, row_case, ROOMS};
use super::tables::{damage_words, odd_word, room};
use super::texts::{spell, tokens};
use super::{Case, Random, Tables};
use crate::reference::prefix::{records, ENTRY_WORDS};
use crate::reference::{MAX_CLAUSE_WORDS, MAX_PREFIX_WORDS, MAX_VARIABLE, ROW_BYTES};

/// Damage to the words of an entry, to an entry, to the blocks, or to the length.
pub fn damage_prefix(random: &mut Random, prefix: &mut Vec<i32>) {
    let count = prefix.len() / ENTRY_WORDS;
    if count == 0 {
        prefix.extend((0..random.between(1, 3)).map(|_| odd_word(random)));
        return;
    }
    let at = ENTRY_WORDS * random.below(count);
    match random.below(13) {
        0 | 1 => prefix[at] = wrong_variable(random, prefix, at),
        2 | 3 => prefix[at + 1] = wrong_quantifier(random, prefix, at),
        4 | 5 => prefix[at + 2] = wrong_block(random, prefix, at),
        6 => {
            let variable = wrong_variable(random, prefix, at);
            let quantifier = wrong_quantifier(random, prefix, at);
            prefix[at] = random.pick(&[prefix[at], variable]);
            prefix[at + 1] = random.pick(&[prefix[at + 1], quantifier]);
            prefix[at + 2] = wrong_block(random, prefix, at);
        }
        7 => repeat_entry(random, prefix, at),
        8 => {
            // One word or two over a multiple of three.
            for _ in 0..random.between(1, 2) {
                prefix.push(odd_word(random));
            }
        }
        9 => prefix.truncate(random.pick(&[at, at + 1, at + 2])),
        10 => {
            prefix.drain(at..at + ENTRY_WORDS);
        }
        11 => {
            // Every block from here on is off by one.
            let change = random.pick(&[1, -1]);
            for entry in prefix[at..].chunks_exact_mut(ENTRY_WORDS) {
                entry[2] = entry[2].wrapping_add(change);
            }
        }
        _ => damage_words(random, prefix),
    }
}

/// A number that is no variable's, or some entry's.
fn wrong_variable(random: &mut Random, prefix: &[i32], at: usize) -> i32 {
    let other = ENTRY_WORDS * random.below(prefix.len() / ENTRY_WORDS);
    let opposite = prefix[at].wrapping_neg();
    random.pick(&[0, opposite, 1025, -1024, i32::MAX, i32::MIN, prefix[other]])
}

/// The other quantifier, or none.
fn wrong_quantifier(random: &mut Random, prefix: &[i32], at: usize) -> i32 {
    let other = if prefix[at + 1] == 1 { 2 } else { 1 };
    random.pick(&[other, other, 0, 3, -1, -2, i32::MAX, i32::MIN])
}

/// A block near the one that stands there, or the entry's place, or any word.
fn wrong_block(random: &mut Random, prefix: &[i32], at: usize) -> i32 {
    let own = prefix[at + 2];
    let place = (at / ENTRY_WORDS + 1) as i32;
    let near = [own.wrapping_add(1), own.wrapping_sub(1), own.wrapping_neg()];
    let odd = [0, 1, place, odd_word(random)];
    random.pick(&[&near[..], &odd[..]].concat())
}

/// Lists an entry's variable once more, under either quantifier, in some place.
fn repeat_entry(random: &mut Random, prefix: &mut Vec<i32>, at: usize) {
    let other = ENTRY_WORDS * random.below(prefix.len() / ENTRY_WORDS + 1);
    let entry = [prefix[at], random.pick(&[1, 2]), prefix[at + 2]];
    prefix.splice(other..other, entry);
}

/// Room for a prefix of so many words: mostly enough, sometimes up to three words short, seldom none.
pub fn prefix_room(random: &mut Random, needed: usize) -> usize {
    match random.below(12) {
        0..=2 => needed.saturating_sub(random.between(1, ENTRY_WORDS)),
        _ => room(random, needed),
    }
}

/// All 1,024 variables in order, about half of them universal, in short.
pub fn full_prefix(random: &mut Random) -> Vec<i32> {
    (1..=MAX_VARIABLE as i32)
        .map(|v| if random.one_in(2) { -v } else { v })
        .collect()
}

/// Prefixes as long as can be, some words longer or shorter, and with each word of the last entry at fault.
pub fn edge_prefixes(random: &mut Random) -> Vec<Vec<i32>> {
    let full = records(&full_prefix(random));
    let longer = [&full[..], &[3, 1, 1]].concat();
    let lengths = [0, 1, 2, 3, 4, 5, 3069, 3070, 3071, 3072, 3073, 3074, 3075];
    let mut all = lengths.map(|length| longer[..length].to_vec()).to_vec();
    let last = MAX_PREFIX_WORDS - ENTRY_WORDS;
    let (quantifier, block) = (full[last + 1], full[last + 2]);
    let faults = [
        [0, 0, 0],
        [-1024, quantifier, block],
        [1025, quantifier, block],
        [i32::MIN, quantifier, block],
        [1, 0, 0],
        [1023, quantifier, block],
        [1024, 0, 0],
        [1024, 3, block],
        [1024, 3 - quantifier, block],
        [1024, quantifier, block + 1],
        [1024, quantifier, block - 1],
        [1024, quantifier, 0],
        [1024, quantifier, -block],
        [1024, quantifier, i32::MIN],
    ];
    all.extend(faults.map(|entry| [&full[..last], &entry].concat()));
    // Each entry in a block of its own, and all in one.
    let turns: Vec<i32> = (1..=1024).map(|v| [v, -v][v as usize % 2]).collect();
    let single: Vec<i32> = (1..=1024).map(|v| -v).collect();
    all.extend([records(&turns), records(&single)]);
    all
}

/// Every prefix of two entries whose words are small, right and wrong: the check of tables, and a row and a proof, by turns
/// with each length of the scratch.
pub fn small_prefixes() -> Vec<Case> {
    let mut entries = Vec::new();
    for variable in [-1, 0, 1, 2] {
        for quantifier in 0..4 {
            entries.extend((0..4).map(|block| [variable, quantifier, block]));
        }
    }
    let pairs = entries.iter().flat_map(|&one| {
        let pair = move |&other: &[i32; 3]| [one, other].concat();
        entries.iter().map(pair)
    });
    let tables = |prefix| Tables {
        prefix,
        clauses: vec![0, -2, 0],
    };
    let cases = |(turn, prefix)| {
        let tables = tables(prefix);
        let rooms = [turn, turn + turn / ROOMS.len()].map(|turn| ROOMS[turn % ROOMS.len()]);
        [
            row_case(&tables, 1, ROW_BYTES, rooms[0]),
            check_case(&tables, &[], rooms[1], 2),
            Case::CheckTables { tables },
        ]
    };
    pairs.enumerate().flat_map(cases).collect()
}

/// Sets of 1,024 variables in all, some listed and the others in a clause alone, with room for them or up to four words
/// less.
pub fn edge_sets(random: &mut Random) -> Vec<Case> {
    let mut cases = Vec::new();
    for listed in [0, 1, 1000, 1023, 1024] {
        let mut numbers: Vec<i32> = full_prefix(random);
        random.shuffle(&mut numbers);
        let tables = Tables::new(&numbers[..listed], [&numbers[..], &[0]].concat());
        let mut plain: Vec<String> = tokens(random, &tables);
        plain.splice(2..4, ["1024", "1"].map(String::from));
        let text = spell(random, &plain);
        for less in 0..5 {
            cases.push(Case::Read {
                text: text.clone(),
                prefix_room: MAX_PREFIX_WORDS - less,
                clause_room: MAX_CLAUSE_WORDS,
            });
        }
    }
    cases
}

/// Short texts, read and wrong in each part, with every room up to more than they need.
pub fn every_room() -> Vec<Case> {
    const TEXTS: [&str; 10] = [
        "p cnf 3 1\ne 1 2 0\na 3 0\n1 -3 0\n",
        "p cnf 3 1\na 1 2 1 0\n1 0\n",
        "p cnf 3 1\na 1 2 4 0\n1 0\n",
        "p cnf 3 1\na 1 2 -3 0\n1 0\n",
        "p cnf 3 1\na 2 0\n3 -2 1 0\n",
        "p cnf 3 1\ne 2 0\n3 -2 1 0",
        "p cnf 3 2\na 2 0\n3 -2 1 0\n",
        "p cnf 3 1\na 2 0\n3 -2 1\n",
        "p cnf 3 1\na 2 0\n3 -2 1 0 1\n",
        "p cnf 3 1\na 2 0\n3 -2 -3 0\n",
    ];
    let mut cases = Vec::new();
    for text in TEXTS {
        for prefix_room in 0..=4 * ENTRY_WORDS {
            cases.extend((0..=5).map(|clause_room| Case::Read {
                text: text.as_bytes().to_vec(),
                prefix_room,
                clause_room,
            }));
        }
    }
    cases
}
