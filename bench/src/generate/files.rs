//! Proof files, whole or with damage to the trailer or at either end.

use super::tables::{odd_word, room};
use super::texts::damage_bytes;
use super::{Case, Random};
use crate::reference::file::write_proof;

pub fn file_batch(random: &mut Random) -> Vec<Case> {
    let mut cases = Vec::new();
    for _ in 0..8 {
        let note = note(random);
        let steps: Vec<i32> = (0..random.below(30)).map(|_| odd_word(random)).collect();
        let clause_count = random.pick(&[0, 1, 5, 8192, u32::MAX]);
        let mut file = write_proof(&note, &steps, clause_count);
        damage_file(random, &mut file);
        cases.push(Case::ReadProof {
            file,
            clause_count,
            room: room(random, steps.len()),
        });
    }
    cases
}

pub fn note(random: &mut Random) -> Vec<u8> {
    (0..random.below(20)).map(|_| random.next() as u8).collect()
}

/// Changes the trailer, or cuts the file at either end, or leaves it.
pub fn damage_file(random: &mut Random, file: &mut Vec<u8>) {
    let trailer = file.len() - 12;
    match random.below(12) {
        0 => {
            let place = trailer + random.below(12);
            file[place] ^= 1 << random.below(8);
        }
        1 => {
            let distance = random.pick(&[0, 1, 2, 3, 4, 8, 1 << 22, (1 << 22) + 4, 1 << 31]);
            let distance = random.pick(&[distance, trailer as u32, trailer as u32 + 1]);
            file[trailer..trailer + 4].copy_from_slice(&distance.to_le_bytes());
        }
        2 => {
            let distance = (trailer as u32 & !3) + random.pick(&[0, 4]);
            file[trailer..trailer + 4].copy_from_slice(&distance.to_le_bytes());
        }
        3 => file.truncate(random.below(trailer + 13)),
        4 => {
            file.drain(..random.below(trailer + 1));
        }
        5 => damage_bytes(random, file),
        6 => {
            file.drain(..random.between(trailer, trailer + 2));
        }
        7 => {
            // The clause count off by its lowest, a middle or its highest bit.
            let (byte, bit) = random.pick(&[(4, 0), (6, 0), (7, 7)]);
            file[trailer + byte] ^= 1 << bit;
        }
        _ => {}
    }
}
