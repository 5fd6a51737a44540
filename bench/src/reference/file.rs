//! The proof file: a note that is not read, the step words, and a trailer of 12 bytes that points back.

use super::{Reason, Refusal, MAX_STEP_WORDS};

pub const MARK: [u8; 4] = [0x51, 0x44, 0x52, 0x31];

/// The step words of a proof for a formula of so many clauses, into a table of so many words.
pub fn read_proof(file: &[u8], clause_count: u32, room: usize) -> Result<Vec<i32>, Refusal> {
    let none = Reason::NoTrailer.at(0);
    let (body, trailer) = file.split_last_chunk::<12>().ok_or(none)?;
    let field = |at: usize| [0, 1, 2, 3].map(|byte| trailer[at + byte]);
    let distance = u32::from_le_bytes(field(0)) as usize;
    if field(8) != MARK || !distance.is_multiple_of(4) || distance > body.len() {
        return Err(none);
    }
    if distance / 4 > MAX_STEP_WORDS {
        return Err(Reason::Oversized.at(0));
    }
    if u32::from_le_bytes(field(4)) != clause_count {
        return Err(Reason::OtherFormula.at(0));
    }
    if distance / 4 > room {
        return Err(Reason::NoRoom.at(0));
    }
    let words = body[body.len() - distance..].chunks_exact(4);
    Ok(words
        .map(|word| i32::from_le_bytes([word[0], word[1], word[2], word[3]]))
        .collect())
}

/// A proof file with this note and these steps.
pub fn write_proof(note: &[u8], steps: &[i32], clause_count: u32) -> Vec<u8> {
    let mut file = note.to_vec();
    for word in steps {
        file.extend_from_slice(&word.to_le_bytes());
    }
    file.extend_from_slice(&(4 * steps.len() as u32).to_le_bytes());
    file.extend_from_slice(&clause_count.to_le_bytes());
    file.extend_from_slice(&MARK);
    file
}

#[cfg(test)]
mod tests {
    use super::*;

    #[test]
    fn trailer() {
        let file = write_proof(b"odd", &[1, -2, i32::MIN], 7);
        assert_eq!(read_proof(&file, 7, 3), Ok(vec![1, -2, i32::MIN]));
        assert_eq!(read_proof(&file, 7, 2), Err(Reason::NoRoom.at(0)));
        assert_eq!(read_proof(&file, 8, 2), Err(Reason::OtherFormula.at(0)));
        assert_eq!(read_proof(&write_proof(b"", &[], 0), 0, 0), Ok(vec![]));
        let none = Err(Reason::NoTrailer.at(0));
        assert_eq!(read_proof(&file[..11], 7, 3), none);
        for (place, value) in [(15, 3), (15, 16), (18, 255), (23, 0), (26, 0)] {
            let mut damaged = file.clone();
            damaged[place] = value;
            assert_eq!(read_proof(&damaged, 7, 3), none, "{place}");
        }
    }

    #[test]
    fn distance_bound() {
        let mut steps = vec![0; MAX_STEP_WORDS];
        let room = MAX_STEP_WORDS + 1;
        assert!(read_proof(&write_proof(b"", &steps, 0), 0, room).is_ok());
        steps.push(0);
        let answer = read_proof(&write_proof(b"", &steps, 0), 1, room);
        assert_eq!(answer, Err(Reason::Oversized.at(0)));
    }
}
