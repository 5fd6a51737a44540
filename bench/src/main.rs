//! A second implementation of every entry beside the proved one. `compare` sets the two against each other,
//! `inputs` tells what the same inputs draw from the reference alone, `saturate` has both judge every long-distance step on
//! small formulas, `time`, `hostile` and `reductions` measure both, `long` writes a long refutation, and `reference` and
//! `full` print the two programs' lines by the reference.

mod compare;
#[cfg(proved)]
mod ffi;
mod generate;
mod hostile;
mod pairs;
mod reductions;
mod reference;
#[cfg(any(proved, test))]
mod saturate;
mod time;

use std::env;
use std::path::Path;
use std::process::ExitCode;

use generate::long::{damaged, refutation};
use reference::file::write_proof;
use reference::program::{check_line, dependency_lines, printed, Room};
use reference::write::write;
use reference::{MAX_STEP_WORDS, MAX_TEXT};

const USAGE: &str = "\
bench compare [seed] [inputs]
bench inputs [seed] [inputs]
bench saturate [seed] [formulas]
bench time
bench hostile
bench reductions
bench long WORDS FOLDER [--damaged]
bench reference check FORMULA PROOF
bench reference deps FORMULA
bench full check FORMULA PROOF
bench full deps FORMULA";

fn main() -> ExitCode {
    let arguments: Vec<String> = env::args().skip(1).collect();
    let arguments: Vec<&str> = arguments.iter().map(|argument| &**argument).collect();
    match arguments[..] {
        ["compare" | "inputs", ref numbers @ ..] => match seed_and_count(numbers, 100_000) {
            Some((seed, inputs)) => compare_all(arguments[0] == "compare", seed, inputs),
            None => usage(),
        },
        ["saturate", ref numbers @ ..] => match seed_and_count(numbers, 4_000) {
            Some((seed, formulas)) => saturate_all(seed, formulas),
            None => usage(),
        },
        ["time"] => {
            time::time();
            ExitCode::SUCCESS
        }
        ["hostile"] => {
            hostile::hostile();
            ExitCode::SUCCESS
        }
        ["reductions"] => match reductions::reductions() {
            Ok(()) => ExitCode::SUCCESS,
            Err(trouble) => {
                println!("{trouble}");
                ExitCode::FAILURE
            }
        },
        ["long", words, folder] => long(words, folder, false),
        ["long", words, folder, "--damaged"] => long(words, folder, true),
        ["reference", "check", formula, proof] => check(Room::PROGRAMS, formula, proof),
        ["reference", "deps", formula] => deps(Room::PROGRAMS, formula),
        ["full", "check", formula, proof] => check(Room::FULL, formula, proof),
        ["full", "deps", formula] => deps(Room::FULL, formula),
        _ => usage(),
    }
}

/// A seed, or else 1, and a count, or else the usual one.
fn seed_and_count(numbers: &[&str], usual: u32) -> Option<(u64, usize)> {
    let number = |given: &str| given.parse::<u32>().ok();
    let (seed, count) = match *numbers {
        [] => (1, usual),
        [seed] => (number(seed)?, usual),
        [seed, count] => (number(seed)?, number(count)?),
        _ => return None,
    };
    Some((seed.into(), count as usize))
}

fn usage() -> ExitCode {
    eprintln!("{USAGE}");
    ExitCode::from(2)
}

/// A file that cannot be read is as an empty one.
fn file(path: &str) -> Vec<u8> {
    std::fs::read(path).unwrap_or_default()
}

/// The first program's line with this room.
fn check(room: Room, formula: &str, proof: &str) -> ExitCode {
    let line = check_line(room, &file(formula), || file(proof));
    print!("{}", printed(line));
    ExitCode::SUCCESS
}

/// The second program's lines with this room.
fn deps(room: Room, formula: &str) -> ExitCode {
    print!("{}", printed(dependency_lines(room, &file(formula))));
    ExitCode::SUCCESS
}

/// Writes formula.qdimacs and proof.qdr, a refutation of about so many words, and prints the line due.
fn long(words: &str, folder: &str, damage: bool) -> ExitCode {
    let Some(words) = words.parse().ok().filter(|&words| words <= MAX_STEP_WORDS) else {
        return usage();
    };
    let (tables, mut steps) = refutation(words);
    if damage {
        steps = damaged(steps);
    }
    let formula = write(&tables.prefix, &tables.clauses, MAX_TEXT).unwrap_or_default();
    let proof = write_proof(b"", &steps, tables.count() as u32);
    let folder = Path::new(folder);
    let written = std::fs::create_dir_all(folder)
        .and_then(|()| std::fs::write(folder.join("formula.qdimacs"), &formula))
        .and_then(|()| std::fs::write(folder.join("proof.qdr"), &proof));
    if let Err(trouble) = written {
        eprintln!("{}: {trouble}", folder.display());
        return ExitCode::FAILURE;
    }
    print!("{}", printed(check_line(Room::FULL, &formula, || proof)));
    ExitCode::SUCCESS
}

#[cfg(not(proved))]
fn no_library() -> ExitCode {
    eprintln!("no static library: make it with 'rt lib' in crates/capi and build again");
    ExitCode::FAILURE
}

/// Has every long-distance step on so many formulas judged by the library and the reference.
#[cfg(proved)]
fn saturate_all(seed: u64, formulas: usize) -> ExitCode {
    let tally = match saturate::saturate(compare::proved_answer, seed, formulas) {
        Ok(tally) => tally,
        Err(trouble) => {
            println!("{trouble}");
            return ExitCode::FAILURE;
        }
    };
    println!("{tally}{formulas} formulas, no difference, seed {seed}");
    let faults = tally.faults();
    if faults.is_empty() {
        return ExitCode::SUCCESS;
    }
    println!("{}", faults.join("\n"));
    ExitCode::FAILURE
}

#[cfg(not(proved))]
fn saturate_all(_: u64, _: usize) -> ExitCode {
    no_library()
}

/// Compares the reference with the library, or with itself where only the inputs are of interest.
fn compare_all(with_library: bool, seed: u64, inputs: usize) -> ExitCode {
    let outcome = if with_library {
        #[cfg(not(proved))]
        return no_library();
        #[cfg(proved)]
        compare::compare(compare::proved_answer, seed, inputs)
    } else {
        compare::compare(|case, _| compare::reference_answer(case).1, seed, inputs)
    };
    let seen = match outcome {
        Ok(seen) => seen,
        Err(difference) => {
            println!("{difference}");
            return ExitCode::FAILURE;
        }
    };
    print!("{seen}");
    println!("{} inputs, no difference, seed {seed}", seen.inputs);
    #[cfg(proved)]
    if with_library {
        match compare::compare_empty(compare::null_answer) {
            Ok(count) => println!("{count} entries with null pointers alone, no difference"),
            Err(difference) => {
                println!("with null pointers alone: {difference}");
                return ExitCode::FAILURE;
            }
        }
    }
    let missing = seen.missing();
    if missing.is_empty() {
        return ExitCode::SUCCESS;
    }
    println!("never seen: {}", missing.join(", "));
    ExitCode::FAILURE
}
