//! The independent second program: it works out by sets and paths, from the documents alone, what
//! `intake` and `replay` must print, makes seeded inputs for them, and compares.

mod admission;
mod answers;
mod arguments;
mod bad_calls;
mod batches;
mod calls;
mod catalogue;
mod compare;
mod damage;
mod damage_branches;
mod damage_graph;
mod desk;
mod frontiers;
mod graphs;
mod guard;
mod guard_more;
mod intake;
mod intake_limits;
mod item;
mod lines;
mod make_intake;
mod make_replay;
mod plans;
mod random;
mod random_batches;
mod random_calls;
mod replay;
mod replay_catalogue;
mod replay_desk;
mod replay_items;
mod replay_limits;
mod replay_more;
mod replay_salvage;
mod replay_sending;
mod reviews;
mod salvage;
mod selftest;
mod selftest_batches;
mod selftest_replay;
mod selftest_requests;
mod sending;
mod sha256;
mod standings;
mod states;
mod store;
mod tables;
mod tally;
mod writing;

use std::io::{Read, Write};
use std::process::ExitCode;

/// How the program is called.
const USAGE: &str = "\
second intake < FILE             what `intake` must print
second replay [--begins] < FILE  what `replay` must print, however it lends its parts
second make intake|replay SEED   a seeded random input
second selftest                  its own checks against the documents
second compare --intake WORD .. --replay WORD .. --seed SEED --cases CASES --keep FOLDER [--first]
                                 runs both programs on seeded inputs and compares every byte; the
                                 words of a command are given one by one; --first ends at the first
                                 difference and prints no counts
second guard WORD ..             runs `replay`, given by its words, with parts lent wrongly: each
                                 must stop it
";

/// Standard input, whole.
fn input() -> Vec<u8> {
    let mut bytes = Vec::new();
    if let Err(error) = std::io::stdin().read_to_end(&mut bytes) {
        eprintln!("standard input: {error}");
    }
    bytes
}

/// Writes to standard output, whole.
fn print(bytes: &[u8]) -> ExitCode {
    let mut output = std::io::stdout();
    match output.write_all(bytes).and_then(|()| output.flush()) {
        Ok(()) => ExitCode::SUCCESS,
        Err(_) => ExitCode::FAILURE,
    }
}

/// The comparison that the words of the command line ask for.
fn comparison(words: &[&str]) -> Option<compare::Comparison> {
    let mut comparison = compare::Comparison::default();
    let mut words = words.iter();
    while let Some(&option) = words.next() {
        if option == "--first" {
            comparison.stop_at_first = true;
            continue;
        }
        let value = *words.next()?;
        match option {
            "--intake" => comparison.intake.push(value.into()),
            "--replay" => comparison.replay.push(value.into()),
            "--seed" => comparison.seed = value.parse().ok()?,
            "--cases" => comparison.cases = value.parse().ok()?,
            "--keep" => comparison.keep = value.into(),
            _ => return None,
        }
    }
    Some(comparison)
}

/// Success where all is well.
fn verdict(well: bool) -> ExitCode {
    if well {
        ExitCode::SUCCESS
    } else {
        ExitCode::FAILURE
    }
}

/// The words of a command.
fn owned(words: &[&str]) -> Vec<String> {
    words.iter().map(|word| word.to_string()).collect()
}

/// Does what the words of the command line ask for; nothing where they make no sense.
fn answer(words: &[&str]) -> Option<ExitCode> {
    match words {
        ["intake"] => Some(print(intake::run(&input()).as_bytes())),
        ["replay"] | ["replay", "--begins"] => Some(print(replay::run(&input()).as_bytes())),
        ["make", "intake", seed] => Some(print(&make_intake::make(seed.parse().ok()?))),
        ["make", "replay", seed] => Some(print(&make_replay::make(seed.parse().ok()?))),
        ["selftest"] => Some(verdict(selftest::run())),
        ["compare", rest @ ..] => Some(verdict(comparison(rest)?.run())),
        ["guard", rest @ ..] => Some(verdict(guard::guarded(&owned(rest)))),
        _ => None,
    }
}

/// The program.
fn main() -> ExitCode {
    let words: Vec<String> = std::env::args().skip(1).collect();
    let words: Vec<&str> = words.iter().map(String::as_str).collect();
    answer(&words).unwrap_or_else(|| {
        eprint!("{USAGE}");
        ExitCode::from(2)
    })
}
