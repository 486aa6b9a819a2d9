//! Runs two other programs on seeded inputs and compares every byte with what they must print.

use std::fs;
use std::io::{Read, Write};
use std::path::PathBuf;
use std::process::{Command, ExitStatus, Stdio};
use std::sync::atomic::{AtomicU64, Ordering};
use std::sync::Mutex;

use crate::tally::Tally;
use crate::{intake, make_intake, make_replay, replay};

/// How many programs run at a time.
const WORKERS: usize = 2;

/// What to compare: the words of each program's command, the seeds, and where to keep what differs.
#[derive(Default)]
pub struct Comparison {
    pub intake: Vec<String>,
    pub replay: Vec<String>,
    pub seed: u64,
    pub cases: u64,
    pub keep: PathBuf,
    pub stop_at_first: bool,
}

/// One input: for which program, and its own seed.
#[derive(Clone, Copy)]
struct Case {
    is_intake: bool,
    seed: u64,
}

impl Case {
    /// The name of a case, and of the files that are kept of it.
    fn name(&self) -> String {
        format!(
            "{}-{}",
            if self.is_intake { "intake" } else { "replay" },
            self.seed
        )
    }

    /// The input, and what the program must print.
    fn input_and_output(&self) -> (Vec<u8>, String) {
        if self.is_intake {
            let input = make_intake::make(self.seed);
            let output = intake::run(&input);
            return (input, output);
        }
        let input = make_replay::make(self.seed);
        let output = replay::run(&input);
        (input, output)
    }
}

/// What a program printed and how it ended; nothing when it could not be started.
pub fn run(words: &[String], input: &[u8]) -> std::io::Result<(Vec<u8>, ExitStatus)> {
    let (program, arguments) = words.split_first().ok_or(std::io::ErrorKind::NotFound)?;
    let mut command = Command::new(program);
    command
        .args(arguments)
        .stdin(Stdio::piped())
        .stdout(Stdio::piped())
        .stderr(Stdio::null());
    let mut child = command.spawn()?;
    let (stdin, stdout) = (child.stdin.take(), child.stdout.take());
    let mut printed = Vec::new();
    std::thread::scope(|scope| {
        scope.spawn(|| {
            // A program may end before it has read everything; the pipe is then closed.
            let _ = stdin.map(|mut pipe| pipe.write_all(input));
        });
        stdout.map_or(Ok(0), |mut pipe| pipe.read_to_end(&mut printed))
    })?;
    Ok((printed, child.wait()?))
}

impl Comparison {
    /// The case of a number: intakes and scripts in turn, each kind with consecutive seeds.
    fn case(&self, number: u64) -> Case {
        Case {
            is_intake: number % 2 == 0,
            seed: self.seed.wrapping_mul(1_000_000).wrapping_add(number / 2),
        }
    }

    /// The words that run the program of a case. In every second script each part that is lent
    /// begins at a guard; in the others it ends at one.
    fn words(&self, case: &Case) -> Vec<String> {
        if case.is_intake {
            return self.intake.clone();
        }
        let mut words = self.replay.clone();
        if make_replay::begins(case.seed) {
            words.push("--begins".into());
        }
        words
    }

    /// Keeps a case whose output differs: its input, what must be printed and what was.
    fn keep_case(
        &self,
        case: &Case,
        input: &[u8],
        expected: &str,
        printed: &[u8],
    ) -> std::io::Result<PathBuf> {
        fs::create_dir_all(&self.keep)?;
        let path = self.keep.join(case.name());
        fs::write(path.with_extension("input"), input)?;
        fs::write(path.with_extension("expected"), expected)?;
        fs::write(path.with_extension("printed"), printed)?;
        Ok(path.with_extension("input"))
    }

    /// Runs one case; a line that says what is wrong, where something is.
    fn try_case(&self, case: &Case, tally: &Mutex<Tally>) -> Option<String> {
        let (input, expected) = case.input_and_output();
        if let Ok(mut tally) = tally.lock() {
            if case.is_intake {
                tally.count_intake(&expected)
            } else {
                tally.count_replay(&expected)
            }
        }
        let words = self.words(case);
        let (printed, ended_well) = match run(&words, &input) {
            Ok((printed, status)) => (printed, status.success()),
            Err(error) => {
                return Some(format!(
                    "{}: {} could not be run: {error}",
                    case.name(),
                    words.join(" ")
                ))
            }
        };
        if ended_well && printed == expected.as_bytes() {
            return None;
        }
        let place = expected
            .bytes()
            .zip(&printed)
            .take_while(|(one, other)| one == *other)
            .count();
        let line = expected[..place].matches('\n').count() + 1;
        let ending = if ended_well {
            ""
        } else {
            ", and it did not end with 0"
        };
        let kept = self.keep_case(case, &input, &expected, &printed);
        let kept = kept.map_or_else(|error| error.to_string(), |path| path.display().to_string());
        Some(format!(
            "{} differs from line {line}{ending}: {kept}",
            case.name()
        ))
    }

    /// Runs all cases: whether all is well. Prints what differs, and the counts of answers.
    pub fn run(&self) -> bool {
        let tally = Mutex::new(Tally::default());
        let wrong = Mutex::new(Vec::new());
        let next = AtomicU64::new(0);
        let work = || loop {
            let number = next.fetch_add(1, Ordering::Relaxed);
            if number >= 2 * self.cases {
                return;
            }
            let case = self.case(number);
            if let Some(line) = self.try_case(&case, &tally) {
                wrong
                    .lock()
                    .unwrap_or_else(|held| held.into_inner())
                    .push(line);
                if self.stop_at_first {
                    next.store(2 * self.cases, Ordering::Relaxed);
                }
            }
        };
        std::thread::scope(|scope| {
            for _ in 0..WORKERS {
                scope.spawn(work);
            }
        });
        let tally = tally.into_inner().unwrap_or_else(|held| held.into_inner());
        self.report(
            &tally,
            wrong.into_inner().unwrap_or_else(|held| held.into_inner()),
        )
    }

    /// Prints the end of a run: whether all is well.
    fn report(&self, tally: &Tally, wrong: Vec<String>) -> bool {
        for line in &wrong {
            println!("{line}");
        }
        if self.stop_at_first {
            return wrong.is_empty();
        }
        print!("{}", tally.table());
        let complaints = tally.complaints();
        for complaint in &complaints {
            println!("{complaint}");
        }
        let (cases, lines) = (self.cases, tally.lines);
        println!(
            "{cases} intakes and {cases} scripts, {lines} lines: {} differ",
            wrong.len()
        );
        wrong.is_empty() && complaints.is_empty()
    }
}
