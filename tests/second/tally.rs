//! Counts of the answers that a run has seen, by call, and what has to be seen of each.

use std::collections::BTreeMap;
use std::fmt::Write;

/// How often each answer that a call can give has to be seen.
const SEEN_AT_LEAST: u64 = 20;
/// The answers of an admission. 13 is unused and never given: a previous row is always a row that the
/// store already holds.
const ADMISSION: &str = "0 1 2 3 4 5 6 7 8 9 10 11 12 14 15 16";
/// The answers of a call that reads an item.
const ITEM: &str = "0 2 3 4 5";
/// Every call, and the answers that it can give: all of them have to be seen, and no other. Calls
/// that have no answer number have one answer, its line itself.
const CALLS: [(&str, &str); 36] = [
    ("intake", "0 2 3 4 5 6 7 8 9 10 11 12 14 15 16"),
    ("bad", "-"),
    ("admit", ADMISSION),
    ("load", "-"),
    ("dump", "-"),
    ("check", "0 1"),
    ("prefix", "0 1 19"),
    ("append", "0 1 17 19"),
    ("merge", "0 1 17 18"),
    ("below", "yes no 1 17 18"),
    ("fmerge", "0 1 20 21"),
    ("fbelow", "yes no 1 20"),
    ("pack", "0 1 20 21"),
    ("payload", ITEM),
    ("id", ITEM),
    ("origin", "0 1 19"),
    ("standing", "0 1 20 21"),
    ("read", "0 1 2 3 4 5 6 20 21 22"),
    ("steady", "yes no 1"),
    ("backstep", "none some 1"),
    ("catalogue", "0 1 2 3 4 5 6 7 8 9 10 11 12 14 15 16 23"),
    ("salvage", "0 3 21"),
    ("branches", "0 1 17 21 24"),
    ("desk", "-"),
    ("release-in", "0 1 2 3 4 5 6 7 8 9 10 11 12 14 15 16 25"),
    ("release", "shown none 1 20 25 26 27"),
    ("columns", "-"),
    ("layout", ITEM),
    ("find-id", "found none"),
    ("find-key", "found none"),
    ("admit-at", ADMISSION),
    ("fvalid", "yes no 1"),
    ("fappend", "0 1 19 20 21"),
    ("counts", "-"),
    ("write", "0 2 3 6 21"),
    ("batch", "0 1 21"),
];

/// The answer in a line of replay, under the name that the table has for it.
fn answer_of<'a>(words: &[&'a str]) -> &'a str {
    match words {
        ["below" | "fbelow" | "fvalid" | "steady", "0", yes] => {
            if *yes == "1" {
                "yes"
            } else {
                "no"
            }
        }
        ["backstep", "0", "0", "0"] => "none",
        ["backstep", "0", ..] => "some",
        ["release", "0", "0", ..] => "none",
        ["release", "0", ..] => "shown",
        ["find-id" | "find-key", "0"] => "none",
        ["find-id" | "find-key", _] => "found",
        ["bad" | "load" | "dump" | "counts" | "desk" | "columns", ..] => "-",
        [_, answer, ..] => answer,
        _ => "?",
    }
}

/// The counts of a run: how often each answer of each call was given; and all lines.
#[derive(Default)]
pub struct Tally {
    seen: BTreeMap<(String, String), u64>,
    pub lines: u64,
}

impl Tally {
    /// Counts one answer of a call.
    fn count(&mut self, call: &str, answer: &str) {
        *self.seen.entry((call.into(), answer.into())).or_default() += 1;
    }

    /// Counts the answers in the whole output of an intake.
    pub fn count_intake(&mut self, output: &str) {
        self.lines += output.lines().count() as u64;
        let items = output
            .lines()
            .skip(1)
            .take_while(|line| !line.starts_with("author"));
        for line in items {
            self.count("intake", line.split(' ').nth(1).unwrap_or("?"));
        }
    }

    /// Counts the answers in the whole output of a script.
    pub fn count_replay(&mut self, output: &str) {
        self.lines += output.lines().count() as u64;
        for line in output.lines() {
            let words: Vec<&str> = line.splitn(4, ' ').collect();
            self.count(words[0], answer_of(&words));
        }
    }

    /// How often an answer of a call was seen.
    fn seen(&self, call: &str, answer: &str) -> u64 {
        let key = (call.to_string(), answer.to_string());
        self.seen.get(&key).copied().unwrap_or(0)
    }

    /// The answers that were seen too seldom, and those that no call can give.
    pub fn complaints(&self) -> Vec<String> {
        let mut complaints = Vec::new();
        for (call, answers) in CALLS {
            for answer in answers.split(' ') {
                let seen = self.seen(call, answer);
                if seen < SEEN_AT_LEAST {
                    complaints.push(format!(
                        "{call} {answer} was seen {seen} times, not {SEEN_AT_LEAST}"
                    ));
                }
            }
        }
        for (call, answer) in self.seen.keys() {
            let possible = CALLS
                .iter()
                .any(|(name, answers)| name == call && answers.split(' ').any(|one| one == answer));
            if !possible {
                complaints.push(format!("{call} {answer} was seen, and cannot be given"));
            }
        }
        complaints
    }

    /// The counts, a line for each call: each answer, and how often it was seen.
    pub fn table(&self) -> String {
        let mut table = String::new();
        for (call, answers) in CALLS {
            let _ = write!(table, "{call:<8}");
            for answer in answers.split(' ') {
                let _ = write!(table, "  {answer}: {}", self.seen(call, answer));
            }
            table.push('\n');
        }
        table
    }
}
