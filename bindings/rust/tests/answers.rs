//! The answers are those of the table in the repository's README.md.

use std::collections::BTreeSet;
use std::error::Error;

use snowknoll::Answer;

/// The numbers that no answer has; their lines in the table have a dash for a name.
const UNUSED: [u16; 1] = [13];

/// The number and name of each line of the table.
fn table() -> Vec<(u16, String)> {
    let page = include_str!("../../../README.md");
    let (_, rest) = page
        .split_once("\n## Answers\n")
        .expect("the section Answers");
    let section = rest.split("\n## ").next().unwrap_or(rest);
    section
        .lines()
        .filter_map(|line| {
            let mut cells = line.strip_prefix('|')?.split('|').map(str::trim);
            let number = cells.next()?.parse().ok()?;
            Some((number, cells.next()?.to_string()))
        })
        .collect()
}

#[test]
fn the_table_and_the_answers_are_the_same() {
    let mut mine: Vec<(u16, String)> = Answer::ALL
        .iter()
        .map(|answer| (answer.number(), answer.name().to_string()))
        .collect();
    for number in UNUSED {
        mine.insert(usize::from(number), (number, "-".to_string()));
    }
    assert_eq!(mine, table());
}

#[test]
fn a_number_is_read_back_and_no_other_number_is_an_answer() {
    for number in 0..=u16::MAX {
        let known = number <= 27 && !UNUSED.contains(&number);
        let read = Answer::from_number(number).map(Answer::number);
        assert_eq!(read, known.then_some(number));
    }
    assert_eq!(Answer::from_number(12), Some(Answer::Step));
    assert_eq!(Answer::from_number(14), Some(Answer::Dep));
    assert_eq!(Answer::from_number(15), Some(Answer::DepOwner));
    assert_eq!(Answer::Done.number(), 0);
    assert_eq!(Answer::Room.number(), 21);
    assert_eq!(Answer::Whole.number(), 24);
}

#[test]
fn each_answer_prints_its_name_number_and_sentence() {
    assert_eq!(
        Answer::DepOwner.to_string(),
        "DEPOWNER (15): The item depends on its own author, or on two messages of one author."
    );
    for answer in Answer::ALL {
        let error: Box<dyn Error> = Box::new(answer);
        let start = format!("{} ({}): ", answer.name(), answer.number());
        let said = error.to_string();
        let sentence = said.strip_prefix(&start).expect("name and number");
        assert_eq!(sentence, answer.sentence());
        assert!(sentence.ends_with('.') && sentence.len() > 20, "{sentence}");
    }
    let sentences: BTreeSet<&str> = Answer::ALL.map(Answer::sentence).into();
    assert_eq!(sentences.len(), Answer::ALL.len());
}
