//! The answers, as the table in the repository's README.md has them.

use std::error::Error;
use std::fmt;

/// An answer of a call. A call that is refused hands back one of these as its error; its `Display`
/// is the name, the number and a plain sentence. The number 13 is unused: no call gives it.
///
/// Further answers may join the table, so a `match` on it needs an arm for the rest.
#[derive(Clone, Copy, Debug, PartialEq, Eq, Hash, PartialOrd, Ord)]
#[non_exhaustive]
#[repr(u16)]
pub enum Answer {
    /// Admitted, with the new row. No error has this answer.
    Done = 0,
    /// The store is not well formed.
    Store = 1,
    /// Bytes missing, or a length under 2.
    Short = 2,
    /// Length, payload or dependencies above their limit.
    Size = 3,
    /// Bytes left over.
    Long = 4,
    /// The kind is not 1.
    Kind = 5,
    /// The mark is neither 0 nor 1.
    Flag = 6,
    /// The mark is 0.
    Sign = 7,
    /// The id is already in the store. No error has this answer: see [`Admitted::Held`](crate::Admitted).
    Held = 8,
    /// Index 0, or index 1 with a previous field that is not zero.
    Index = 9,
    /// Index above 1, and the previous id is not in the store.
    Prev = 10,
    /// The previous row has another author.
    Owner = 11,
    /// The index is not the previous one plus 1.
    Step = 12,
    /// A dependency id that is not in the store.
    Dep = 14,
    /// A dependency of the message's own author, or two of one author.
    DepOwner = 15,
    /// No free row, no place for a new author, or too few dependency places.
    Full = 16,
    /// The log state is not valid.
    State = 17,
    /// Two states of different authors.
    Pair = 18,
    /// Row 0, a row above the row count, or another author's row.
    Row = 19,
    /// The frontier is not valid.
    Frontier = 20,
    /// The output is shorter than the result.
    Room = 21,
    /// A key or an id that the store lacks.
    Unknown = 22,
    /// The store or the message breaks M7.
    Backstep = 23,
    /// The log is whole: a growing state has no branches to list.
    Whole = 24,
    /// The payload is no release, or the desk's parts are damaged.
    Payload = 25,
    /// An owner above the author count.
    Ownerless = 26,
    /// A component number outside 1 to 512.
    Component = 27,
}

impl Answer {
    /// Every answer, in the order of their numbers.
    pub const ALL: [Answer; 27] = [
        Answer::Done,
        Answer::Store,
        Answer::Short,
        Answer::Size,
        Answer::Long,
        Answer::Kind,
        Answer::Flag,
        Answer::Sign,
        Answer::Held,
        Answer::Index,
        Answer::Prev,
        Answer::Owner,
        Answer::Step,
        Answer::Dep,
        Answer::DepOwner,
        Answer::Full,
        Answer::State,
        Answer::Pair,
        Answer::Row,
        Answer::Frontier,
        Answer::Room,
        Answer::Unknown,
        Answer::Backstep,
        Answer::Whole,
        Answer::Payload,
        Answer::Ownerless,
        Answer::Component,
    ];

    /// The answer with a number, if there is one.
    pub fn from_number(number: u16) -> Option<Answer> {
        Answer::ALL
            .into_iter()
            .find(|answer| answer.number() == number)
    }

    /// The number in the table.
    pub fn number(self) -> u16 {
        self as u16
    }

    /// The name in the table.
    pub fn name(self) -> &'static str {
        match self {
            Answer::Done => "done",
            Answer::Store => "STORE",
            Answer::Short => "SHORT",
            Answer::Size => "SIZE",
            Answer::Long => "LONG",
            Answer::Kind => "KIND",
            Answer::Flag => "FLAG",
            Answer::Sign => "SIGN",
            Answer::Held => "HELD",
            Answer::Index => "INDEX",
            Answer::Prev => "PREV",
            Answer::Owner => "OWNER",
            Answer::Step => "STEP",
            Answer::Dep => "DEP",
            Answer::DepOwner => "DEPOWNER",
            Answer::Full => "FULL",
            Answer::State => "STATE",
            Answer::Pair => "PAIR",
            Answer::Row => "ROW",
            Answer::Frontier => "FRONTIER",
            Answer::Room => "ROOM",
            Answer::Unknown => "UNKNOWN",
            Answer::Backstep => "BACKSTEP",
            Answer::Whole => "WHOLE",
            Answer::Payload => "PAYLOAD",
            Answer::Ownerless => "OWNERLESS",
            Answer::Component => "COMPONENT",
        }
    }

    /// What to tell the person at the desk.
    pub fn sentence(self) -> &'static str {
        match self {
            Answer::Done => "The item was taken into the store.",
            Answer::Store => {
                "The tables of the store are damaged, so nothing was worked out from them."
            }
            Answer::Short => "The item ends too early: bytes are missing.",
            Answer::Size => {
                "The item is too large, or carries too long a payload or too many dependencies."
            }
            Answer::Long => "There are bytes left over after the end of the item.",
            Answer::Kind => "This is no message: the item's kind is not 1.",
            Answer::Flag => "The mark of the signature check is damaged: it is neither 0 nor 1.",
            Answer::Sign => "The signature was not found good.",
            Answer::Held => "The store has this item already.",
            Answer::Index => "The index is 0, or the author's first message names one before it.",
            Answer::Prev => {
                "The message before this one is not in the store; that has to come first."
            }
            Answer::Owner => "The item follows a message of another author.",
            Answer::Step => "The index is not one more than that of the message before.",
            Answer::Dep => {
                "A message that the item depends on is not in the store; it has to come first."
            }
            Answer::DepOwner => {
                "The item depends on its own author, or on two messages of one author."
            }
            Answer::Full => {
                "The store has no room for the message, its author or its dependencies."
            }
            Answer::State => "The log state is damaged, or is of another store.",
            Answer::Pair => "The two log states are of different authors.",
            Answer::Row => "There is no such message here, or it is another author's.",
            Answer::Frontier => "The frontier is damaged, or is of another store.",
            Answer::Room => "The room for the result is too small.",
            Answer::Unknown => "A key or a message that is named is not in the store.",
            Answer::Backstep => {
                "An author depends on an older message of another than it did before."
            }
            Answer::Whole => {
                "The log is whole: it has not forked, so there are no branches to show."
            }
            Answer::Payload => "The payload is no release, or the desk's tables are damaged.",
            Answer::Ownerless => "A component's owner is an author that the store does not have.",
            Answer::Component => "There is no component with this number.",
        }
    }

    /// The refusal that a number stands for. No call gives a number outside the table; if one came all
    /// the same, nothing could be relied on, which is what [`Answer::Store`] says.
    pub(crate) fn refusal(number: u16) -> Answer {
        Answer::from_number(number).unwrap_or(Answer::Store)
    }

    /// Nothing where the number is that of done, and the refusal where it is not.
    pub(crate) fn checked(number: u16) -> Result<(), Answer> {
        match Answer::refusal(number) {
            Answer::Done => Ok(()),
            why => Err(why),
        }
    }
}

impl fmt::Display for Answer {
    fn fmt(&self, f: &mut fmt::Formatter<'_>) -> fmt::Result {
        write!(
            f,
            "{} ({}): {}",
            self.name(),
            self.number(),
            self.sentence()
        )
    }
}

impl Error for Answer {}

#[cfg(test)]
mod tests {
    use super::Answer;

    #[test]
    fn only_0_is_done_and_a_number_outside_the_table_is_a_refusal() {
        assert_eq!(Answer::checked(0), Ok(()));
        assert_eq!(Answer::checked(14), Err(Answer::Dep));
        assert_eq!(Answer::checked(21), Err(Answer::Room));
        assert_eq!(Answer::checked(24), Err(Answer::Whole));
        for number in (28..=u16::MAX).chain([13]) {
            assert_eq!(Answer::checked(number), Err(Answer::Store));
        }
    }
}
