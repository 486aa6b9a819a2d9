#![doc = include_str!("../README.md")]
#![deny(missing_docs)]
#![deny(unsafe_code)]

mod answer;
#[allow(unsafe_code)]
mod calls;
mod catalogue;
mod desk;
mod frontier;
mod intake;
pub mod item;
mod lists;
mod raw;
mod salvage;
mod standing;
mod state;
mod states;
mod store;

pub use answer::Answer;
pub use catalogue::Backstep;
pub use desk::{Desk, Release, COMPONENTS};
pub use frontier::Frontier;
pub use salvage::Salvage;
pub use standing::LONGEST_STANDING;
pub use state::{LogState, Phase};
pub use states::{Branch, Prefix};
pub use store::{Admitted, Parts, Row, Store, MOST_AUTHORS, MOST_DEPENDENCIES, MOST_ROWS};
