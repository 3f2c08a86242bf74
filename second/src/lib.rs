//! A second reading of document 01, written from the papers alone.
//!
//! The judge and the dialogue:
//! `lines` reads a line, `dialogue` answers a whole input, `session` is the
//! machine of three stages, `network` has the checks of loading, `judge` the
//! checks of ears, `order`, `tables`, `thirds` and `zones` what a closed list gives, `ducts` the report over closed
//! sessions, `routes` what there is between two switches.
//!
//! What checks them:
//! `brute` has Definition 9, demand 3, zones and lost walks over whole lists, `later` third walks by search, `parting` holds
//! an answer about two switches by search, `follow` holds an output against them, `seen` counts what has to be seen,
//! `random`, `plan`, `damage` and `script` make inputs, `compare` and `shrink` find a difference and make it small.
//!
//! With the static archive of the first program linked (the cfg `archive`):
//! `archive` declares it, `calls` compares each of its calls.

#[cfg(archive)]
pub mod archive;
pub mod brute;
#[cfg(archive)]
pub mod calls;
pub mod compare;
pub mod damage;
pub mod dialogue;
pub mod ducts;
pub mod every;
pub mod follow;
pub mod judge;
pub mod later;
pub mod lines;
pub mod network;
pub mod order;
pub mod parting;
pub mod plan;
pub mod random;
pub mod routes;
pub mod script;
pub mod seen;
pub mod session;
pub mod shrink;
pub mod tables;
pub mod thirds;
pub mod zones;

use thirds::Rule;

/// A refusal is a number and a place (document 01, 'Refusals from the input').
#[derive(Clone, Copy, Debug, PartialEq, Eq)]
pub struct Refusal {
    pub number: u8,
    pub place: usize,
}

/// A refusal as the error of a call.
pub fn refuse<T>(number: u8, place: usize) -> Result<T, Refusal> {
    Err(Refusal { number, place })
}

/// A fault put in on purpose, so that a test can see a comparison find it.
/// The dialogue program itself always runs with `Plant::Nothing`.
#[derive(Clone, Copy, Debug, PartialEq, Eq, Default)]
pub enum Plant {
    #[default]
    Nothing,
    /// Refusal 10 tells the place of the latter switch.
    WrongPlace,
    /// A is the end with the lower number, not the earlier one in the order.
    WrongParent,
    /// Check 15 forgets that an end may be root.
    WrongList,
    /// An empty ear takes links with one switch unborn too.
    WrongLinks,
    /// The checks of an ear are asked in number order, as before document 02, Note 3.
    WrongOrder,
    /// The sizes of zones 1 and 2 are exchanged. No line asks for zones: this and the next show in calls alone.
    WrongSizes,
    /// A slice too short for the zones is told before wrong sizes.
    WrongRoom,
    /// Tree 3 has the lowest numbers, as before document 02, Note 6.
    WrongRule,
    /// Tree 3 has the highest number among the neighbours with the shortest third walk.
    WrongTie,
    /// The duct of a line is cut to 8 bits: 256 is read as 0.
    WrongDuct,
    /// A link that repeats an earlier one with another duct is taken for another link.
    WrongRepeat,
    /// A report counts links in no duct as those of duct 0. No line asks for a report: this and the next two show in
    /// calls alone.
    WrongNone,
    /// A report counts the switches that lose all three walks among those that lose two.
    WrongTwo,
    /// A full report is told before the state of the session.
    WrongTurn,
    /// A slice too short for three walks is told before two switches that are equal or none of the network. No line asks
    /// for routes: this and the next two show in calls alone.
    WrongSlice,
    /// The direct link of two switches makes two of the three walks.
    WrongTwice,
    /// The direct link is left out of what parts two switches.
    WrongParting,
}

impl Plant {
    pub fn from_number(number: u64) -> Option<Plant> {
        match number {
            0 => Some(Plant::Nothing),
            1 => Some(Plant::WrongPlace),
            2 => Some(Plant::WrongParent),
            3 => Some(Plant::WrongList),
            4 => Some(Plant::WrongLinks),
            5 => Some(Plant::WrongOrder),
            6 => Some(Plant::WrongSizes),
            7 => Some(Plant::WrongRoom),
            8 => Some(Plant::WrongRule),
            9 => Some(Plant::WrongTie),
            10 => Some(Plant::WrongDuct),
            11 => Some(Plant::WrongRepeat),
            12 => Some(Plant::WrongNone),
            13 => Some(Plant::WrongTwo),
            14 => Some(Plant::WrongTurn),
            16 => Some(Plant::WrongSlice),
            17 => Some(Plant::WrongTwice),
            18 => Some(Plant::WrongParting),
            _ => None,
        }
    }

    /// How tree 3 is set.
    pub fn rule(self) -> Rule {
        match self {
            Plant::WrongRule => Rule::Lowest,
            Plant::WrongTie => Rule::ShortestHighest,
            _ => Rule::Shortest,
        }
    }
}
