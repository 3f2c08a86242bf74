//! The report of document 02, Note 7: for each duct 1 to 255, how many switches other than the root lose exactly two
//! walks when all its links fail, and how many lose all three, over closed sessions that are added one after another.

use crate::session::Session;
use crate::tables::Tables;
use crate::{refuse, Plant, Refusal};

/// A report adds so many sessions.
pub const MOST_SESSIONS: u16 = 65_535;
/// Sums are kept by the number of the duct; 0 is no duct.
pub const DUCTS: usize = 256;

#[derive(Clone, Debug, PartialEq, Eq)]
pub struct Report {
    pub sessions: u16,
    /// By duct, the switches that lose exactly two walks, and those that lose all three.
    pub two: [u32; DUCTS],
    pub three: [u32; DUCTS],
}

impl Report {
    pub const EMPTY: Report = Report { sessions: 0, two: [0; DUCTS], three: [0; DUCTS] };

    /// Adds a closed session, by the walks of the tables that it has.
    pub fn add(&mut self, session: &Session, plant: Plant) -> Result<(), Refusal> {
        let is_full = self.sessions == MOST_SESSIONS;
        if is_full && plant == Plant::WrongTurn {
            return refuse(25, 0);
        }
        let tables = session.tables()?;
        if is_full {
            return refuse(25, 0);
        }
        self.sessions += 1;
        let [one, two, three] = [1, 2, 3].map(|tree| along_walks(tables, tree));
        for s in (0..tables.switches).filter(|&s| s != usize::from(tables.root)) {
            let [one, two, three] = [one[s], two[s], three[s]];
            let all = one.and(two).and(three);
            let some = one.and(two).or(one.and(three)).or(two.and(three));
            let exactly_two = if plant == Plant::WrongTwo { some } else { some.without(all) };
            exactly_two.each(plant, |duct| self.two[duct] = self.two[duct].wrapping_add(1));
            all.each(plant, |duct| self.three[duct] = self.three[duct].wrapping_add(1));
        }
        Ok(())
    }
}

/// A set of ducts, with 0 for a link in none.
#[derive(Clone, Copy, Default)]
struct Set([u64; DUCTS / 64]);

impl Set {
    fn with(mut self, duct: u8) -> Set {
        self.0[usize::from(duct) / 64] |= 1 << (duct % 64);
        self
    }

    fn by(self, other: Set, how: fn(u64, u64) -> u64) -> Set {
        Set(std::array::from_fn(|at| how(self.0[at], other.0[at])))
    }

    fn and(self, other: Set) -> Set {
        self.by(other, |a, b| a & b)
    }

    fn or(self, other: Set) -> Set {
        self.by(other, |a, b| a | b)
    }

    fn without(self, other: Set) -> Set {
        self.by(other, |a, b| a & !b)
    }

    /// Calls `each` with the ducts of the set; 0 never fails as a duct.
    fn each(self, plant: Plant, mut each: impl FnMut(usize)) {
        let mut rest = self;
        if plant != Plant::WrongNone {
            rest.0[0] &= !1;
        }
        for (at, word) in rest.0.iter_mut().enumerate() {
            while *word != 0 {
                each(64 * at + word.trailing_zeros() as usize);
                *word &= *word - 1;
            }
        }
    }
}

/// For each switch the ducts along its walk in a tree: those of its parent's walk, and that of the link to it.
fn along_walks(tables: &Tables, tree: u16) -> Vec<Set> {
    let mut along = vec![None; tables.switches];
    along[tables.root as usize] = Some(Set::default());
    let mut open = Vec::new();
    for s in 0..tables.switches as u16 {
        let mut at = s;
        while along[at as usize].is_none() {
            open.push(at);
            at = tables.parent(at, tree);
        }
        let mut ducts = along[at as usize].expect("the walk of this switch is known");
        while let Some(child) = open.pop() {
            let link = tables.network.link_between(child, tables.parent(child, tree)).expect("a parent is a neighbour");
            ducts = ducts.with(tables.network.table[link].duct);
            along[child as usize] = Some(ducts);
        }
    }
    along.into_iter().map(Option::unwrap_or_default).collect()
}
