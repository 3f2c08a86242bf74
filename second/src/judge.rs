//! The judge of an open session: the checks of ears, refusals 7 to 16 of document 01 in the order of document 02,
//! Note 3, and 23 on closing; and the empty ear of document 02, Note 2.

use std::ops::Range;

use crate::network::{Link, Network};
use crate::seen::Crossed;
use crate::{refuse, Plant, Refusal};

/// The birth of a switch that is in no ear yet.
pub const UNBORN: u32 = u32::MAX;

#[derive(Clone, Debug)]
pub struct Judge {
    pub network: Network,
    /// For each switch the index of the first ear that holds it, or `UNBORN`.
    pub birth: Vec<u32>,
    /// The long ears as they were written.
    pub long_ears: Vec<Vec<u16>>,
    /// How many ears were accepted, with those that empty ears stand for.
    ears: u32,
    unborn: usize,
    used: Vec<bool>,
    /// `seen[s] == round` when switch s stands in the ear at hand.
    seen: Vec<u32>,
    round: u32,
    /// The links of the ear at hand.
    links: Vec<usize>,
    plant: Plant,
}

/// A check: its number, and a test that gives the first offending place. The tests of 9 and 10 note the ear's switches
/// and links for those that come after them.
type Check = (u8, fn(&mut Judge, &[u16]) -> Option<usize>);

/// The checks of an ear in the order in which they are asked: document 01's, with 14 where document 02, Note 3, has it.
const CHECKS: [Check; 10] = [
    (7, Judge::wrong_length),
    (8, Judge::no_switch),
    (9, Judge::second_standing),
    (10, Judge::not_joined),
    (14, Judge::born_between),
    (11, Judge::used_link),
    (12, Judge::not_root_to_first),
    (13, Judge::unborn_end),
    (15, Judge::last_too_early),
    (16, Judge::no_unborn_neighbour),
];

impl Judge {
    pub fn new(network: Network, plant: Plant) -> Judge {
        let (n, m) = (network.switches, network.links);
        Judge {
            network,
            birth: vec![UNBORN; n],
            long_ears: Vec::new(),
            ears: 0,
            unborn: n,
            used: vec![false; m],
            seen: vec![0; n],
            round: 0,
            links: Vec::new(),
            plant,
        }
    }

    pub fn is_born(&self, switch: u16) -> bool {
        self.birth[switch as usize] != UNBORN
    }

    pub fn is_used(&self, link: usize) -> bool {
        self.used[link]
    }

    fn is_first_ear(&self) -> bool {
        self.ears == 0
    }

    /// Offers an ear; gives the number of its new switches.
    pub fn ear(&mut self, ear: &[u16]) -> Result<usize, Refusal> {
        if ear.is_empty() && !self.is_first_ear() {
            self.take_leftover_links();
            return Ok(0);
        }
        let refusal = match self.plant {
            Plant::WrongOrder => self.former_refusal(ear),
            _ => self.refusal(ear),
        };
        match refusal {
            Some(refusal) => Err(refusal),
            None => Ok(self.accept(ear)),
        }
    }

    /// The first check that an ear with numbers fails, and the first offending place.
    pub fn refusal(&mut self, ear: &[u16]) -> Option<Refusal> {
        self.ask(CHECKS, ear)
    }

    /// The same before document 02, Note 3: document 01 asks the checks in number order.
    pub fn former_refusal(&mut self, ear: &[u16]) -> Option<Refusal> {
        let mut checks = CHECKS;
        checks.sort_by_key(|(number, _)| *number);
        self.ask(checks, ear)
    }

    /// Which case of Note 3 the ear is: by the number that it was refused by before.
    pub fn crossed(&mut self, ear: &[u16]) -> Option<Crossed> {
        let former = self.former_refusal(ear);
        if former == self.refusal(ear) {
            return None;
        }
        match former.map(|refusal| refusal.number) {
            Some(11) => Some(Crossed::UsedLink),
            Some(13) => Some(Crossed::UnbornEnd),
            _ => panic!("the note changes no other answer than 11 and 13: {ear:?}"),
        }
    }

    fn ask(&mut self, checks: [Check; 10], ear: &[u16]) -> Option<Refusal> {
        checks.into_iter().find_map(|(number, test)| Some(Refusal { number, place: test(self, ear)? }))
    }

    fn wrong_length(&mut self, ear: &[u16]) -> Option<usize> {
        let fewest = if self.is_first_ear() { 3 } else { 2 };
        (ear.len() < fewest || ear.len() > self.network.switches).then_some(0)
    }

    fn no_switch(&mut self, ear: &[u16]) -> Option<usize> {
        ear.iter().position(|&s| s as usize >= self.network.switches)
    }

    /// Marks the switches as seen in this round.
    fn second_standing(&mut self, ear: &[u16]) -> Option<usize> {
        self.round += 1;
        let round = self.round;
        ear.iter().position(|&s| std::mem::replace(&mut self.seen[s as usize], round) == round)
    }

    /// Notes the links.
    fn not_joined(&mut self, ear: &[u16]) -> Option<usize> {
        self.links.clear();
        for (place, two) in ear.windows(2).enumerate() {
            match self.network.link_between(two[0], two[1]) {
                Some(link) => self.links.push(link),
                None if self.plant == Plant::WrongPlace => return Some(place + 1),
                None => return Some(place),
            }
        }
        None
    }

    /// The places of the new switches: in the first ear all, in a later one those between its ends.
    fn new_places(&self, ear: &[u16]) -> Range<usize> {
        if self.is_first_ear() {
            0..ear.len()
        } else {
            1..ear.len() - 1
        }
    }

    /// Nobody is born before the first ear.
    fn born_between(&mut self, ear: &[u16]) -> Option<usize> {
        self.new_places(ear).find(|&place| self.is_born(ear[place]))
    }

    fn used_link(&mut self, _: &[u16]) -> Option<usize> {
        self.links.iter().position(|&link| self.used[link])
    }

    fn not_root_to_first(&mut self, ear: &[u16]) -> Option<usize> {
        let ends = [ear[0], ear[ear.len() - 1]];
        (self.is_first_ear() && ends != [self.network.root, self.network.first]).then_some(0)
    }

    fn unborn_end(&mut self, ear: &[u16]) -> Option<usize> {
        let unborn = |place: &usize| !self.is_first_ear() && !self.is_born(ear[*place]);
        [0, ear.len() - 1].into_iter().find(unborn)
    }

    /// Among new switches, last must stand alone, nobody else may be unborn after the ear, and no end may be root.
    fn last_too_early(&mut self, ear: &[u16]) -> Option<usize> {
        let mut new = self.new_places(ear);
        let count = new.len();
        let at = new.find(|&place| ear[place] == self.network.last)?;
        let root = self.network.root;
        let end_is_root = ear[0] == root || ear[ear.len() - 1] == root;
        let nobody_left = self.unborn == count;
        let allowed = count == 1 && nobody_left && (!end_is_root || self.plant == Plant::WrongList);
        (!allowed).then_some(at)
    }

    /// The new switches carry the mark of this round, as the whole ear does; its ends are born, so a neighbour that is
    /// neither born nor marked is still unborn after the ear.
    fn no_unborn_neighbour(&mut self, ear: &[u16]) -> Option<usize> {
        let is_left = |s: u16| !self.is_born(s) && self.seen[s as usize] != self.round;
        let keeps = |s: u16| self.network.neighbours(s).iter().any(|other| is_left(other.switch));
        self.new_places(ear).find(|&place| ear[place] != self.network.last && !keeps(ear[place]))
    }

    /// Takes an ear that fails no check; gives the number of its new switches.
    fn accept(&mut self, ear: &[u16]) -> usize {
        for &link in &self.links {
            self.used[link] = true;
        }
        if self.is_first_ear() {
            // The closing link first-root is understood and counts as used.
            let closing = self.network.link_between(self.network.first, self.network.root);
            self.used[closing.expect("check 6 asked for link root-first")] = true;
        }
        let new = &ear[self.new_places(ear)];
        for &s in new {
            self.birth[s as usize] = self.ears;
        }
        self.unborn -= new.len();
        if ear.len() > 2 {
            self.long_ears.push(ear.to_vec());
        }
        self.ears += 1;
        new.len()
    }

    /// An empty ear takes every unused link whose two switches are born, as short ears in table order.
    fn take_leftover_links(&mut self) {
        for (link, &Link { a, b, .. }) in self.network.table.iter().enumerate() {
            let born = match self.plant {
                Plant::WrongLinks => self.is_born(a) || self.is_born(b),
                _ => self.is_born(a) && self.is_born(b),
            };
            if born && !self.used[link] {
                self.used[link] = true;
                self.ears += 1;
            }
        }
    }

    /// Refusal 23 with the lowest unused link, if one is left.
    pub fn check_close(&self) -> Result<(), Refusal> {
        match self.used.iter().position(|&used| !used) {
            Some(link) => refuse(23, link),
            None => Ok(()),
        }
    }

    /// For each switch the number of the long ear that it was born in, from 1; 0 where it is unborn.
    pub fn births(&self) -> Vec<u16> {
        let mut births = vec![0; self.network.switches];
        for (at, ear) in self.long_ears.iter().enumerate() {
            let new = if at == 0 { &ear[..] } else { &ear[1..ear.len() - 1] };
            new.iter().for_each(|&s| births[s as usize] = at as u16 + 1);
        }
        births
    }

    pub fn plant(&self) -> Plant {
        self.plant
    }
}
