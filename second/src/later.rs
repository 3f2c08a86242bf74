//! Third walks by search (document 02, Note 6), from a list of ears alone: the neighbours born in a later ear, the
//! shortest way along such neighbours to last, found in levels from last, and the walk by the lowest number, as before
//! the note. It shares no code with the tables.

use crate::network::{Link, Site};

/// For each switch its neighbours born in a later ear, lowest number first.
pub struct Later {
    root: u16,
    last: u16,
    later: Vec<Vec<u16>>,
    /// The count of switches of the shortest walk along later-born neighbours to last and on to root, if there is one.
    shortest: Vec<Option<usize>>,
}

impl Later {
    /// None where a switch of the site is in no ear of the list.
    pub fn of(site: &Site, list: &[Vec<u16>]) -> Option<Later> {
        let mut birth = vec![None; site.switches.into()];
        for (at, ear) in list.iter().enumerate() {
            ear.iter().for_each(|&s| _ = birth[s as usize].get_or_insert(at));
        }
        let birth: Vec<usize> = birth.into_iter().collect::<Option<_>>()?;
        let mut later = vec![Vec::new(); birth.len()];
        for Link { a, b, .. } in site.links.iter().flat_map(|link| [*link, link.turned()]) {
            if birth[a as usize] < birth[b as usize] {
                later[a as usize].push(b);
            }
        }
        later.iter_mut().for_each(|row| row.sort());
        let shortest = levels(&later, site.last);
        Some(Later { root: site.root, last: site.last, later, shortest })
    }

    /// The neighbours of a switch that are born in a later ear.
    pub fn of_switch(&self, switch: u16) -> &[u16] {
        &self.later[switch as usize]
    }

    /// The length of the shortest third walk of a switch.
    pub fn shortest(&self, switch: u16) -> Option<usize> {
        if switch == self.root {
            return Some(1);
        }
        self.shortest[switch as usize]
    }

    /// The later-born neighbours of a switch with the shortest third walks, lowest number first.
    pub fn nearest(&self, switch: u16) -> Vec<u16> {
        let later = self.of_switch(switch).iter().copied();
        let known = later.filter_map(|other| Some((self.shortest(other)?, other)));
        let least = known.clone().map(|(length, _)| length).min();
        known.filter(|(length, _)| Some(*length) == least).map(|(_, other)| other).collect()
    }

    /// The third walk of a switch as it was before the note; none where a switch on it has no later-born neighbour.
    pub fn lowest_walk(&self, switch: u16) -> Option<Vec<u16>> {
        let mut walk = vec![switch];
        let mut at = switch;
        while at != self.root {
            at = if at == self.last { self.root } else { *self.of_switch(at).first()? };
            walk.push(at);
        }
        Some(walk)
    }

    /// Whether this is the third walk of a switch, by the levels: each step leads to the lowest of the nearest.
    pub fn check_walk(&self, switch: u16, walk: &[u16]) -> Result<(), String> {
        let mut expected = vec![switch];
        let mut at = switch;
        while at != self.root {
            let next = if at == self.last { Some(self.root) } else { self.nearest(at).first().copied() };
            at = next.ok_or(format!("switch {at} has no neighbour born later that leads to last"))?;
            expected.push(at);
        }
        match walk == expected {
            true => Ok(()),
            false => Err(format!("the third walk of {switch} is {walk:?}, not {expected:?}")),
        }
    }

    /// Whether these are the third walks of all switches, by the words of the note and by themselves alone: each begins
    /// with its switch and goes on with the walk of a later-born neighbour, such that no other has a shorter one, and
    /// none with a lower number one as short.
    pub fn check_rule<'a>(&self, walk_of: &dyn Fn(u16) -> &'a [u16]) -> Result<(), String> {
        for switch in 0..self.later.len() as u16 {
            let walk = walk_of(switch);
            let fault = |what: &str| Err(format!("the third walk of {switch}, {walk:?}: {what}"));
            if switch == self.root || switch == self.last {
                let wanted = if switch == self.root { &[switch][..] } else { &[switch, self.root] };
                if walk != wanted {
                    return fault("root and last have other walks");
                }
                continue;
            }
            let Some(&entry) = walk.get(1).filter(|entry| self.of_switch(switch).contains(entry)) else {
                return fault("it does not go on to a neighbour born later");
            };
            if walk[0] != switch || walk[1..] != *walk_of(entry) {
                return fault("it is not followed by the walk of its parent");
            }
            for &other in self.of_switch(switch) {
                let (chosen, others) = (walk_of(entry).len(), walk_of(other).len());
                if others < chosen || others == chosen && other < entry {
                    return fault(&format!("that of {other} is shorter, or as short with a lower number"));
                }
            }
        }
        Ok(())
    }
}

/// In rounds from last: the switches with a later-born neighbour of the round before, that were in no round yet.
fn levels(later: &[Vec<u16>], last: u16) -> Vec<Option<usize>> {
    let mut earlier = vec![Vec::new(); later.len()];
    for (s, row) in later.iter().enumerate() {
        row.iter().for_each(|&other| earlier[other as usize].push(s as u16));
    }
    let mut levels = vec![None; later.len()];
    let mut round = vec![last];
    let mut length = 2;
    while !round.is_empty() {
        round.retain(|&s| levels[s as usize].is_none());
        round.iter().for_each(|&s| levels[s as usize] = Some(length));
        round = round.iter().flat_map(|&s| earlier[s as usize].iter().copied()).collect();
        length += 1;
    }
    levels
}
