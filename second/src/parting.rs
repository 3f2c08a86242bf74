//! Document 02, Note 8, by search: whether an answer about two switches is right, and on small networks whether three walks
//! exist, by trying all paths. It shares no code with what finds the answers. Either answer, once held, shows that the
//! other would be wrong: two things break at most two of three walks that share none, and walks that share none do not
//! all meet two things.

use std::collections::{HashMap, HashSet};

use crate::network::{Link, Site};

/// A network laid out for the search: the neighbours of each switch, and the index of the link between two.
pub struct Ground {
    near: Vec<Vec<u16>>,
    links: HashMap<(u16, u16), usize>,
}

impl Ground {
    /// Of a network, connected or not, whose links join two different switches below N.
    pub fn of(site: &Site) -> Ground {
        let mut ground = Ground { near: vec![Vec::new(); site.switches as usize], links: HashMap::new() };
        for (index, &Link { a, b, .. }) in site.links.iter().enumerate() {
            ground.near[a as usize].push(b);
            ground.near[b as usize].push(a);
            ground.links.insert((a.min(b), a.max(b)), index);
        }
        ground
    }

    fn has(&self, switch: u16) -> bool {
        usize::from(switch) < self.near.len()
    }

    fn link(&self, a: u16, b: u16) -> Option<usize> {
        self.links.get(&(a.min(b), a.max(b))).copied()
    }

    /// Names the fault of an answer about two different switches, if any. It has the eight numbers that the header for C
    /// gives, then the numbers that stand at the start of the slice by the counts of the walks.
    pub fn holds(&self, from: u16, to: u16, told: &[u16]) -> Result<(), String> {
        let Some((numbers, slice)) = told.split_at_checked(8) else {
            return Err(format!("{} numbers are no answer", told.len()));
        };
        let (counts, things) = numbers.split_at(3);
        if counts == [0; 3] {
            return match slice.len() {
                0 => self.part(from, to, things),
                count => Err(format!("no walk has the {count} numbers of the slice")),
            };
        }
        if things != [0; 5] {
            return Err(format!("walks are told, and things {things:?}"));
        }
        if counts.iter().map(|&count| usize::from(count)).sum::<usize>() != slice.len() {
            return Err(format!("counts {counts:?} for {} numbers", slice.len()));
        }
        let mut rest = slice;
        let walks: Vec<&[u16]> =
            counts.iter().map(|&count| rest.split_off(..count.into()).unwrap_or_default()).collect();
        self.are_walks(from, to, &walks)
    }

    /// Each is a walk of links from the one switch to the other, none has a switch twice, no two share a link or a switch but
    /// the ends, and together they have at most N + 4 numbers.
    fn are_walks(&self, from: u16, to: u16, walks: &[&[u16]]) -> Result<(), String> {
        let (mut inner, mut links) = (HashMap::new(), HashMap::new());
        for (walk, at) in walks.iter().zip(1..) {
            self.is_walk(from, to, walk).map_err(|fault| format!("walk {at}: {fault}"))?;
            for two in walk.windows(2) {
                if let Some(other) = links.insert(self.link(two[0], two[1]), at) {
                    return Err(format!("walks {other} and {at} share the link of {} and {}", two[0], two[1]));
                }
            }
            for &s in &walk[1..walk.len() - 1] {
                if let Some(other) = inner.insert(s, at) {
                    return Err(format!("walks {other} and {at} share switch {s}"));
                }
            }
        }
        let numbers: usize = walks.iter().map(|walk| walk.len()).sum();
        if numbers > self.near.len() + 4 {
            return Err(format!("{numbers} numbers in the walks of {} switches", self.near.len()));
        }
        Ok(())
    }

    fn is_walk(&self, from: u16, to: u16, walk: &[u16]) -> Result<(), String> {
        let (Some(&first), Some(&last)) = (walk.first(), walk.last()) else {
            return Err("it has no switch".to_string());
        };
        if first != from {
            return Err(format!("it begins with {first}, not {from}"));
        }
        if last != to {
            return Err(format!("it ends with {last}, not {to}"));
        }
        if let Some(two) = walk.windows(2).find(|two| self.link(two[0], two[1]).is_none()) {
            return Err(format!("{} and {} are not joined", two[0], two[1]));
        }
        let mut seen = HashSet::new();
        match walk.iter().find(|&&s| !seen.insert(s)) {
            Some(s) => Err(format!("switch {s} stands twice")),
            None => Ok(()),
        }
    }

    /// They are at most two, each another switch or the direct link, and no walk is left without them. The numbers are how
    /// many there are, and kind and number of each.
    fn part(&self, from: u16, to: u16, things: &[u16]) -> Result<(), String> {
        let &[count, kind1, thing1, kind2, thing2] = things else {
            return Err(format!("{things:?} are no things"));
        };
        let things = [[kind1, thing1], [kind2, thing2]];
        let Some((told, others)) = things.split_at_checked(count.into()) else {
            return Err(format!("{count} things"));
        };
        if others.iter().any(|other| *other != [0, 0]) {
            return Err(format!("{count} things, and {others:?}"));
        }
        if told.len() == 2 && told[0] == told[1] {
            return Err("the two things are one".to_string());
        }
        let direct = self.link(from, to);
        for &[kind, thing] in told {
            match kind {
                1 if !self.has(thing) => return Err(format!("switch {thing} is none of the network")),
                1 if thing == from || thing == to => return Err(format!("switch {thing} is one of the two")),
                2 if direct != Some(thing.into()) => return Err(format!("link {thing} does not join the two")),
                1 | 2 => {}
                _ => return Err(format!("a thing of kind {kind}")),
            }
        }
        let lost: Vec<u16> = told.iter().filter(|thing| thing[0] == 1).map(|thing| thing[1]).collect();
        match self.walk_left(from, to, &lost, told.iter().any(|thing| thing[0] == 2)) {
            Some(walk) => Err(format!("walk {walk:?} is left")),
            None => Ok(()),
        }
    }

    /// A walk that is left without these switches, and without the direct link where that is lost.
    fn walk_left(&self, from: u16, to: u16, lost: &[u16], no_direct: bool) -> Option<Vec<u16>> {
        let mut reached_from = vec![None; self.near.len()];
        let mut turn = vec![from];
        reached_from[from as usize] = Some(from);
        let mut at = 0;
        while at < turn.len() {
            let s = turn[at];
            at += 1;
            for &other in &self.near[s as usize] {
                let is_lost = lost.contains(&other) || (no_direct && s == from && other == to);
                if !is_lost && reached_from[other as usize].is_none() {
                    reached_from[other as usize] = Some(s);
                    turn.push(other);
                }
            }
        }
        let mut walk = vec![to];
        while walk[walk.len() - 1] != from {
            walk.push(reached_from[walk[walk.len() - 1] as usize]?);
        }
        walk.reverse();
        Some(walk)
    }

    /// Whether three walks exist between two switches, on a network of at most 32: all paths are tried, three by three.
    pub fn three_walks(&self, from: u16, to: u16) -> bool {
        let mut paths = Vec::new();
        self.paths(from, to, 1 << from, &mut paths);
        // No link but the direct one, which makes one path, has no switch but the two.
        let ends = 1 << from | 1 << to;
        let apart = |one: &u32, other: &u32| one & other == ends;
        (0..paths.len()).any(|i| {
            (0..i).any(|j| {
                apart(&paths[i], &paths[j]) && paths[..j].iter().any(|k| apart(k, &paths[i]) && apart(k, &paths[j]))
            })
        })
    }

    /// The switches of every path that goes on from this one over switches that are not on it.
    fn paths(&self, at: u16, to: u16, on: u32, paths: &mut Vec<u32>) {
        for &other in &self.near[at as usize] {
            if other == to {
                paths.push(on | 1 << to);
            } else if on >> other & 1 == 0 {
                self.paths(other, to, on | 1 << other, paths);
            }
        }
    }
}
