//! Networks made together with a Mondschein sequence, of any size, and ducts for their links.

use std::collections::{HashMap, HashSet};

use crate::network::{in_no_duct, Link, Site, MAX_LINKS};
use crate::random::Random;

/// A site and a list of ears that closes it.
#[derive(Clone, Debug)]
pub struct Plan {
    pub site: Site,
    pub ears: Vec<Vec<u16>>,
}

/// What a plan should look like.
#[derive(Clone, Debug)]
pub struct Shape {
    pub switches: usize,
    /// Links wanted; the plan has more when its ears need more, and fewer
    /// when every pair is joined.
    pub links: usize,
    /// Switches of the first ear, 3 to `switches` - 1.
    pub first_ear: usize,
    /// Most new switches of a later ear.
    pub longest: usize,
    /// Percent of ends taken from switches that still need a later neighbour.
    pub hungry: usize,
    /// With hubs, most other ends and extra links meet these early switches.
    pub hubs: usize,
    /// Three links at every switch; needs an even number of switches.
    pub cubic: bool,
    pub short_ears: ShortEars,
    pub ducts: Ducts,
    /// Numbers of switches and places of links as they come, not shuffled.
    pub tidy: bool,
}

/// When short ears are offered.
#[derive(Clone, Copy, Debug, PartialEq, Eq)]
pub enum ShortEars {
    AtOnce,
    AtTheEnd,
    Anywhere,
    /// Left to one empty ear at the end.
    Left,
    /// Left to empty ears anywhere, or offered before one of them takes them.
    LeftAnywhere,
}

/// Which links lie in ducts (document 02, Note 7).
#[derive(Clone, Copy, Debug, PartialEq, Eq)]
pub enum Ducts {
    None,
    /// A few ducts, and none for some links.
    Few,
    /// One duct for most of the links.
    One,
    /// A duct for the links of each ear.
    ByEar,
    /// One duct for three links at the root: those to first and to last, and the first one of the first ear. Of a
    /// switch whose walk in tree 1 ends with that one, it costs all three walks. Or for two of the three.
    AtRoot,
    /// Any duct for each link.
    Any,
}

impl Shape {
    pub fn random(random: &mut Random, switches: usize) -> Shape {
        let n = switches;
        let most_links = (n * (n - 1) / 2).min(MAX_LINKS);
        let least_links = (n * 3).div_ceil(2);
        let links = match random.below(4) {
            0 => least_links,
            1 => random.within(least_links, most_links),
            2 => random.within(least_links, (4 * n).clamp(least_links, most_links)),
            _ => random.within(least_links, (2 * n).clamp(least_links, most_links)),
        };
        let longest = match random.below(4) {
            0 => 1,
            1 => 3,
            2 => n,
            _ => random.within(1, n),
        };
        let first_ear = match random.below(4) {
            0 => 3,
            1 => n - 1,
            2 => random.within(3, (n / 4).clamp(3, n - 1)),
            _ => random.within(3, n - 1),
        };
        Shape {
            switches,
            links,
            first_ear,
            longest,
            hungry: *random.pick(&[0, 50, 90, 100]),
            hubs: *random.pick(&[0, 0, 1, 2, 5]),
            cubic: n.is_multiple_of(2) && random.chance(20),
            short_ears: *random.pick(&[
                ShortEars::AtOnce,
                ShortEars::AtTheEnd,
                ShortEars::Anywhere,
                ShortEars::Anywhere,
                ShortEars::Left,
                ShortEars::LeftAnywhere,
            ]),
            ducts: *random.pick(&[
                Ducts::None,
                Ducts::None,
                Ducts::Few,
                Ducts::One,
                Ducts::ByEar,
                Ducts::AtRoot,
                Ducts::AtRoot,
                Ducts::Any,
            ]),
            tidy: random.chance(15),
        }
    }
}

impl Plan {
    pub fn random(random: &mut Random, switches: usize) -> Plan {
        let shape = Shape::random(random, switches);
        Plan::of(&shape, random)
    }

    /// Switches get their numbers by birth here: the first ear is 0, 1, ..
    /// with root 0, and last is N - 1. They are numbered afresh at the end.
    pub fn of(shape: &Shape, random: &mut Random) -> Plan {
        let n = shape.switches;
        let mut sketch = Sketch::begin(shape, random);
        while sketch.born < n - 1 {
            sketch.add_long_ear(random);
        }
        sketch.add_last(random);
        sketch.add_other_links(random);
        let long_ears = std::mem::take(&mut sketch.long_ears);
        let list = list_of(long_ears, &sketch.short_ears(), &sketch.birth, shape, random);
        let mut plan = number_afresh(list, shape, random);
        lay(&mut plan, shape.ducts, random);
        match shape.short_ears {
            ShortEars::Left => leave_short_ears(&mut plan.ears),
            ShortEars::LeftAnywhere => leave_some_links(&mut plan.ears, random),
            _ => {}
        }
        plan
    }

    /// The plan of a list of ears. Its links are those of the ears as they come, after the one from root to first.
    pub fn of_list(ears: Vec<Vec<u16>>, switches: usize, last: u16) -> Plan {
        let cycle = &ears[0];
        let (root, first) = (cycle[0], cycle[cycle.len() - 1]);
        let mut pairs = vec![(root, first)];
        for ear in &ears {
            pairs.extend(ear.windows(2).map(|two| (two[0], two[1])));
        }
        let links = in_no_duct(&pairs);
        Plan { site: Site { switches: switches as u16, root, first, last, links }, ears }
    }
}

struct Sketch<'a> {
    shape: &'a Shape,
    born: usize,
    long_ears: Vec<Vec<u16>>,
    /// For each switch the index of its long ear.
    birth: Vec<usize>,
    /// Born switches other than root that have no later neighbour yet.
    hungry: Vec<u16>,
    /// All links so far, the lower number first; those of long ears apart.
    links: HashSet<(u16, u16)>,
    in_long_ears: HashSet<(u16, u16)>,
}

impl<'a> Sketch<'a> {
    fn begin(shape: &'a Shape, random: &mut Random) -> Sketch<'a> {
        // In a cubic site the first ear leaves as many hungry switches as the
        // switches to come can feed.
        let most = if shape.cubic { shape.switches / 2 + 1 } else { shape.switches - 1 };
        let size = shape.first_ear.min(most).max(3);
        let mut sketch = Sketch {
            shape,
            born: 0,
            long_ears: Vec::new(),
            birth: Vec::new(),
            hungry: Vec::new(),
            links: HashSet::new(),
            in_long_ears: HashSet::new(),
        };
        let first_ear: Vec<u16> = (0..size as u16).collect();
        sketch.add_ear(first_ear, size, random);
        sketch.hungry.retain(|&s| s != 0);
        sketch.in_long_ears.insert((0, size as u16 - 1));
        sketch.links.insert((0, size as u16 - 1));
        sketch
    }

    fn add_ear(&mut self, ear: Vec<u16>, new: usize, random: &mut Random) {
        for two in ear.windows(2) {
            let link = (two[0].min(two[1]), two[0].max(two[1]));
            self.links.insert(link);
            self.in_long_ears.insert(link);
        }
        let ends = [ear[0], ear[ear.len() - 1]];
        self.hungry.retain(|s| !ends.contains(s));
        let born = self.born as u16;
        self.hungry.extend(born..born + new as u16);
        self.birth.extend(vec![self.long_ears.len(); new]);
        self.born += new;
        let mut ear = ear;
        if !self.long_ears.is_empty() && random.chance(50) {
            ear.reverse();
        }
        self.long_ears.push(ear);
    }

    fn add_long_ear(&mut self, random: &mut Random) {
        let left = self.shape.switches - 1 - self.born;
        let mut most = self.shape.longest.min(left);
        let mut least = 1;
        if self.shape.cubic {
            // After the ear two or more must be hungry, and not more than
            // the switches left can bring down to two.
            most = most.min((left + 4 - self.hungry.len()) / 2).max(1);
            least = 4usize.saturating_sub(self.hungry.len()).max(1);
            most = most.max(least);
        }
        let new = random.within(least, most);
        let (a, b) = self.two_ends(random, false);
        let born = self.born as u16;
        let mut ear = vec![a];
        ear.extend(born..born + new as u16);
        ear.push(b);
        self.add_ear(ear, new, random);
    }

    fn add_last(&mut self, random: &mut Random) {
        let (a, b) = self.two_ends(random, true);
        let last = self.born as u16;
        self.add_ear(vec![a, last, b], 1, random);
        self.hungry.retain(|&s| s != last);
        self.links.insert((0, last));
    }

    fn two_ends(&self, random: &mut Random, not_root: bool) -> (u16, u16) {
        loop {
            let a = self.one_end(random);
            let b = self.one_end(random);
            if a != b && !(not_root && (a == 0 || b == 0)) {
                return (a, b);
            }
        }
    }

    fn one_end(&self, random: &mut Random) -> u16 {
        let shape = self.shape;
        if self.hungry.len() > 1 && (shape.cubic || random.chance(shape.hungry)) {
            return *random.pick(&self.hungry);
        }
        if shape.hubs > 0 && random.chance(70) {
            return random.below(shape.hubs.min(self.born)) as u16;
        }
        random.below(self.born) as u16
    }

    /// A later neighbour for each hungry switch, then links up to the count.
    fn add_other_links(&mut self, random: &mut Random) {
        let n = self.shape.switches;
        for s in std::mem::take(&mut self.hungry) {
            let ear = self.birth[s as usize];
            let later = self.birth.partition_point(|&b| b <= ear);
            let to = if random.chance(30) { n - 1 } else { random.within(later, n - 1) };
            self.links.insert((s, to as u16));
        }
        let wanted = self.shape.links.min(n * (n - 1) / 2).min(MAX_LINKS);
        while self.links.len() < wanted {
            let a = if self.shape.hubs > 0 && random.chance(50) {
                random.below(self.shape.hubs.min(n)) as u16
            } else {
                random.below(n) as u16
            };
            let b = random.below(n) as u16;
            if a != b {
                self.links.insert((a.min(b), a.max(b)));
            }
        }
    }

    fn short_ears(&self) -> Vec<(u16, u16)> {
        let mut short: Vec<(u16, u16)> = self.links.difference(&self.in_long_ears).copied().collect();
        short.sort();
        short
    }
}

/// Puts the short ears among the long ones, each after both its ends are born.
fn list_of(
    long_ears: Vec<Vec<u16>>,
    short_ears: &[(u16, u16)],
    birth: &[usize],
    shape: &Shape,
    random: &mut Random,
) -> Vec<Vec<u16>> {
    let mut after: Vec<Vec<Vec<u16>>> = vec![Vec::new(); long_ears.len()];
    let end = long_ears.len() - 1;
    for &(a, b) in short_ears {
        let at_once = birth[a as usize].max(birth[b as usize]);
        let slot = match shape.short_ears {
            ShortEars::AtOnce => at_once,
            ShortEars::AtTheEnd => end,
            _ => random.within(at_once, end),
        };
        after[slot].push(if random.chance(50) { vec![a, b] } else { vec![b, a] });
    }
    let mut list = Vec::new();
    for (ear, mut short) in long_ears.into_iter().zip(after) {
        list.push(ear);
        random.shuffle(&mut short);
        list.extend(short);
    }
    list
}

/// Leaves the short ears of a list to one empty ear at its end.
pub fn leave_short_ears(list: &mut Vec<Vec<u16>>) {
    list.retain(|ear| ear.len() > 2);
    list.push(Vec::new());
}

/// Puts empty ears into a list, some twice and one at its end, and drops the short ears whose links they have taken.
fn leave_some_links(list: &mut Vec<Vec<u16>>, random: &mut Random) {
    let often = *random.pick(&[5, 20, 50]);
    let (mut born, mut taken) = (HashSet::new(), HashSet::new());
    for ear in std::mem::take(list) {
        if ear.len() == 2 && ear.iter().all(|s| taken.contains(s)) {
            continue;
        }
        born.extend(ear.iter().copied());
        list.push(ear);
        while random.chance(often) {
            list.push(Vec::new());
            taken.clone_from(&born);
        }
    }
    list.push(Vec::new());
}

/// Numbers the switches at random, and writes the links at random.
fn number_afresh(mut list: Vec<Vec<u16>>, shape: &Shape, random: &mut Random) -> Plan {
    let n = shape.switches;
    let mut number: Vec<u16> = (0..n as u16).collect();
    if !shape.tidy {
        random.shuffle(&mut number);
    }
    for ear in &mut list {
        for s in ear {
            *s = number[*s as usize];
        }
    }
    let mut plan = Plan::of_list(list, n, number[n - 1]);
    if !shape.tidy {
        mix(&mut plan.site.links, random);
    }
    plan
}

/// Puts links into any order, and half of them the other way round.
pub fn mix(links: &mut [Link], random: &mut Random) {
    random.shuffle(links);
    for link in links {
        if random.chance(50) {
            *link = link.turned();
        }
    }
}

/// A duct that is not 0, most often one of the lowest and the highest.
pub fn any_duct(random: &mut Random) -> u8 {
    match random.below(4) {
        0 => 255,
        1 => 1,
        _ => random.within(1, 255) as u8,
    }
}

/// Lays the links of a plan in ducts. Its list has the links of every ear, its short ones too.
fn lay(plan: &mut Plan, ducts: Ducts, random: &mut Random) {
    let numbers = [0, any_duct(random), any_duct(random), any_duct(random)];
    let one = numbers[1];
    let Plan { site, ears } = plan;
    let mut of_ear = HashMap::new();
    for ear in ears.iter().rev() {
        let duct = random.below(256) as u8;
        of_ear.extend(ear.windows(2).map(|two| (Link::from((two[0], two[1])).pair(), duct)));
    }
    let mut at_root = [site.first, site.last, ears[0][1]].to_vec();
    if random.chance(30) {
        at_root.remove(random.below(3));
    }
    let is_at_root = |link: &Link| {
        let other = if link.a == site.root { link.b } else { link.a };
        [link.a, link.b].contains(&site.root) && at_root.contains(&other)
    };
    for link in &mut site.links {
        link.duct = match ducts {
            Ducts::None => 0,
            Ducts::Few => *random.pick(&numbers),
            Ducts::One if random.chance(80) => one,
            Ducts::One => 0,
            Ducts::ByEar => of_ear.get(&link.pair()).copied().unwrap_or(0),
            Ducts::AtRoot if is_at_root(link) => one,
            Ducts::AtRoot => numbers[*random.pick(&[0, 0, 0, 2, 3])],
            Ducts::Any => random.below(256) as u8,
        };
    }
}

#[cfg(test)]
mod tests {
    use super::*;
    use crate::brute;

    #[test]
    fn small_plans_are_mondschein_sequences() {
        for index in 0..300 {
            let mut random = Random::new(7, index);
            let switches = random.within(4, 9);
            let plan = Plan::random(&mut random, switches);
            assert!(brute::is_mondschein(&plan.site, &brute::written_out(&plan.site, &plan.ears)), "{plan:?}");
        }
    }
}
