//! A network and the checks of loading, refusals 1 to 6 of document 01. Each link has a duct (document 02, Note 7), which
//! no check looks at.

use crate::{refuse, Plant, Refusal};

pub const MIN_SWITCHES: usize = 4;
pub const MAX_SWITCHES: usize = 1024;
pub const MIN_LINKS: usize = 6;
pub const MAX_LINKS: usize = 4096;

/// A link record: the two switches as they are written, and the duct, 0 for none.
#[derive(Clone, Copy, Debug, Default, PartialEq, Eq)]
pub struct Link {
    pub a: u16,
    pub b: u16,
    pub duct: u8,
}

impl Link {
    pub fn in_duct(self, duct: u8) -> Link {
        Link { duct, ..self }
    }

    /// The same link written from its other end.
    pub fn turned(self) -> Link {
        Link { a: self.b, b: self.a, ..self }
    }

    /// The two switches, the lower number first.
    pub fn pair(self) -> (u16, u16) {
        (self.a.min(self.b), self.a.max(self.b))
    }
}

/// A link in no duct.
impl From<(u16, u16)> for Link {
    fn from((a, b): (u16, u16)) -> Link {
        Link { a, b, duct: 0 }
    }
}

/// These links, in no duct.
pub fn in_no_duct(pairs: &[(u16, u16)]) -> Vec<Link> {
    pairs.iter().map(|&two| two.into()).collect()
}

/// What a `net` line and the `link` lines say, not checked yet.
#[derive(Clone, Debug, Default, PartialEq, Eq)]
pub struct Site {
    pub switches: u16,
    pub root: u16,
    pub first: u16,
    pub last: u16,
    pub links: Vec<Link>,
}

/// A checked network. The neighbours of each switch are sorted by number.
#[derive(Clone, Debug)]
pub struct Network {
    pub switches: usize,
    pub links: usize,
    pub root: u16,
    pub first: u16,
    pub last: u16,
    /// The link table.
    pub table: Vec<Link>,
    /// The neighbours of switch s are `near[start[s]..start[s + 1]]`.
    start: Vec<usize>,
    near: Vec<Neighbour>,
}

#[derive(Clone, Copy, Debug, Default)]
pub struct Neighbour {
    pub switch: u16,
    /// Index of the link in the link table.
    pub link: u16,
}

impl Network {
    /// The checks of loading in number order, each over the whole input.
    pub fn load(site: &Site, plant: Plant) -> Result<Network, Refusal> {
        let n = site.switches as usize;
        let m = site.links.len();
        if !(MIN_SWITCHES..=MAX_SWITCHES).contains(&n) || !(MIN_LINKS..=MAX_LINKS).contains(&m) {
            return refuse(1, 0);
        }
        if let Some(place) = site.links.iter().position(|link| link.pair().1 as usize >= n) {
            return refuse(2, place);
        }
        if let Some(place) = site.links.iter().position(|link| link.a == link.b) {
            return refuse(3, place);
        }
        let network = Network::with_neighbours(site);
        if let Some(place) = network.first_repeat(plant) {
            return refuse(4, place);
        }
        let (root, first, last) = (site.root, site.first, site.last);
        let below = [root, first, last].iter().all(|&s| (s as usize) < n);
        if !below || root == first || root == last || first == last {
            return refuse(5, 0);
        }
        if network.link_between(root, first).is_none() || network.link_between(root, last).is_none() {
            return refuse(6, 0);
        }
        Ok(network)
    }

    /// Neighbour lists by two rounds of counting: the first round groups the
    /// links by switch, the second hands each switch, in number order, to its
    /// neighbours, so that every list comes out sorted by number, and among
    /// equal numbers by link index.
    fn with_neighbours(site: &Site) -> Network {
        let n = site.switches as usize;
        let mut start = vec![0; n + 1];
        for &Link { a, b, .. } in &site.links {
            start[a as usize + 1] += 1;
            start[b as usize + 1] += 1;
        }
        for s in 0..n {
            start[s + 1] += start[s];
        }
        let mut grouped = vec![Neighbour::default(); 2 * site.links.len()];
        let mut fill = start.clone();
        for (link, &Link { a, b, .. }) in site.links.iter().enumerate() {
            for (from, to) in [(a, b), (b, a)] {
                grouped[fill[from as usize]] = Neighbour { switch: to, link: link as u16 };
                fill[from as usize] += 1;
            }
        }
        let mut near = vec![Neighbour::default(); grouped.len()];
        let mut fill = start.clone();
        for s in 0..n {
            for other in &grouped[start[s]..start[s + 1]] {
                let to = other.switch as usize;
                near[fill[to]] = Neighbour { switch: s as u16, link: other.link };
                fill[to] += 1;
            }
        }
        Network {
            switches: n,
            links: site.links.len(),
            root: site.root,
            first: site.first,
            last: site.last,
            table: site.links.clone(),
            start,
            near,
        }
    }

    /// The lowest index of a link that repeats an earlier one, if any; another duct does not make another link.
    fn first_repeat(&self, plant: Plant) -> Option<usize> {
        let mut lowest = None;
        let duct = |other: &Neighbour| self.table[other.link as usize].duct;
        for s in 0..self.switches {
            for two in self.neighbours(s as u16).windows(2) {
                let place = two[1].link as usize;
                let is_other = plant == Plant::WrongRepeat && duct(&two[0]) != duct(&two[1]);
                if two[0].switch == two[1].switch && !is_other && lowest.is_none_or(|l| place < l) {
                    lowest = Some(place);
                }
            }
        }
        lowest
    }

    /// The neighbours of a switch below N, lowest number first.
    pub fn neighbours(&self, switch: u16) -> &[Neighbour] {
        &self.near[self.start[switch as usize]..self.start[switch as usize + 1]]
    }

    /// The index of the link that joins two switches below N.
    pub fn link_between(&self, a: u16, b: u16) -> Option<usize> {
        let near = self.neighbours(a);
        let at = near.binary_search_by_key(&b, |other| other.switch).ok()?;
        Some(near[at].link as usize)
    }
}
