//! Small sites, and every list of ears on one: all lists of paths that part the links
//! other than root-first, in every sequence, tried one after the other. At
//! most one empty ear stands among them, at any place; it takes links as if
//! every ear before it were accepted. And every list of long ears that closes.

use crate::judge::Judge;
use crate::lines::{ear_line, link_line};
use crate::network::{in_no_duct, Network, Site};
use crate::Plant;

/// The four-switch network of document 01.
pub fn worked_site() -> Site {
    let links = in_no_duct(&[(0, 1), (0, 2), (0, 3), (1, 2), (1, 3), (2, 3)]);
    Site { switches: 4, root: 0, first: 1, last: 3, links }
}

/// The wheel of card j: hub 0 and rim 1-2-3-4; root 0, first 1, last 2.
pub fn wheel_site() -> Site {
    let links = in_no_duct(&[(0, 1), (0, 2), (0, 3), (0, 4), (1, 2), (2, 3), (3, 4), (4, 1)]);
    Site { switches: 5, root: 0, first: 1, last: 2, links }
}

/// The network of card k.
pub fn card_k_site() -> Site {
    let links = in_no_duct(&[(0, 1), (0, 2), (1, 2), (1, 3), (2, 3), (3, 4), (3, 5), (4, 5), (0, 4), (0, 5)]);
    Site { switches: 6, root: 0, first: 1, last: 5, links }
}

/// So many switches, each two joined; root 0, first 1, and the highest is last.
pub fn all_joined(switches: u16) -> Site {
    let links = (0..switches).flat_map(|a| (a + 1..switches).map(move |b| (a, b).into())).collect();
    Site { switches, root: 0, first: 1, last: switches - 1, links }
}

/// Every choice of root, first and last that makes the site a network.
pub fn named(site: &Site) -> Vec<Site> {
    let all = || 0..site.switches;
    let triples = all().flat_map(|root| all().flat_map(move |first| all().map(move |last| (root, first, last))));
    let sites = triples.map(|(root, first, last)| Site { root, first, last, ..site.clone() });
    sites.filter(|site| Network::load(site, Plant::Nothing).is_ok()).collect()
}

/// Every network of so many switches with root 0, first 1 and the highest as last.
pub fn every_network(switches: u16) -> Vec<Site> {
    let all = all_joined(switches);
    let some = |set: u32| (0..all.links.len()).filter(|at| set >> at & 1 == 1).map(|at| all.links[at]).collect();
    let sites = (0..1 << all.links.len()).map(|set| Site { links: some(set), ..all.clone() });
    sites.filter(|site| Network::load(site, Plant::Nothing).is_ok()).collect()
}

/// Two triangles, 0 1 2 and 3 4 5, and three links between them.
pub fn prism() -> Site {
    let links = in_no_duct(&[(0, 1), (1, 2), (2, 0), (3, 4), (4, 5), (5, 3), (0, 3), (1, 4), (2, 5)]);
    Site { switches: 6, root: 0, first: 1, last: 3, links }
}

/// The judge of a site that is a network.
pub fn judge_of(site: &Site) -> Judge {
    Judge::new(Network::load(site, Plant::Nothing).expect("the site is a network"), Plant::Nothing)
}

/// Every path of two or more switches, written from both ends.
pub fn paths(site: &Site) -> Vec<Vec<u16>> {
    let network = Network::load(site, Plant::Nothing).expect("the site is a network");
    let mut paths: Vec<Vec<u16>> = (0..site.switches).map(|s| vec![s]).collect();
    let mut at = 0;
    while at < paths.len() {
        let path = paths[at].clone();
        let near = network.neighbours(path[path.len() - 1]).iter().map(|other| other.switch);
        paths.extend(near.filter(|s| !path.contains(s)).map(|s| [&path[..], &[s]].concat()));
        at += 1;
    }
    paths.retain(|path| path.len() > 1);
    paths
}

/// Calls `each` with every list of long ears in which every switch is born: an empty ear and close can follow. Later
/// ears are written from the lower end only.
pub fn every_closed_list(site: &Site, each: &mut dyn FnMut(&[Vec<u16>])) {
    let mut paths = paths(site);
    paths.retain(|path| path.len() > 2);
    longer_lists(judge_of(site), &mut Vec::new(), paths.iter().collect(), each);
}

/// Goes on with a list that the judge has accepted; `paths` has the ears that may follow it.
fn longer_lists(judge: Judge, list: &mut Vec<Vec<u16>>, paths: Vec<&Vec<u16>>, each: &mut dyn FnMut(&[Vec<u16>])) {
    if (0..judge.network.switches as u16).all(|s| judge.is_born(s)) {
        each(list);
    }
    for &ear in &paths {
        let mut next = judge.clone();
        if next.ear(ear).is_ok() {
            let unborn = |between: &[u16]| !between.iter().any(|&s| next.is_born(s));
            let follows = |path: &[u16]| path[0] < path[path.len() - 1] && unborn(&path[1..path.len() - 1]);
            let paths = paths.iter().copied().filter(|path| follows(path)).collect();
            list.push(ear.clone());
            longer_lists(next, list, paths, each);
            list.pop();
        }
    }
}

/// Calls `each` with every list. The first ear is written from both ends,
/// later ears from both too, or from the lower end only.
pub fn every_list(site: &Site, both_ends: bool, each: &mut dyn FnMut(&[Vec<u16>])) {
    let closing = [(site.root, site.first), (site.first, site.root)];
    let pairs = site.links.iter().map(|link| (link.a, link.b));
    let links: Vec<(u16, u16)> = pairs.filter(|two| !closing.contains(two)).collect();
    let mut search = Search { site, both_ends, used: vec![false; links.len()], links, list: Vec::new(), each };
    search.next_ear();
}

struct Search<'a> {
    site: &'a Site,
    both_ends: bool,
    links: Vec<(u16, u16)>,
    used: Vec<bool>,
    list: Vec<Vec<u16>>,
    each: &'a mut dyn FnMut(&[Vec<u16>]),
}

impl Search<'_> {
    fn next_ear(&mut self) {
        if self.used.iter().all(|&used| used) {
            (self.each)(&self.list);
        }
        if self.list.iter().all(|ear| !ear.is_empty()) {
            self.empty_ear();
        }
        for start in 0..self.site.switches {
            self.longer(vec![start]);
        }
    }

    fn empty_ear(&mut self) {
        let before = self.used.clone();
        let is_born = |s: &u16| self.list.iter().any(|ear| ear.contains(s));
        for ((a, b), used) in self.links.iter().zip(&mut self.used) {
            *used |= is_born(a) && is_born(b);
        }
        self.list.push(Vec::new());
        self.next_ear();
        self.list.pop();
        self.used = before;
    }

    /// Goes on with this path: ends it as an ear, or makes it longer.
    fn longer(&mut self, path: Vec<u16>) {
        let end = path[path.len() - 1];
        let from_any_end = self.both_ends || self.list.is_empty();
        if path.len() > 1 && (from_any_end || path[0] < end) {
            self.list.push(path.clone());
            self.next_ear();
            self.list.pop();
        }
        for link in 0..self.links.len() {
            let (a, b) = self.links[link];
            let next = if a == end { b } else { a };
            if self.used[link] || (a != end && b != end) || path.contains(&next) {
                continue;
            }
            self.used[link] = true;
            let mut path = path.clone();
            path.push(next);
            self.longer(path);
            self.used[link] = false;
        }
    }
}

/// The lines that offer one list, close, ask three walks and clear: the third one of first, since last has but one way.
pub fn lines_for(site: &Site, list: &[Vec<u16>]) -> String {
    let Site { switches, root, first, last, links } = site;
    let mut lines = format!("(net {switches} (root {root}) (first {first}) (last {last}))\n");
    for link in links {
        lines += &(link_line(link) + "\n");
    }
    lines += "(open)\n";
    for ear in list {
        lines += &(ear_line(ear) + "\n");
    }
    lines + &format!("(close)\n(walk {last} 1)\n(walk {last} 2)\n(walk {first} 3)\n(clear)\n")
}
