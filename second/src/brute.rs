//! Definition 9 of document 000 as document 01 words it, and demand 3, over whole lists and by trying everything; and
//! of document 02 the cases of Note 3, the zones of Note 4 and the lost walks of Note 7. It shares no code with the judge and knows nothing of
//! refusal numbers.

use std::collections::HashSet;

use crate::network::{Link, Site};
use crate::seen::Crossed;

/// A pair of switches without a direction.
type Pair = (u16, u16);

fn pair(a: u16, b: u16) -> Pair {
    (a.min(b), a.max(b))
}

fn pairs_along(list: &[u16]) -> Vec<Pair> {
    list.windows(2).map(|two| pair(two[0], two[1])).collect()
}

fn all_different(list: &[u16]) -> bool {
    (0..list.len()).all(|i| (0..i).all(|j| list[i] != list[j]))
}

fn joined(site: &Site, a: u16, b: u16) -> bool {
    site.links.iter().any(|link| pair(link.a, link.b) == pair(a, b))
}

/// Document 01, 'Network and ears', first paragraph: this is a network.
pub fn is_network(site: &Site) -> bool {
    let n = site.switches;
    let sizes = (4..=1024).contains(&n) && (6..=4096).contains(&site.links.len());
    let links_join = site.links.iter().all(|link| link.a < n && link.b < n && link.a != link.b);
    let pairs: Vec<Pair> = site.links.iter().map(|link| pair(link.a, link.b)).collect();
    let joined_once = (0..pairs.len()).all(|i| (0..i).all(|j| pairs[i] != pairs[j]));
    let named = [site.root, site.first, site.last];
    sizes
        && links_join
        && joined_once
        && named.iter().all(|&s| s < n)
        && all_different(&named)
        && joined(site, site.root, site.first)
        && joined(site, site.root, site.last)
}

/// The links of ear i of a list; the first ear has its closing link too.
fn links_of(list: &[Vec<u16>], i: usize) -> Vec<Pair> {
    let ear = &list[i];
    let mut links = pairs_along(ear);
    if i == 0 {
        links.push(pair(ear[ear.len() - 1], ear[0]));
    }
    links
}

/// The inner switches of ear i: of a cycle all, of a path all but its ends.
fn inner(list: &[Vec<u16>], i: usize) -> &[u16] {
    let ear = &list[i];
    if i == 0 {
        ear
    } else {
        &ear[1..ear.len() - 1]
    }
}

/// The index of the first ear that holds the switch (Definition 3).
fn birth(list: &[Vec<u16>], switch: u16) -> Option<usize> {
    list.iter().position(|ear| ear.contains(&switch))
}

/// Definition 1, with the writing that document 01 fixes: an ear
/// decomposition of the network that begins with a cycle through root-first.
pub fn is_ear_decomposition(site: &Site, list: &[Vec<u16>]) -> bool {
    let Some(cycle) = list.first() else {
        return false;
    };
    // P_0 is a cycle, written from root to first.
    if cycle.len() < 3 || cycle[0] != site.root || cycle[cycle.len() - 1] != site.first {
        return false;
    }
    // Every later ear is a path with two different ends.
    if list.iter().any(|ear| ear.len() < 2 || !all_different(ear)) {
        return false;
    }
    // Each two neighbours are joined by a link of the network.
    let links: Vec<Pair> = (0..list.len()).flat_map(|i| links_of(list, i)).collect();
    if !links.iter().all(|&(a, b)| joined(site, a, b)) {
        return false;
    }
    // The ears part the links: every link is used once over the whole list.
    let used_once = |one: &Link| links.iter().filter(|&&link| link == pair(one.a, one.b)).count() == 1;
    if !site.links.iter().all(used_once) {
        return false;
    }
    // Each later ear meets the ears before it in exactly its two ends.
    for i in 1..list.len() {
        let ear = &list[i];
        let met: Vec<u16> = ear.iter().copied().filter(|s| list[..i].iter().any(|e| e.contains(s))).collect();
        if met != [ear[0], ear[ear.len() - 1]] {
            return false;
        }
    }
    // Every switch is born in the list.
    (0..site.switches).all(|s| birth(list, s).is_some())
}

/// The short ears that an empty ear after this list stands for (document 02, Note 2): in table order, the links that
/// no ear has and whose two switches are in ears.
pub fn leftover(site: &Site, list: &[Vec<u16>]) -> Vec<Vec<u16>> {
    let used: HashSet<Pair> = (0..list.len()).flat_map(|i| links_of(list, i)).collect();
    let born: HashSet<u16> = list.iter().flatten().copied().collect();
    let left = |&&Link { a, b, .. }: &&Link| !used.contains(&pair(a, b)) && born.contains(&a) && born.contains(&b);
    site.links.iter().filter(left).map(|link| vec![link.a, link.b]).collect()
}

/// The list with the short ears written out that its empty ears stand for. Before the first ear an empty one stays.
pub fn written_out(site: &Site, list: &[Vec<u16>]) -> Vec<Vec<u16>> {
    let mut written: Vec<Vec<u16>> = Vec::new();
    for ear in list {
        match ear.is_empty() && !written.is_empty() {
            true => written.extend(leftover(site, &written)),
            false => written.push(ear.clone()),
        }
    }
    written
}

/// The place of the first switch between the ends of an ear that is in an ear of the list.
pub fn crossed_at(list: &[Vec<u16>], ear: &[u16]) -> Option<usize> {
    (1..ear.len().saturating_sub(1)).find(|&place| birth(list, ear[place]).is_some())
}

/// Which case of document 02, Note 3, an ear is that is offered after the list; none where it is neither, or no path of
/// the network.
pub fn crossed(site: &Site, list: &[Vec<u16>], ear: &[u16]) -> Option<Crossed> {
    if list.is_empty() || ear.len() < 3 || ear.len() > site.switches as usize {
        return None;
    }
    let pairs = pairs_along(ear);
    if !all_different(ear) || !pairs.iter().all(|&(a, b)| joined(site, a, b)) {
        return None;
    }
    if (0..list.len()).any(|i| links_of(list, i).iter().any(|link| pairs.contains(link))) {
        return Some(Crossed::UsedLink);
    }
    let end_unborn = [ear[0], ear[ear.len() - 1]].iter().any(|&end| birth(list, end).is_none());
    (end_unborn && crossed_at(list, ear).is_some()).then_some(Crossed::UnbornEnd)
}

/// Definition 4, of an ear decomposition.
fn is_non_separating(site: &Site, list: &[Vec<u16>], last_long: usize) -> bool {
    let long = (0..list.len()).filter(|&i| i == 0 || list[i].len() > 2);
    long.filter(|&i| i != last_long).all(|i| {
        let unborn = |s: u16| birth(list, s).is_none_or(|b| b > i);
        inner(list, i).iter().all(|&v| (0..site.switches).any(|w| unborn(w) && joined(site, v, w)))
    })
}

/// Definition 9: the whole list is a Mondschein sequence through root-first
/// and avoiding last.
pub fn is_mondschein(site: &Site, list: &[Vec<u16>]) -> bool {
    if !is_network(site) || !is_ear_decomposition(site, list) {
        return false;
    }
    let Some(last_long) = (0..list.len()).rev().find(|&i| i == 0 || list[i].len() > 2) else {
        return false;
    };
    let through = links_of(list, 0).contains(&pair(site.root, site.first));
    let avoiding = birth(list, site.last) == Some(last_long)
        && inner(list, last_long) == [site.last]
        && !links_of(list, last_long).contains(&pair(site.root, site.last));
    through && avoiding && is_non_separating(site, list, last_long)
}

/// Demand 3, of the three walks of one switch: each is a walk of links from
/// the switch to the root, and any two failed things (switches other than the
/// two ends, or links) leave one of them whole. Tries all pairs of things.
pub fn any_two_losses_survived(site: &Site, switch: u16, walks: [&[u16]; 3]) -> Result<(), String> {
    for walk in walks {
        let ends = walk.first() == Some(&switch) && walk.last() == Some(&site.root);
        if !ends || !all_different(walk) || !pairs_along(walk).iter().all(|&(a, b)| joined(site, a, b)) {
            return Err(format!("{walk:?} is no walk of switch {switch}"));
        }
    }
    let inner = (0..site.switches).filter(|&s| s != switch && s != site.root).map(Thing::Switch);
    let links = site.links.iter().map(|link| Thing::Link(pair(link.a, link.b)));
    let things: Vec<Thing> = inner.chain(links).collect();
    for (i, one) in things.iter().enumerate() {
        for other in &things[..=i] {
            if !walks.iter().any(|walk| !one.is_in(walk) && !other.is_in(walk)) {
                return Err(format!("losing {one:?} and {other:?} breaks all walks of switch {switch}"));
            }
        }
    }
    Ok(())
}

/// A thing that may fail.
#[derive(Debug)]
enum Thing {
    Switch(u16),
    Link(Pair),
}

impl Thing {
    fn is_in(&self, walk: &[u16]) -> bool {
        match self {
            Thing::Switch(s) => walk.contains(s),
            Thing::Link(link) => pairs_along(walk).contains(link),
        }
    }
}

/// The same for networks of any size. Two walks that share a thing are both
/// broken by it, and any thing of the third breaks that one; if no two walks
/// share a thing, two losses break at most two. So it is enough to ask that
/// no two of the walks share a link or a switch other than their ends.
pub fn no_two_walks_share(site: &Site, switch: u16, walks: [&[u16]; 3]) -> Result<(), String> {
    let mut holder = vec![usize::MAX; site.switches as usize];
    let mut straight = 0;
    for (tree, walk) in walks.iter().enumerate() {
        if walk.first() != Some(&switch) || walk.last() != Some(&site.root) {
            return Err(format!("{walk:?} does not run from switch {switch} to the root"));
        }
        if walk.len() == 2 {
            straight += 1;
        }
        for &s in walk.iter().skip(1).rev().skip(1) {
            if s >= site.switches || holder[s as usize] != usize::MAX {
                return Err(format!("switch {s} stands twice in the walks of switch {switch}"));
            }
            holder[s as usize] = tree;
        }
    }
    // Walks without a common inner switch share a link only when both are the
    // one link from the switch to the root.
    if switch != site.root && straight > 1 {
        return Err(format!("two walks of switch {switch} share its link to the root"));
    }
    Ok(())
}

/// Demand 3, of the three tables: each is a tree that spans the network, and
/// no link lies in all three. `tables[t][s]` is the entry of switch s.
pub fn are_spanning_trees(site: &Site, tables: &[Vec<u16>; 3]) -> Result<(), String> {
    let n = site.switches as usize;
    let linked: HashSet<Pair> = site.links.iter().map(|link| pair(link.a, link.b)).collect();
    let mut in_trees: std::collections::HashMap<Pair, [bool; 3]> = Default::default();
    for (t, table) in tables.iter().enumerate() {
        if table[site.root as usize] != site.root {
            return Err(format!("tree {}: the root's entry is not the root", t + 1));
        }
        for s in 0..site.switches {
            if s == site.root {
                continue;
            }
            let link = pair(s, table[s as usize]);
            if !linked.contains(&link) {
                return Err(format!("tree {}: switch {s} is not joined to its entry", t + 1));
            }
            in_trees.entry(link).or_default()[t] = true;
            let mut at = s;
            let mut steps = 0;
            while at != site.root && steps < n - 1 {
                at = table[at as usize];
                steps += 1;
            }
            if at != site.root {
                return Err(format!("tree {}: N - 1 steps from switch {s} do not reach the root", t + 1));
            }
        }
    }
    match in_trees.iter().find(|(_, trees)| trees.iter().all(|&t| t)) {
        Some((link, _)) => Err(format!("link {link:?} lies in all three trees")),
        None => Ok(()),
    }
}

/// Document 02, Note 4, of the zones of all switches: they are 1 to 3, root, first and last are in zones 1, 2 and 3,
/// the sizes are as wanted, and from these three switches every other is reached along links inside its zone.
pub fn are_zones(site: &Site, sizes: [u16; 3], zones: &[u16]) -> Result<(), String> {
    if zones.len() != site.switches as usize {
        return Err(format!("{} zones for {} switches", zones.len(), site.switches));
    }
    if let Some(s) = zones.iter().position(|zone| !(1..=3).contains(zone)) {
        return Err(format!("switch {s} is in zone {}", zones[s]));
    }
    for (named, zone) in [(site.root, 1), (site.first, 2), (site.last, 3)] {
        if zones[named as usize] != zone {
            return Err(format!("switch {named} is in zone {}, not {zone}", zones[named as usize]));
        }
    }
    for (zone, wanted) in (1..).zip(sizes) {
        let size = zones.iter().filter(|&&other| other == zone).count();
        if size != wanted as usize {
            return Err(format!("zone {zone} has {size} switches, not {wanted}"));
        }
    }
    let reached = reached_inside(site, zones);
    match reached.iter().position(|&reached| !reached) {
        Some(s) => Err(format!("switch {s} does not hang together with zone {}", zones[s])),
        None => Ok(()),
    }
}

/// For each switch whether it is reached from root, first or last along links that join two switches of one zone.
fn reached_inside(site: &Site, zones: &[u16]) -> Vec<bool> {
    let mut near = vec![Vec::new(); zones.len()];
    for &Link { a, b, .. } in &site.links {
        if zones[a as usize] == zones[b as usize] {
            near[a as usize].push(b);
            near[b as usize].push(a);
        }
    }
    let mut reached = vec![false; zones.len()];
    let mut next = vec![site.root, site.first, site.last];
    while let Some(s) = next.pop() {
        if !std::mem::replace(&mut reached[s as usize], true) {
            next.extend(&near[s as usize]);
        }
    }
    reached
}

/// Document 02, Note 7: how many switches other than the root lose exactly two walks when all links of a duct fail, and
/// how many lose all three. `walks` has the three of each switch.
pub fn lost_walks(site: &Site, duct: u8, walks: &[[Vec<u16>; 3]]) -> (u32, u32) {
    let in_duct = site.links.iter().filter(|link| link.duct == duct);
    let failed: HashSet<Pair> = in_duct.map(|link| pair(link.a, link.b)).collect();
    let is_lost = |walk: &&Vec<u16>| walk.windows(2).any(|two| failed.contains(&pair(two[0], two[1])));
    let (mut two, mut three) = (0, 0);
    for s in (0..walks.len()).filter(|&s| s != usize::from(site.root)) {
        match walks[s].iter().filter(is_lost).count() {
            2 => two += 1,
            3 => three += 1,
            _ => {}
        }
    }
    (two, three)
}
