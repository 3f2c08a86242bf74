//! Arguments of calls: ears along links that are left or that memory has, switches, trees, sizes and room of any size.
//! Most are near the limits at which a call is refused.

use super::call::Call;
use super::trial::MOST_ROOM;
use crate::archive;
use crate::judge::Judge;
use crate::network::{Link, Site, MAX_LINKS, MAX_SWITCHES, MIN_LINKS};
use crate::plan::Plan;
use crate::random::Random;
use crate::session::Session;

/// Changes the list of a plan, or its names, so that most likely it does not close.
pub fn mix_plan(random: &mut Random, plan: &mut Plan) {
    let (one, other) = (random.below(plan.ears.len()), random.below(plan.ears.len()));
    match random.below(4) {
        0 => plan.ears.swap(one, other),
        1 => plan.ears[one].reverse(),
        2 => std::mem::swap(&mut plan.site.first, &mut plan.site.last),
        _ => plan.site.switches = (plan.site.switches + 1).min(MAX_SWITCHES as u16),
    }
}

/// The site without some of its links, so that it most likely does not hang together. It still loads: root stays joined
/// to first and to last, and six links stay.
pub fn thinned(random: &mut Random, mut site: Site) -> Site {
    let Site { root, first, last, .. } = site;
    let kept =
        |link: &Link| [link.a, link.b].contains(&root) && [first, last].iter().any(|s| [link.a, link.b].contains(s));
    let mut can_go = site.links.len().saturating_sub(MIN_LINKS);
    let percent = *random.pick(&[10, 30, 50, 80]);
    site.links.retain(|link| {
        let goes = can_go > 0 && !kept(link) && random.chance(percent);
        can_go -= usize::from(goes);
        !goes
    });
    site
}

/// Fewer than so many numbers, small ones or any.
pub fn any_numbers(random: &mut Random, most: usize) -> Vec<u16> {
    let below = *random.pick(&[3, 20, 1024, 65536, 65536]);
    (0..random.below(most)).map(|_| random.below(below) as u16).collect()
}

/// A path of links that are left, over any switches, cut so that its ends are born where some on it are.
pub fn through(random: &mut Random, judge: &Judge) -> Vec<u16> {
    let mut ear = vec![random.below(judge.network.switches) as u16];
    for _ in 0..random.within(2, 60) {
        let near = judge.network.neighbours(ear[ear.len() - 1]).iter();
        let ways: Vec<u16> = near
            .filter(|other| !judge.is_used(other.link as usize) && !ear.contains(&other.switch))
            .map(|other| other.switch)
            .collect();
        if ways.is_empty() {
            break;
        }
        ear.push(*random.pick(&ways));
    }
    let from = ear.iter().position(|&s| judge.is_born(s)).unwrap_or(0);
    let to = ear.iter().rposition(|&s| judge.is_born(s)).unwrap_or(ear.len() - 1);
    ear[from..=to].to_vec()
}

/// A path along the links in memory, most often a short one.
pub fn path(random: &mut Random, memory: &archive::Session) -> Vec<u16> {
    let table = &memory.links[..2 * usize::from(memory.m).clamp(1, MAX_LINKS)];
    let links = table.chunks_exact(2).map(|two| (two[0], two[1]));
    let start = 2 * random.below(table.len() / 2);
    let mut path = vec![table[start], table[start + 1]];
    for _ in 0..random.below(4) {
        let end = path[path.len() - 1];
        let next = links.clone().find_map(|(a, b)| match (a == end, b == end) {
            (true, _) if !path.contains(&b) => Some(b),
            (_, true) if !path.contains(&a) => Some(a),
            _ => None,
        });
        path.extend(next);
    }
    path
}

/// A switch, most often one of the network.
fn switch(random: &mut Random, switches: u16) -> u16 {
    match random.below(20) {
        0 => *random.pick(&[switches, switches.saturating_add(1), 1023, 1024, 65535]),
        1 => random.number() as u16,
        _ => random.below(usize::from(switches).max(1)) as u16,
    }
}

fn tree(random: &mut Random) -> u16 {
    match random.below(20) {
        0 => *random.pick(&[0, 4, 5, 255, 256, 257, 258, 259, 513, 65535]),
        1 => random.number() as u16,
        _ => random.within(1, 3) as u16,
    }
}

/// A parent, zones, routes or a walk, most often into a slice about as long as the walk.
pub fn query(random: &mut Random, session: &Session, switches: u16) -> Call {
    let (switch, tree) = (switch(random, switches), tree(random));
    match random.below(12) {
        0..=2 => return Call::Parent { switch, tree },
        3..=5 => return zones(random, switches),
        6 | 7 => return routes(random, switches),
        _ => {}
    }
    let walk = || session.walk(switch, tree).map_or(3, |walk| walk.len());
    let room = match random.below(8) {
        0 => random.below(4),
        1 | 2 => walk(),
        3 => walk() - 1,
        4 | 5 => walk() + random.below(40),
        6 => switches.into(),
        _ => any_room(random),
    };
    Call::Walk { switch, tree, room }
}

/// Zones of a network of so many switches, most often of good sizes into a slice about as long as they are many.
fn zones(random: &mut Random, switches: u16) -> Call {
    let n = usize::from(switches);
    let room = match random.below(8) {
        0 => n.saturating_sub(1),
        1 => random.below(n.max(1)),
        2..=4 => n,
        5 | 6 => n + random.within(1, 40),
        _ => any_room(random),
    };
    let mut sizes = if n < 3 { any_sizes(random) } else { good_sizes(random, n) };
    let (one, other) = (random.below(3), random.below(3));
    match random.below(12) {
        0 => sizes[one] = 0,
        1 => (sizes[one], sizes[other]) = (0, sizes[other].wrapping_add(sizes[one])),
        2 => sizes[one] = sizes[one].wrapping_add(*random.pick(&[1, 65535])),
        3 | 4 => sizes = wrapping_sizes(random, switches),
        5 => sizes = any_sizes(random),
        _ => {}
    }
    Call::Zones { sizes, room }
}

/// Routes in a network of so many switches, most often between two of them into a slice about as long as it has to be.
pub fn routes(random: &mut Random, switches: u16) -> Call {
    let least = usize::from(switches) + 4;
    let room = match random.below(10) {
        0 => least - 1,
        1 => random.below(least),
        2..=5 => least,
        6 => least + 1,
        7 | 8 => least + random.within(1, 40),
        _ => any_room(random),
    };
    let from = switch(random, switches);
    let to = if random.chance(5) { from } else { switch(random, switches) };
    Call::Routes { from, to, room }
}

/// Sizes of 1 or more that add up to N, of 3 or more: any, or two of them as small as can be.
fn good_sizes(random: &mut Random, n: usize) -> [u16; 3] {
    let one = if random.chance(30) { 1 } else { random.within(1, n - 2) };
    let other = if random.chance(30) { 1 } else { random.within(1, n - 1 - one) };
    let mut sizes = [one, other, n - one - other].map(|size| size as u16);
    random.shuffle(&mut sizes);
    sizes
}

/// Sizes of which most often none is 0, with a sum that is N once 65,536 is taken from it, once or twice.
fn wrapping_sizes(random: &mut Random, n: u16) -> [u16; 3] {
    let one = if random.chance(50) { 65535 } else { random.number() as u16 };
    let other = if random.chance(50) { 1 } else { random.number() as u16 };
    let mut sizes = [one, other, n.wrapping_sub(one).wrapping_sub(other)];
    random.shuffle(&mut sizes);
    sizes
}

fn any_sizes(random: &mut Random) -> [u16; 3] {
    let below = *random.pick(&[3, 20, 1024, 65536]);
    std::array::from_fn(|_| random.below(below) as u16)
}

fn any_room(random: &mut Random) -> usize {
    match random.below(100) {
        0 => random.within(65530, MOST_ROOM),
        1..=10 => random.below(3000),
        _ => *random.pick(&[0, 1, 2, 1023, 1024, 1025]),
    }
}

/// The same for memory that no calls made, where walks may be as long as n says.
pub fn wild_query(random: &mut Random, memory: &archive::Session) -> Call {
    let switches = if random.chance(50) { memory.n } else { memory.n.min(30) };
    let (switch, tree) = (switch(random, switches), tree(random));
    match random.below(10) {
        0..=2 => return Call::Parent { switch, tree },
        3 | 4 => return zones(random, memory.n),
        5 | 6 => return wild_routes(random, memory),
        _ => {}
    }
    let room = match random.below(4) {
        0 => memory.n.into(),
        1 => usize::from(memory.n).saturating_sub(1),
        2 if random.chance(20) => MOST_ROOM,
        _ => any_room(random),
    };
    Call::Walk { switch, tree, room }
}

/// Routes on memory that no calls made: N is at most 1,024 for them.
pub fn wild_routes(random: &mut Random, memory: &archive::Session) -> Call {
    let held = memory.n.min(MAX_SWITCHES as u16);
    let switches = if random.chance(75) { held } else { memory.n };
    routes(random, switches)
}
