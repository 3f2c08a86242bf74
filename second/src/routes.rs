//! Three routes between two switches (document 02, Note 8), by augmenting paths. The direct link, where there is one, is a
//! walk of its own; the others are found one after another, each by one search in breadth that may lead the walks
//! before it anew. Where a search fails, the ends of what it reached on the walks part the two. Time is linear in N and
//! M for an index of the links, and for each of the three searches at most.

use crate::network::Link;

/// What there is between two switches. Any right walks or things may be given.
#[derive(Clone, Copy, Debug, PartialEq, Eq)]
pub enum Routes {
    /// How many switches each of three walks has.
    Walks([u16; 3]),
    /// At most two things whose loss parts the two.
    Parted([Option<Thing>; 2]),
}

/// A thing whose loss helps to part two switches.
#[derive(Clone, Copy, Debug, PartialEq, Eq)]
pub enum Thing {
    /// Another switch.
    Switch(u16),
    /// The direct link, by its index in the table.
    Link(u16),
}

impl Routes {
    /// The eight numbers that the header for C gives: the counts of the walks, how many things there are, and the kind (1 for a
    /// switch, 2 for a link) and the number of each.
    pub fn numbers(&self) -> [u16; 8] {
        let [one, other] = match *self {
            Routes::Walks([one, two, three]) => return [one, two, three, 0, 0, 0, 0, 0],
            Routes::Parted(things) => things.map(|thing| match thing {
                None => [0, 0],
                Some(Thing::Switch(s)) => [1, s],
                Some(Thing::Link(link)) => [2, link],
            }),
        };
        let things = [one, other].iter().filter(|thing| thing[0] != 0).count();
        [0, 0, 0, things as u16, one[0], one[1], other[0], other[1]]
    }
}

/// Finds what there is between two different switches below N. Three walks are written one after another at the start of
/// the slice, which has room for N + 4 numbers; things leave it.
pub fn write_routes(switches: usize, links: &[Link], from: u16, to: u16, out: &mut [u16]) -> Routes {
    let index = Index::of(switches, links);
    let is_joined = index.near(from).contains(&to);
    let mut search = Search::between(from, to, &index);
    let wanted = if is_joined { 2 } else { 3 };
    while search.count < wanted {
        if !search.find_one_more() {
            let direct = || links.iter().position(|link| [(from, to), (to, from)].contains(&(link.a, link.b)));
            let link = is_joined.then(direct).flatten().map(|link| Thing::Link(link as u16));
            let mut things = link.into_iter().chain(search.cut().map(Thing::Switch));
            return Routes::Parted([things.next(), things.next()]);
        }
    }
    let mut counts = [2; 3];
    let mut at = 0;
    if is_joined {
        out[..2].copy_from_slice(&[from, to]);
        at = 2;
    }
    for (start, count) in search.starts().iter().zip(&mut counts[3 - wanted..]) {
        let walk = search.write_walk(*start, &mut out[at..]);
        *count = walk as u16;
        at += walk;
    }
    Routes::Walks(counts)
}

/// The neighbours of each switch.
struct Index {
    /// Those of switch s are `near[start[s]..start[s + 1]]`.
    start: Vec<u16>,
    near: Vec<u16>,
}

impl Index {
    /// Each place of `start` counts the neighbours, is raised to the end of their part, and goes down as that is filled.
    fn of(switches: usize, links: &[Link]) -> Index {
        let mut start = vec![0; switches + 1];
        for link in links {
            start[link.a as usize] += 1;
            start[link.b as usize] += 1;
        }
        let mut end = 0;
        for entry in &mut start {
            end += *entry;
            *entry = end;
        }
        let mut near = vec![0; 2 * links.len()];
        for &Link { a, b, .. } in links {
            for (one, other) in [(a, b), (b, a)] {
                let place = &mut start[one as usize];
                *place -= 1;
                near[*place as usize] = other;
            }
        }
        Index { start, near }
    }

    fn near(&self, switch: u16) -> &[u16] {
        let s = switch as usize;
        &self.near[self.start[s] as usize..self.start[s + 1] as usize]
    }
}

/// No switch.
const NONE: u16 = u16::MAX;

/// The walks found so far, but for the direct link, and a search for one more. A search enters switches and leaves them.
/// One on no walk it leaves as soon as it has entered it. From one on a walk it goes back to the one before it, since
/// the link between them may be given up, and leaves that one, or goes back again.
struct Search<'a> {
    from: u16,
    to: u16,
    index: &'a Index,
    /// How many walks there are, and the first switch of each behind `from`.
    count: usize,
    starts: [u16; 3],
    /// For each switch on a walk those beside it; `next` is none for one on no walk.
    next: Vec<u16>,
    before: Vec<u16>,
    /// For each switch the one from which it was entered: itself where that was by going back over it.
    entered: Vec<u16>,
    /// The switches that are left, in breadth.
    queue: Vec<u16>,
}

impl Search<'_> {
    fn between(from: u16, to: u16, index: &Index) -> Search<'_> {
        let n = index.start.len() - 1;
        Search {
            from,
            to,
            index,
            count: 0,
            starts: [NONE; 3],
            next: vec![NONE; n],
            before: vec![NONE; n],
            entered: vec![NONE; n],
            queue: vec![NONE; n],
        }
    }

    fn starts(&self) -> &[u16] {
        &self.starts[..self.count]
    }

    /// Finds one more walk, or tells that there is none.
    fn find_one_more(&mut self) -> bool {
        let (from, to, next, before) = (self.from, self.to, &self.next[..], &self.before[..]);
        let (entered, queue) = (&mut self.entered[..], &mut self.queue[..]);
        entered.fill(NONE);
        entered[from as usize] = from;
        queue[0] = from;
        let (mut turn, mut end) = (0, 1);
        while turn < end {
            let at = queue[turn];
            turn += 1;
            for &other in self.index.near(at) {
                if entered[other as usize] != NONE {
                    continue;
                }
                if other == to {
                    // The direct link is no part of the search.
                    if at == from {
                        continue;
                    }
                    self.lead_anew(at);
                    return true;
                }
                entered[other as usize] = at;
                if next[other as usize] == NONE {
                    queue[end] = other;
                    end += 1;
                    continue;
                }
                // Back along the walk, up to a switch that was entered before, from which it was gone back too.
                let mut back = before[other as usize];
                while back != from {
                    queue[end] = back;
                    end += 1;
                    if entered[back as usize] != NONE {
                        break;
                    }
                    entered[back as usize] = back;
                    back = before[back as usize];
                }
            }
        }
        false
    }

    /// Sets the walks to those that the search has found, from its last switch back: what it went back over is given up.
    fn lead_anew(&mut self, last: u16) {
        let (mut at, mut behind) = (last, self.to);
        while at != self.from {
            let was_next = std::mem::replace(&mut self.next[at as usize], behind);
            behind = at;
            if was_next != NONE {
                behind = was_next;
                while self.entered[behind as usize] == behind {
                    behind = std::mem::replace(&mut self.next[behind as usize], NONE);
                }
            }
            at = self.entered[behind as usize];
            self.before[behind as usize] = at;
        }
        self.starts[self.count] = behind;
        self.count += 1;
    }

    /// After a search that failed: of each walk the last switch that was entered. It was not left, as those before it were.
    fn cut(&self) -> impl Iterator<Item = u16> + '_ {
        self.starts().iter().map(|&start| {
            let mut at = start;
            while self.entered[self.next[at as usize] as usize] != NONE {
                at = self.next[at as usize];
            }
            at
        })
    }

    /// Writes a walk at the start of the slice, and gives its count of switches.
    fn write_walk(&self, start: u16, out: &mut [u16]) -> usize {
        out[0] = self.from;
        let (mut at, mut count) = (start, 1);
        while at != self.to {
            out[count] = at;
            count += 1;
            at = self.next[at as usize];
        }
        out[count] = self.to;
        count + 1
    }
}
