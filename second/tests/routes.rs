//! Document 02, Note 8, between any two switches: card k, the worked network, a ring, a network in two pieces; all pairs of
//! all networks of four, five and six switches, connected or not, where trying all paths tells which answer is right; all
//! pairs of random networks of up to 40 switches; pairs of full sites, generated and made for long searches; open and
//! closed sessions, and the refusals. The second program's answer and, where it is built, the archive's are each held by
//! search. It takes 8 s on one core.

#[cfg(archive)]
use second_reading::archive;
use second_reading::every::{all_joined, card_k_site, every_network, prism, wheel_site, worked_site};
use second_reading::network::{in_no_duct, Link, Site, MAX_LINKS, MAX_SWITCHES};
use second_reading::parting::Ground;
use second_reading::plan::{mix, Plan, Shape};
use second_reading::random::Random;
use second_reading::session::{list_of, Session};
use second_reading::{refuse, Plant};

/// What the slice holds before a call, and so what is left of it.
const LEFT: u16 = 40_503;

/// A site that is loaded, in each program.
struct Loaded {
    site: Site,
    ground: Ground,
    second: Session,
    #[cfg(archive)]
    archive: Box<archive::Session>,
}

impl Loaded {
    fn of(site: Site) -> Loaded {
        let mut second = Session::Empty;
        second.load(&site, Plant::Nothing).unwrap_or_else(|refusal| panic!("{refusal:?}: {site:?}"));
        Loaded {
            ground: Ground::of(&site),
            second,
            #[cfg(archive)]
            archive: of_archive(&site),
            site,
        }
    }

    /// Offers the ears to both.
    fn offer(&mut self, ears: &[Vec<u16>]) {
        let list = list_of(ears);
        assert_eq!(self.second.ears(&list), (ears.len(), None));
        #[cfg(archive)]
        assert_eq!(self.archive.parts().ears(&list, &mut 0).number, 0);
    }

    fn close(&mut self) {
        assert_eq!(self.second.close(), Ok(()));
        #[cfg(archive)]
        assert_eq!(self.archive.parts().close().number, 0);
    }

    /// The answer of each program, in a slice as short as may be: the eight numbers, then what the walks have of it.
    fn answers(&mut self, from: u16, to: u16) -> Vec<Vec<u16>> {
        let mut out = vec![LEFT; usize::from(self.site.switches) + 4];
        let told = self.second.routes(from, to, &mut out).unwrap().numbers();
        #[allow(unused_mut)]
        let mut answers = vec![answer(told, &out)];
        #[cfg(archive)]
        {
            out.fill(LEFT);
            let told = self.archive.parts().routes(from, to, &mut out);
            assert_eq!((told.number, told.place), (0, 0), "{from} to {to}: {:?}", self.site);
            answers.push(answer(told.numbers, &out));
        }
        answers
    }

    /// Holds both answers about two switches, and gives whether they are walks.
    fn hold(&mut self, from: u16, to: u16) -> bool {
        let answers = self.answers(from, to);
        for answer in &answers {
            let held = self.ground.holds(from, to, answer);
            assert_eq!(held, Ok(()), "{from} to {to}, {answers:?}: {:?}", self.site);
        }
        let are_walks: Vec<bool> = answers.iter().map(|answer| answer[0] != 0).collect();
        assert!(are_walks.iter().all(|other| *other == are_walks[0]), "{from} to {to}: {:?}", self.site);
        are_walks[0]
    }

    /// Holds the answers about all pairs of these switches, and gives how many are walks.
    fn hold_all(&mut self, switches: u16) -> usize {
        all_pairs(switches).filter(|&(from, to)| self.hold(from, to)).count()
    }
}

/// The archive's session after load.
#[cfg(archive)]
fn of_archive(site: &Site) -> Box<archive::Session> {
    let mut session = Box::new(archive::Session::EMPTY);
    let links = archive::records(&site.links);
    assert_eq!(session.parts().load(site.switches, &links, site.root, site.first, site.last).number, 0, "{site:?}");
    session
}

/// The numbers with what the walks have of the slice. The rest of that is left.
fn answer(told: [u16; 8], out: &[u16]) -> Vec<u16> {
    let count = told[..3].iter().map(|&count| usize::from(count)).sum::<usize>();
    assert!(out[count..].iter().all(|&number| number == LEFT), "{told:?}: {out:?}");
    [&told[..], &out[..count]].concat()
}

fn all_pairs(switches: u16) -> impl Iterator<Item = (u16, u16)> {
    (0..switches).flat_map(move |from| (0..switches).map(move |to| (from, to))).filter(|(from, to)| from != to)
}

/// The network with a piece of its own behind it, four switches each two of which are joined, which has root, first and
/// last: so any network loads.
fn beside_a_piece(switches: u16, links: &[Link]) -> Site {
    let piece = worked_site().links.iter().map(|link| (link.a + switches, link.b + switches).into()).collect();
    let [root, first, last] = [0, 1, 3].map(|s| s + switches);
    Site { switches: switches + 4, root, first, last, links: [links.to_vec(), piece].concat() }
}

/// Root, first and last of a site that has these links: 0, and two of its neighbours.
fn named(switches: usize, links: Vec<Link>) -> Site {
    let near: Vec<u16> = links.iter().map(|link| link.pair()).filter(|two| two.0 == 0).map(|two| two.1).collect();
    Site { switches: switches as u16, root: 0, first: near[0], last: near[1], links }
}

#[test]
fn card_k() {
    let mut card = Loaded::of(card_k_site());
    for (from, to) in [(1, 4), (4, 1)] {
        for answer in card.answers(from, to) {
            let mut things = [[answer[4], answer[5]], [answer[6], answer[7]]];
            things.sort();
            assert_eq!((&answer[..4], things), (&[0, 0, 0, 2][..], [[1, 0], [1, 3]]));
        }
    }
    // 1 and 2 are parted from 4 and 5 by 0 and 3; all other pairs have three walks. So it is after each ear, and closed.
    let ears = [vec![0, 2, 1], vec![2, 3, 1], vec![3, 4, 0], vec![3, 5, 4], vec![0, 5]];
    for ear in ears {
        assert_eq!(card.hold_all(6), 22);
        card.offer(&[ear]);
    }
    assert_eq!(card.hold_all(6), 22);
    card.close();
    assert_eq!(card.hold_all(6), 22);
}

/// Between any two of four switches the walks have N + 4 numbers: the direct link, and a walk over each other switch.
#[test]
fn worked_network() {
    let mut worked = Loaded::of(worked_site());
    for (from, to) in all_pairs(4) {
        assert!(worked.hold(from, to));
        for answer in worked.answers(from, to) {
            let mut counts = answer[..3].to_vec();
            counts.sort();
            assert_eq!((counts, answer.len()), (vec![2, 3, 3], 8 + 8));
        }
    }
}

/// On a ring two switches are parted by two things: where they are joined the link is one of them.
#[test]
fn ring() {
    for n in [6, 7, 40] {
        let links: Vec<Link> = (0..n).map(|s| (s, (s + 1) % n).into()).collect();
        let mut ring = Loaded::of(Site { switches: n, root: 0, first: 1, last: n - 1, links });
        assert_eq!(ring.hold_all(n), 0);
        for (from, to) in all_pairs(n) {
            let is_joined = (from + 1) % n == to || (to + 1) % n == from;
            let [low, high] = [from.min(to), from.max(to)];
            let link = if high - low == 1 { low } else { n - 1 };
            for answer in ring.answers(from, to) {
                assert_eq!(answer[3], 2);
                let links = answer[4..].chunks(2).filter(|thing| thing[0] == 2).map(|thing| thing[1]);
                assert!(links.eq(is_joined.then_some(link)), "{from} to {to}");
            }
        }
    }
}

/// Between two pieces there is nothing to lose, and a path loses one thing.
#[test]
fn two_pieces_and_a_path() {
    let path = in_no_duct(&[(0, 1), (2, 1), (2, 3)]);
    let mut site = Loaded::of(beside_a_piece(4, &path));
    for (from, to) in all_pairs(8) {
        let things = match (from.min(to), from.max(to)) {
            (4.., _) => 0,
            (_, 4..) => 0,
            _ => 1,
        };
        assert_eq!(site.hold(from, to), from.min(to) >= 4);
        assert!(site.answers(from, to).iter().all(|answer| answer[3] == things), "{from} to {to}");
    }
}

/// The links of every network of so many switches, connected or not.
fn every_set_of_links(switches: u16) -> impl Iterator<Item = Vec<Link>> {
    let all = all_joined(switches).links;
    let some = move |set: u32| (0..all.len()).filter(|at| set >> at & 1 == 1).map(|at| all[at]).collect();
    (0..1 << (switches * (switches - 1) / 2)).map(some)
}

/// Holds all pairs of a network with these links, and that they are walks exactly where three exist; counts both answers.
fn hold_tried(switches: u16, mut links: Vec<Link>, random: &mut Random, seen: &mut [usize; 2]) {
    mix(&mut links, random);
    let mut site = Loaded::of(beside_a_piece(switches, &links));
    for (from, to) in all_pairs(switches) {
        let are_walks = site.hold(from, to);
        assert_eq!(are_walks, site.ground.three_walks(from, to), "{from} to {to}: {:?}", site.site);
        seen[usize::from(are_walks)] += 1;
    }
}

/// 64 networks of four switches with 12 pairs, 1,024 of five with 20, 32,768 of six with 30.
#[test]
fn all_networks_of_four_to_six_switches() {
    let mut random = Random::new(13, 0);
    for (switches, things, walks) in [(4, 744, 24), (5, 18_240, 2_240), (6, 749_520, 233_520)] {
        let mut seen = [0; 2];
        every_set_of_links(switches).for_each(|links| hold_tried(switches, links, &mut random, &mut seen));
        assert_eq!(seen, [things, walks], "{switches}");
    }
}

/// Some of the networks of seven and eight switches.
#[test]
fn networks_of_seven_and_eight_switches() {
    let mut random = Random::new(19, 0);
    let mut seen = [0; 2];
    for index in 0..6000 {
        let switches = 7 + index % 2;
        let percent = *random.pick(&[20, 40, 60, 80]);
        let mut links = all_joined(switches).links;
        links.retain(|_| random.chance(percent));
        hold_tried(switches, links, &mut random, &mut seen);
    }
    assert!(seen.iter().all(|&count| count > 100_000), "{seen:?}");
}

/// The same networks where they load by themselves, those with root 0, first 1 and the highest as last.
#[test]
fn small_networks_by_themselves() {
    let sites = every_network(5).into_iter().chain(every_network(6).into_iter().step_by(7));
    for site in sites.chain([prism(), wheel_site()]) {
        let mut site = Loaded::of(site);
        for (from, to) in all_pairs(site.site.switches) {
            assert_eq!(site.hold(from, to), site.ground.three_walks(from, to), "{from} to {to}: {:?}", site.site);
        }
    }
}

/// Random links of so many switches, most often few; 0 has two or more.
fn random_site(random: &mut Random, n: usize) -> Site {
    let most = n * (n - 1) / 2;
    let up_to = *random.pick(&[n + 3, 2 * n, 3 * n, most]);
    let wanted = random.within(6, up_to.clamp(6, most));
    let mut pairs = std::collections::BTreeSet::from([(0, 1), (0, 2)]);
    while pairs.len() < wanted.min(MAX_LINKS) {
        let (a, b) = (random.below(n) as u16, random.below(n) as u16);
        if a != b {
            pairs.insert((a.min(b), a.max(b)));
        }
    }
    let mut links: Vec<Link> = pairs.into_iter().map(Link::from).collect();
    mix(&mut links, random);
    Site { switches: n as u16, root: 0, first: 1, last: 2, links }
}

#[test]
fn all_pairs_of_random_networks() {
    for index in 0..200 {
        let mut random = Random::new(14, index);
        let n = random.within(4, 40);
        Loaded::of(random_site(&mut random, n)).hold_all(n as u16);
    }
}

/// Few switches, most of them joined, but each link is a chain of up to so many switches more: so walks are long, and what
/// one walk took has to be given up for others, in part or all of it. Gives the links, and how many switches there are.
fn stretched(random: &mut Random, most: usize) -> (Vec<Link>, usize) {
    let (few, percent) = (random.within(5, 9), *random.pick(&[40, 60, 80, 100]));
    let (mut links, mut count) = (Vec::new(), few);
    for Link { a, b, .. } in all_joined(few as u16).links {
        if !random.chance(percent) {
            continue;
        }
        let length = random.below(most + 1);
        let chain: Vec<u16> = (count..count + length).map(|s| s as u16).collect();
        links.extend([&[a], &chain[..], &[b]].concat().windows(2).map(|two| Link::from((two[0], two[1]))));
        count += length;
    }
    mix(&mut links, random);
    (links, count)
}

#[test]
fn networks_of_long_chains() {
    let mut seen = [0; 2];
    for index in 0..3000 {
        let mut random = Random::new(20, index);
        let most = *random.pick(&[1, 3, 8, 20]);
        let (links, count) = stretched(&mut random, most);
        let mut site = Loaded::of(beside_a_piece(count as u16, &links));
        for (from, to) in all_pairs(5) {
            seen[usize::from(site.hold(from, to))] += 1;
        }
        hold_some(&mut site, &mut random, 5);
    }
    assert!(seen.iter().all(|&count| count > 15_000), "{seen:?}");
}

/// A chain from 0 to 1, the shortest walk; a longer one from 0 to its last switch and one from its first to 1, by which all
/// between is given up; and still longer ones from 0 to the middle and from there to 1, by which that is taken again.
#[test]
fn what_is_given_up_is_taken_again() {
    for (half, first) in [(1, 3), (1, 4), (3, 8), (20, 50)] {
        let whole = 2 * half + 1;
        let last = first + whole - half;
        let mut count = 2;
        let mut links = Vec::new();
        let mut chain = |from: u16, to: u16, length: u16| {
            let inner: Vec<u16> = (count..count + length).collect();
            count += length;
            links.extend([&[from], &inner[..], &[to]].concat().windows(2).map(|two| Link::from((two[0], two[1]))));
            inner
        };
        let taken = chain(0, 1, whole);
        let [start, middle, end] = [0, half, whole - 1].map(|at| taken[at as usize]);
        let walks = [chain(0, end, first), chain(start, 1, first), chain(0, middle, last), chain(middle, 1, last)];
        let mut random = Random::new(21, half.into());
        for _ in 0..10 {
            mix(&mut links, &mut random);
            let mut site = Loaded::of(beside_a_piece(count, &links));
            assert!(site.hold(0, 1) && site.hold(1, 0), "{walks:?}");
            assert!(site.answers(0, 1).iter().all(|answer| answer[8..].contains(&middle)));
        }
    }
}

/// Open before the first ear, in the middle of the list, and closed: the answers are the same, since the network is.
#[test]
fn open_and_closed_sessions() {
    for index in 0..60 {
        let mut random = Random::new(15, index);
        let switches = random.within(4, 40);
        let Plan { site, ears } = Plan::random(&mut random, switches);
        let (n, half) = (site.switches, ears.len() / 2);
        let mut loaded = Loaded::of(site);
        let before: Vec<Vec<Vec<u16>>> = all_pairs(n).map(|(from, to)| loaded.answers(from, to)).collect();
        loaded.hold_all(n);
        loaded.offer(&ears[..half]);
        assert!(all_pairs(n).map(|(from, to)| loaded.answers(from, to)).eq(before.iter().cloned()));
        loaded.offer(&ears[half..]);
        loaded.close();
        assert!(all_pairs(n).map(|(from, to)| loaded.answers(from, to)).eq(before.iter().cloned()));
    }
}

/// Holds so many pairs at random.
fn hold_some(site: &mut Loaded, random: &mut Random, pairs: usize) -> usize {
    let n = usize::from(site.site.switches);
    let mut walks = 0;
    for _ in 0..pairs {
        let from = random.below(n);
        let to = (from + random.within(1, n - 1)) % n;
        walks += usize::from(site.hold(from as u16, to as u16));
    }
    walks
}

#[test]
fn generated_full_sites() {
    for index in 0..12 {
        let mut random = Random::new(16, index);
        let mut shape = Shape::random(&mut random, MAX_SWITCHES);
        if index % 2 == 0 {
            (shape.links, shape.cubic) = (MAX_LINKS, false);
        }
        let Plan { site, ears } = Plan::of(&shape, &mut random);
        let [root, last] = [site.root, site.last];
        let mut loaded = Loaded::of(site);
        assert!(loaded.hold(root, last) && loaded.hold(last, root));
        hold_some(&mut loaded, &mut random, 20);
        loaded.offer(&ears);
        loaded.close();
        hold_some(&mut loaded, &mut random, 10);
    }
    for index in 0..6 {
        let mut random = Random::new(17, index);
        let site = random_site(&mut random, MAX_SWITCHES);
        hold_some(&mut Loaded::of(site), &mut random, 30);
    }
}

/// Three chains from 0 to 1 over all other switches, every second link of them written backwards. With `extra` each switch of
/// a chain is joined to the next but one too, so that two walks run along each chain; `cut` parts the third chain.
fn chains(n: usize, extra: bool, cut: bool) -> Vec<Link> {
    let mut links = Vec::new();
    let per = (n - 2).div_ceil(3);
    let all: Vec<u16> = (2..n as u16).collect();
    for (at, chain) in all.chunks(per).enumerate() {
        let walk = [&[0], chain, &[1]].concat();
        let steps = walk.windows(2).enumerate().filter(|(step, _)| !(cut && at == 2 && *step == per / 2));
        links.extend(
            steps.map(|(step, two)| Link::from(if step % 2 == 0 { (two[0], two[1]) } else { (two[1], two[0]) })),
        );
        if extra {
            let turns = walk.windows(3).enumerate().filter(|(step, _)| !(cut && at == 2 && step.abs_diff(per / 2) < 2));
            links.splice(0..0, turns.map(|(_, three)| (three[0], three[2]).into()));
        }
    }
    links
}

/// A ladder of so many rungs and two rails: 0 and 1 at its one end, the highest two at the other.
fn ladder(n: usize) -> Vec<Link> {
    let rails = (0..n as u16 - 2).map(|s| (s, s + 2));
    rails.chain((0..n as u16 / 2).map(|rung| (2 * rung, 2 * rung + 1))).map(Link::from).collect()
}

/// A chain from 0 to 1, the shortest walk; one from 0 to its last switch, one from its first switch to 1, and with `third` one
/// from 0 to 1. Three walks, or two, exist where the first one found is given up but for its ends.
fn twisted(length: u16, third: bool) -> Vec<Link> {
    let chain = |at: u16| (2 + at * length..2 + (at + 1) * length).collect::<Vec<u16>>();
    let (first, last) = (2, length + 1);
    let to_last = [&[0], &chain(1)[..], &[last]].concat();
    let from_first = [&[first], &chain(2)[..], &[1]].concat();
    let straight = |at: u16| [&[0], &chain(at)[..], &[1]].concat();
    let walks = [to_last, from_first, straight(0)].into_iter().chain(third.then(|| straight(3)));
    walks.flat_map(|walk| walk.windows(2).map(|two| Link::from((two[1], two[0]))).collect::<Vec<_>>()).collect()
}

/// Two or more hubs, joined to all others.
fn hubs(n: usize, hubs: u16) -> Vec<Link> {
    (hubs..n as u16).flat_map(|s| (0..hubs).map(move |hub| Link::from((hub, s)))).collect()
}

#[test]
fn long_searches_of_full_size() {
    let n = MAX_SWITCHES;
    let mut random = Random::new(18, 0);
    for (extra, cut) in [(false, false), (false, true), (true, false), (true, true)] {
        let mut site = Loaded::of(named(n, chains(n, extra, cut)));
        assert_eq!([site.hold(0, 1), site.hold(1, 0)], [extra || !cut; 2]);
        hold_some(&mut site, &mut random, 20);
    }
    let mut plain = Loaded::of(named(n, chains(n, false, false)));
    assert!(plain.answers(0, 1).iter().all(|answer| answer.len() == 8 + n + 4));
    for third in [true, false] {
        let mut site = Loaded::of(named(n, twisted(255, third)));
        assert_eq!([site.hold(0, 1), site.hold(1, 0)], [third; 2]);
        for answer in site.answers(0, 1) {
            // Each of the walks led anew has a chain and an end of the first, the third one a chain.
            let mut counts = answer[..3].to_vec();
            counts.sort();
            assert_eq!(counts, if third { [257, 258, 258] } else { [0; 3] });
        }
    }
    let mut ladder = Loaded::of(named(n, ladder(n)));
    assert_eq!(hold_some(&mut ladder, &mut random, 30), 0);
    assert!(!ladder.hold(0, 1023) && !ladder.hold(1, 1022));
    for count in [2, 3, 4] {
        let mut site = Loaded::of(named(n, hubs(n, count)));
        assert!(site.hold(0, 1) && site.hold(1, 0));
        assert_eq!(site.hold(0, 1023), count >= 3);
        assert_eq!(hold_some(&mut site, &mut random, 20) > 0, count >= 3);
    }
}

#[test]
fn walks_leave_the_rest_of_the_slice_and_refusals_all_of_it() {
    let mut open = Loaded::of(card_k_site());
    let mut closed = Loaded::of(card_k_site());
    closed.offer(&[vec![0, 2, 1], vec![2, 3, 1], vec![3, 4, 0], vec![3, 5, 4], vec![0, 5]]);
    closed.close();
    let mut out = vec![LEFT; 70_000];
    for loaded in [&mut open, &mut closed] {
        // 26 comes before 18, and 18 for either answer.
        for (from, to, room, number) in [
            (0, 0, 10, 26),
            (5, 5, 0, 26),
            (6, 0, 10, 26),
            (0, 6, 9, 26),
            (65535, 0, 0, 26),
            (0, 65535, 70_000, 26),
            (6, 6, 10, 26),
            (0, 1, 9, 18),
            (1, 4, 9, 18),
            (1, 4, 0, 18),
            (0, 5, 0, 18),
        ] {
            let refused = loaded.second.routes(from, to, &mut out[..room]);
            assert_eq!(refused, refuse(number, 0), "{from} to {to} into {room}");
            assert_eq!(Session::Empty.routes(from, to, &mut out[..room]), refuse(19, 0));
            #[cfg(archive)]
            {
                let refused = archive::Between { number, place: 0, numbers: [0; 8] };
                assert_eq!(loaded.archive.parts().routes(from, to, &mut out[..room]), refused);
                let refused = archive::Between { number: 19, ..refused };
                let mut empty = archive::Session::EMPTY;
                assert_eq!(empty.parts().routes(from, to, &mut out[..room]), refused);
            }
            assert!(out.iter().all(|&number| number == LEFT));
        }
        for room in [10, 11, 1028, 70_000] {
            for (from, to) in all_pairs(6) {
                let told = loaded.second.routes(from, to, &mut out[..room]).unwrap().numbers();
                assert_eq!(loaded.ground.holds(from, to, &answer(told, &out)), Ok(()));
                out[..10].fill(LEFT);
            }
        }
    }
}

/// On card k, each of these answers about two switches has a fault.
#[test]
fn the_search_finds_faults() {
    let ground = Ground::of(&card_k_site());
    let told = |counts: [u16; 3], walks: &[u16]| [&counts[..], &[0; 5], walks].concat();
    let things = |things: [u16; 5]| [&[0; 3], &things[..]].concat();
    let good = told([2, 3, 4], &[0, 1, 0, 2, 1, 0, 5, 3, 1]);
    assert_eq!(ground.holds(0, 1, &good), Ok(()));
    assert_eq!(ground.holds(1, 4, &things([2, 1, 0, 1, 3])), Ok(()));
    for (from, to, answer, fault) in [
        (0, 1, told([2, 3, 4], &[1, 0, 0, 2, 1, 0, 5, 3, 1]), "walk 1: it begins with 1, not 0"),
        (0, 1, told([2, 3, 4], &[0, 1, 0, 2, 1, 0, 1, 3, 5]), "walk 3: it ends with 5, not 1"),
        (0, 1, told([2, 3, 3], &[0, 1, 0, 2, 1, 0, 3, 1]), "walk 3: 0 and 3 are not joined"),
        (0, 1, told([2, 3, 4], &[0, 1, 0, 2, 1, 0, 9, 3, 1]), "walk 3: 0 and 9 are not joined"),
        (0, 1, told([2, 3, 6], &[0, 1, 0, 2, 1, 0, 5, 4, 5, 3, 1]), "walk 3: switch 5 stands twice"),
        (0, 1, told([2, 5, 4], &[0, 1, 0, 1, 0, 2, 1, 0, 5, 3, 1]), "walk 2: switch 0 stands twice"),
        (0, 1, told([2, 2, 3], &[0, 1, 0, 1, 0, 2, 1]), "walks 1 and 2 share the link of 0 and 1"),
        (0, 1, told([2, 4, 4], &[0, 1, 0, 5, 3, 1, 0, 4, 3, 1]), "walks 2 and 3 share the link of 3 and 1"),
        (0, 1, told([2, 4, 5], &[0, 1, 0, 5, 3, 1, 0, 4, 3, 2, 1]), "walks 2 and 3 share switch 3"),
        (0, 1, told([2, 3, 0], &[0, 1, 0, 2, 1]), "walk 3: it has no switch"),
        (0, 1, told([2, 3, 4], &[0, 1, 0, 2, 1]), "counts [2, 3, 4] for 5 numbers"),
        (0, 1, [&[2, 3, 4, 1, 1, 2, 0, 0], &good[8..]].concat(), "walks are told, and things [1, 1, 2, 0, 0]"),
        (0, 1, [&[0; 8], &good[8..]].concat(), "no walk has the 9 numbers of the slice"),
        (0, 1, vec![0; 7], "7 numbers are no answer"),
        (1, 4, things([0, 0, 0, 0, 0]), "walk [1, 0, 4] is left"),
        (1, 4, things([1, 1, 0, 0, 0]), "walk [1, 3, 4] is left"),
        (1, 4, things([2, 1, 0, 1, 2]), "walk [1, 3, 4] is left"),
        (1, 4, things([1, 1, 0, 1, 3]), "1 things, and [[1, 3]]"),
        (1, 4, things([3, 1, 0, 1, 3]), "3 things"),
        (1, 4, things([2, 1, 0, 1, 0]), "the two things are one"),
        (1, 4, things([2, 1, 1, 1, 0]), "switch 1 is one of the two"),
        (1, 4, things([2, 1, 0, 1, 4]), "switch 4 is one of the two"),
        (1, 4, things([2, 1, 0, 1, 6]), "switch 6 is none of the network"),
        (1, 4, things([2, 1, 0, 2, 3]), "link 3 does not join the two"),
        (1, 4, things([2, 1, 0, 2, 10]), "link 10 does not join the two"),
        (1, 4, things([2, 1, 0, 0, 3]), "a thing of kind 0"),
        (1, 4, things([2, 3, 0, 1, 3]), "a thing of kind 3"),
        (1, 3, things([2, 1, 0, 1, 2]), "walk [1, 3] is left"),
        (1, 3, things([2, 2, 3, 1, 2]), "walk [1, 0, 4, 3] is left"),
    ] {
        assert_eq!(ground.holds(from, to, &answer), Err(fault.to_string()), "{answer:?}");
    }
}
