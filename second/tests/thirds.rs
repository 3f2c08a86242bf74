//! Tree 3 by the shortest third walk (document 02, Note 6), and bringing over, of closed sessions: the second program's
//! and, where the archive is built, the archive's. All lists of long ears that close small sites, those of
//! `tests/zones.rs`, where every choice of later-born neighbours is tried; lists of up to 40 switches and of full sites,
//! both generated, where the shortest walks are found in levels from last. It takes 2 s on one core.

#[cfg(archive)]
use second_reading::archive;
use second_reading::brute::{any_two_losses_survived, are_spanning_trees, no_two_walks_share, written_out};
use second_reading::every::{
    all_joined, card_k_site, every_closed_list, every_network, named, prism, wheel_site, worked_site,
};
use second_reading::later::Later;
use second_reading::network::{in_no_duct, Site, MAX_SWITCHES};
use second_reading::plan::{Plan, Shape};
use second_reading::random::Random;
use second_reading::session::{list_of, Session};
use second_reading::{Plant, Refusal};

/// How thoroughly a list is held.
#[derive(Clone, Copy, PartialEq)]
enum By {
    /// All pairs of losses and all choices of later-born neighbours are tried.
    Everything,
    /// All choices are.
    Choices,
    /// Neither: the levels and an equal condition tell the same.
    Levels,
}

/// Loads the site and offers the ears and an empty one.
fn open(site: &Site, ears: &[Vec<u16>]) -> Session {
    let mut session = Session::Empty;
    session.load(site, Plant::Nothing).unwrap();
    assert_eq!(session.ears(&whole(ears)), (ears.len() + 1, None));
    session
}

/// The list of these ears and an empty one.
fn whole(ears: &[Vec<u16>]) -> Vec<u16> {
    [list_of(ears), vec![0]].concat()
}

/// All of a closed session that can be asked: the order, the births, the three trees, zones of one choice of sizes.
fn all_of(session: &Session) -> (Vec<u16>, Vec<u16>, [Vec<u16>; 3], Vec<u16>) {
    let tables = session.tables().unwrap();
    let n = tables.switches as u16;
    let trees = [1, 2, 3].map(|tree| (0..n).map(|s| session.parent(s, tree).unwrap()).collect());
    let zones = session.zones_within([1, n - 2, 1], n.into()).unwrap();
    (tables.order.clone(), tables.births.clone(), trees, zones)
}

fn walks(session: &Session, tree: u16) -> Vec<Vec<u16>> {
    let n = session.tables().unwrap().switches as u16;
    (0..n).map(|s| session.walk(s, tree).unwrap()).collect()
}

/// Demand 3 of a closed session.
fn hold_three_routes(site: &Site, session: &Session, by: By) {
    let three = [1, 2, 3].map(|tree| walks(session, tree));
    for s in (0..site.switches).filter(|&s| s != site.root) {
        let of_switch = [0, 1, 2].map(|tree| &three[tree][s as usize][..]);
        assert_eq!(no_two_walks_share(site, s, of_switch), Ok(()), "{site:?}");
        if by == By::Everything {
            assert_eq!(any_two_losses_survived(site, s, of_switch), Ok(()), "{site:?}");
        }
    }
    assert_eq!(are_spanning_trees(site, &all_of(session).2), Ok(()), "{site:?}");
}

/// The shortest walk of each switch over all choices of later-born neighbours, one for each switch, every choice tried.
fn least_of_all_choices(site: &Site, later: &Later) -> Vec<usize> {
    let choosing: Vec<u16> = (0..site.switches).filter(|&s| s != site.root && s != site.last).collect();
    let mut row = vec![site.root; site.switches.into()];
    let mut least = vec![usize::MAX; row.len()];
    choose(site, later, &choosing, &mut row, &mut least);
    least
}

fn choose(site: &Site, later: &Later, choosing: &[u16], row: &mut Vec<u16>, least: &mut [usize]) {
    let Some((&switch, rest)) = choosing.split_first() else {
        for s in 0..site.switches {
            let (mut at, mut length) = (s, 1);
            while at != site.root {
                at = row[at as usize];
                length += 1;
            }
            least[s as usize] = least[s as usize].min(length);
        }
        return;
    };
    assert!(!later.of_switch(switch).is_empty(), "{switch} has no later-born neighbour: {site:?}");
    for &other in later.of_switch(switch) {
        row[switch as usize] = other;
        choose(site, later, rest, row, least);
    }
}

/// Holds all that the note says of one closed list. True where the two rules give other trees.
fn hold(site: &Site, ears: &[Vec<u16>], by: By) -> bool {
    let later = Later::of(site, ears).expect("every switch is in an ear");
    let [mut now, mut before] = [open(site, ears), open(site, ears)];
    assert_eq!((now.close(), before.close_as_before()), (Ok(()), Ok(())));

    // The rule by the walks of the same table, and by the levels; the rule before by its words.
    let thirds = walks(&now, 3);
    assert_eq!(later.check_rule(&|s| &thirds[s as usize]), Ok(()), "{site:?} {ears:?}");
    let former = walks(&before, 3);
    for s in 0..site.switches {
        assert_eq!(later.check_walk(s, &thirds[s as usize]), Ok(()), "{site:?} {ears:?}");
        assert_eq!(later.lowest_walk(s).as_ref(), Some(&former[s as usize]), "{site:?} {ears:?}");
        let end = if s == site.root { vec![site.root] } else { vec![site.last, site.root] };
        assert!(thirds[s as usize].ends_with(&end), "{site:?} {ears:?}");
    }

    // No choice gives any switch a shorter walk.
    if by != By::Levels {
        let lengths: Vec<usize> = thirds.iter().map(Vec::len).collect();
        assert_eq!(lengths, least_of_all_choices(site, &later), "{site:?} {ears:?}");
    }

    hold_three_routes(site, &now, by);
    hold_three_routes(site, &before, by);
    let differs = hold_bringing_over(&now, &mut before);
    #[cfg(archive)]
    hold_archive(site, ears, &now);
    differs
}

/// Bringing over changes tree 3 alone, to that of a session closed by the rule of the note; twice is as once.
fn hold_bringing_over(now: &Session, before: &mut Session) -> bool {
    let [wanted, former] = [now, &*before].map(all_of);
    assert_eq!((&former.0, &former.1, &former.3), (&wanted.0, &wanted.1, &wanted.3));
    assert_eq!(former.2[..2], wanted.2[..2]);
    for _ in 0..2 {
        assert_eq!(before.bring_over(), Ok(()));
        assert_eq!(all_of(before), wanted);
    }
    former.2[2] != wanted.2[2]
}

/// The archive closes with the same tree 3, and brings over one that has the lowest numbers.
#[cfg(archive)]
fn hold_archive(site: &Site, ears: &[Vec<u16>], now: &Session) {
    let links = archive::records(&site.links);
    let n = usize::from(site.switches);
    let mut session = Box::new(archive::Session::EMPTY);
    let mut parts = session.parts();
    let loaded = parts.load(site.switches, &links, site.root, site.first, site.last);
    let numbers = [loaded, parts.ears(&whole(ears), &mut 0), parts.close()].map(|refusal| refusal.number);
    assert_eq!(numbers, [0; 3], "{site:?} {ears:?}");
    let thirds: Vec<u16> = (0..site.switches).map(|s| now.parent(s, 3).unwrap()).collect();
    assert_eq!(session.tree3[..n], thirds, "archive: {site:?} {ears:?}");
    let closed = session.clone();
    let mut former = open(site, ears);
    former.close_as_before().unwrap();
    (0..site.switches).for_each(|s| session.tree3[usize::from(s)] = former.parent(s, 3).unwrap());
    for _ in 0..2 {
        assert_eq!(session.parts().bring_over().number, 0, "{site:?} {ears:?}");
        assert!(session == closed, "archive, brought over: {site:?} {ears:?}");
    }
}

/// Holds every closed list of the sites; gives how many there are, and on how many the rules differ.
fn hold_all(sites: &[Site], by: By) -> (usize, usize) {
    let (mut lists, mut differ) = (0, 0);
    for site in sites {
        every_closed_list(site, &mut |ears| {
            lists += 1;
            differ += usize::from(hold(site, ears, by));
        });
    }
    (lists, differ)
}

#[test]
fn all_lists_of_small_sites() {
    for (site, counts) in
        [(worked_site(), (24, 0)), (wheel_site(), (56, 8)), (prism(), (36, 0)), (card_k_site(), (48, 8))]
    {
        assert_eq!(hold_all(&named(&site), By::Everything), counts, "{site:?}");
    }
    for (switches, by, counts) in
        [(4, By::Everything, (1, 0)), (5, By::Everything, (80, 52)), (6, By::Choices, (27108, 24792))]
    {
        assert_eq!(hold_all(&every_network(switches), by), counts, "{switches}");
    }
    assert_eq!(hold_all(&[all_joined(7)], By::Choices), (73920, 73680));
}

#[test]
fn generated_lists() {
    let mut differ = 0;
    for index in 0..300 {
        let mut random = Random::new(6, index);
        let switches = if index % 2 == 0 { random.within(7, 10) } else { random.within(11, 40) };
        let Plan { site, ears } = Plan::random(&mut random, switches);
        let by = if switches <= 9 { By::Everything } else { By::Levels };
        differ += usize::from(hold(&site, &long_ears(&site, &ears), by));
    }
    assert!((50..250).contains(&differ), "the rules differ on {differ} of 300 lists");
}

#[test]
fn full_sites() {
    let mut differ = 0;
    for index in 0..20 {
        let mut random = Random::new(7, index);
        let mut shape = Shape::random(&mut random, MAX_SWITCHES);
        shape.first_ear = *random.pick(&[3, 300, MAX_SWITCHES - 1, shape.first_ear]);
        let Plan { site, ears } = Plan::of(&shape, &mut random);
        differ += usize::from(hold(&site, &long_ears(&site, &ears), By::Levels));
    }
    assert!(differ > 0, "the rules differ on no full site");
}

/// The long ears of a list: an empty one takes the links of the others.
fn long_ears(site: &Site, ears: &[Vec<u16>]) -> Vec<Vec<u16>> {
    written_out(site, ears).into_iter().filter(|ear| ear.len() > 2).collect()
}

#[test]
fn bringing_over_is_for_closed_sessions() {
    let refused = |number| Err(Refusal { number, place: 0 });
    assert_eq!(Session::Empty.bring_over(), refused(19));
    let ears = [vec![0, 2, 1], vec![2, 3, 1], vec![3, 4, 0], vec![3, 5, 4]];
    let mut session = open(&card_k_site(), &ears);
    assert_eq!(session.bring_over(), refused(21));
    assert_eq!(session.close(), Ok(()));
    assert_eq!(session.bring_over(), Ok(()));
    assert_eq!(session.close(), refused(22));
    session.clear();
    assert_eq!(session.bring_over(), refused(19));
}

/// Five switches, each two joined: 2 has the later-born neighbours 3 and 4. By the lowest number its third walk goes over
/// 3, by the rule of the note it does not.
#[test]
fn the_shortest_walk_need_not_go_by_the_lowest_number() {
    let site = all_joined(5);
    let ears = [vec![0, 2, 1], vec![2, 3, 1], vec![2, 4, 3]];
    let mut session = open(&site, &ears);
    assert_eq!(session.close_as_before(), Ok(()));
    assert_eq!(session.walk(2, 3), Ok(vec![2, 3, 4, 0]));
    assert_eq!(session.bring_over(), Ok(()));
    assert_eq!(session.walk(2, 3), Ok(vec![2, 4, 0]));
    assert_eq!(session.walk(3, 3), Ok(vec![3, 4, 0]));
}

/// On that site each of these tables of third walks has a fault, and the search names it.
#[test]
fn the_search_finds_faults() {
    let site = all_joined(5);
    let later = Later::of(&site, &[vec![0, 2, 1], vec![2, 3, 1], vec![2, 4, 3]]).unwrap();
    let good = [vec![0], vec![1, 4, 0], vec![2, 4, 0], vec![3, 4, 0], vec![4, 0]];
    let check = |walks: &[Vec<u16>]| later.check_rule(&|s| &walks[s as usize]);
    assert_eq!(check(&good), Ok(()));
    for (switch, walk) in [
        (0, vec![0, 4]),
        (1, vec![1, 0]),
        (1, vec![1, 3, 4, 0]),
        (2, vec![2, 1, 4, 0]),
        (2, vec![2, 4]),
        (3, vec![3, 2, 4, 0]),
        (4, vec![4, 1, 0]),
    ] {
        let mut walks = good.clone();
        walks[switch] = walk;
        assert!(check(&walks).is_err(), "{walks:?}");
        assert!(later.check_walk(switch as u16, &walks[switch]).is_err(), "{walks:?}");
    }
    // One switch more: of two neighbours with walks as short the lower number is taken.
    let ears = [vec![0, 2, 1], vec![2, 3, 1], vec![2, 4, 1], vec![3, 5, 4]];
    let links = in_no_duct(&[(0, 1), (0, 2), (2, 1), (2, 3), (3, 1), (2, 4), (4, 1), (3, 5), (5, 4), (0, 5)]);
    let later = Later::of(&Site { switches: 6, root: 0, first: 1, last: 5, links }, &ears).unwrap();
    assert_eq!(later.nearest(2), [3, 4]);
    assert_eq!(later.check_walk(2, &[2, 3, 5, 0]), Ok(()));
    assert!(later.check_walk(2, &[2, 4, 5, 0]).is_err());
}
