//! Zones (document 02, Note 4) of closed sessions, each searched for a fault: the second program's and, where the
//! archive is built, the archive's. All sizes of all lists of long ears that close small sites: the worked network, the
//! wheel of card j, the prism and the network of card k, each with every choice of root, first and last; every network
//! of four to six switches with root 0, first 1 and the highest as last; and seven switches, each two joined. All sizes
//! of lists of up to 40 switches, and some of full sites, both generated. It takes 3 s on one core.

use std::collections::BTreeSet;

#[cfg(archive)]
use second_reading::archive;
use second_reading::brute::{are_zones, is_mondschein, written_out};
use second_reading::every::{
    all_joined, card_k_site, every_closed_list, every_list, every_network, named, prism, wheel_site, worked_site,
};
use second_reading::network::{Site, MAX_SWITCHES};
use second_reading::plan::{Plan, Shape};
use second_reading::random::Random;
use second_reading::session::{list_of, Session};
use second_reading::{Plant, Refusal};

/// A site whose list is closed, in each program.
struct Closed<'a> {
    site: &'a Site,
    second: Session,
    #[cfg(archive)]
    archive: Box<archive::Session>,
}

impl Closed<'_> {
    /// Offers the ears, and an empty one, and closes.
    fn of<'a>(site: &'a Site, ears: &[Vec<u16>]) -> Closed<'a> {
        let list = [list_of(ears), vec![0]].concat();
        let mut second = Session::Empty;
        second.load(site, Plant::Nothing).unwrap();
        assert_eq!(second.ears(&list), (ears.len() + 1, None));
        assert_eq!(second.close(), Ok(()));
        Closed {
            site,
            second,
            #[cfg(archive)]
            archive: of_archive(site, &list),
        }
    }

    /// Searches the zones of these sizes for a fault.
    fn hold(&mut self, sizes: [u16; 3]) {
        let zones = self.second.zones_within(sizes, self.site.switches.into()).unwrap();
        assert_eq!(are_zones(self.site, sizes, &zones), Ok(()), "{sizes:?}: {:?}", self.second);
        #[cfg(archive)]
        {
            let mut zones = vec![9; self.site.switches.into()];
            assert_eq!(self.archive.parts().zones(sizes, &mut zones).number, 0, "{sizes:?}: {:?}", self.second);
            assert_eq!(are_zones(self.site, sizes, &zones), Ok(()), "archive, {sizes:?}: {:?}", self.second);
        }
    }
}

/// The archive's session after load, this list and close.
#[cfg(archive)]
fn of_archive(site: &Site, list: &[u16]) -> Box<archive::Session> {
    let links = archive::records(&site.links);
    let mut session = Box::new(archive::Session::EMPTY);
    let mut parts = session.parts();
    let loaded = parts.load(site.switches, &links, site.root, site.first, site.last);
    let numbers = [loaded, parts.ears(list, &mut 0), parts.close()].map(|refusal| refusal.number);
    assert_eq!(numbers, [0; 3], "{site:?}: {list:?}");
    session
}

/// All sizes of 1 or more that add up to N.
fn all_sizes(n: u16) -> impl Iterator<Item = [u16; 3]> {
    (1..n - 1).flat_map(move |one| (1..n - one).map(move |two| [one, two, n - one - two]))
}

/// The long ears of every list that Definition 9 accepts, tried by brute force, are those that are gone through here.
#[test]
fn no_closed_list_is_left_out() {
    for site in [worked_site(), wheel_site(), Site { last: 3, ..wheel_site() }] {
        let (mut accepted, mut closed) = (BTreeSet::new(), BTreeSet::new());
        every_list(&site, false, &mut |list| {
            if is_mondschein(&site, &written_out(&site, list)) {
                accepted.insert(list.iter().filter(|ear| ear.len() > 2).cloned().collect::<Vec<_>>());
            }
        });
        every_closed_list(&site, &mut |ears| assert!(closed.insert(ears.to_vec()), "{ears:?} comes twice"));
        assert_eq!(accepted, closed, "{site:?}");
    }
}

/// Holds all sizes of every closed list of the sites; gives how many lists there are.
fn hold_all(sites: &[Site]) -> usize {
    let mut lists = 0;
    for site in sites {
        every_closed_list(site, &mut |ears| {
            let mut closed = Closed::of(site, ears);
            all_sizes(site.switches).for_each(|sizes| closed.hold(sizes));
            lists += 1;
        });
    }
    lists
}

#[test]
fn all_sizes_of_all_lists_of_small_sites() {
    for (site, lists) in [(worked_site(), 24), (wheel_site(), 56), (prism(), 36), (card_k_site(), 48)] {
        assert_eq!(hold_all(&named(&site)), lists, "{site:?}");
    }
    for (switches, lists) in [(4, 1), (5, 80), (6, 27108)] {
        assert_eq!(hold_all(&every_network(switches)), lists, "{switches}");
    }
    assert_eq!(hold_all(&[all_joined(7)]), 73920);
}

#[test]
fn all_sizes_of_generated_lists() {
    for index in 0..200 {
        let mut random = Random::new(4, index);
        let switches = random.within(8, 40);
        let Plan { site, ears } = Plan::random(&mut random, switches);
        let mut closed = Closed::of(&site, &ears);
        all_sizes(site.switches).for_each(|sizes| closed.hold(sizes));
    }
}

#[test]
fn sizes_of_full_sites() {
    let n = MAX_SWITCHES as u16;
    for index in 0..40 {
        let mut random = Random::new(5, index);
        let mut shape = Shape::random(&mut random, MAX_SWITCHES);
        shape.first_ear = *random.pick(&[3, 300, MAX_SWITCHES - 1, shape.first_ear]);
        let Plan { site, ears } = Plan::of(&shape, &mut random);
        let mut closed = Closed::of(&site, &ears);
        for sizes in [[1, 1, n - 2], [1, n - 2, 1], [n - 2, 1, 1], [n / 3, n / 3, n - 2 * (n / 3)]] {
            closed.hold(sizes);
        }
        for _ in 0..100 {
            let one = random.within(1, MAX_SWITCHES - 2) as u16;
            let two = random.within(1, MAX_SWITCHES - 1 - one as usize) as u16;
            closed.hold([one, two, n - one - two]);
        }
    }
}

/// The list of card k, closed.
fn card_k() -> Session {
    Closed::of(&card_k_site(), &[vec![0, 2, 1], vec![2, 3, 1], vec![3, 4, 0], vec![3, 5, 4]]).second
}

#[test]
fn zones_leave_the_rest_of_the_slice_and_refusals_all_of_it() {
    let mut out = [9; 8];
    let session = card_k();
    assert_eq!(session.zones([2, 3, 1], &mut out), Ok(()));
    assert_eq!(are_zones(&card_k_site(), [2, 3, 1], &out[..6]), Ok(()));
    assert_eq!(out[6..], [9; 2]);
    out = [9; 8];
    let refused = |number| Err(Refusal { number, place: 0 });
    // Wrong sizes come before a slice too short, and sums do not wrap.
    for (sizes, room, number) in [
        ([0, 3, 3], 8, 24),
        ([3, 3, 0], 6, 24),
        ([2, 2, 1], 8, 24),
        ([2, 2, 3], 5, 24),
        ([65535, 1, 6], 8, 24),
        ([65535, 65535, 8], 0, 24),
        ([2, 2, 2], 5, 18),
        ([2, 2, 2], 0, 18),
    ] {
        assert_eq!(session.zones(sizes, &mut out[..room]), refused(number), "{sizes:?} into {room}");
        assert_eq!(Session::Empty.zones(sizes, &mut out[..room]), refused(19));
        let mut open = Session::Empty;
        open.load(&card_k_site(), Plant::Nothing).unwrap();
        assert_eq!(open.zones(sizes, &mut out[..room]), refused(21));
    }
    assert_eq!(out, [9; 8]);
}

/// On card k, 0 2 1 3 4 5 being in zones 1 1 2 2 3 3, each of these changes is a fault.
#[test]
fn the_search_finds_faults() {
    let site = card_k_site();
    let good = [1, 2, 1, 2, 3, 3];
    assert_eq!(are_zones(&site, [2, 2, 2], &good), Ok(()));
    for (zones, sizes, fault) in [
        (&good[..], [1, 3, 2], "zone 1 has 2 switches, not 1"),
        (&good, [2, 1, 3], "zone 2 has 2 switches, not 1"),
        (&good, [2, 2, 1], "zone 3 has 2 switches, not 1"),
        (&[2, 1, 1, 2, 3, 3], [2, 2, 2], "switch 0 is in zone 2, not 1"),
        (&[1, 1, 2, 2, 3, 3], [2, 2, 2], "switch 1 is in zone 1, not 2"),
        (&[1, 2, 1, 3, 3, 2], [2, 2, 2], "switch 5 is in zone 2, not 3"),
        (&[1, 2, 2, 1, 3, 3], [2, 2, 2], "switch 3 does not hang together with zone 1"),
        (&[1, 2, 1, 3, 2, 3], [2, 2, 2], "switch 4 does not hang together with zone 2"),
        (&[1, 2, 3, 2, 1, 3], [2, 2, 2], "switch 2 does not hang together with zone 3"),
        (&[1, 2, 1, 2, 0, 3], [2, 2, 2], "switch 4 is in zone 0"),
        (&[1, 2, 1, 2, 4, 3], [2, 2, 2], "switch 4 is in zone 4"),
        (&good[..5], [2, 2, 1], "5 zones for 6 switches"),
    ] {
        assert_eq!(are_zones(&site, sizes, zones), Err(fault.to_string()), "{zones:?}");
    }
}
