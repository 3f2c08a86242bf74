//! The session of document 01: empty, open or closed, and the refusals from
//! the state (19 to 22), which come before all others. Of document 02 it has Note 1, the whole list in one call,
//! Note 2: after the first ear an empty ear takes the leftover links, Note 4, the zones, Note 6: tree 3 by the
//! shortest third walk, and bringing over a session that was closed before it, and Note 8: three routes between two
//! switches, open or closed.

use crate::judge::Judge;
use crate::network::{Network, Site};
use crate::routes::{write_routes, Routes, Thing};
use crate::tables::Tables;
use crate::thirds::Rule;
use crate::zones::{are_sizes, write_zones};
use crate::{refuse, Plant, Refusal};

#[derive(Debug, Default)]
pub enum Session {
    #[default]
    Empty,
    Open(Judge),
    Closed(Tables),
}

impl Session {
    /// Loading gives N and M.
    pub fn load(&mut self, site: &Site, plant: Plant) -> Result<(usize, usize), Refusal> {
        let Session::Empty = self else {
            return refuse(20, 0);
        };
        let network = Network::load(site, plant)?;
        let size = (network.switches, network.links);
        *self = Session::Open(Judge::new(network, plant));
        Ok(size)
    }

    /// Offering an ear gives the number of new switches; an empty one has none.
    pub fn ear(&mut self, ear: &[u16]) -> Result<usize, Refusal> {
        self.open()?.ear(ear)
    }

    /// Offers the ears of a list, each preceded by its count of numbers, up to the first refusal. Gives how many were
    /// accepted, and that refusal. A count past the end of the list is 7 in its turn.
    pub fn ears(&mut self, list: &[u16]) -> (usize, Option<Refusal>) {
        let mut accepted = 0;
        for ear in ears_of(list) {
            let offered = match ear {
                Some(ear) => self.ear(ear),
                None => self.open().and_then(|_| refuse(7, 0)),
            };
            match offered {
                Ok(_) => accepted += 1,
                Err(refusal) => return (accepted, Some(refusal)),
            }
        }
        (accepted, None)
    }

    /// Closing succeeds when no link is left unused.
    pub fn close(&mut self) -> Result<(), Refusal> {
        let rule = self.open()?.plant().rule();
        self.close_by(rule)
    }

    /// The same as it was before document 02, Note 6: tree 3 has the lowest numbers.
    pub fn close_as_before(&mut self) -> Result<(), Refusal> {
        self.close_by(Rule::Lowest)
    }

    fn close_by(&mut self, rule: Rule) -> Result<(), Refusal> {
        self.open()?.check_close()?;
        if let Session::Open(judge) = std::mem::take(self) {
            *self = Session::Closed(Tables::of(judge, rule));
        }
        Ok(())
    }

    /// Brings over a session that was closed as before: tree 3 is as close sets it now, and nothing else changes.
    pub fn bring_over(&mut self) -> Result<(), Refusal> {
        let tables = self.tables_mut()?;
        tables.set_thirds(tables.plant.rule());
        Ok(())
    }

    /// Sets tree 3 of a closed session as it was before Note 6.
    pub fn set_back(&mut self) -> Result<(), Refusal> {
        self.tables_mut()?.set_thirds(Rule::Lowest);
        Ok(())
    }

    /// Clearing always succeeds.
    pub fn clear(&mut self) {
        *self = Session::Empty;
    }

    pub fn parent(&self, switch: u16, tree: u16) -> Result<u16, Refusal> {
        Ok(self.tables_for(switch, tree)?.parent(switch, tree))
    }

    /// The program lends room for every walk, so 18 cannot come up.
    pub fn walk(&self, switch: u16, tree: u16) -> Result<Vec<u16>, Refusal> {
        Ok(self.tables_for(switch, tree)?.walk(switch, tree))
    }

    /// Writes the walk at the start of the slice, and gives its count of switches.
    pub fn walk_into(&self, switch: u16, tree: u16, out: &mut [u16]) -> Result<usize, Refusal> {
        let count = self.tables_for(switch, tree)?.write_walk(switch, tree, out);
        count.map_or(refuse(18, 0), Ok)
    }

    /// The walk that is written into a slice with room for so many numbers.
    pub fn walk_within(&self, switch: u16, tree: u16, room: usize) -> Result<Vec<u16>, Refusal> {
        let mut walk = vec![0; room];
        let count = self.walk_into(switch, tree, &mut walk)?;
        walk.truncate(count);
        Ok(walk)
    }

    /// Writes the zone of each switch, by its number, into the first N places of the slice.
    pub fn zones(&self, sizes: [u16; 3], out: &mut [u16]) -> Result<(), Refusal> {
        let tables = self.tables()?;
        let n = tables.switches;
        let mut checks = [(24, !are_sizes(sizes, n)), (18, out.len() < n)];
        if tables.plant == Plant::WrongRoom {
            checks.reverse();
        }
        if let Some((number, _)) = checks.into_iter().find(|(_, fails)| *fails) {
            return refuse(number, 0);
        }
        let [one, two, three] = sizes;
        let sizes = if tables.plant == Plant::WrongSizes { [two, one, three] } else { sizes };
        write_zones(&tables.births, &tables.order, sizes, out);
        Ok(())
    }

    /// The zones that are written into a slice with room for so many numbers.
    pub fn zones_within(&self, sizes: [u16; 3], room: usize) -> Result<Vec<u16>, Refusal> {
        let mut zones = vec![0; room];
        self.zones(sizes, &mut zones)?;
        zones.truncate(self.tables()?.switches);
        Ok(zones)
    }

    /// Three walks from the one switch to the other, written one after another at the start of the slice, or what parts
    /// the two.
    pub fn routes(&self, from: u16, to: u16, out: &mut [u16]) -> Result<Routes, Refusal> {
        let (network, plant) = match self {
            Session::Empty => return refuse(19, 0),
            Session::Open(judge) => (&judge.network, judge.plant()),
            Session::Closed(tables) => (&tables.network, tables.plant),
        };
        let n = network.switches;
        let mut checks = [(26, from == to || usize::from(from.max(to)) >= n), (18, out.len() < n + 4)];
        if plant == Plant::WrongSlice {
            checks.reverse();
        }
        if let Some((number, _)) = checks.into_iter().find(|(_, fails)| *fails) {
            return refuse(number, 0);
        }
        let routes = write_routes(n, &network.table, from, to, out);
        Ok(match (plant, routes) {
            (Plant::WrongTwice, Routes::Walks([2, _, third])) => {
                out[2..4].copy_from_slice(&[from, to]);
                Routes::Walks([2, 2, third])
            }
            (Plant::WrongParting, Routes::Parted([Some(Thing::Link(_)), thing])) => Routes::Parted([thing, None]),
            _ => routes,
        })
    }

    /// What there is between the two with room for so many numbers: the eight numbers of the answer, then the walks.
    pub fn routes_within(&self, from: u16, to: u16, room: usize) -> Result<Vec<u16>, Refusal> {
        let mut walks = vec![0; room];
        let numbers = self.routes(from, to, &mut walks)?.numbers();
        walks.truncate(numbers[..3].iter().map(|&count| usize::from(count)).sum());
        Ok([&numbers[..], &walks].concat())
    }

    fn open(&mut self) -> Result<&mut Judge, Refusal> {
        match self {
            Session::Empty => refuse(19, 0),
            Session::Open(judge) => Ok(judge),
            Session::Closed(_) => refuse(22, 0),
        }
    }

    /// The tables, when closed.
    pub fn tables(&self) -> Result<&Tables, Refusal> {
        match self {
            Session::Empty => refuse(19, 0),
            Session::Open(_) => refuse(21, 0),
            Session::Closed(tables) => Ok(tables),
        }
    }

    fn tables_mut(&mut self) -> Result<&mut Tables, Refusal> {
        match self {
            Session::Empty => refuse(19, 0),
            Session::Open(_) => refuse(21, 0),
            Session::Closed(tables) => Ok(tables),
        }
    }

    /// The same with check 17.
    fn tables_for(&self, switch: u16, tree: u16) -> Result<&Tables, Refusal> {
        let tables = self.tables()?;
        if switch as usize >= tables.switches || !(1..=3).contains(&tree) {
            return refuse(17, 0);
        }
        Ok(tables)
    }
}

/// The list of these ears, each preceded by its count of numbers. An ear of 65,536 numbers or more reads as several.
pub fn list_of(ears: &[Vec<u16>]) -> Vec<u16> {
    ears.iter().flat_map(|ear| [&[ear.len() as u16], &ear[..]].concat()).collect()
}

/// The ears of a list; the last is none where its count is past the end.
pub fn ears_of(list: &[u16]) -> impl Iterator<Item = Option<&[u16]>> {
    let mut rest = list;
    std::iter::from_fn(move || {
        let (&count, numbers) = rest.split_first()?;
        rest = numbers.get(count.into()..).unwrap_or_default();
        Some(numbers.get(..count.into()))
    })
}

#[cfg(test)]
mod tests {
    use super::*;
    use crate::every::{all_joined, worked_site};
    use crate::plan::{leave_short_ears, Plan, Shape, ShortEars};
    use crate::random::Random;

    fn loaded(site: &Site) -> Session {
        let mut session = Session::Empty;
        session.load(site, Plant::Nothing).unwrap();
        session
    }

    /// The worked network, open, after a list that is accepted.
    fn after(list: &[u16]) -> Session {
        let mut session = loaded(&worked_site());
        assert_eq!(session.ears(list).1, None);
        session
    }

    fn stopped(accepted: usize, number: u8, place: usize) -> (usize, Option<Refusal>) {
        (accepted, Some(Refusal { number, place }))
    }

    const FIRST: [u16; 4] = [3, 0, 2, 1];
    const WHOLE: [u16; 11] = [3, 0, 2, 1, 3, 2, 3, 1, 2, 0, 3];

    #[test]
    fn a_list_does_what_its_ears_do() {
        let mut session = after(&[]);
        assert_eq!(session.ears(&WHOLE), (3, None));
        assert_eq!(session.close(), Ok(()));
        assert_eq!(session.walk(2, 3), Ok(vec![2, 3, 0]));
        let mut session = after(&FIRST);
        assert_eq!(session.ears(&WHOLE[4..]), (2, None));
        assert_eq!(session.close(), Ok(()));
    }

    #[test]
    fn a_refused_ear_ends_the_list_and_the_accepted_ones_stay() {
        // The second ear reaches last over its link to root: 15 at 1. The third is not offered.
        let mut session = after(&[]);
        assert_eq!(session.ears(&[3, 0, 2, 1, 3, 2, 3, 0, 2, 0, 3]), stopped(1, 15, 1));
        assert_eq!(session.close(), refuse(23, 2));
        assert_eq!(session.ears(&WHOLE), stopped(0, 14, 1));
        assert_eq!(session.ears(&WHOLE[4..]), (2, None));
        assert_eq!(session.close(), Ok(()));
    }

    #[test]
    fn no_number_before_the_first_ear_one_number_and_counts_past_the_end_are_7_in_their_turn() {
        for (list, accepted) in [
            (&[0][..], 0),
            (&[0, 3, 0, 2, 1], 0),
            (&[3, 0, 2, 1, 1, 2, 3], 1),
            (&[3, 0, 2, 1, 0, 1, 2], 2),
            (&[1], 0),
            (&[65535], 0),
            (&[4, 0, 2, 1], 0),
            (&[3, 0, 2, 1, 65535, 2, 3, 1], 1),
            (&[3, 0, 2, 1, 3, 2, 3, 1, 3, 0, 3], 2),
        ] {
            assert_eq!(after(&[]).ears(list), stopped(accepted, 7, 0), "{list:?}");
        }
    }

    #[test]
    fn the_stage_comes_first_and_no_number_is_no_offer() {
        let mut closed = after(&WHOLE);
        closed.close().unwrap();
        for (mut session, number) in [(Session::Empty, 19), (closed, 22)] {
            for list in [&WHOLE[..], &[0], &[1], &[65535, 0, 2, 1]] {
                assert_eq!(session.ears(list), stopped(0, number, 0), "{list:?}");
            }
            assert_eq!(session.ear(&[]), refuse(number, 0));
            assert_eq!(session.ears(&[]), (0, None));
        }
        assert_eq!(after(&WHOLE).ears(&[]), (0, None));
    }

    #[test]
    fn an_empty_ear_takes_the_leftover_links_whose_switches_are_born() {
        // After 0 2 1 the links of 3 are left, and 3 is unborn: nothing to take, and link 2, from 0 to 3, is told.
        let mut session = after(&FIRST);
        assert_eq!(session.ear(&[]), Ok(0));
        assert_eq!(session.close(), refuse(23, 2));
        // After 2 3 1 the link from 0 to 3 alone is left.
        assert_eq!(session.ear(&[2, 3, 1]), Ok(1));
        assert_eq!(session.close(), refuse(23, 2));
        assert_eq!(session.ear(&[]), Ok(0));
        assert_eq!(session.ear(&[0, 3]), refuse(11, 0));
        assert_eq!(session.ear(&[]), Ok(0));
        assert_eq!(session.close(), Ok(()));
    }

    #[test]
    fn an_empty_ear_leaves_links_with_an_unborn_switch() {
        // Five switches, each two joined. After 0 2 3 1 the links 2 and 4 are taken, those of 4 from link 3 on are left.
        let mut session = loaded(&all_joined(5));
        assert_eq!(session.ears(&[4, 0, 2, 3, 1, 0]), (2, None));
        for (short, number, place) in [([0, 3], 11, 0), ([2, 1], 11, 0), ([0, 4], 13, 1), ([4, 1], 13, 0)] {
            assert_eq!(session.ear(&short), refuse(number, place), "{short:?}");
        }
        assert_eq!(session.close(), refuse(23, 3));
        assert_eq!(session.ears(&[3, 2, 4, 3, 0]), (2, None));
        assert_eq!(session.close(), Ok(()));
    }

    #[test]
    fn an_empty_ear_is_one_ear_of_a_list() {
        let zeros = [0; 70_000];
        assert_eq!(after(&FIRST).ears(&zeros), (70_000, None));
        assert_eq!(after(&[]).ears(&zeros), stopped(0, 7, 0));
        let mut session = after(&[]);
        assert_eq!(session.ears(&[3, 0, 2, 1, 0, 3, 2, 3, 1, 0, 0, 2, 0, 3]), stopped(5, 11, 0));
        assert_eq!(session.close(), Ok(()));
    }

    #[test]
    fn long_ears_and_one_empty_ear_close_as_the_list_written_out() {
        for index in 0..50 {
            let mut random = Random::new(8, index);
            let switches = random.within(4, 40);
            let shape = Shape { short_ears: ShortEars::Anywhere, ..Shape::random(&mut random, switches) };
            let Plan { site, ears } = Plan::of(&shape, &mut random);
            let mut long = ears.clone();
            leave_short_ears(&mut long);
            let [one, other] = [ears, long].map(|ears| {
                let mut session = loaded(&site);
                assert_eq!(session.ears(&list_of(&ears)), (ears.len(), None));
                session.close().unwrap();
                session
            });
            for (s, tree) in (0..site.switches).flat_map(|s| [(s, 1), (s, 2), (s, 3)]) {
                assert_eq!(one.walk(s, tree), other.walk(s, tree), "{site:?}");
            }
        }
    }
}
