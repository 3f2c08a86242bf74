//! Draws the calls of a session: a plan offered ear by ear or tried at random, and calls that stray from it.
//! It also draws calls on memory that no calls made.

use super::arguments::{any_numbers, mix_plan, path, query, routes, thinned, through, wild_query, wild_routes};
use super::call::Call;
use super::lists::{any_list, damaged_list, empty_ears};
use crate::archive::{self, CLOSED, OPEN};
use crate::damage::{damage_site, damaged_ear, last_by_root, tried_ear, tried_in_vain};
use crate::judge::Judge;
use crate::network::{Link, MAX_LINKS};
use crate::plan::{any_duct, Plan, Shape};
use crate::random::Random;
use crate::session::{list_of, Session};

/// An ear of this many numbers or more has places enough that more calls stray from it.
const LONG: usize = 9;

/// What the calls of a session are drawn from.
pub struct Draw {
    plan: Plan,
    /// How many ears of the plan were offered.
    at: usize,
    /// Ears are tried at random, not taken from the plan.
    tries: bool,
    /// Percent of calls that stray from the plan.
    noise: usize,
    /// Percent of calls on the plan that offer several ears as one list.
    lists: usize,
    /// How many calls other than ears of the plan are still to come.
    left: usize,
}

impl Draw {
    /// Most sites are small; session by session some are larger, and few of full size.
    pub fn of(random: &mut Random, session: u64) -> Draw {
        let (switches, noise) = match session {
            _ if session % 1000 == 500 => (*random.pick(&[1024, 1024, 1023, 700, 300]), 3),
            _ if session % 40 == 20 => (random.within(21, 200), 15),
            _ => (random.within(4, 20), *random.pick(&[5, 20, 40, 60, 90])),
        };
        let mut shape = Shape::random(random, switches);
        if switches > 200 && random.chance(30) {
            (shape.links, shape.cubic) = (MAX_LINKS, false);
        }
        let mut plan = Plan::of(&shape, random);
        if random.chance(15) {
            mix_plan(random, &mut plan);
        }
        let long = plan.ears.iter().filter(|ear| ear.len() >= LONG).count();
        let left = random.within(5, 40) + plan.ears.len() * noise / 40 + 5 * long;
        let tries = switches <= 20 && random.chance(25);
        Draw { plan, at: 0, tries, noise, lists: *random.pick(&[0, 0, 0, 20]), left }
    }

    /// After how many calls the session is overwritten, if it is.
    pub fn overwritten_after(&self, random: &mut Random) -> usize {
        random.below(self.plan.ears.len() + 30)
    }

    /// The next call, if one is still to come.
    pub fn next(&mut self, random: &mut Random, session: &Session) -> Option<Call> {
        let next_ear = self.plan.ears.get(self.at).filter(|_| !self.tries);
        let strays = random.chance(match (session, next_ear) {
            (Session::Open(_), Some(ear)) if ear.len() >= LONG => 85,
            (Session::Open(_), _) => self.noise,
            _ => self.noise.min(20),
        });
        if let (Session::Open(_), Some(ear), false) = (session, next_ear, strays) {
            if random.chance(self.lists) {
                return Some(Call::Ears(list_of(&self.next_ears(random, 12))));
            }
            let ear = ear.clone();
            self.at += 1;
            return Some(Call::Ear(ear));
        }
        self.left = self.left.checked_sub(1)?;
        if strays {
            return Some(self.stray(random, session));
        }
        Some(match session {
            Session::Empty => {
                self.at = 0;
                self.load(random, 30)
            }
            Session::Open(_) if random.chance(15) => routes(random, self.plan.site.switches),
            Session::Open(judge) if self.tries || random.chance(50) => self.tried(random, judge),
            Session::Open(_) => Call::Close,
            Session::Closed(_) if random.chance(15) => Call::BringOver,
            Session::Closed(_) if random.chance(15) => report(random),
            Session::Closed(_) => query(random, session, self.plan.site.switches),
        })
    }

    /// The next ears of the plan: fewer than `most`, up to a long one, or all that are left.
    fn next_ears(&mut self, random: &mut Random, most: usize) -> Vec<Vec<u16>> {
        let left = &self.plan.ears[self.at.min(self.plan.ears.len())..];
        let few = random.below(most);
        let count = match random.chance(4) {
            true => left.len(),
            false => left.iter().take(few).take_while(|ear| ear.len() < LONG).count(),
        };
        self.at += count;
        left[..count].to_vec()
    }

    /// An ear that may be taken where the plan is not followed: a link that is left, all of them, or a path.
    fn tried(&self, random: &mut Random, judge: &Judge) -> Call {
        let network = &judge.network;
        let all_born = (0..network.switches as u16).all(|s| judge.is_born(s));
        if !all_born || random.chance(5) {
            return if random.chance(95) { Call::Ear(tried_ear(random, judge)) } else { Call::Close };
        }
        let from = random.below(network.switches);
        let switches = (0..network.switches).map(|k| ((from + k) % network.switches) as u16);
        let mut links = switches.flat_map(|s| network.neighbours(s).iter().map(move |other| (s, other)));
        match links.find(|(_, other)| !judge.is_used(other.link as usize)) {
            Some(_) if random.chance(20) => Call::Ear(Vec::new()),
            Some((s, other)) => Call::Ear(vec![s, other.switch]),
            None => Call::Close,
        }
    }

    /// A call that is most likely refused.
    fn stray(&mut self, random: &mut Random, session: &Session) -> Call {
        match random.below(20) {
            0 | 1 => Call::Close,
            2 => self.load(random, 60),
            3 => query(random, session, self.plan.site.switches),
            4 if random.chance(15) => {
                self.at = 0;
                Call::Clear
            }
            5 | 6 => Call::Ears(self.stray_list(random, session)),
            7 if random.chance(20) => Call::Ear(Vec::new()),
            7 if random.chance(5) => Call::Ears(empty_ears(random)),
            8 if matches!(session, Session::Empty) || random.chance(20) => Call::BringOver,
            9 if matches!(session, Session::Empty) || random.chance(30) => report(random),
            10 if matches!(session, Session::Empty) || random.chance(60) => routes(random, self.plan.site.switches),
            _ => Call::Ear(self.stray_ear(random, session)),
        }
    }

    /// A list that is most likely refused at one of its ears; where the session is open, most often behind good ones.
    fn stray_list(&mut self, random: &mut Random, session: &Session) -> Vec<u16> {
        let Session::Open(_) = session else {
            let ears = vec![self.any_ear(random), self.any_ear(random)];
            return any_list(random, ears);
        };
        let good = list_of(&self.next_ears(random, 4));
        let mut next: Vec<Vec<u16>> = self.plan.ears.iter().skip(self.at).take(4).cloned().collect();
        if random.chance(50) {
            next.insert(0, self.stray_ear(random, session));
            return [good, list_of(&next)].concat();
        }
        [good, damaged_list(random, next)].concat()
    }

    fn stray_ear(&self, random: &mut Random, session: &Session) -> Vec<u16> {
        let Session::Open(judge) = session else {
            return self.any_ear(random);
        };
        match random.below(20) {
            0 | 1 => last_by_root(random, judge),
            2 | 3 => tried_in_vain(random, judge),
            4..=8 => through(random, judge),
            9 => self.any_ear(random),
            _ => damaged_ear(random, judge, &self.plan.ears, self.at),
        }
    }

    /// An ear that asks nobody: of the plan, of any numbers, or a good one with 65,536 numbers behind it.
    fn any_ear(&self, random: &mut Random) -> Vec<u16> {
        match random.below(400) {
            0 => {
                let ear = random.pick(&self.plan.ears);
                ear.iter().cycle().take(65536 + ear.len()).copied().collect()
            }
            1..=10 => any_numbers(random, 5000),
            11..=120 => any_numbers(random, 30),
            121..=150 => (0..random.below(1200) as u16).collect(),
            _ => random.pick(&self.plan.ears).clone(),
        }
    }

    /// The plan's network, damaged in so many of a hundred cases. A few have some of its links alone: they load, though
    /// most of them never close.
    fn load(&self, random: &mut Random, damaged: usize) -> Call {
        let mut site = self.plan.site.clone();
        if random.chance(10) {
            return Call::Load(thinned(random, site));
        }
        if !random.chance(damaged) {
            return Call::Load(site);
        }
        for _ in 0..random.below(4) {
            damage_site(random, &mut site);
        }
        let links = &mut site.links;
        match random.below(60) {
            0 => links.clear(),
            1 => links.truncate(links.len().saturating_sub(1)),
            2 => links.push(Link { a: random.below(5) as u16, b: random.below(5) as u16, duct: any_duct(random) }),
            3 => {
                let numbers = any_numbers(random, 9000);
                let two = |two: &[u16]| Link { a: two[0], b: two[1], duct: random.number() as u8 };
                *links = numbers.chunks_exact(2).map(two).collect();
            }
            4 => *links = links.iter().cycle().take(random.within(4095, 4100)).copied().collect(),
            5 if random.chance(30) => links.extend(vec![Link::default(); 65536]),
            _ => {}
        }
        Call::Load(site)
    }

    /// A call on memory that no calls made, most often one for its stage.
    pub fn wild(&mut self, random: &mut Random, memory: &archive::Session) -> Call {
        let kind = match memory.stage {
            _ if random.chance(15) => random.below(29),
            OPEN if random.chance(10) => 28,
            OPEN => random.within(5, 25),
            CLOSED if random.chance(30) => 26,
            CLOSED if random.chance(30) => 27,
            CLOSED => random.within(3, 4),
            _ => random.below(4),
        };
        match kind {
            1 => self.load(random, 40),
            2 if random.chance(20) => Call::Clear,
            2..=4 => wild_query(random, memory),
            5..=7 => Call::Close,
            8 => Call::Ear(Vec::new()),
            9 | 10 => Call::Ear(self.any_ear(random)),
            11..=14 => Call::Ear(path(random, memory)),
            15..=21 => Call::Ear(self.moved_ears(memory, 1).concat()),
            26 => Call::BringOver,
            27 => report(random),
            28 => wild_routes(random, memory),
            _ => Call::Ears(self.wild_list(random, memory)),
        }
    }

    /// A list of ears that memory may take.
    fn wild_list(&mut self, random: &mut Random, memory: &archive::Session) -> Vec<u16> {
        let count = *random.pick(&[2, 4, 4, 30]);
        let mut ears = self.moved_ears(memory, count);
        if random.chance(30) {
            ears[random.below(count)] = path(random, memory);
        }
        if random.chance(30) {
            ears.insert(random.below(count), Vec::new());
        }
        any_list(random, ears)
    }

    /// The next ears of the plan, from the first on again where it ends, their numbers raised as the root in memory is.
    fn moved_ears(&mut self, memory: &archive::Session, count: usize) -> Vec<Vec<u16>> {
        let by = memory.root.wrapping_sub(self.plan.site.root);
        let at = if memory.born == 0 { 0 } else { self.at % self.plan.ears.len() };
        self.at = at + 1;
        let next = self.plan.ears.iter().cycle().skip(at).take(count);
        next.map(|ear| ear.iter().map(|switch| switch.wrapping_add(by)).collect()).collect()
    }
}

/// A call of a report: it is begun, or most often the session is added.
fn report(random: &mut Random) -> Call {
    match random.chance(10) {
        true => Call::ReportBegin,
        false => Call::ReportAdd,
    }
}
