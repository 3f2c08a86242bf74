//! Many sessions drawn from a seed, each step checked: their counts, or the first difference.
//! The steps that lead to a difference are made few.

use std::collections::BTreeMap;
use std::time::{Duration, Instant};

use super::call::{Answer, Call};
use super::draw::Draw;
use super::lengths::wrong_lengths;
use super::overwrite::other_report;
use super::side::Fault;
use super::trial::{Done, Finding, Step, Trial};
use crate::archive::{self, OPEN};
use crate::compare::refusals_told;
use crate::random::Random;
use crate::seen::{BroughtOver, CrossedEars, EmptyEars, Reports, Routes, Seen, Zones};
use crate::session::ears_of;
use crate::Plant;

/// With so many calls or more, every refusal has to be seen, every answer to an empty ear, to zones, to bringing over, to
/// a report and to routes, and both crossed ears.
const ENOUGH: usize = 100_000;

/// What was seen.
#[derive(Clone, Debug, Default)]
pub struct Counts {
    pub calls: usize,
    pub sessions: usize,
    /// Calls that the second program answered, granted ones by name; the others are on memory that no calls made.
    pub compared: usize,
    pub granted: BTreeMap<&'static str, usize>,
    pub refusals: BTreeMap<u16, BTreeMap<u16, usize>>,
    pub empty_ears: EmptyEars,
    pub crossed_ears: CrossedEars,
    pub zones: Zones,
    pub brought_over: BroughtOver,
    pub reports: Reports,
    pub routes: Routes,
    /// Sessions whose tree 3 was set to other entries, those of the lowest numbers.
    pub set_back: usize,
    /// Lists that were refused at an ear behind accepted ones, and lists with an empty ear accepted.
    pub stopped: usize,
    pub lists_with_empty: usize,
    /// Sessions overwritten, and the calls on them that the second program does not know.
    pub overwritten: usize,
    pub unknown: usize,
    pub unknown_granted: BTreeMap<&'static str, usize>,
    pub unknown_refusals: BTreeMap<u16, BTreeMap<u16, usize>>,
    pub unknown_empty_ears: EmptyEars,
    pub unknown_zones: Zones,
    pub unknown_reports: Reports,
    pub unknown_routes: Routes,
    /// Calls with arrays of other lengths than the struct's.
    pub wrong_lengths: usize,
}

/// The first difference, and the steps of its session that lead to it.
#[derive(Clone, Debug)]
pub struct Difference {
    pub session: u64,
    pub finding: Finding,
    pub steps: Vec<Step>,
}

/// Makes so many calls. The faults are put in on purpose, into the second program and behind the archive.
pub fn run(seed: u64, count: usize, plant: Plant, fault: Fault) -> Result<Counts, Difference> {
    Run::new(count, plant, fault).all(seed)
}

struct Run {
    trial: Trial,
    /// How many calls are made.
    count: usize,
    plant: Plant,
    fault: Fault,
    counts: Counts,
    /// The steps since the session was empty.
    steps: Vec<Step>,
}

impl Run {
    fn new(count: usize, plant: Plant, fault: Fault) -> Run {
        Run { trial: Trial::new(plant, fault), count, plant, fault, counts: Counts::default(), steps: Vec::new() }
    }

    fn all(mut self, seed: u64) -> Result<Counts, Difference> {
        let mut session = 0;
        while !self.is_over() {
            let mut random = Random::new(seed, session);
            if let Err(finding) = self.session(&mut random, session) {
                let (finding, steps) = self.fewest(finding);
                return Err(Difference { session, finding, steps });
            }
            session += 1;
        }
        Ok(self.counts)
    }

    fn is_over(&self) -> bool {
        self.counts.calls >= self.count
    }

    /// One session up to its last call, a clear. Some are overwritten on the way.
    fn session(&mut self, random: &mut Random, session: u64) -> Result<(), Finding> {
        self.counts.sessions += 1;
        self.steps.clear();
        self.set_report(self.trial.report().clone().into())?;
        let mut draw = Draw::of(random, session);
        let mut until = if random.chance(30) { draw.overwritten_after(random) } else { usize::MAX };
        while until > 0 && !self.is_over() {
            let second = self.trial.second().expect("the second program knows a session that calls made");
            let is_closed = second.tables().is_ok();
            let Some(call) = draw.next(random, second) else { break };
            if is_closed && random.chance(8) {
                self.step(Step::SetBack)?;
            }
            if random.chance(2) {
                self.wrong_lengths(random, &call)?;
            }
            if random.chance(1) {
                self.set_report(other_report(self.trial.report(), random))?;
            }
            self.step(Step::Call(call))?;
            until -= 1;
        }
        if until == 0 {
            self.overwritten(random, &mut draw)?;
        }
        self.step(Step::Call(Call::Clear))
    }

    /// Calls on memory that is overwritten, and again when the second program knows it or at random.
    fn overwritten(&mut self, random: &mut Random, draw: &mut Draw) -> Result<(), Finding> {
        self.step(Step::Overwrite(random.number()))?;
        for _ in 0..random.within(5, 80) {
            if random.chance(if self.trial.second().is_some() { 30 } else { 3 }) {
                self.step(Step::Overwrite(random.number()))?;
            }
            let call = draw.wild(random, self.trial.memory());
            if random.chance(3) {
                self.wrong_lengths(random, &call)?;
            }
            self.step(Step::Call(call))?;
        }
        Ok(())
    }

    /// Goes on with this report.
    fn set_report(&mut self, report: Box<archive::Report>) -> Result<(), Finding> {
        self.step(Step::SetReport(report))
    }

    fn wrong_lengths(&mut self, random: &mut Random, call: &Call) -> Result<(), Finding> {
        let lengths = wrong_lengths(random, call);
        self.step(Step::Lengths(call.clone(), lengths))
    }

    /// Makes a step, unless all calls are made.
    fn step(&mut self, step: Step) -> Result<(), Finding> {
        if self.is_over() {
            return Ok(());
        }
        let done = self.trial.step(&step);
        self.steps.push(step);
        self.counts.add(&self.steps[self.steps.len() - 1], &done?);
        Ok(())
    }

    /// What the steps show when they are made anew, and after how many of them.
    fn show(&self, steps: &[&Step]) -> Option<(Finding, usize)> {
        let mut trial = Trial::new(self.plant, self.fault);
        steps.iter().enumerate().find_map(|(at, step)| Some((trial.step(step).err()?, at + 1)))
    }

    /// As few of the steps as still show the same kind of fault, dropping runs of them, long runs first.
    fn fewest(&self, finding: Finding) -> (Finding, Vec<Step>) {
        let until = Instant::now() + Duration::from_secs(10);
        let mut steps: Vec<&Step> = self.steps.iter().collect();
        let mut finding = finding;
        let mut run = steps.len().div_ceil(2);
        while run > 0 && Instant::now() < until {
            let mut from = 0;
            while from < steps.len() && Instant::now() < until {
                let fewer = [&steps[..from], &steps[steps.len().min(from + run)..]].concat();
                match self.show(&fewer) {
                    Some((found, shown)) if found.kind == finding.kind => {
                        (steps, finding) = (fewer[..shown].to_vec(), found);
                    }
                    _ => from += run,
                }
            }
            run /= 2;
        }
        (finding, steps.into_iter().cloned().collect())
    }
}

fn name(call: &Call) -> &'static str {
    match call {
        Call::Clear => "clear",
        Call::Load(_) => "load",
        Call::Ear(_) => "ear",
        Call::Ears(_) => "ears",
        Call::Close => "close",
        Call::BringOver => "bring over",
        Call::Parent { .. } => "parent",
        Call::Walk { .. } => "walk",
        Call::Zones { .. } => "zones",
        Call::Routes { .. } => "routes",
        Call::ReportBegin => "report begin",
        Call::ReportAdd => "report add",
    }
}

impl Counts {
    fn add(&mut self, step: &Step, done: &Done) {
        match (step, done) {
            (Step::Call(call), Done::Answered { answer, known, stage, n, leftover, crossed, brought, lost }) => {
                self.calls += 1;
                self.add_answer(call, answer, *known);
                if let Some(crossed) = crossed {
                    self.crossed_ears.add(*crossed);
                }
                if call.is_empty_ear() {
                    let ears = if *known { &mut self.empty_ears } else { &mut self.unknown_empty_ears };
                    ears.add(answer.values.as_ref().map(|_| *leftover).map_err(|refusal| refusal.number.into()));
                }
                if let (Call::BringOver, true) = (call, *known) {
                    self.brought_over.add(answer.values.as_ref().map(|_| *brought).map_err(|refusal| refusal.number));
                }
                if let Call::ReportAdd = call {
                    let reports = if *known { &mut self.reports } else { &mut self.unknown_reports };
                    reports.add(answer.values.as_ref().map(|_| *lost).map_err(|refusal| refusal.number));
                }
                if let Call::Zones { sizes, room } = call {
                    let zones = if *known { &mut self.zones } else { &mut self.unknown_zones };
                    let refused = answer.values.as_ref().err().map(|refusal| refusal.number.into());
                    zones.add(refused, *sizes, *n, *room);
                }
                if let Call::Routes { room, .. } = call {
                    let routes = if *known { &mut self.routes } else { &mut self.unknown_routes };
                    match &answer.values {
                        Ok(told) => routes.add(told, *stage == OPEN),
                        Err(refusal) => routes.add_refused(refusal.number, *n, *room),
                    }
                }
            }
            (_, Done::SetReport) => {}
            (_, Done::SetBack(differs)) => self.set_back += usize::from(*differs),
            (_, Done::Lengths) => {
                self.calls += 1;
                self.wrong_lengths += 1;
            }
            _ => self.overwritten += 1,
        }
    }

    fn add_answer(&mut self, call: &Call, answer: &Answer, known: bool) {
        let (all, granted, refusals) = match known {
            true => (&mut self.compared, &mut self.granted, &mut self.refusals),
            false => (&mut self.unknown, &mut self.unknown_granted, &mut self.unknown_refusals),
        };
        *all += 1;
        match &answer.values {
            Ok(_) => *granted.entry(name(call)).or_default() += 1,
            Err(refusal) => {
                let places = refusals.entry(refusal.number.into()).or_default();
                *places.entry(refusal.place as u16).or_default() += 1;
            }
        }
        if let Call::Ears(list) = call {
            self.stopped += usize::from(answer.accepted > 0 && answer.values.is_err());
            let has_empty = ears_of(list).take(answer.accepted).flatten().any(<[u16]>::is_empty);
            self.lists_with_empty += usize::from(has_empty);
        }
    }

    /// The refusals, ears, zones, bringing over, reports and routes that were never seen although there were calls enough.
    pub fn missing(&self) -> Vec<String> {
        if self.calls < ENOUGH {
            return Vec::new();
        }
        let refusals = (1..=26).filter(|number| !self.refusals.contains_key(number)).map(|number| number.to_string());
        let ears = [self.empty_ears.missing(), self.crossed_ears.missing()].concat();
        let reads = [self.zones.missing(), self.reports.missing(), self.routes.missing()].concat();
        let kinds = [ears, self.brought_over.missing(), reads].concat();
        let listed = (self.lists_with_empty == 0).then(|| "an empty ear in a list".to_string());
        refusals.chain(kinds).chain(listed).collect()
    }
}

/// One line of counts.
pub fn summary(counts: &Counts) -> String {
    let told = |granted: &BTreeMap<&str, usize>| {
        let told: Vec<String> = granted.iter().map(|(name, count)| format!("{count} {name}")).collect();
        told.join(", ")
    };
    format!(
        "equal: {} calls, {} sessions; {} compared with the second program, granted {}, \
         refusals (number:times/places) {}, empty ears: {}, crossed ears: {}, zones: {}, \
         {} with tree 3 set back to the lowest numbers, brought over: {}, added to a report: {}, routes: {}; \
         {} overwritten, {} calls on them, granted {}, refusals {}, empty ears: {}, zones: {}, added to a report: {}, \
         routes: {}; \
         {} lists stopped behind accepted ears, {} with an empty ear accepted; {} calls with arrays of wrong lengths",
        counts.calls,
        counts.sessions,
        counts.compared,
        told(&counts.granted),
        refusals_told(&counts.refusals),
        counts.empty_ears.told(),
        counts.crossed_ears.told(),
        counts.zones.told(),
        counts.set_back,
        counts.brought_over.told(),
        counts.reports.told(),
        counts.routes.told(),
        counts.overwritten,
        counts.unknown,
        told(&counts.unknown_granted),
        refusals_told(&counts.unknown_refusals),
        counts.unknown_empty_ears.told(),
        counts.unknown_zones.told(),
        counts.unknown_reports.told(),
        counts.unknown_routes.told(),
        counts.stopped,
        counts.lists_with_empty,
        counts.wrong_lengths,
    )
}
