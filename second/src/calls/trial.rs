//! One session of the archive and a report beside it, step by step: two copies of their memory, laid out in two ways, and
//! the second program. Each step is checked; the first that shows a fault is told.

use std::fmt::{Display, Formatter, Result as Written};

use super::call::{Answer, Call};
use super::known::{wrong_field, wrong_report};
use super::lengths::make_wrong;
use super::lent::{Apart, Lengths, Memory, Whole, RIGHT};
use super::memory::{leaves, may_answer, with_leftover_taken};
use super::overwrite::overwrite;
use super::side::{Fault, Side};
use crate::archive::{self, CLOSED, OPEN};
use crate::brute;
use crate::ducts::Report;
use crate::parting::Ground;
use crate::seen::Crossed;
use crate::session::Session;
use crate::thirds::Rule;
use crate::Plant;

/// The most numbers that are lent for writing.
pub const MOST_ROOM: usize = 70_000;

/// A step of a session, which can be made again.
#[derive(Clone, Debug)]
pub enum Step {
    Call(Call),
    /// The session's memory is overwritten, as the seed says.
    Overwrite(u64),
    /// Tree 3 of a closed session, in memory and in the second program, is set as before document 02, Note 6.
    SetBack,
    /// The report's memory is set to this.
    SetReport(Box<archive::Report>),
    /// The call is made on a copy of the session with arrays of these lengths.
    Lengths(Call, Lengths),
}

/// What kind of fault a step shows; making its session small keeps to the kind.
#[derive(Clone, Copy, Debug, PartialEq, Eq)]
pub enum Kind {
    /// The answer is not the second program's, or none that the call may give.
    Answer,
    /// A field is not what the second program knows.
    Field,
    /// Something that must stay has changed.
    Changed,
    /// Memory that was not lent has changed.
    Outside,
    /// Two equal copies became different.
    Copies,
    /// Arrays of other lengths than the struct's were not refused so.
    Lengths,
}

#[derive(Clone, Debug)]
pub struct Finding {
    pub kind: Kind,
    pub what: String,
}

impl Finding {
    pub fn of<T>(kind: Kind, what: &str) -> Result<T, Finding> {
        Err(Finding { kind, what: what.to_string() })
    }
}

/// What a step did, for the counts.
pub enum Done {
    /// `stage` and `n` are what memory has; `leftover` is the count of links that an empty ear takes where it is granted; `crossed`
    /// is for a refused ear where the second program knows the session; `brought` where the call changed tree 3.
    Answered {
        answer: Answer,
        known: bool,
        stage: u16,
        n: u16,
        leftover: usize,
        crossed: Option<Crossed>,
        brought: bool,
        /// Whether the report has other sums of switches that lose two walks, and of those that lose all three.
        lost: [bool; 2],
    },
    Overwritten,
    SetReport,
    /// Whether tree 3 was another one.
    SetBack(bool),
    Lengths,
}

pub struct Trial {
    whole: Side<Whole>,
    apart: Side<Apart>,
    /// Session and report as the last step left them.
    before: Box<archive::Session>,
    report: Box<archive::Report>,
    /// The second program's session, while it knows what the memory holds.
    second: Option<Session>,
    plant: Plant,
    fault: Fault,
    /// What outputs hold before a call: from the first number on beside the one copy, from the second on beside the
    /// other.
    filler: Vec<u16>,
}

impl Trial {
    /// The guards of the two copies differ in what they hold and in their number, and so the copies in their alignment.
    pub fn new(plant: Plant, fault: Fault) -> Trial {
        Trial {
            whole: Side::new(Whole::new(32, 0xA5A5), 32, 0xA5A5, false),
            apart: Side::new(Apart::new(33, 0x3C, RIGHT), 33, 0x3C3C, true),
            before: Box::new(archive::Session::EMPTY),
            report: Box::new(archive::Report::EMPTY),
            second: Some(Session::Empty),
            plant,
            fault,
            filler: (0..=MOST_ROOM).map(|at| (at as u16).wrapping_mul(40503) ^ 0x5AA5).collect(),
        }
    }

    pub fn second(&self) -> Option<&Session> {
        self.second.as_ref()
    }

    pub fn memory(&self) -> &archive::Session {
        &self.before
    }

    pub fn report(&self) -> &archive::Report {
        &self.report
    }

    pub fn step(&mut self, step: &Step) -> Result<Done, Finding> {
        match step {
            Step::Call(call) => {
                let known = self.second.is_some();
                let leftover = if call.is_empty_ear() { with_leftover_taken(&self.before).0 } else { 0 };
                let (stage, n, tree3) = (self.before.stage, self.before.n, self.before.tree3);
                let [two, three] = [self.report.two, self.report.three];
                let answer = self.call(call)?;
                let crossed = self.crossed(call, &answer);
                let brought = tree3 != self.before.tree3;
                let lost = [two != self.report.two, three != self.report.three];
                Ok(Done::Answered { answer, known, stage, n, leftover, crossed, brought, lost })
            }
            Step::Overwrite(seed) => {
                self.overwrite(*seed);
                Ok(Done::Overwritten)
            }
            Step::SetBack => Ok(Done::SetBack(self.set_back())),
            Step::SetReport(report) => {
                self.report.clone_from(report);
                self.whole.memory.set_report(report);
                self.apart.memory.set_report(report);
                Ok(Done::SetReport)
            }
            Step::Lengths(call, lengths) => {
                make_wrong((&self.before, &self.report), call, *lengths, &self.filler, self.fault)?;
                Ok(Done::Lengths)
            }
        }
    }

    /// Whether document 02, Note 3, changed the answer to the ear that was refused, which left the session as it was.
    fn crossed(&mut self, call: &Call, answer: &Answer) -> Option<Crossed> {
        match &mut self.second {
            Some(Session::Open(judge)) => judge.crossed(call.refused_ear(answer)?),
            _ => None,
        }
    }

    /// Does nothing where the second program knows no closed session. True where tree 3 was another one.
    fn set_back(&mut self) -> bool {
        let Some(Session::Closed(tables)) = &mut self.second else {
            return false;
        };
        tables.set_thirds(Rule::Lowest);
        let row = &mut self.before.tree3[..tables.switches];
        let lowest: Vec<u16> = (0..tables.switches as u16).map(|s| tables.parent(s, 3)).collect();
        let differs = *row != lowest;
        row.copy_from_slice(&lowest);
        self.set_memory();
        differs
    }

    fn set_memory(&mut self) {
        self.whole.memory.set(&self.before);
        self.apart.memory.set(&self.before);
    }

    /// A session that reads as empty is the second program's empty one, whatever else it holds.
    fn overwrite(&mut self, seed: u64) {
        overwrite(&mut self.before, seed);
        self.set_memory();
        self.second = (![OPEN, CLOSED].contains(&self.before.stage)).then_some(Session::Empty);
    }

    fn call(&mut self, call: &Call) -> Result<Answer, Finding> {
        let Trial { whole, apart, before, report, fault, filler, .. } = self;
        let made = whole.make(call, filler);
        whole.spoil(*fault, false, call, made);
        whole.check(call, filler, (before, report), made)?;
        let copied = apart.make(call, &filler[1..]);
        apart.spoil(*fault, true, call, copied);
        apart.check(call, &filler[1..], (before, report), copied)?;
        let answer = whole.answer(call, made);
        let same = made == copied && answer == apart.answer(call, copied);
        let same_memory =
            apart.memory.holds(whole.memory.session()) && apart.memory.holds_report(whole.memory.report());
        if !same || !same_memory {
            return Finding::of(Kind::Copies, "the same call on two equal sessions and reports differs");
        }
        self.judge(call, &answer)?;
        if answer.may_change() {
            self.before.numbers_mut().copy_from_slice(self.whole.memory.session().numbers());
        }
        if call.has_report() {
            *self.report = self.whole.memory.report().clone();
        }
        Ok(answer)
    }

    /// Holds the answer, and where a call or an ear was granted the session, against what is known of them.
    fn judge(&mut self, call: &Call, answer: &Answer) -> Result<(), Finding> {
        let after = self.whole.memory.session();
        if answer.may_change() && !leaves(call, &self.before, after) {
            return Finding::of(Kind::Changed, "the call has not left the session as it must");
        }
        if let Call::Clear = call {
            self.second = Some(Session::Empty);
        }
        let mut report = self.report.second();
        let Some(second) = &mut self.second else {
            if !may_answer(call, &self.before, &self.report, answer) {
                return Finding::of(Kind::Answer, &format!("this answer may not come: {}", Told(answer)));
            }
            return self.judge_report(call, answer, None);
        };
        let expected = call.second(second, &mut report, self.plant);
        if let Some(what) = difference(call, &self.before, answer, &expected) {
            return Finding::of(Kind::Answer, &what);
        }
        match answer.may_change().then(|| wrong_field(call, after, second)).flatten() {
            Some(field) => Finding::of(Kind::Field, &format!("the session differs in {field}")),
            None => self.judge_report(call, answer, Some(&report)),
        }
    }

    /// Holds the report after a granted call against the second program's, where that knows the session.
    fn judge_report(&self, call: &Call, answer: &Answer, second: Option<&Report>) -> Result<(), Finding> {
        let granted = call.has_report() && answer.values.is_ok();
        match granted.then(|| wrong_report(call, &self.report, self.whole.memory.report(), second)).flatten() {
            Some(what) => Finding::of(Kind::Field, &format!("the report differs in {what}")),
            None => Ok(()),
        }
    }
}

/// How the archive's answer differs from the second program's. Zones and routes need not be the same: both are searched
/// for a fault.
fn difference(call: &Call, session: &archive::Session, answer: &Answer, expected: &Answer) -> Option<String> {
    let both = match (&answer.values, &expected.values) {
        (Ok(one), Ok(other)) => searched(call, session, one).zip(searched(call, session, other)),
        _ => None,
    };
    match both {
        Some((Err(fault), _)) => Some(format!("the answer of the archive: {fault}")),
        Some((Ok(()), Err(fault))) => Some(format!("the answer of the second program: {fault}")),
        Some((Ok(()), Ok(()))) => None,
        None if answer == expected => None,
        None => Some(format!("the archive answers {}, the second program {}", Told(answer), Told(expected))),
    }
}

/// Searches zones or routes for a fault, along the links of the session. None of any other call.
fn searched(call: &Call, session: &archive::Session, values: &[u16]) -> Option<Result<(), String>> {
    match *call {
        Call::Zones { sizes, .. } => Some(brute::are_zones(&session.site(), sizes, values)),
        Call::Routes { from, to, .. } => Some(Ground::of(&session.site()).holds(from, to, values)),
        _ => None,
    }
}

/// An answer as it is told.
struct Told<'a>(&'a Answer);

impl Display for Told<'_> {
    fn fmt(&self, out: &mut Formatter) -> Written {
        if self.0.accepted > 0 {
            write!(out, "{} accepted, ", self.0.accepted)?;
        }
        match &self.0.values {
            Ok(values) => write!(out, "{values:?}"),
            Err(refusal) => write!(out, "refusal {} at {}", refusal.number, refusal.place),
        }
    }
}

impl Display for Step {
    fn fmt(&self, out: &mut Formatter) -> Written {
        match self {
            Step::Call(call) => write!(out, "{call}"),
            Step::Overwrite(seed) => write!(out, "(the session is overwritten by seed {seed})"),
            Step::SetBack => write!(out, "(tree 3 is set to the lowest numbers)"),
            Step::SetReport(report) => write!(out, "(the report is set to {} sessions and some sums)", report.sessions),
            Step::Lengths(call, lengths) => write!(out, "{call} (with arrays of lengths {lengths:?})"),
        }
    }
}
