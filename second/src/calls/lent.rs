//! Numbers that are lent between guards, and with them the memory of a session and of a report, laid out in two ways: the
//! struct in one piece, or its arrays apart, so that whoever leaves an array meets a guard and not the next array.

use crate::archive::{Parts, Report, ReportParts, Session};
use crate::ducts::DUCTS;
use crate::network::{MAX_LINKS, MAX_SWITCHES};

/// Numbers that are lent, with guards before and after them.
pub struct Lent<T> {
    numbers: Vec<T>,
    /// How many guards are on each side, and what they hold.
    guards: usize,
    mark: T,
    /// When nothing is lent, it is lent from nowhere.
    nowhere: bool,
}

impl<T: Copy + PartialEq> Lent<T> {
    pub fn new(guards: usize, mark: T, nowhere: bool) -> Lent<T> {
        Lent { numbers: vec![mark; 2 * guards], guards, mark, nowhere }
    }

    pub fn fill(&mut self, numbers: impl Iterator<Item = T>) {
        self.numbers.truncate(self.guards);
        self.numbers.extend(numbers);
        self.numbers.resize(self.numbers.len() + self.guards, self.mark);
    }

    pub fn get(&self) -> &[T] {
        &self.numbers[self.guards..self.numbers.len() - self.guards]
    }

    pub fn lend(&mut self) -> &mut [T] {
        let end = self.numbers.len() - self.guards;
        if self.nowhere && end == self.guards {
            return &mut [];
        }
        &mut self.numbers[self.guards..end]
    }

    pub fn is_guarded(&self) -> bool {
        let (before, after) = (&self.numbers[..self.guards], &self.numbers[self.numbers.len() - self.guards..]);
        before.iter().chain(after).all(|number| *number == self.mark)
    }

    /// The guard behind the numbers.
    pub fn behind(&mut self) -> &mut T {
        let at = self.numbers.len() - self.guards;
        &mut self.numbers[at]
    }
}

/// The memory of a session and of a report between guards.
pub trait Memory {
    fn both(&mut self) -> (Parts<'_>, ReportParts<'_>);
    fn is_guarded(&self) -> bool;
    fn holds(&self, session: &Session) -> bool;
    fn holds_report(&self, report: &Report) -> bool;
    fn set(&mut self, session: &Session);
    fn set_report(&mut self, report: &Report);
    fn parts(&mut self) -> Parts<'_> {
        self.both().0
    }
    /// The guard behind it.
    fn behind(&mut self) -> &mut u16;
}

/// Each struct in one piece.
pub struct Whole {
    session: Lent<u16>,
    report: Lent<u32>,
}

impl Whole {
    pub fn new(guards: usize, mark: u16) -> Whole {
        let report = Lent::new(guards, u32::from(mark) * 0x10001, false);
        let mut whole = Whole { session: Lent::new(guards, mark, false), report };
        whole.set(&Session::EMPTY);
        whole.set_report(&Report::EMPTY);
        whole
    }

    pub fn session(&self) -> &Session {
        Session::at(self.session.get())
    }

    pub fn report(&self) -> &Report {
        Report::at(self.report.get())
    }
}

impl Memory for Whole {
    fn both(&mut self) -> (Parts<'_>, ReportParts<'_>) {
        (Session::at_mut(self.session.lend()).parts(), Report::at_mut(self.report.lend()).parts())
    }

    fn is_guarded(&self) -> bool {
        self.session.is_guarded() && self.report.is_guarded()
    }

    fn holds(&self, session: &Session) -> bool {
        self.session() == session
    }

    fn holds_report(&self, report: &Report) -> bool {
        self.report() == report
    }

    fn set(&mut self, session: &Session) {
        self.session.fill(session.numbers().iter().copied());
    }

    fn set_report(&mut self, report: &Report) {
        self.report.fill(report.numbers().iter().copied());
    }

    fn behind(&mut self) -> &mut u16 {
        self.session.behind()
    }
}

/// The lengths of links, births, order, trees 1, 2 and 3, used and ducts, and of the two arrays of a report.
pub type Lengths = [usize; 10];

pub const RIGHT: Lengths = {
    let [wide, n, m] = [2 * MAX_LINKS, MAX_SWITCHES, MAX_LINKS];
    [wide, n, n, n, n, n, m, m, DUCTS, DUCTS]
};

/// What an array that is longer than the struct's holds beyond it.
const BEYOND: u8 = 7;

/// The numbers of a session in one piece, and each of its arrays, of any length, in another; and so those of a report.
pub struct Apart {
    numbers: Lent<u16>,
    rows: [Lent<u16>; 6],
    used: Lent<u8>,
    ducts: Lent<u8>,
    sessions: Lent<u16>,
    sums: [Lent<u32>; 2],
    lengths: Lengths,
}

impl Apart {
    pub fn new(guards: usize, mark: u8, lengths: Lengths) -> Apart {
        let wide = || Lent::new(guards, u16::from_le_bytes([mark, mark]), true);
        let narrow = || Lent::new(guards, mark, true);
        let (numbers, rows) = (wide(), std::array::from_fn(|_| wide()));
        let sums = std::array::from_fn(|_| Lent::new(guards, u32::from_le_bytes([mark; 4]), true));
        let mut apart = Apart { numbers, rows, used: narrow(), ducts: narrow(), sessions: wide(), sums, lengths };
        apart.set(&Session::EMPTY);
        apart.set_report(&Report::EMPTY);
        apart
    }
}

fn numbers(session: &Session) -> [u16; 8] {
    let Session { stage, n, m, root, first, last, longs, born, .. } = *session;
    [stage, n, m, root, first, last, longs, born]
}

fn rows(session: &Session) -> [&[u16]; 6] {
    let Session { links, births, order, tree1, tree2, tree3, .. } = session;
    [links, births, order, tree1, tree2, tree3]
}

impl Memory for Apart {
    fn both(&mut self) -> (Parts<'_>, ReportParts<'_>) {
        let [links, births, order, tree1, tree2, tree3] = self.rows.each_mut().map(Lent::lend);
        let [stage, n, m, root, first, last, longs, born] = self.numbers.lend() else {
            unreachable!("a session has eight numbers");
        };
        let numbers = [stage, n, m, root, first, last, longs, born];
        let (ducts, used) = (self.ducts.lend(), self.used.lend());
        let [two, three] = self.sums.each_mut().map(Lent::lend);
        let report = ReportParts { sessions: &mut self.sessions.lend()[0], two, three };
        (Parts { numbers, links, ducts, used, births, order, tree1, tree2, tree3 }, report)
    }

    fn is_guarded(&self) -> bool {
        let narrow = [&self.used, &self.ducts];
        let report = self.sessions.is_guarded() && self.sums.iter().all(Lent::is_guarded);
        report
            && self.numbers.is_guarded()
            && narrow.iter().all(|row| row.is_guarded())
            && self.rows.iter().all(Lent::is_guarded)
    }

    fn holds(&self, session: &Session) -> bool {
        let same_rows = self.rows.iter().zip(rows(session)).all(|(row, other)| is_start(row.get(), other));
        let same_used = is_start(self.used.get(), &session.used) && is_start(self.ducts.get(), &session.ducts);
        same_rows && same_used && self.numbers.get() == numbers(session)
    }

    fn holds_report(&self, report: &Report) -> bool {
        let [two, three] = self.sums.each_ref().map(Lent::get);
        *self.sessions.get() == [report.sessions] && is_start(two, &report.two) && is_start(three, &report.three)
    }

    fn set(&mut self, session: &Session) {
        self.numbers.fill(numbers(session).into_iter());
        for ((lent, row), length) in self.rows.iter_mut().zip(rows(session)).zip(self.lengths) {
            lent.fill(row.iter().copied().chain(std::iter::repeat(BEYOND.into())).take(length));
        }
        let [.., used, ducts, _, _] = self.lengths;
        self.used.fill(session.used.iter().copied().chain(std::iter::repeat(BEYOND)).take(used));
        self.ducts.fill(session.ducts.iter().copied().chain(std::iter::repeat(BEYOND)).take(ducts));
    }

    fn set_report(&mut self, report: &Report) {
        self.sessions.fill(std::iter::once(report.sessions));
        let [.., two, three] = self.lengths;
        for ((lent, row), length) in self.sums.iter_mut().zip([report.two, report.three]).zip([two, three]) {
            lent.fill(row.into_iter().chain(std::iter::repeat(BEYOND.into())).take(length));
        }
    }

    fn behind(&mut self) -> &mut u16 {
        self.rows[5].behind()
    }
}

/// Whether an array is as much of a session's as it has room for, and what is beyond that is as it was set.
fn is_start<T: PartialEq + From<u8>>(array: &[T], session: &[T]) -> bool {
    let both = array.len().min(session.len());
    array[..both] == session[..both] && array[both..].iter().all(|number| *number == BEYOND.into())
}
