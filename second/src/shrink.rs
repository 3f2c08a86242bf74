//! Makes a script smaller while it still shows what it shows.

use std::collections::HashSet;
use std::time::{Duration, Instant};

use crate::lines::{ear_line, link_line, read_form, Form};
use crate::network::Link;

/// A line with more numbers than this is not changed number by number.
const MANY_NUMBERS: usize = 64;

/// The smallest script found for which `still` holds, as it holds of the
/// script given: fewer lines first, then fewer switches, then fewer ducts, then
/// fewer and smaller numbers.
pub fn shrink(script: &[u8], still: &mut dyn FnMut(&[u8]) -> bool) -> Vec<u8> {
    let ends_with_feed = script.ends_with(b"\n");
    let body = if ends_with_feed { &script[..script.len() - 1] } else { script };
    let lines = body.split(|&byte| byte == b'\n').map(<[u8]>::to_vec).collect();
    let until = Instant::now() + Duration::from_secs(30);
    let mut small = Small { lines, ends_with_feed, still, until };
    loop {
        let before = small.lines.clone();
        small.drop_lines();
        small.join_switches();
        small.drop_two_lines();
        small.drop_ducts();
        small.drop_numbers();
        small.lower_numbers();
        if small.lines == before || small.is_late() {
            return bytes(&small.lines, ends_with_feed);
        }
    }
}

struct Small<'a> {
    lines: Vec<Vec<u8>>,
    ends_with_feed: bool,
    still: &'a mut dyn FnMut(&[u8]) -> bool,
    until: Instant,
}

fn bytes(lines: &[Vec<u8>], ends_with_feed: bool) -> Vec<u8> {
    let mut bytes = lines.join(&b'\n');
    if ends_with_feed && !lines.is_empty() {
        bytes.push(b'\n');
    }
    bytes
}

impl Small<'_> {
    fn is_late(&self) -> bool {
        Instant::now() > self.until
    }

    /// Takes these lines when they still show it.
    fn take(&mut self, lines: Vec<Vec<u8>>) -> bool {
        if self.is_late() || !(self.still)(&bytes(&lines, self.ends_with_feed)) {
            return false;
        }
        self.lines = lines;
        true
    }

    /// Drops runs of lines, long runs first.
    fn drop_lines(&mut self) {
        let mut run = self.lines.len().div_ceil(2);
        loop {
            let mut from = 0;
            while from < self.lines.len() && !self.is_late() {
                let to = (from + run).min(self.lines.len());
                let mut lines = self.lines.clone();
                lines.drain(from..to);
                if !self.take(lines) {
                    from = to;
                }
            }
            if run <= 1 || self.is_late() {
                return;
            }
            run /= 2;
        }
    }

    /// Makes two joined switches one.
    fn join_switches(&mut self) {
        let mut at = 0;
        while at < self.lines.len() && !self.is_late() {
            let taken = match read_form(&self.lines[at]) {
                Some(Form::Link(Link { a, b, .. })) if a != b => {
                    let one = joined(&self.lines, a, b);
                    let other = joined(&self.lines, b, a);
                    self.take(one) || self.take(other)
                }
                _ => false,
            };
            if !taken {
                at += 1;
            }
        }
    }

    /// Drops two lines at once, as a link and the ear that uses it.
    fn drop_two_lines(&mut self) {
        if self.lines.len() > 80 {
            return;
        }
        let mut one = 0;
        while one < self.lines.len() && !self.is_late() {
            let mut dropped = false;
            for other in one + 1..self.lines.len() {
                let mut lines = self.lines.clone();
                lines.remove(other);
                lines.remove(one);
                if self.take(lines) {
                    dropped = true;
                    break;
                }
            }
            if !dropped {
                one += 1;
            }
        }
    }

    /// Takes the ducts of all links away, or of one after another.
    fn drop_ducts(&mut self) {
        let all: Vec<Vec<u8>> = self.lines.iter().map(|line| without_duct(line)).collect();
        if all == self.lines || self.take(all) {
            return;
        }
        for at in 0..self.lines.len() {
            let mut lines = self.lines.clone();
            lines[at] = without_duct(&lines[at]);
            if lines[at] != self.lines[at] {
                self.take(lines);
            }
        }
    }

    /// Drops runs of numbers of each line, long runs first; of a line with
    /// very many numbers only long runs.
    fn drop_numbers(&mut self) {
        for at in 0..self.lines.len() {
            if self.is_late() {
                return;
            }
            let count = numbers_of(&self.lines[at]).len();
            let mut run = count.div_ceil(2);
            while run > count / MANY_NUMBERS {
                let mut from = 0;
                while let Some(line) = without_numbers(&self.lines[at], from, run) {
                    let mut lines = self.lines.clone();
                    lines[at] = line;
                    if !self.take(lines) {
                        from += run;
                    }
                }
                run /= 2;
            }
        }
    }

    fn lower_numbers(&mut self) {
        for at in 0..self.lines.len() {
            if self.is_late() {
                return;
            }
            let count = numbers_of(&self.lines[at]).len();
            for place in 0..if count > MANY_NUMBERS { 0 } else { count } {
                let line = self.lines[at].clone();
                let (start, end) = numbers_of(&line)[place];
                let text = String::from_utf8_lossy(&line[start..end]).into_owned();
                let value: u64 = text.parse().unwrap_or(0);
                for lower in [0, 1, value / 2, value.saturating_sub(1)] {
                    if lower >= value {
                        continue;
                    }
                    let mut changed = line[..start].to_vec();
                    changed.extend(lower.to_string().into_bytes());
                    changed.extend(&line[end..]);
                    let mut lines = self.lines.clone();
                    lines[at] = changed;
                    if self.take(lines) {
                        break;
                    }
                }
            }
        }
    }
}

/// The script with switch `gone` made one with switch `kept`, and the highest
/// switch, below the largest N named, numbered `gone`. Links and ears that
/// have become one switch are dropped, and so are repeated ones.
fn joined(lines: &[Vec<u8>], kept: u16, gone: u16) -> Vec<Vec<u8>> {
    let forms: Vec<Option<Form>> = lines.iter().map(|line| read_form(line)).collect();
    let nets = forms.iter().map(|form| if let Some(Form::Net { switches, .. }) = form { *switches } else { 0 });
    let switches = nets.max().unwrap_or(0);
    let to = |s: u16| match s {
        s if s == gone && u32::from(kept) + 1 == u32::from(switches) => gone,
        s if s == gone => kept,
        s if u32::from(s) + 1 == u32::from(switches) => gone,
        s => s,
    };
    let mut smaller: Vec<Vec<u8>> = Vec::new();
    let mut pairs = HashSet::new();
    for (line, form) in lines.iter().zip(forms) {
        let line = match form {
            Some(Form::Net { switches, root, first, last }) => {
                let less = switches.saturating_sub(1);
                format!("(net {less} (root {}) (first {}) (last {}))", to(root), to(first), to(last)).into_bytes()
            }
            Some(Form::Link(link)) => {
                let link = Link { a: to(link.a), b: to(link.b), ..link };
                if link.a == link.b || !pairs.insert(link.pair()) {
                    continue;
                }
                link_line(&link).into_bytes()
            }
            Some(Form::Ear(ear)) if ear.len() > 1 => {
                let mut ear: Vec<u16> = ear.into_iter().map(to).collect();
                ear.dedup();
                let write = |ear: &[u16]| ear_line(ear).into_bytes();
                let back: Vec<u16> = ear.iter().rev().copied().collect();
                if ear.len() == 1 || smaller.contains(&write(&ear)) || smaller.contains(&write(&back)) {
                    continue;
                }
                write(&ear)
            }
            Some(Form::Walk { switch, tree }) => format!("(walk {} {tree})", to(switch)).into_bytes(),
            _ => line.clone(),
        };
        smaller.push(line);
    }
    smaller
}

/// The line, of a link without its inner bracket.
fn without_duct(line: &[u8]) -> Vec<u8> {
    match read_form(line) {
        Some(Form::Link(link)) => link_line(&link.in_duct(0)).into_bytes(),
        _ => line.to_vec(),
    }
}

/// Start and end of each number in the line.
fn numbers_of(line: &[u8]) -> Vec<(usize, usize)> {
    let mut numbers = Vec::new();
    let mut from = 0;
    while let Some(start) = line[from..].iter().position(u8::is_ascii_digit).map(|at| from + at) {
        let after = line[start..].iter().position(|byte| !byte.is_ascii_digit());
        from = after.map_or(line.len(), |at| start + at);
        numbers.push((start, from));
    }
    numbers
}

/// The line without `run` of its numbers, or those that are left from there,
/// each with the byte before it.
fn without_numbers(line: &[u8], first: usize, run: usize) -> Option<Vec<u8>> {
    let numbers = numbers_of(line);
    let mut shorter = Vec::new();
    let mut from = 0;
    for &(start, end) in numbers.get(first..)?.iter().take(run) {
        shorter.extend(&line[from..start.saturating_sub(1).max(from)]);
        from = end;
    }
    shorter.extend(&line[from..]);
    (first < numbers.len()).then_some(shorter)
}
