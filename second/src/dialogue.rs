//! The whole dialogue of document 01, 'Lines of threeways'. A link is collected with its duct (document 02, Note 7).

use std::io::{self, BufRead, Read, Write};

use crate::lines::{read_form_by, Form, LINES, LINE_BYTES};
use crate::network::{Site, MAX_LINKS};
use crate::session::Session;
use crate::{Plant, Refusal};

/// Answers the lines of `input` on `output`.
pub fn run(mut input: impl BufRead, output: &mut impl Write, plant: Plant) -> io::Result<()> {
    let mut dialogue = Dialogue { session: Session::Empty, collected: Site::default(), plant };
    let mut line = Vec::new();
    for number in 1..=LINES {
        line.clear();
        // One byte more than a line may have: its line feed, or one too many.
        let limit = LINE_BYTES as u64 + 1;
        if input.by_ref().take(limit).read_until(b'\n', &mut line)? == 0 {
            break;
        }
        if line.last() == Some(&b'\n') {
            line.pop();
        }
        match read_form_by(&line, plant) {
            Some(form) if !dialogue.is_link_too_many(&form) => dialogue.answer(form, output)?,
            _ => {
                writeln!(output, "(unread {number})")?;
                break;
            }
        }
    }
    output.flush()
}

/// `run` over bytes at hand.
pub fn run_bytes(input: &[u8], plant: Plant) -> Vec<u8> {
    let mut output = Vec::new();
    run(input, &mut output, plant).expect("bytes at hand can be read and written");
    output
}

struct Dialogue {
    session: Session,
    /// What `net` and `link` lines said since the start or the last clear.
    collected: Site,
    plant: Plant,
}

impl Dialogue {
    fn is_link_too_many(&self, form: &Form) -> bool {
        matches!(form, Form::Link(..)) && self.collected.links.len() == MAX_LINKS
    }

    fn answer(&mut self, form: Form, output: &mut impl Write) -> io::Result<()> {
        match form {
            Form::Net { switches, root, first, last } => {
                let links = std::mem::take(&mut self.collected.links);
                self.collected = Site { switches, root, first, last, links };
                Ok(())
            }
            Form::Link(link) => {
                self.collected.links.push(link);
                Ok(())
            }
            Form::Open => match self.session.load(&self.collected, self.plant) {
                Ok((n, m)) => writeln!(output, "(opened {n} {m})"),
                Err(refusal) => refused(output, refusal),
            },
            Form::Ear(ear) => match self.session.ear(&ear) {
                Ok(new) => writeln!(output, "(new {new})"),
                Err(refusal) => refused(output, refusal),
            },
            Form::Close => match self.session.close() {
                Ok(()) => writeln!(output, "(closed)"),
                Err(refusal) => refused(output, refusal),
            },
            Form::Walk { switch, tree } => match self.session.walk(switch, tree) {
                Ok(walk) => write_walk(output, switch, tree, &walk),
                Err(refusal) => refused(output, refusal),
            },
            Form::Clear => {
                self.session.clear();
                self.collected = Site::default();
                writeln!(output, "(cleared)")
            }
        }
    }
}

fn refused(output: &mut impl Write, refusal: Refusal) -> io::Result<()> {
    writeln!(output, "(refused {} {})", refusal.number, refusal.place)
}

fn write_walk(output: &mut impl Write, switch: u16, tree: u16, walk: &[u16]) -> io::Result<()> {
    let mut line = format!("(walk {switch} {tree} (").into_bytes();
    for (at, &s) in walk.iter().enumerate() {
        if at > 0 {
            line.push(b' ');
        }
        push_number(&mut line, s);
    }
    line.extend(b"))\n");
    output.write_all(&line)
}

/// Writes a number in decimal; faster than formatting it, as walks are long.
fn push_number(line: &mut Vec<u8>, number: u16) {
    if number >= 10 {
        push_number(line, number / 10);
    }
    line.push(b'0' + (number % 10) as u8);
}
