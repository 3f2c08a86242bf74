//! Reading one line (document 01, 'Lines of threeways'; document 02, Note 7, for the duct of a link): a line is a form
//! only in its exact writing.

use crate::network::Link;
use crate::Plant;

/// At most this many bytes stand before the line feed.
pub const LINE_BYTES: usize = 6144;
/// Only this many lines are read.
pub const LINES: usize = 65_535;

#[derive(Clone, Debug, PartialEq, Eq)]
pub enum Form {
    Net { switches: u16, root: u16, first: u16, last: u16 },
    Link(Link),
    Open,
    Ear(Vec<u16>),
    Close,
    Walk { switch: u16, tree: u16 },
    Clear,
}

/// The form that a line, without its line feed, is; or none.
pub fn read_form(line: &[u8]) -> Option<Form> {
    read_form_by(line, Plant::Nothing)
}

/// The same by a program that has a fault or none.
pub fn read_form_by(line: &[u8], plant: Plant) -> Option<Form> {
    if line.len() > LINE_BYTES {
        return None;
    }
    match line {
        b"(open)" => return Some(Form::Open),
        b"(close)" => return Some(Form::Close),
        b"(clear)" => return Some(Form::Clear),
        _ => {}
    }
    let mut rest = Rest(line);
    let form = if rest.eat(b"(net ") {
        let switches = rest.number()?;
        let root = rest.named(b" (root ")?;
        let first = rest.named(b" (first ")?;
        let last = rest.named(b" (last ")?;
        Form::Net { switches, root, first, last }
    } else if rest.eat(b"(link ") {
        let (a, b) = rest.two_numbers()?;
        Form::Link(Link { a, b, duct: rest.duct(plant)? })
    } else if rest.eat(b"(walk ") {
        let (switch, tree) = rest.two_numbers()?;
        Form::Walk { switch, tree }
    } else if rest.eat(b"(ear") {
        let mut ear = Vec::new();
        while rest.eat(b" ") {
            ear.push(rest.number()?);
        }
        Form::Ear(ear)
    } else {
        return None;
    };
    (rest.0 == b")").then_some(form)
}

/// The line that offers an ear.
pub fn ear_line(ear: &[u16]) -> String {
    let numbers: String = ear.iter().map(|s| format!(" {s}")).collect();
    format!("(ear{numbers})")
}

/// The line of a link; one in no duct has no inner bracket.
pub fn link_line(link: &Link) -> String {
    let Link { a, b, duct } = link;
    match duct {
        0 => format!("(link {a} {b})"),
        _ => format!("(link {a} {b} (duct {duct}))"),
    }
}

/// What of the line is still to be read.
struct Rest<'a>(&'a [u8]);

impl Rest<'_> {
    /// Goes past these bytes when they come next.
    fn eat(&mut self, bytes: &[u8]) -> bool {
        match self.0.strip_prefix(bytes) {
            Some(rest) => {
                self.0 = rest;
                true
            }
            None => false,
        }
    }

    /// A number in decimal without leading zeros, up to 65535.
    fn number(&mut self) -> Option<u16> {
        let count = self.0.iter().take_while(|byte| byte.is_ascii_digit()).count();
        let (digits, rest) = self.0.split_at(count);
        if count == 0 || count > 5 || (count > 1 && digits[0] == b'0') {
            return None;
        }
        let value = digits.iter().fold(0u32, |value, &digit| value * 10 + u32::from(digit - b'0'));
        self.0 = rest;
        u16::try_from(value).ok()
    }

    fn two_numbers(&mut self) -> Option<(u16, u16)> {
        let a = self.number()?;
        if !self.eat(b" ") {
            return None;
        }
        Some((a, self.number()?))
    }

    fn named(&mut self, opening: &[u8]) -> Option<u16> {
        if !self.eat(opening) {
            return None;
        }
        let number = self.number()?;
        self.eat(b")").then_some(number)
    }

    /// The duct of a link, up to 255; without the inner bracket it is 0.
    fn duct(&mut self, plant: Plant) -> Option<u8> {
        if !self.0.starts_with(b" ") {
            return Some(0);
        }
        let duct = self.named(b" (duct ")?;
        match plant {
            Plant::WrongDuct => Some(duct as u8),
            _ => u8::try_from(duct).ok(),
        }
    }
}

#[cfg(test)]
mod tests {
    use super::*;

    #[test]
    fn exact_writing_only() {
        assert_eq!(read_form(b"(ear)"), Some(Form::Ear(vec![])));
        assert_eq!(read_form(b"(ear 0 65535)"), Some(Form::Ear(vec![0, 65535])));
        assert_eq!(read_form(b"(link 1 2)"), Some(Form::Link((1, 2).into())));
        for (line, duct) in [("(link 1 2 (duct 0))", 0), ("(link 1 2 (duct 7))", 7), ("(link 1 2 (duct 255))", 255)] {
            assert_eq!(read_form(line.as_bytes()), Some(Form::Link(Link { a: 1, b: 2, duct })));
        }
        assert_eq!(
            read_form(b"(net 65535 (root 0) (first 1) (last 3))"),
            Some(Form::Net { switches: 65535, root: 0, first: 1, last: 3 })
        );
        for bad in [
            "",
            " ",
            "(ear )",
            "(ear 00)",
            "(ear 01)",
            "(ear +1)",
            "(ear 65536)",
            "(ear 1 )",
            "(ear  1)",
            "(ear\t1)",
            "(ear 1",
            "(ear 1))",
            "(ear1)",
            "(Ear 1)",
            " (ear 1)",
            "(ear 1) ",
            "(ear 1)\r",
            "(link 1)",
            "(link 1 2 3)",
            "(link 1 2 )",
            "(link 1 2 (duct 256))",
            "(link 1 2 (duct 257))",
            "(link 1 2 (duct 65535))",
            "(link 1 2 (duct 65536))",
            "(link 1 2 (duct 65543))",
            "(link 1 2 (duct 07))",
            "(link 1 2 (duct 00))",
            "(link 1 2 (duct -1))",
            "(link 1 2 (duct ))",
            "(link 1 2 (duct))",
            "(link 1 2 ())",
            "(link 1 2 (duct 7)",
            "(link 1 2 (duct 7)))",
            "(link 1 2 (duct 7) )",
            "(link 1 2(duct 7))",
            "(link 1 2  (duct 7))",
            "(link 1 2 (duct  7))",
            "(link 1 2 (duct 7 8))",
            "(link 1 2 (duct 7) (duct 7))",
            "(link (duct 7) 1 2)",
            "(link 1 2 7)",
            "(link 1 2 duct 7)",
            "(link 1 2 (Duct 7))",
            "(duct 7)",
            "(walk 1 2 (duct 7))",
            "(walk 1)",
            "(open )",
            "(open 1)",
            "(clear)(clear)",
            "(ear 4294967296)",
            "(ear 18446744073709551617)",
            "(net 4 (root 0) (first 1))",
            "(net 4 (first 1) (root 0) (last 3))",
            "(net 4 (root 0) (first 1) (last 3)",
            "(net 4 (root 0)  (first 1) (last 3))",
            "(net (root 0) (first 1) (last 3))",
            "(parent 1 2)",
            "(-)",
        ] {
            assert_eq!(read_form(bad.as_bytes()), None, "{bad:?}");
        }
    }
}
