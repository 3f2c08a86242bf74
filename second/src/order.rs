//! The order of switches of document 01, 'Order, tables and walks': a linked
//! list in which new switches are put directly after one that stands there,
//! and which tells of two switches the earlier one.

/// Each switch in the list has a label; labels rise along the list. New
/// switches share the gap behind their place evenly; when the gap is too
/// small, the whole list is labelled afresh, evenly. A fresh gap is at least
/// 2^48 wide, so that takes dozens of insertions at one place.
#[derive(Debug)]
pub struct Order {
    head: u16,
    /// The switch after each switch, or `END`.
    next: Vec<u16>,
    label: Vec<u64>,
    count: u64,
}

const END: u16 = u16::MAX;

impl Order {
    /// The order begins as the first ear as written.
    pub fn begin(switches: usize, first_ear: &[u16]) -> Order {
        let mut order = Order {
            head: first_ear[0],
            next: vec![END; switches],
            label: vec![0; switches],
            count: first_ear.len() as u64,
        };
        for two in first_ear.windows(2) {
            order.next[two[0] as usize] = two[1];
        }
        order.label_all();
        order
    }

    /// True when a stands before b; both are in the list.
    pub fn is_before(&self, a: u16, b: u16) -> bool {
        self.label[a as usize] < self.label[b as usize]
    }

    /// Puts the new switches, in the sequence given, directly after a.
    pub fn insert_after(&mut self, a: u16, new: impl Iterator<Item = u16> + Clone) {
        let after = self.next[a as usize];
        let mut at = a;
        for s in new.clone() {
            self.next[at as usize] = s;
            at = s;
            self.count += 1;
        }
        self.next[at as usize] = after;
        let low = self.label[a as usize];
        let high = if after == END { u64::MAX } else { self.label[after as usize] };
        let step = (high - low) / (new.clone().count() as u64 + 1);
        if step == 0 {
            self.label_all();
            return;
        }
        let mut label = low;
        for s in new {
            label += step;
            self.label[s as usize] = label;
        }
    }

    fn label_all(&mut self) {
        let step = u64::MAX / (self.count + 1);
        let mut label = 0;
        let mut at = self.head;
        while at != END {
            label += step;
            self.label[at as usize] = label;
            at = self.next[at as usize];
        }
    }

    /// The whole order, as a list.
    pub fn to_list(&self) -> Vec<u16> {
        let mut list = Vec::new();
        let mut at = self.head;
        while at != END {
            list.push(at);
            at = self.next[at as usize];
        }
        list
    }
}
