//! Random heads to put in place of the one that a call returned.

use crate::calls::{Head, Step};
use crate::case::UNIFAC;
use crate::memory::Memory;
use crate::steps::Steps;

impl Steps {
    /// The head with another number in one field.
    fn altered(&mut self, mut head: Head) -> Head {
        let (i, k) = (self.below(head.n.clamp(1, 12)), self.below(144));
        match self.below(11) {
            0 => head.model = self.any(&[0, 1, 2, 3, 4, 5, 255]),
            1 => head.n = self.any(&[0, 1, 2, 11, 12, 13, 256, usize::MAX]),
            2 => head.ng = self.any(&[0, 1, 2, 31, 32, 33, 256, usize::MAX]),
            3 | 4 => head.lens[i] = self.any(&[0, 12, 13, 13, 255]),
            5 => head.groups[k] = self.below(256) as u8,
            6 => head.t = self.number(220.0, 650.0),
            7 => head.x[i] = self.float(),
            8 => head.has_t = !head.has_t,
            9 => head.tolerance = self.float(),
            _ => {
                let x = self.fractions(head.n);
                let n = x.len().min(12);
                head.x[..n].copy_from_slice(&x[..n]);
                head.has_x = !self.one_in(4);
            }
        }
        head
    }

    /// A head whose fields don't go by each other, in their ranges and just past them.
    fn any_head(&mut self) -> Head {
        let mut head = Head::fresh(self.below(6) as u8, self.below(14));
        head.ng = self.below(34);
        head.lens.fill_with(|| self.below(14) as u8);
        head.groups.fill_with(|| self.below(34) as u8);
        head.t = self.float();
        head.x.fill_with(|| self.float());
        (head.has_t, head.has_x) = (self.one_in(2), self.one_in(2));
        head.tolerance = self.float();
        head
    }

    /// A head that no call made, and whose fields are in range where its model uses them.
    fn ranged_head(&mut self) -> Head {
        let mut head = self.any_head();
        (head.model, head.n) = (1 + self.below(4) as u8, 1 + self.below(12));
        if u32::from(head.model) == UNIFAC {
            let (n, ng) = (head.n, 1 + self.below(32));
            head.ng = ng;
            head.lens[..n].fill_with(|| self.below(13) as u8);
            let places = head.lens[..n].iter().map(|len| usize::from(*len)).sum();
            let used = if self.one_in(2) { places } else { 144 };
            head.groups[..used].fill_with(|| self.below(ng) as u8);
        }
        let x = self.fractions(head.n);
        let n = x.len().min(12);
        head.x[..n].copy_from_slice(&x[..n]);
        (head.t, head.has_t, head.has_x) = (self.number(220.0, 650.0), true, true);
        head
    }

    /// A head in place of the one that the last call returned.
    pub fn head(&mut self, memory: &Memory) -> Step {
        self.held = 3;
        Step::Head(match self.below(8) {
            0 => self.any_head(),
            1 | 2 => self.ranged_head(),
            3 | 4 => {
                let head = self.ranged_head();
                self.altered(head)
            }
            5 if !self.earlier.is_empty() => {
                let place = self.below(self.earlier.len());
                self.earlier[place].clone()
            }
            _ => self.altered(memory.head.clone()),
        })
    }
}
