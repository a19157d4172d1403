//! Above which number a root goes on.
use super::Root;
use crate::{Fact, Time};
use core::mem;

impl<W> Root<W> {
    /// Goes on with what the folder had, or with what is known.
    pub(super) fn goes_on(&mut self, now: Time) {
        self.until = None;
        self.fresh = mem::take(&mut self.for_table).then_some(now);
        if mem::take(&mut self.begins) && self.known && !self.draining {
            self.publisher.begin_round(self.harmless());
            self.went_above = self.went_above.min(self.publisher.is_table_first().into());
        }
    }

    /// Goes on above the number that is furthest ahead of those that agents have. Twice in a round
    /// at most, since whoever lies about it makes a whole table come; and the second time once the
    /// table of the first one is published, so that nobody is passed.
    pub fn hears(&mut self, numbers: impl IntoIterator<Item = u64>) {
        for number in numbers {
            let may = match self.went_above {
                0 => true,
                1 => !self.publisher.is_table_first(),
                _ => false,
            };
            if may && self.goes_above(number, "which an agent has") {
                self.went_above += 1;
            }
        }
    }

    /// Goes on above the numbers that the agent itself has, of which nobody else says anything:
    /// however often others were heard in this round, and so that nobody is passed.
    pub fn has(&mut self, own: [u64; 2]) {
        for number in own {
            let may = self.went_above == 0 || !self.publisher.is_table_first();
            if may && self.goes_above(number, "which its own files have") {
                self.went_above = self.went_above.max(1);
            }
        }
    }

    pub(super) fn goes_above(&mut self, number: u64, which: &'static str) -> bool {
        self.has_before |= !self.known && number != 0;
        let goes = self.publisher.go_above(number);
        self.facts.extend(goes.then_some(Fact::GoesAbove(number, which)));
        goes
    }
}
