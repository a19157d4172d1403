//! What an agent publishes, and what it says upwards.
use super::{refused, Act, Machine};
use crate::below::reports::{Told, WHOLE};
use crate::below::EACH;
use crate::control::Response;
use crate::net::ReportKind;
use crate::prelude::*;
use crate::Time;
use core::mem;
use core::time::Duration;

/// How often an agent says upwards what there is to watch, where it changed, if there are not very
/// many agents below it. (In any case it says so as often as all is to be [told](WHOLE).)
const REPORTS: Duration = Duration::from_millis(100);

impl Machine {
    /// Whether something waits to be published, and the quickest child that there is takes it.
    pub(super) fn may_publish(&self) -> bool {
        let backlog = || self.peers.relay().least_backlog();
        let standby = self.came.standby.as_ref();
        let may = |number| standby.is_none_or(|it| it.may_publish(number));
        self.next_number().is_some_and(may) && backlog().unwrap_or(0) <= 1
    }

    /// The number of the next body, where one waits.
    fn next_number(&self) -> Option<u64> {
        let root = self.came.root.as_ref().filter(|root| root.waits())?;
        Some(root.next_number(self.config.backlog / 2))
    }

    /// At the root: publishes what waits, as fast as the quickest child takes it.
    pub(super) fn publish(&mut self, now: Time, acts: &mut Vec<Act>) {
        let [number, floor, ahead] = self.came.numbers();
        if let Some(root) = &mut self.came.root {
            root.has([number, floor]);
            root.hears([ahead]);
        }
        let number = self.next_number();
        if let (Some(number), Some(standby)) = (number, &mut self.came.standby) {
            standby.reserves(number);
        }
        while self.may_publish() {
            let Some(root) = &mut self.came.root else { return };
            let Some(published) = root.next(self.config.backlog / 2, now) else { break };
            self.peers.publish(&published.body, now);
            self.takes_up(now, acts);
            if !published.keys.is_empty() {
                self.came.table.changed = self.came.table.taker.number;
            }
            self.answer(acts);
        }
        self.answer(acts);
    }

    /// Answers those who asked the root for something that is done now, or cannot be.
    fn answer(&mut self, acts: &mut Vec<Act>) {
        let Some(root) = &mut self.came.root else { return };
        let sequence = self.came.table.taker.number;
        acts.extend(root.answers().into_iter().map(|(ticket, done)| {
            Act::Answer(ticket, done.map_or_else(refused, |()| Response::Published(sequence)))
        }));
        if let Some((tickets, diff)) = root.diffs() {
            let response = || Response::Diff(diff.clone());
            acts.extend(tickets.into_iter().map(|it| Act::Answer(it, response())));
        }
    }

    pub(super) fn reports_at(&self) -> Time {
        let often = REPORTS.max(EACH * self.came.below.agents()).min(WHOLE);
        let at = self.reported + if self.came.changed { often } else { WHOLE };
        let again = self.told.again().map(|again| again.max(self.reported + often));
        let at = again.map_or(at, |again| at.min(again));
        // (it is said once for files and what they follow from, unless they take long)
        self.came.applying.map_or(at, |since| at.max(since + REPORTS))
    }

    /// Says upwards what there is to watch, where that changed or a while went by.
    pub(super) fn report(&mut self, now: Time) {
        let Some((_, since)) = self.peers.parent() else { return };
        if self.reported >= since && now < self.reports_at() {
            return;
        }
        (self.reported, self.reported_backlog) = (now, self.backlog());
        if mem::take(&mut self.came.asks_for_all) {
            self.told = Told::default();
        }
        let connection = match self.peers.report_kind() {
            // (what was sent before has to go first)
            None => return,
            Some(ReportKind::Whole) => None,
            Some(ReportKind::Changes(connection)) => Some(connection),
        };
        let status = self.status(now);
        let bytes = self.came.below.report_to(&mut self.told, connection, &status, now);
        let is_sent = self.peers.report(&bytes);
        self.came.changed &= !is_sent;
        if !is_sent {
            self.told = Told::default();
        }
    }

    /// What the children have not acknowledged.
    pub(super) fn backlog(&self) -> u64 {
        let relay = self.peers.relay();
        let backlogs = relay.children().map(|(_, link)| relay.backlog(link));
        backlogs.fold(0, u64::saturating_add)
    }
}
