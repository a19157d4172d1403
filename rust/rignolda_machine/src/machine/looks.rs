//! What an agent sees when it looks at itself.
use super::{names_of, Act, Machine, Now};
use crate::prelude::*;
use crate::restarts::Step;
use crate::root::Root;
use crate::settings::older;
use crate::Time;
use core::time::Duration;

/// After how long the state is looked at as a whole again, once each second: where something came
/// meanwhile, and at the latest.
const CHECKS: [Duration; 2] = [Duration::from_millis(900), Duration::from_millis(1_050)];
/// The same of an agent without children, which counts no seconds for them. (Its parent says a way
/// as often, so where it is idle it is woken once for both.)
const CHECKS_OF_LEAF: [Duration; 2] = [Duration::from_millis(1_800), Duration::from_millis(2_100)];

impl Machine {
    pub(super) fn checks(&self) -> [Duration; 2] {
        match self.peers.relay().children().next() {
            Some(_) => CHECKS,
            None => CHECKS_OF_LEAF,
        }
    }

    /// Each second or two: brings back what has a bound, and says what else cannot be, as after a
    /// fault of the machine's memory. What two places say must be the same.
    pub(super) fn check(&mut self, now: Now, acts: &mut Vec<Act>) {
        let at = now.at;
        self.learns();
        self.came.below.keeps(at);
        self.came.passes(at);
        self.reported = self.reported.min(at);
        // (where a child acknowledges the last item, nothing else may be new)
        self.came.changed |= self.reported_backlog != self.backlog();
        let table = &mut self.came.table;
        table.changed = older(table.changed, table.taker.number);
        if self.came.below.leaves_out() {
            let status = self.status(at);
            self.came.below.are_back(&status, at);
        }
        acts.push(Act::Check);
        acts.extend(self.may_restart(at).then_some(Act::Restart));
        if let Err(why) = self.faults(at) {
            acts.push(Act::Fail(why));
        }
    }

    fn faults(&mut self, now: Time) -> Result<(), &'static str> {
        let checked = self.peers.check(self.calls > 0, now);
        checked.map_err(|it| it.what())?;
        let is_same = self.config.peers == *self.peers.setup()
            && self.config.backlog == self.peers.relay().room();
        let (applier, apply) = (self.came.applier.as_ref(), self.config.apply.as_ref());
        let root = self.came.root.as_ref().zip(self.config.root.as_ref());
        let standby = self.came.standby.as_ref();
        let faults = [
            (!is_same).then_some("its configuration is another one"),
            (applier.is_some() != apply.is_some()).then_some("it applies, and is not to"),
            applier.zip(apply).and_then(|(applier, config)| applier.fault(config)),
            root.and_then(|(root, config)| root.fault(config)),
            (!self.is_what_it_is()).then_some("it is the root, and is not"),
            standby.and_then(|it| it.fault(names_of(&self.config), self.config.peers.rank)),
        ];
        faults.into_iter().flatten().next().map_or(Ok(()), Err)
    }

    /// Whether it restarts as the last resort, since the time for that has come.
    fn may_restart(&mut self, now: Time) -> bool {
        let relay = self.peers.relay();
        let mut children = relay.children().filter(|(_, link)| link.is_connected());
        let may = children.all(|(name, _)| self.came.below.parents(name) > 1);
        // (what an operator has drained stays so)
        let is_drained = self.came.root.as_ref().is_some_and(Root::is_draining);
        let may = may && (self.restarts.drains() || !is_drained);
        let number = self.came.table.taker.number;
        let applied = self.came.applier.as_ref().map_or(number, |it| it.applied(number));
        let is_idle = self.backlog() == 0
            && applied == number
            && !self.came.root.as_ref().is_some_and(Root::is_busy);
        match self.restarts.step(may, is_idle, now) {
            Step::Nothing => (),
            Step::Drain => self.came.root.iter_mut().for_each(|it| it.drain(now)),
            Step::Resume => self.came.root.iter_mut().for_each(Root::resume),
            Step::Restart => return true,
        }
        false
    }

    /// Of which children what they said counts now.
    pub(super) fn learns(&mut self) {
        let children = self.peers.relay().children();
        self.came.learns(children.map(|(name, link)| (&**name, link.is_connected())));
    }
}
