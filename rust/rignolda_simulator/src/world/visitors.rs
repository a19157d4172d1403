//! Who comes from outside: operators, and strangers.
use super::{Comes, World};
use crate::lines::line;
use crate::random::Random;
use rignolda_machine::Ticket;
use rignoldactl::{Diff, Request, Response};
use std::io::Write;

impl World {
    /// An operator asks an agent for something.
    pub fn ask(&mut self, it: usize, request: Request) {
        if self.agents[it].machine.is_some() {
            self.lines += 1;
            let ticket = Ticket::of_number(self.lines);
            self.asked.push((it, ticket, self.clock.now()));
            self.comes(it, 0, Comes::Asked(ticket, request));
        }
    }

    /// Somebody looks at what the root holds back, and confirms what he sees.
    pub fn confirms(&mut self) {
        if self.drawn.holds {
            self.ask(self.root(), Request::Diff);
        }
    }

    /// What somebody is told who asked.
    pub(super) fn is_told(&mut self, response: Response) {
        if let Response::Diff(Diff { held, digest, .. }) = response {
            if !held.is_empty() {
                self.judge.confirms();
                self.ask(self.root(), Request::Confirm { digest });
            }
        }
    }

    /// An agent need not answer who has asked it: it may not know them any more.
    pub fn excuses(&mut self, it: usize) {
        self.asked.retain(|(to, ..)| *to != it);
    }

    /// Who asked longer ago than this and was not answered.
    pub fn waits(&self, most: u64) -> Option<usize> {
        let since = self.clock.now().saturating_sub(most);
        self.asked.iter().find(|(.., at)| *at < since).map(|it| it.0)
    }

    /// A stranger connects to an agent, says this, and is there for so long.
    pub fn stranger(&mut self, it: usize, says: &[u8], stays: u64) {
        if self.agents[it].machine.is_none() {
            return;
        }
        self.lines += 1;
        let random = Random::new(self.seed, "stranger", self.lines);
        let [mut here, there] = line(&self.clock, [it, it], self.drawn.slow, random);
        // (of what does not fit at once the rest is never said)
        let _ = here.write(says);
        self.strangers.push((here, self.clock.now() + stays));
        self.comes(it, 0, Comes::Line(there));
    }

    /// Strangers whose time is over leave; or all of them.
    pub fn strangers_leave(&mut self, all: bool) {
        let now = self.clock.now();
        self.strangers.retain(|(_, until)| !all && now < *until);
    }
}
