//! What operators, and those who watch, ask an agent for, and what they are shown.
use crate::answers::What;
use crate::asked;
use crate::control::{self, Asked, Shown};
use crate::fact;
use crate::metrics;
use crate::page;
use crate::shell::Shell;
use rignolda_machine::machine::{Act, Input, Now};
use rignolda_machine::Ticket;
use rignolda_machine::Time;
use rignoldactl::{Request, Response, Status};
use std::collections::HashSet;
use std::os::unix::io::RawFd;
use std::sync::Arc;

impl Shell {
    /// What is known of it, its process with it; at the root with what is known of the whole tree.
    fn status(&self, now: Time) -> Status {
        let reload_failed = self.reload_failed.clone();
        Status { reload_failed, ..self.machine.full_status(now) }
    }

    /// What whoever watches is shown: what took long is shown again for a while.
    fn shown(&mut self, what: What, now: Time) -> Arc<[u8]> {
        let (changed, begun) = (self.machine.came.table.changed, crate::system::time());
        if let Some(again) = self.answers.again(what, changed, now) {
            return again;
        }
        let tree = || self.machine.tree(&self.machine.status(now), now);
        let made = match what {
            What::Counts => metrics::answer(&self.status(now)).into(),
            What::Page => page::answer(&tree()).into(),
            What::Status => {
                let status = self.labels.status(self.status(now));
                control::answer(&Response::Status(Box::new(status)))
            }
            What::Tree => control::answer(&Response::Tree(self.labels.list(tree()))),
        };
        let made = made.into();
        self.answers.keep(what, changed, &made, crate::system::time() - begun, now);
        made
    }

    /// Does what is asked for, and answers what can be answered at once.
    pub(crate) fn serve(&mut self, fired: &HashSet<RawFd>, now: Now) {
        let servers = &mut self.sockets.servers;
        let asked: Vec<_> = servers.iter_mut().flat_map(|it| it.ready(fired, now.at)).collect();
        self.reach.was_full(self.sockets.turned_away());
        for (ticket, asked) in asked {
            match asked {
                Asked::Shown(what) => {
                    let shown = match what {
                        Shown::Counts => self.shown(What::Counts, now.at),
                        Shown::Page => self.shown(What::Page, now.at),
                        Shown::Nothing => metrics::NOTHING.as_bytes().into(),
                        Shown::Elsewhere => metrics::ELSEWHERE.as_bytes().into(),
                    };
                    let servers = &mut self.sockets.servers;
                    servers.iter_mut().for_each(|it| it.answer_last(ticket, &shown));
                }
                Asked::Request(Err(why), _) => {
                    self.sockets.answer(ticket, &Response::Refused(why.to_string()));
                }
                Asked::Request(Ok(Request::Status), _) => self.show(What::Status, ticket, now.at),
                Asked::Request(Ok(Request::Tree), _) => self.show(What::Tree, ticket, now.at),
                Asked::Request(Ok(request), by) => self.request(ticket, request, &by, now),
            }
        }
    }

    /// Answers an operator who watches.
    fn show(&mut self, what: What, ticket: Ticket, now: Time) {
        let shown = self.shown(what, now);
        self.sockets.servers.iter_mut().for_each(|it| it.answer(ticket, &shown));
    }

    /// Asks the machine. What changes something is a fact of the journal, unless it is refused.
    fn request(&mut self, ticket: Ticket, request: Request, by: &str, now: Now) {
        if request != Request::Ping {
            self.answers.forget();
        }
        let client = self.sockets.servers.iter().find_map(|it| it.client(ticket));
        let user = client.and_then(asked::user);
        let words = asked::words(&request).map(|words| (words, asked::by(user, by)));
        let before = self.acts.len();
        self.step(now, Input::Asked(ticket, request));
        let is_refused =
            |act: &Act| matches!(act, Act::Answer(it, Response::Refused(_)) if *it == ticket);
        if let Some((words, by)) = words {
            if !self.acts[before..].iter().any(is_refused) {
                fact!("asked", "{words}, by {by}");
            }
        }
    }
}
