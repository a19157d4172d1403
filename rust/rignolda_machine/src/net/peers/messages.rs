//! What travels over links: frames, acknowledgements, reports and ways.
use super::connection::{travels, Chunk, Conn, State};
use super::{Output, Peers, ReportKind, Result, Whom, LATER};
use crate::net::relay::{Came, Polled};
use crate::net::wire::{self, Message, Reference, CHANGES, HEAD_BYTES, OLD, REFERS};
use crate::net::{Body, Refusal};
use crate::prelude::*;
use crate::settings::table_of;
use crate::{Fact, Time};
use alloc::sync::Arc;
use core::time::Duration;
use core::{fmt, mem};
use rignolda::Connection;

/// How many times faster than it travels a body is made anew by whoever has all that is in it.
const MAKES: u32 = 16;
/// What it costs to look at a body, beside its bytes, as so many of them.
const EACH_BODY: u64 = 256;
/// A table that has not more bytes goes whole.
const SHORT_TABLE: usize = 64;

impl<A: Clone + PartialEq + fmt::Display> Peers<A> {
    pub(super) fn message(&mut self, id: u64, message: Message) -> Result {
        if let Message::Ack(label) = message {
            return self.acknowledged(id, label);
        }
        let conn = self.conns.get_mut(&id).ok_or("it is gone")?;
        let waits = conn.waits_for_frame();
        let (refers, changes) = (conn.version >= REFERS, conn.version >= CHANGES);
        match (conn.link(), message) {
            (link, Message::Hello(hello)) => {
                let knows = link.is_none() && hello.version > OLD;
                let greeted = self.greets(id, hello, false);
                if greeted.is_err() && knows {
                    self.says_why(id, None);
                }
                return greeted;
            }
            (link, Message::Look(hello)) => {
                let answer = self.greets(id, hello, true);
                if answer.is_err() && link.is_none() {
                    self.says_why(id, Some(Refusal::NotSaid));
                }
                return answer;
            }
            (None, Message::Way(way)) => self.way_came(id, way)?,
            (Some((Whom::Parent, _)), Message::Way(way)) => {
                self.parents.hears(way).map_err(|why| why.to_string())?;
            }
            (Some((Whom::Parent, number)), Message::Frame(label, body)) => {
                self.frame_came(id, number, label, &body);
            }
            (Some((Whom::Parent, number)), Message::Reference(label, it)) if refers => {
                match self.made(&it) {
                    Some(body) => self.frame_came(id, number, label, &body),
                    None => self.send(id, wire::lacks(label)),
                }
            }
            (Some((Whom::Parent, _)), Message::ReportRequest) if changes => {
                self.outputs.push_back(Output::ReportRequest);
            }
            // (else whoever asks without end would be sent to without end)
            (Some((Whom::Child(name), _)), Message::Lacks(label)) => {
                let asks = mem::take(&mut conn.refers) && !waits;
                let held = self.relay.under_way(&name).filter(|it| it.0 == label);
                let (_, body, _) = held.filter(|_| asks).ok_or("it asks for what was not sent")?;
                let body = body.clone();
                let patience = self.patience(&name);
                self.send_whole(id, patience, label, body);
            }
            (Some((Whom::Child(name), _)), Message::Report(bytes)) => {
                self.outputs.push_back(Output::Report(name, bytes));
            }
            (Some((Whom::Child(name), _)), Message::Goodbye) => {
                self.relay.leave_behind(&name);
                self.forget_any(&name);
                return Err("it takes another parent".into());
            }
            _ => return Err("it is no message".into()),
        }
        Ok(())
    }

    /// A child acknowledges what was sent to it, and is sent what comes next.
    fn acknowledged(&mut self, id: u64, label: u16) -> Result {
        let conn = self.conns.get_mut(&id).ok_or("it is gone")?;
        let (name, number) = match &conn.state {
            State::Link(Whom::Child(name), number, _) => (name, *number),
            _ => return Err("it is no message".into()),
        };
        conn.refers = false;
        // (else whoever acknowledges without end would be sent to without end)
        if conn.until.take().is_none() || conn.waits_for_frame() {
            return Err("it acknowledges what was not sent".into());
        }
        let polled = self.relay.acknowledged(name, number, label, self.now);
        polled.into_iter().for_each(|it| self.send_polled(id, it));
        Ok(())
    }

    fn frame_came(&mut self, id: u64, number: Connection, label: u16, body: &Arc<Body>) {
        let came = self.relay.on_frame(Some(number), label, body);
        self.came(came, body);
        self.acknowledge(id);
    }

    /// The body that a parent refers to, if it can be made here, and not too much was made of late:
    /// a few bytes of a parent can cost as much as the longest body.
    pub(super) fn made(&mut self, it: &Reference) -> Option<Arc<Body>> {
        let since: Vec<&Body> = self.relay.since_last_table().map(Arc::as_ref).collect();
        let looked_at = since.iter().map(|it| it.bytes.len() as u64 + EACH_BODY);
        let cost = looked_at.sum::<u64>() + u64::from(it.length);
        if !self.makes.takes(cost, self.now) {
            return None;
        }
        let body = table_of(&it.head, &since)?;
        let digest = self.sha256?(&[&body.bytes]);
        let is_it = digest == it.digest && body.item == it.item;
        // (its children are referred to it too)
        self.digest = is_it.then(|| (body.clone(), digest));
        is_it.then_some(body)
    }

    pub(super) fn acknowledge(&mut self, id: u64) {
        if let Some(label) = self.relay.ack() {
            self.send(id, wire::ack(label));
        }
    }

    /// At the root: puts a body at the end of the list.
    pub fn publish(&mut self, body: &Arc<Body>, now: Time) {
        self.now = now;
        let came = Came { is_fresh: true, left_behind: self.relay.publish(body) };
        self.came(came, body);
    }

    /// A frame came from above, and brought an item or not; and who was left behind for it.
    pub(super) fn came(&mut self, came: Came, body: &Arc<Body>) {
        for name in came.left_behind {
            self.tells(Fact::LeftBehind(name.clone(), None));
            if let Some(id) = self.children.get(&name) {
                self.leave_line(*id, "it is too far behind");
            }
        }
        if came.is_fresh {
            self.brings = true;
            self.outputs.push_back(Output::Item(body.clone()));
        }
    }

    /// The item that came or was published last is taken: it may be a whole table, so that children
    /// who begin anew may begin with it. Children are sent it, and what came behind it is handled.
    pub fn takes(&mut self, is_table: bool, now: Time) {
        self.now = now;
        if !mem::take(&mut self.brings) {
            return;
        }
        if is_table {
            self.relay.last_is_a_table();
            self.still.brings();
            self.says_again = true;
        }
        // (what is sent changes none of them)
        let children = mem::take(&mut self.children);
        for (id, polled) in self.relay.polled_all(&children, now) {
            self.send_polled(id, polled);
        }
        self.children = children;
        if let Some(id) = self.above {
            self.handles(id);
        }
    }

    /// Says this report to the parent: whether there is one that takes it now.
    pub fn report(&mut self, report: &[u8]) -> bool {
        let words = self.words.get_mut(&Whom::Parent);
        if let Some(words) = words.filter(|words| words.since.is_some()) {
            words.reports = words.reports.wrapping_add(1);
            words.report = Some(report.into());
            return true;
        }
        let id = self.reporting().and(self.above);
        id.map(|id| self.send(id, wire::report(report))).is_some()
    }

    /// The connection by which the parent takes a report now.
    fn reporting(&self) -> Option<&Conn> {
        let conn = self.above.and_then(|id| self.conns.get(&id));
        // (what waits there already is not added to)
        conn.filter(|conn| conn.greeted().is_some() && !conn.has_output())
    }

    /// What a report that is sent to the parent now may be, if it takes one.
    pub fn report_kind(&self) -> Option<ReportKind> {
        let words = self.words.get(&Whom::Parent);
        if words.is_some_and(|words| words.since.is_some()) {
            return Some(ReportKind::Whole);
        }
        let changes = self.reporting()?.version >= CHANGES;
        let id = self.above.filter(|_| changes);
        Some(id.map_or(ReportKind::Whole, ReportKind::Changes))
    }

    /// Asks a child for a whole report, where it may send another one.
    pub fn request_report(&mut self, child: &str) {
        let id = self.children.get(child).copied();
        let conn = id.and_then(|id| self.conns.get(&id));
        if let (Some(id), true) = (id, conn.is_some_and(|conn| conn.version >= CHANGES)) {
            self.says(id, Chunk::ReportRequest);
        }
    }

    /// How long a child's next answer may take.
    pub(super) fn patience(&self, name: &str) -> Duration {
        let link = self.relay.child(name);
        link.map_or(self.setup.ack_timeout, |it| self.later(it.took, it.late))
    }

    /// How long it may take where it took so long before, and then was late so often in turn.
    pub(super) fn later(&self, took: Duration, late: u32) -> Duration {
        let usual = self.setup.ack_timeout.max(took.saturating_mul(2));
        let most = self.setup.ack_timeout.saturating_mul(1 << LATER);
        usual.saturating_mul(1 << late.min(LATER)).min(most)
    }

    /// Sends a child what is to be sent to it now.
    pub(super) fn poll(&mut self, name: &str) {
        if let Some(id) = self.children.get(name).copied() {
            let polled = self.relay.polled(name, self.now);
            polled.into_iter().for_each(|it| self.send_polled(id, it));
        }
    }

    /// Sends this to the child that has this connection.
    fn send_polled(&mut self, id: u64, polled: Polled) {
        let patience = self.later(polled.took, polled.late);
        match self.reference(id, &polled) {
            Some(it) => {
                let takes = travels(polled.body.bytes.len()) / MAKES;
                self.answers(id, patience.saturating_add(takes));
                self.conn_with(id, |conn| conn.refers = true);
                self.send(id, wire::reference(polled.label, &it));
            }
            None => self.send_whole(id, patience, polled.label, polled.body),
        }
    }

    /// What stands for this body where a child may have all that is in it: the last whole table. It
    /// does so once for each frame, which goes whole from then on: so it need not be right.
    fn reference(&mut self, id: u64, polled: &Polled) -> Option<Reference> {
        let body = &polled.body;
        let is_table = |table: &Arc<Body>| Arc::ptr_eq(table, body);
        if !self.relay.since_last_table().next().is_some_and(is_table) {
            return None;
        }
        let may = self.conns.get(&id)?.version >= REFERS && polled.times == 1;
        let head = body.bytes.get(..HEAD_BYTES);
        let head = head.filter(|_| may && body.bytes.len() > SHORT_TABLE)?;
        let head = head.try_into().ok()?;
        let known = self.digest.take().filter(|(table, _)| is_table(table));
        let digest = match known {
            Some((_, digest)) => digest,
            None => self.sha256?(&[&body.bytes]),
        };
        self.digest = Some((body.clone(), digest));
        Some(Reference { item: body.item, length: body.bytes.len() as u32, head, digest })
    }

    /// Sends a child a frame with its body.
    fn send_whole(&mut self, id: u64, patience: Duration, label: u16, body: Arc<Body>) {
        self.answers(id, patience.saturating_add(travels(body.bytes.len())));
        self.says(id, Chunk::frame(label, body));
    }

    /// A child is to answer what is sent now within this time.
    fn answers(&mut self, id: u64, within: Duration) {
        let until = Some(self.now + within);
        self.conn_with(id, |conn| (conn.until, conn.refers) = (until, false));
    }
}
