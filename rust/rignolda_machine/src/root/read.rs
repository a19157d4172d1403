//! What a root makes of what its folder has.
use super::{hold, Empty, Kept, Record, Root};
use crate::net::BODY_BYTES;
use crate::prelude::*;
use crate::settings::{differences, Found, Publisher};
use crate::{Fact, Time};

impl<W> Root<W> {
    /// What may go but a part of is looked at before it counts.
    ///
    /// Once all is known, what is published is what the publisher has and the record does, too: of
    /// a name that is spoiled in one of them the other one does not know. Before that it is what
    /// was kept, or applied here: of the folder a part may be missing from the first moment on.
    pub(super) fn mend_guard(&mut self, now: Time) {
        let (known, before) = (self.known, self.before.keys().filter(|_| !self.known));
        let published =
            self.publisher.settings().keys().filter(|key| known && self.record.has(key));
        self.guard.mend(published.chain(before), now);
    }

    pub(super) fn take_changes(&mut self, changes: Vec<Kept>, now: Time) {
        if changes.iter().any(|it| it.1.is_none()) {
            self.mend_guard(now);
        }
        let settings = self.publisher.settings();
        let differs = |(key, value): &Kept| settings.get(key) != value.as_ref();
        let changes: Vec<Kept> = changes.into_iter().filter(differs).collect();
        let unset: BTreeSet<&str> =
            changes.iter().filter(|it| it.1.is_none()).map(|it| &*it.0).collect();
        let stays = |key: &str| settings.contains_key(key) && !unset.contains(key);
        let gone = || self.guard.lacks(self.config.unsets, stays).is_some();
        // (then it is looked at as a whole)
        let may_hold = self.config.hold && !changes.is_empty() || !unset.is_empty() && gone();
        let mut again = !self.known || self.held.is_some() || may_hold;
        if !again && !unset.is_empty() {
            self.guard.takes(stays, now);
        }
        let changes = if again { Vec::new() } else { changes };
        for (key, value) in changes {
            match value.as_ref().is_none_or(|value| self.publisher.has_room(&key, value)) {
                true => self.publisher.put(&key, value),
                false => again = true,
            }
        }
        self.disk_answered(now);
        // (a fault may have ended)
        if again || self.faults.count > 0 {
            self.look(now);
        }
    }

    /// Notes what differs. What could not be read stays as it was.
    pub(super) fn take_read(&mut self, read: Result<Found, Empty>, now: Time) {
        self.is_new = matches!(&read, Err(empty) if empty.is_new);
        let mut faults;
        match read {
            Err(empty) => {
                faults = empty.faults;
                self.lost = empty.has_none.then(|| empty.why.clone());
                faults.add(empty.why);
            }
            Ok(mut found) => {
                faults = found.faults;
                self.lost = None;
                // (of one that came since the last table, no agent knows)
                let (may_hold, mut holds) = (self.holds || !self.known, false);
                for (key, may_be) in found.unread {
                    match self.publisher.settings().get(&key).cloned() {
                        Some(old) => drop(found.settings.insert(key, old)),
                        None => holds |= may_be && may_hold,
                    }
                }
                if !Publisher::room_of(&found.settings).fits() {
                    faults.add(format!("all settings have more than {BODY_BYTES} bytes"));
                } else {
                    let held = self.takes(found.settings, holds, now);
                    held.into_iter().for_each(|why| faults.add(why));
                }
            }
        }
        let new = faults.texts.difference(&self.faults.texts).cloned();
        self.facts.extend(new.map(Fact::Settings));
        self.faults = faults;
        self.disk_answered(now);
    }

    /// Takes these settings of the folder, where they are not held: why they are. Where that is a
    /// change of what is known, all goes on with what is known; it may be that of an earlier life.
    fn takes(
        &mut self,
        found: BTreeMap<String, Vec<u8>>,
        holds: bool,
        now: Time,
    ) -> Option<String> {
        self.mend_guard(now);
        let changes = match self.known {
            true => differences(self.publisher.settings(), &found),
            false => self.before.changes(&found, &self.applied, self.sha),
        };
        let guard = (&self.guard, self.held.is_some());
        let held = hold::held(&self.config, guard, &found, changes, self.sha);
        let confirmed = self.confirmed.take();
        self.held = held.filter(|it| Some(&it.digest) != confirmed.as_ref());
        if let Some(held) = &self.held {
            if !self.known {
                let (values, are_all) = self.before.values([&found, &self.applied], self.sha);
                // (what was applied here is no proof that it was all that was published)
                self.known = self.was_kept && are_all;
                if self.was_kept {
                    self.publisher.replace(values);
                }
                self.publisher.hold(!self.known);
            }
            return Some(held.held.clone());
        }
        match confirmed {
            Some(_) => self.guard.confirmed(found.keys().cloned(), now),
            None => self.guard.takes(|key| found.contains_key(key), now),
        }
        (self.known, self.holds) = (true, holds);
        (self.applied, self.before) = (BTreeMap::new(), Record::default());
        self.publisher.replace(found);
        self.publisher.hold(holds);
        None
    }

    fn disk_answered(&mut self, now: Time) {
        self.reads = self.reads.saturating_sub(1);
        self.is_late = false;
        if self.reads == 0 && self.until.is_some() {
            self.goes_on(now);
        }
    }
}
