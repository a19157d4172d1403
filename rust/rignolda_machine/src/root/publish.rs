//! What a root publishes next, and who is answered by that.
use super::{Answer, Root};
use crate::prelude::*;
use crate::settings::Published;
use crate::{Refused, Time};
use core::mem;
use core::time::Duration;

/// How old what was read for a table may be.
const FRESH: Duration = Duration::from_secs(1);
/// How long after what is published was kept on the disk it is again at the earliest, and how much
/// longer for so many settings.
const KEEPS: Duration = Duration::from_secs(1);
const KEEPS_EACH: usize = 1 << 13;

impl<W> Root<W> {
    /// The number of the next body, where one waits.
    pub fn next_number(&self, limit: u64) -> u64 {
        self.publisher.next_number(limit)
    }

    /// Whether something waits to be published.
    pub fn waits(&self) -> bool {
        // (of what is held at a start, those keys are published that somebody names)
        let is_known = self.known || self.held.is_some();
        is_known && !self.draining && self.until.is_none() && self.publisher.waits()
    }

    /// The next body to publish. `limit`: how many items may follow a table at most.
    pub fn next(&mut self, limit: u64, now: Time) -> Option<Published> {
        // (what it remembers may be spoiled: no table is made of that)
        let is_fresh = self.fresh.is_some_and(|at| now < at + FRESH);
        if self.waits() && !is_fresh && self.publisher.is_table_next(limit) {
            self.for_table = true;
            self.look(now);
        }
        let was_in_a_round = self.publisher.is_in_a_round();
        let next = self.waits().then(|| self.publisher.next(limit))??;
        let ends = was_in_a_round && !self.publisher.is_in_a_round();
        // (what is held is counted from what there was before)
        if ends && self.held.is_none() {
            self.mend_guard(now);
            self.guard.ends_round(self.publisher.settings().keys().cloned(), now);
        }
        if ends {
            self.answers.extend(self.rounding.drain(..).map(|who| (who, Ok(()))));
        }
        self.records(&next.keys, now);
        if ends && self.known && self.record.follows(self.publisher.settings(), self.sha) {
            // (the memory was spoiled, and what is kept may be so too)
            self.keeps.get_or_insert(now);
        }
        self.fresh = self.fresh.filter(|_| !next.is_table);
        for (key, who) in mem::take(&mut self.written) {
            match next.keys.contains(&key) {
                true => self.answers.push((who, Ok(()))),
                false => self.written.push((key, who)),
            }
        }
        if self.overdue && !self.publisher.is_in_a_round() {
            self.overdue = false;
            self.publisher.begin_round(self.harmless());
        }
        Some(next)
    }

    /// These keys are published.
    fn records(&mut self, keys: &BTreeSet<String>, now: Time) {
        let settings = self.publisher.settings();
        for key in keys {
            self.record.put(key, settings.get(key).map(Vec::as_slice), self.sha);
        }
        // (as long as not all is known, what was kept says more)
        if self.known && !keys.is_empty() {
            let after = KEEPS + KEEPS * (settings.len() / KEEPS_EACH) as u32;
            self.keeps.get_or_insert(now.max(self.kept + after));
        }
    }

    /// Those who can be answered now.
    pub fn answers(&mut self) -> Vec<Answer<W>> {
        let done = if self.looking.is_empty() { Ok(false) } else { self.is_published() };
        if done != Ok(false) {
            let looked = self.looking.drain(..).map(|who| (who, done.clone().map(drop)));
            self.answers.extend(looked);
        }
        mem::take(&mut self.answers)
    }

    /// Whether all that such looks saw is published; else why it cannot be.
    fn is_published(&self) -> Result<bool, Refused> {
        let some: Vec<&str> = self.faults.texts.iter().take(3).map(String::as_str).collect();
        match self.publisher.is_changed() {
            _ if self.reads > 0 && !self.is_late => Ok(false),
            _ if !some.is_empty() => {
                Err(format!("not all is published: {}", some.join("; ")).into())
            }
            true if self.draining => Err(Refused::Drains),
            changed => Ok(!changed),
        }
    }

    /// Whether all of these settings, which the folder has, are published, and nothing else is.
    pub fn has_published(&self, settings: &BTreeMap<String, Vec<u8>>) -> bool {
        self.publisher.settings() == settings && !self.publisher.is_changed()
    }
}
