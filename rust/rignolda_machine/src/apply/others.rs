//! What is in an applied folder and is nothing of the agent's: it is named, and stays.
use super::{FileSystem, Folder, GROUPS, INPUT, LISTS, MARKER, PENDING};
use crate::prelude::*;
use crate::{Fact, Time};

/// What is in the folder and is nothing of the agent's, and not removed either.
#[derive(Debug, Default)]
pub(super) struct Others {
    said: Vec<String>,
    /// When it was looked for, and whether it is to be looked for since then.
    at: Option<Time>,
    is_due: bool,
}

impl Others {
    /// Looks for it now, or a little later: all that is in the folder is listed for it.
    pub(super) fn may_say<S: FileSystem>(
        &mut self,
        folder: &Folder<S>,
        is_whole: bool,
        now: Time,
    ) -> Option<Fact> {
        match is_whole || self.at.is_none_or(|at| now.since(at) >= LISTS) {
            true => return self.say(folder, now),
            false => self.is_due = true,
        }
        None
    }

    /// Looks for it if that is still to be done.
    pub(super) fn say_if_due<S: FileSystem>(&mut self, it: &Folder<S>, now: Time) -> Option<Fact> {
        self.is_due.then(|| self.say(it, now)).flatten()
    }

    /// Names it once.
    fn say<S: FileSystem>(&mut self, folder: &Folder<S>, now: Time) -> Option<Fact> {
        let mut all = folder.others();
        all.retain(|name| {
            ![MARKER, PENDING, GROUPS].contains(&&**name) && !name.starts_with(INPUT)
        });
        all.sort();
        let is_new = all != self.said && !all.is_empty();
        let fact = is_new.then(|| {
            let (count, first) = (all.len(), all[..all.len().min(3)].join(" "));
            Fact::Others(count, first)
        });
        *self = Others { said: all, at: Some(now), is_due: false };
        fact
    }
}
