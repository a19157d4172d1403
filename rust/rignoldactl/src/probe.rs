//! What a probe asks of an agent: whether it is well.
use crate::text::age;
use crate::{milliseconds, Standby, Status};
use rignolda_machine::first_of;
use std::time::Duration;

/// What an agent has to be.
#[derive(Clone, Debug, Default, clap::Args)]
pub struct Probe {
    /// It is the root, or has a parent and a way from a root.
    #[arg(long)]
    pub connected: bool,
    /// It has all, as far as it knows, and the last whole table came within this time.
    #[arg(long, value_name = "TIME", value_parser = time)]
    pub within: Option<Duration>,
    /// No file and no hook failed last, and all of the root's folder can be published.
    #[arg(long)]
    pub sound: bool,
}

fn time(text: &str) -> Result<Duration, String> {
    let error = || "a time is expected, as 500ms, 2s or 10m".to_string();
    milliseconds(text).map(Duration::from_millis).ok_or_else(error)
}

impl Probe {
    /// What the agent is not that it has to be, if there is something.
    pub fn fails(&self, status: &Status) -> Option<String> {
        let is_late = |most: Duration| u128::from(status.round_age) > most.as_millis();
        let within = self.within.filter(|_| !status.is_root);
        let looks = status.standby == Standby::Looks;
        let has_none = !status.is_root && status.parent.is_none();
        let (failing, unpublished) = (status.failing, status.unpublished);
        first_of([
            (self.connected && looks, "it looks for another root".into()),
            (self.connected && has_none, "it has no parent".into()),
            (self.connected && status.is_rootless(), "its way has no root".into()),
            (within.is_some() && !status.whole, "it waits for a whole table".into()),
            (
                within.is_some_and(is_late),
                format!("its last whole table came {} ago", age(status.round_age)),
            ),
            (
                self.sound && failing > 0,
                format!("{failing} settings have a file or a hook that failed"),
            ),
            (
                self.sound && unpublished > 0,
                format!("{unpublished} in its folder cannot be published"),
            ),
        ])
    }
}
