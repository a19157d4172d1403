//! What the command is called with.
use clap::{Parser, Subcommand};
use rignoldactl::probe::Probe;
use rignoldactl::{is_sha256, milliseconds};
use std::path::PathBuf;
use std::time::Duration;

/// Asks a running agent of rignoldad, over its control socket.
///
/// It ends with 0 where it was done, 1 where it was refused or its time was up, 2 where it was
/// called wrongly, 3 where no agent answers, and 4 where the agent is not what `status` asks for.
#[derive(Parser)]
#[command(name = "rignoldactl", version)]
pub struct Arguments {
    /// The agent's control socket.
    #[arg(long, env = "RIGNOLDA_CONTROL", default_value = "/run/rignolda/control", global = true)]
    pub socket: PathBuf,
    /// Prints JSON.
    #[arg(long, global = true)]
    pub json: bool,
    #[command(subcommand)]
    pub command: Command,
}

#[derive(Subcommand)]
pub enum Command {
    /// At the root: makes a setting, and prints the sequence number of the change.
    Publish {
        /// KEY, or KEY@GROUP: it counts for the agents of that group alone.
        key: String,
        /// The value; `-` or nothing: it is read from the standard input.
        #[arg(allow_hyphen_values = true)]
        value: Option<String>,
    },
    /// At the root: removes a setting, and prints the sequence number of the change.
    Unset { key: String },
    /// At the root: makes the value of KEY@GROUP that of KEY, by one change.
    PromoteValue {
        #[arg(value_name = "KEY@GROUP")]
        key: String,
    },
    /// At the root: publishes a round now, and prints the sequence number of its table: whoever
    /// has applied that has looked at all its files.
    Round,
    /// Shows this agent. Where it is not what one of these options says, it ends with 4.
    Status {
        #[command(flatten)]
        probe: Probe,
    },
    /// Shows this agent and all below it.
    Tree,
    /// Shows the settings in this agent's files: their keys, lengths and digests.
    List,
    /// Shows the value of a setting in this agent's file.
    Get {
        key: String,
        /// At the root: shows the digest of the value that each agent has instead.
        #[arg(long)]
        everywhere: bool,
    },
    /// Waits until all up to a sequence number is applied, its hooks included.
    Wait {
        /// Without it: the last one that this agent has. The root looks at its folder first, and
        /// publishes what it finds; where it cannot, the command says why, and ends with 1.
        #[arg(allow_negative_numbers = true, value_parser = number)]
        sequence: Option<u64>,
        /// At the root: has each agent look at its files first, so that they are right now.
        #[arg(long, conflicts_with = "sequence")]
        now: bool,
        /// Waits for every agent of the tree, and not for this one alone.
        #[arg(long)]
        everywhere: bool,
        /// Waits for every agent of the tree that is of this group.
        #[arg(long, conflicts_with = "everywhere")]
        group: Option<String>,
        #[arg(long, default_value = "30s", value_parser = time)]
        timeout: Duration,
    },
    /// Makes an agent with `standby` the root: it publishes what it has applied.
    Promote {
        /// It publishes what lies in its root's folder, as it is.
        #[arg(long)]
        as_is: bool,
    },
    /// Makes it an agent as any other again.
    Demote,
    /// At the root: publishes nothing more, and waits until all backlogs are empty.
    Drain {
        #[arg(long, default_value = "30s", value_parser = time)]
        timeout: Duration,
    },
    /// At the root: ends `drain`.
    Resume,
    /// At the root: shows what of the settings' folder is not published.
    Diff,
    /// At the root: publishes a change of the folder that is held, and prints its sequence number.
    Confirm {
        /// The digest that `diff` shows: then nothing else is published.
        #[arg(value_parser = digest)]
        digest: Option<String>,
    },
    /// Adds or removes a child, until the agent ends or reads its configuration again.
    Child {
        #[command(subcommand)]
        what: Child,
    },
    /// Leaves an agent that is gone for good, and who was below it, out of the tree that this agent
    /// knows, until it is back.
    Forget { name: String },
    /// Shows the bounds of each agent, seen from the root.
    Bounds,
}

#[derive(Subcommand)]
pub enum Child {
    Add { name: String },
    Remove { name: String },
}

fn number(text: &str) -> Result<u64, String> {
    let error = |_| "a sequence number is expected, as `publish` prints it".to_string();
    text.parse().map_err(error)
}

fn time(text: &str) -> Result<Duration, String> {
    let error = || "a time is expected, as 500ms, 2s or 10m".to_string();
    milliseconds(text).map(Duration::from_millis).ok_or_else(error)
}

fn digest(text: &str) -> Result<String, String> {
    let error = || "64 hexadecimal digits are expected, as `diff` shows them".to_string();
    is_sha256(text).then(|| text.to_ascii_lowercase()).ok_or_else(error)
}
