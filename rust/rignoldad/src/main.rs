//! `rignoldad FILE` runs the agent that a file configures.
#![forbid(unsafe_code)]
use clap::{error::ErrorKind, CommandFactory, Parser};
use rignoldad::check::check;
use rignoldad::config::{plain, Config, Fault};
use std::io::{stderr, stdout, Write};
use std::os::unix::fs::MetadataExt;
use std::path::PathBuf;
use std::process::{Command, ExitCode};

/// How many faults are shown.
const FAULTS: usize = 1_000;

/// Carries settings down a tree of machines.
///
/// It ends with 0 where it was told to end, or --check found warnings at most; with 1 where
/// something is wrong, and with 2 where it was called wrongly.
#[derive(Parser)]
#[command(name = "rignoldad", version)]
struct Words {
    /// Only says what cannot work, with file, line and key: of one file with all that it names on
    /// this machine, but ports that others have; of several as the agents of a whole tree.
    #[arg(long)]
    check: bool,
    /// Whose agent it is, where root checks it: what this user may read, write and run is looked
    /// at.
    #[arg(long, requires = "check", default_value = "rignolda")]
    user: String,
    /// The configuration of this agent, in TOML.
    #[arg(default_value = "/etc/rignolda/agent.toml")]
    files: Vec<PathBuf>,
}

fn main() -> ExitCode {
    let words = Words::parse();
    let faults = match (words.check, &words.files[..]) {
        (true, _) => checked(&words),
        (false, [file]) => match Config::read(file) {
            Err(faults) => faults.into_iter().map(|fault| (0, fault)).collect(),
            Ok(config) => match rignoldad::shell::run(file, config) {
                Ok(()) => Vec::new(),
                Err(why) => {
                    rignoldad::journal::flush();
                    let _ = writeln!(stderr(), "rignoldad: {}", plain(&why.to_string()));
                    return ExitCode::FAILURE;
                }
            },
        },
        _ => Words::command().error(ErrorKind::TooManyValues, "it runs one FILE").exit(),
    };
    for (at, fault) in faults.iter().take(FAULTS) {
        // (a reader that went away is no fault of the files)
        let _ = writeln!(stderr(), "{}: {fault}", plain(&words.files[*at].to_string_lossy()));
    }
    if faults.len() > FAULTS {
        let _ = writeln!(stderr(), "rignoldad: and {} more", faults.len() - FAULTS);
    }
    ExitCode::from(u8::from(faults.iter().any(|(_, fault)| !fault.is_warning)))
}

/// Checks the files for the user whose agent it is, and says who that is.
fn checked(words: &Words) -> Vec<(usize, Fault)> {
    let is_root = std::fs::metadata("/proc/self").is_ok_and(|it| it.uid() == 0);
    let id = Command::new("id").args(["-g", "--", &words.user]).output().ok();
    let group = id.filter(|id| is_root && id.status.success()).map(|id| id.stdout);
    let who = match (&group, is_root) {
        (Some(_), _) => words.user.clone(),
        (None, true) => format!("root, as there is no user `{}`", words.user),
        (None, false) => "who runs this".into(),
    };
    if words.files.len() == 1 {
        let _ = writeln!(stdout(), "checked for {}", plain(&who));
    }
    let act = group.map_or(Vec::new(), |group| {
        let group = format!("--regid={}", String::from_utf8_lossy(&group).trim());
        vec!["setpriv".into(), "--init-groups".into(), format!("--reuid={}", words.user), group]
    });
    check(&words.files, &act)
}
