//! Runs hooks.
use crate::place::LocalFiles;
use rignolda_machine::apply::{FileSystem, House, What, INPUT};
use rignolda_machine::config::Apply;
use std::fs::{self, File, OpenOptions};
use std::io::{self, Seek, Write};
use std::os::unix::fs::OpenOptionsExt;
use std::process::{Command, Stdio};
use std::sync::atomic::{AtomicU64, Ordering};
use std::time::Duration;

/// These bytes as an input. (It is a file and not a pipe, since a hook need not read it.)
fn given(house: &House<LocalFiles>, bytes: &[u8]) -> Result<Stdio, String> {
    static COUNT: AtomicU64 = AtomicU64::new(0);
    let own = house.at().ok_or("its input: the folder is gone, or another one")?;
    let number = COUNT.fetch_add(1, Ordering::Relaxed);
    let input = input(&format!("{own}/{INPUT}{number}"), bytes);
    input.map(Stdio::from).map_err(|e| format!("its input: {e}"))
}

/// Runs a hook to its end, or until its time is up: that of a change, or one for keys that changed
/// together, of which the last has its number.
pub fn run(house: &House<LocalFiles>, config: &Apply, what: &What) -> Result<(), String> {
    match (what, &config.hook) {
        (What::One(key, change, _), Some(hook)) => {
            let input = match change.value.as_deref() {
                None => Stdio::null(),
                Some(value) => given(house, value)?,
            };
            let mut command = command(hook, config.hook_timeout, &config.folder, change.last);
            command.args([if change.value.is_some() { "set" } else { "unset" }, key]);
            finished(command.stdin(input))
        }
        (What::Many(hook, keys, last), _) => {
            let names: String = keys.iter().flat_map(|key| [key, "\n"]).collect();
            let mut command = command(&hook.run, hook.timeout, &config.folder, *last);
            let input = given(house, names.as_bytes())?;
            finished(command.current_dir(&config.folder).stdin(input))
        }
        _ => Ok(()),
    }
}

fn command(program: &str, timeout: Duration, folder: &str, number: u64) -> Command {
    let mut command = Command::new("timeout");
    command.arg("--kill-after=5").arg(format!("{:.3}", timeout.as_secs_f64())).arg(program);
    command.env("RIGNOLDA_SEQUENCE", number.to_string()).env("RIGNOLDA_FOLDER", folder);
    // (what systemd gave to the agent alone)
    for name in ["NOTIFY_SOCKET", "WATCHDOG_USEC", "CREDENTIALS_DIRECTORY"] {
        command.env_remove(name);
    }
    command
}

fn finished(command: &mut Command) -> Result<(), String> {
    match command.status() {
        Err(error) => Err(format!("timeout: {error}")),
        Ok(status) if status.success() => Ok(()),
        Ok(status) if status.code() == Some(124) => Err("its time was up".into()),
        Ok(status) => Err(status.to_string()),
    }
}

/// A file without a name that has these bytes.
fn input(path: &str, bytes: &[u8]) -> io::Result<File> {
    LocalFiles.unlink(path)?;
    let mut options = OpenOptions::new();
    let mut file = options.read(true).write(true).create_new(true).mode(0o600).open(path)?;
    file.write_all(bytes)?;
    fs::remove_file(path)?;
    file.rewind()?;
    Ok(file)
}
