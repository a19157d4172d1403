//! One line for each fact, on the standard error, where systemd's journal takes it.
//!
//! Nobody waits for whoever reads them. A socket, such as that of systemd, is given a line at once,
//! if it has room. Else a thread writes what waits here, and what does not fit is counted. A line
//! is written at once, unless others were just before: then those that follow are written together.
use nix::sys::socket::{send, MsgFlags};
use std::collections::VecDeque;
use std::io::Write;
use std::os::unix::fs::{FileTypeExt, MetadataExt};
use std::os::unix::io::AsRawFd;
use std::sync::{Condvar, Mutex, MutexGuard, OnceLock, PoisonError, TryLockError};
use std::time::{Duration, Instant};
use std::{panic, thread};

/// How many bytes are written at once at most: a pipe takes so many whole.
const TOGETHER: usize = 4_096;
/// The longest words of a line, in characters. (One has at most 4 bytes.)
const WORDS: usize = 1_000;
/// How many bytes wait at most.
const WAITING: usize = 256 << 10;
/// For how long lines are gathered after others were written, unless so many wait that a write
/// takes no more, or the process may end.
const GATHERS: Duration = Duration::from_millis(20);
/// How long the end of the process waits for whoever reads them.
const PATIENCE: Duration = Duration::from_secs(1);
/// Where the system shows what the standard error is.
const STDERR: &str = "/proc/self/fd/2";
/// How often whoever panics tries to have the queue.
const TRIES: usize = 1_000;

static QUEUE: Mutex<Queue> = Mutex::new(Queue {
    lines: VecDeque::new(),
    bytes: 0,
    left_out: 0,
    hurries: false,
    looks: false,
});
static CHANGED: Condvar = Condvar::new();

struct Queue {
    lines: VecDeque<Vec<u8>>,
    /// How many bytes they have, with those that are being written.
    bytes: usize,
    left_out: u64,
    /// Whether somebody waits until they are written.
    hurries: bool,
    /// Whether the thread soon looks by itself.
    looks: bool,
}

/// Writes a line: what happened, and the words of that. What is no plain text is escaped. It is
/// written whole, so that a process that is killed leaves no part of a line.
pub fn line(fact: &str, words: &str) {
    static THREAD: OnceLock<bool> = OnceLock::new();
    THREAD.get_or_init(start);
    let (mut line, mut queue) = (text(fact, words).into_bytes(), lock());
    if queue.bytes == 0 && queue.left_out == 0 {
        line.drain(..sent(&line));
    }
    if line.is_empty() {
        return;
    }
    let is_first = queue.lines.is_empty();
    if queue.bytes + line.len() > WAITING {
        queue.left_out += 1;
    } else {
        queue.bytes += line.len();
        queue.lines.push_back(line);
    }
    let wakes = is_first && !queue.looks || queue.bytes >= TOGETHER;
    drop(queue);
    wakes.then(|| CHANGED.notify_all());
}

/// How many bytes a socket that reads the lines has room for now, and was given; else none.
fn sent(line: &[u8]) -> usize {
    static IS_SOCKET: OnceLock<bool> = OnceLock::new();
    let is_socket = || std::fs::metadata(STDERR).is_ok_and(|it| it.file_type().is_socket());
    if !IS_SOCKET.get_or_init(is_socket) {
        return 0;
    }
    let at_once = MsgFlags::MSG_DONTWAIT | MsgFlags::MSG_NOSIGNAL;
    send(std::io::stderr().as_raw_fd(), line, at_once).unwrap_or(0)
}

/// Starts the thread that writes. What it has gathered is written before a panic ends the process,
/// unless whoever panics has the queue itself.
fn start() -> bool {
    let says = panic::take_hook();
    panic::set_hook(Box::new(move |why| {
        if is_free() {
            flush();
        }
        says(why);
    }));
    thread::Builder::new().name("journal".into()).spawn(write).is_ok()
}

fn text(fact: &str, words: &str) -> String {
    let is_plain = |byte| matches!(byte, b' '..=b'~') && !matches!(byte, b'\'' | b'"' | b'\\');
    let mut line = [priority(fact, words), fact, " "].concat();
    // (mostly it is)
    if words.len() <= WORDS && words.bytes().all(is_plain) {
        line += words;
    } else {
        line.extend(words.chars().flat_map(char::escape_debug).take(WORDS));
    }
    line.push('\n');
    line
}

/// Waits until all lines are written, but not for long: to be called at the end.
pub fn flush() {
    let mut queue = lock();
    queue.hurries = true;
    CHANGED.notify_all();
    drop(CHANGED.wait_timeout_while(queue, PATIENCE, |queue| queue.bytes > 0));
}

/// Whether the queue is free, or soon is: others have it for a few moves alone.
fn is_free() -> bool {
    (0..TRIES).any(|_| {
        let is_held = matches!(QUEUE.try_lock(), Err(TryLockError::WouldBlock));
        is_held.then(thread::yield_now);
        !is_held
    })
}

fn lock() -> MutexGuard<'static, Queue> {
    QUEUE.lock().unwrap_or_else(PoisonError::into_inner)
}

/// The thread that writes.
fn write() {
    let (mut queue, mut written) = (lock(), None::<Instant>);
    loop {
        if queue.left_out > 0 && queue.bytes < WAITING / 2 {
            let front = priority("journal", "");
            let count = std::mem::take(&mut queue.left_out);
            let line = format!("{front}journal {count} lines are left out: they were not read\n");
            queue.bytes += line.len();
            queue.lines.push_back(line.into_bytes());
        }
        if queue.lines.is_empty() {
            std::mem::take(&mut queue.hurries).then(|| CHANGED.notify_all());
        }
        let waits = written.map_or(Duration::ZERO, |at| GATHERS.saturating_sub(at.elapsed()));
        if !waits.is_zero() && !queue.hurries && queue.bytes < TOGETHER {
            queue.looks = true;
            let waited = CHANGED.wait_timeout(queue, waits);
            queue = waited.unwrap_or_else(PoisonError::into_inner).0;
            continue;
        }
        queue.looks = false;
        if queue.lines.is_empty() {
            queue = CHANGED.wait(queue).unwrap_or_else(PoisonError::into_inner);
            continue;
        }
        let mut text = Vec::new();
        while let Some(line) = queue.lines.front().filter(|it| text.len() + it.len() <= TOGETHER) {
            text.extend_from_slice(line);
            queue.lines.pop_front();
        }
        drop(queue);
        let _ = std::io::stderr().lock().write_all(&text);
        queue = lock();
        queue.bytes -= text.len();
        written = Some(Instant::now());
    }
}

/// What systemd takes for a line's priority, where it is systemd that reads them.
fn priority(fact: &str, words: &str) -> &'static str {
    static IS_READ: OnceLock<bool> = OnceLock::new();
    let is_read = || {
        let stderr = std::fs::metadata(STDERR).ok()?;
        let stream = std::env::var("JOURNAL_STREAM").ok()?;
        Some(stream == format!("{}:{}", stderr.dev(), stderr.ino()))
    };
    match fact {
        _ if !IS_READ.get_or_init(|| is_read() == Some(true)) => "",
        "certificate" | "failed" | "settings" => "<3>",
        "reload" if words != "done" => "<3>",
        "child" | "closed" | "evicted" | "garbage" | "journal" | "left-behind" | "mended"
        | "parent" | "refused" | "report" | "stray" => "<4>",
        "applied" | "published" | "received" => "<6>",
        _ => "<5>",
    }
}

/// Writes one line to the journal: `fact!("closed", "{child} {why}")`.
#[macro_export]
macro_rules! fact {
    ($fact:literal, $($words:tt)*) => {
        $crate::journal::line($fact, &format!($($words)*))
    };
}

#[cfg(test)]
mod tests {
    use super::*;

    #[test]
    fn who_panics_with_the_queue_waits_for_nobody() {
        line("started", "");
        let panics = thread::spawn(|| {
            let _queue = lock();
            panic!("as a test has it");
        });
        assert!(panics.join().is_err());
    }
}
