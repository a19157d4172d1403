//! The root's folder, and what is published of it.
use openssl::sha::sha256;
use rignolda_machine::config;
use rignolda_machine::net::{checksum, Body};
use rignolda_machine::root::Root;
use rignolda_machine::settings::{Meaning, Published, VALUE_BYTES};
use rignolda_machine::{Refused, Time};
use rignoldad::disk::Disk;
use std::collections::BTreeMap;
use std::fs::{self, File, OpenOptions};
use std::io::BufRead;
use std::os::unix::fs::FileExt;
use std::path::{Path, PathBuf};
use std::process::Command;
use std::sync::Arc;
use std::time::{Duration, SystemTime, UNIX_EPOCH};

struct Folder(PathBuf);

impl Folder {
    fn new(name: &str) -> Folder {
        let path =
            std::env::temp_dir().join(format!("rignolda-root-{name}-{}", std::process::id()));
        let _ = fs::remove_dir_all(&path);
        fs::create_dir(&path).unwrap();
        fs::write(path.join(".empty"), "").unwrap();
        Folder(path)
    }
}

impl Drop for Folder {
    fn drop(&mut self) {
        let _ = fs::remove_dir_all(&self.0);
    }
}

const ROUND: Duration = Duration::from_secs(3_600);

/// A root and its disk, what time it is there, and how deep its tree is. Whatever it asks the disk
/// for is waited for.
struct Tried {
    /// Who asks is the key that is asked for.
    root: Root<String>,
    disk: Disk,
    now: Time,
    depth: u32,
}

impl Tried {
    fn tick(&mut self, now: Time) {
        self.now = self.now.max(now);
        self.turn(now);
        while self.root.is_busy() {
            std::thread::sleep(Duration::from_millis(1));
            self.turn(now);
        }
    }

    /// What an agent does in a turn.
    fn turn(&mut self, now: Time) {
        self.begin();
        while let Some(done) = self.disk.done() {
            self.root.done(done, now);
        }
        self.root.tick(now, || self.depth);
        self.begin();
    }

    fn begin(&mut self) {
        self.root.jobs().into_iter().for_each(|job| self.disk.begin(job));
    }

    fn next(&mut self, limit: u64) -> Option<Published> {
        let next = self.root.next(limit, self.now);
        if next.is_some() || !self.root.is_busy() {
            return next;
        }
        // (a table is read first)
        self.wait();
        self.next(limit)
    }

    fn wait(&mut self) {
        let before = self.root.deadline().min(self.now);
        self.tick(before.min(self.now));
    }

    fn begin_round(&mut self, now: Time) {
        self.root.begin_round(now);
        self.wait();
    }

    fn ask(&mut self, key: &str, value: Option<&[u8]>) -> Result<(), Refused> {
        self.root.ask(key, value.map(Vec::from), key.into())
    }

    /// Those that failed.
    fn commit(&mut self) -> Vec<(String, Refused)> {
        self.root.commit();
        self.wait();
        self.answers().into_iter().filter_map(|(key, done)| Some((key, done.err()?))).collect()
    }

    fn change(&mut self, key: &str, value: Option<&[u8]>) -> Result<(), Refused> {
        self.ask(key, value)?;
        self.commit().pop().map_or(Ok(()), |(_, why)| Err(why))
    }

    fn faults(&self) -> Vec<String> {
        self.root.faults().texts.iter().cloned().collect()
    }
}

impl std::ops::Deref for Tried {
    type Target = Root<String>;

    fn deref(&self) -> &Root<String> {
        &self.root
    }
}

impl std::ops::DerefMut for Tried {
    fn deref_mut(&mut self) -> &mut Root<String> {
        &mut self.root
    }
}

/// A root, whose first round is over where `settled`.
fn root(settings: &Path, settled: bool) -> (Tried, Time) {
    root_of(config(settings), BTreeMap::new(), settled)
}

fn config(settings: &Path) -> config::Root {
    let (round, settings) = (ROUND, settings.display().to_string());
    config::Root { settings, standby: false, round, harmless: Some(3), hold: false, unsets: None }
}

/// One with settings that an earlier life applied.
fn root_of(
    config: config::Root,
    applied: BTreeMap<String, Vec<u8>>,
    settled: bool,
) -> (Tried, Time) {
    let now = rignoldad::system::time();
    let first = SystemTime::now().duration_since(UNIX_EPOCH).unwrap().as_micros() as u64;
    let root = Root::new(&config, applied, first, rignoldactl::sha256, now);
    let disk = Disk::start(config.settings.as_ref(), Arc::new(|| ())).unwrap();
    let mut root = Tried { root, disk, now, depth: 1 };
    if settled {
        root.tick(now);
        while root.next(100).is_some() {}
    } else {
        root.wait();
    }
    (root, now)
}

type Said = Vec<(String, Option<String>)>;

/// What a body says: its kind, and its entries.
fn said(body: &Body) -> (char, Said) {
    let entries = match body.meaning().unwrap().1 {
        Meaning::Harmless => Vec::new(),
        Meaning::Changes(entries) | Meaning::Table(entries) => entries,
    };
    let text = |value: &[u8]| String::from_utf8(value.to_vec()).unwrap();
    let entries = entries.into_iter().map(|(key, value)| (key.to_owned(), value.map(text)));
    (body.bytes[0] as char, entries.collect())
}

fn next(root: &mut Tried) -> Option<(char, Said)> {
    root.next(100).map(|published| said(&published.body))
}

fn entry(key: &str, value: Option<&str>) -> (String, Option<String>) {
    (key.into(), value.map(str::to_owned))
}

#[test]
fn begins_with_the_whole_table_and_a_round() {
    let folder = Folder::new("begins");
    fs::write(folder.0.join("b"), "2").unwrap();
    fs::write(folder.0.join("a"), "1").unwrap();
    fs::write(folder.0.join(".hidden"), "3").unwrap();
    fs::write(folder.0.join("no key"), "4").unwrap();
    fs::create_dir(folder.0.join("folder")).unwrap();
    let (mut root, now) = root(&folder.0, false);
    root.tick(now);
    let all = vec![entry("a", Some("1")), entry("b", Some("2"))];
    assert_eq!(next(&mut root), Some(('T', all.clone())));
    for _ in 0..3 {
        assert_eq!(next(&mut root), Some(('H', vec![])));
    }
    assert_eq!(next(&mut root), Some(('T', all)));
    assert_eq!(next(&mut root), None);
    assert_eq!(root.deadline(), now + ROUND);
    root.tick(now + ROUND);
    assert_eq!(next(&mut root), Some(('H', vec![])));
}

#[test]
fn a_round_has_what_the_deepest_agent_of_four_rounds_needs() {
    let folder = Folder::new("deep");
    let unset = config::Root { harmless: None, ..config(&folder.0) };
    let (mut root, now) = root_of(unset, BTreeMap::new(), true);
    // (the tree may be of a depth of 10 at the start, and by itself counts for no deeper one)
    let rounds = [(3, 23), (1, 23), (1, 9), (1, 9), (1, 5), (0, 5), (64, 23), (0, 23)];
    for (at, (depth, items)) in (1..).zip(rounds) {
        root.depth = depth;
        root.tick(now + at * ROUND);
        let mut count = 0;
        while next(&mut root) == Some(('H', vec![])) {
            count += 1;
        }
        assert_eq!((count, root.harmless()), (items, items), "round {at}");
        assert_eq!(next(&mut root), None);
    }
}

#[test]
fn of_changes_that_wait_the_last_value_is_published() {
    let folder = Folder::new("merged");
    fs::write(folder.0.join("gone"), "x").unwrap();
    let (mut root, now) = root(&folder.0, true);
    fs::write(folder.0.join("key"), "1").unwrap();
    root.notified(now);
    root.tick(root.deadline());
    fs::write(folder.0.join("key"), "2").unwrap();
    fs::remove_file(folder.0.join("gone")).unwrap();
    root.notified(now);
    root.tick(root.deadline());
    let changes = vec![entry("gone", None), entry("key", Some("2"))];
    assert_eq!(next(&mut root), Some(('C', changes)));
    assert_eq!(next(&mut root), None);
    // (what is written and is the same is no change)
    fs::write(folder.0.join("key"), "2").unwrap();
    root.notified(now);
    root.tick(root.deadline());
    assert_eq!(next(&mut root), None);
}

#[test]
fn numbers_go_up_by_one() {
    let folder = Folder::new("numbers");
    let (mut root, _) = root(&folder.0, false);
    let number = |root: &mut Tried| root.next(100).unwrap().body.meaning().unwrap().0;
    let first = number(&mut root);
    root.change("a", Some(b"1")).unwrap();
    let next = root.next(100).unwrap();
    assert_eq!((next.body.meaning().unwrap().0, next.is_table), (first + 1, false));
    assert_eq!(next.keys, ["a".to_string()].into());
    // (a root that begins later goes on above)
    let (mut later, _) = self::root(&folder.0, false);
    assert!(number(&mut later) > first);
}

#[test]
fn it_goes_on_above_numbers_that_are_ahead_twice_in_a_round() {
    let folder = Folder::new("above");
    let (mut root, now) = root(&folder.0, true);
    let next = |root: &mut Tried| {
        let next = root.next(100)?;
        Some((next.body.meaning().unwrap().0, next.is_table))
    };
    root.change("a", Some(b"1")).unwrap();
    let first = next(&mut root).unwrap().0;
    root.hears([first - 1]);
    root.hears([first]);
    assert_eq!(next(&mut root), None);
    root.hears([first + 1_000]);
    // (above a second one once the table is published)
    root.hears([first + 2_000]);
    assert_eq!(next(&mut root), Some((first + 1_001, true)));
    root.hears([first + 2_000]);
    assert_eq!(next(&mut root), Some((first + 2_001, true)));
    // (whoever lies about it does not make one table after the other come)
    root.hears([first + 5_000]);
    assert_eq!(next(&mut root), None);
    // (what its own files have is no lie, and nobody is passed for it)
    root.has([first + 3_000, first + 2_000]);
    root.has([first + 4_000, 0]);
    assert_eq!(next(&mut root), Some((first + 3_001, true)));
    assert_eq!(next(&mut root), None);
    root.begin_round(now);
    root.hears([first + 5_000]);
    root.hears([first + 9_000]);
    let all: Vec<_> = std::iter::from_fn(|| next(&mut root)).collect();
    let of = |number, is_table| (first + number, is_table);
    let round = [of(5_002, false), of(5_003, false), of(5_004, false), of(5_005, true)];
    assert_eq!(all, [&[of(5_001, true)], &round[..]].concat());
}

#[test]
fn a_table_comes_after_so_many_items_or_bytes() {
    let folder = Folder::new("tables");
    let (mut root, _) = root(&folder.0, true);
    let mut kinds = String::new();
    for at in 0..12 {
        root.change("key", Some(at.to_string().as_bytes())).unwrap();
        kinds.push(said(&root.next(5).unwrap().body).0);
    }
    assert_eq!(kinds, "CCCCCTCCCCCT");
    let big = vec![b'x'; VALUE_BYTES];
    kinds.clear();
    for at in 0..6 {
        root.change(&format!("big{at}"), Some(&big)).unwrap();
        kinds.push(said(&root.next(100).unwrap().body).0);
    }
    assert_eq!(kinds, "CTCCTC", "as many bytes as the table has");
}

#[test]
fn what_is_asked_for_is_in_the_folder() {
    let folder = Folder::new("asked");
    let (mut root, now) = root(&folder.0, true);
    root.change("a", Some(b"1")).unwrap();
    assert_eq!(fs::read(folder.0.join("a")).unwrap(), b"1");
    assert_eq!(next(&mut root), Some(('C', vec![entry("a", Some("1"))])));
    // (again: whoever asks is told a number)
    root.change("a", Some(b"1")).unwrap();
    assert_eq!(next(&mut root), Some(('C', vec![entry("a", Some("1"))])));
    root.change("a", None).unwrap();
    assert!(!folder.0.join("a").exists());
    assert_eq!(next(&mut root), Some(('C', vec![entry("a", None)])));
    root.notified(now);
    root.tick(root.deadline());
    assert_eq!(next(&mut root), None);
    assert!(root.change("../a", Some(b"1")).is_err());
    assert!(root.change("absent", None).is_err());
    assert!(root.change("a", Some(&vec![0; VALUE_BYTES + 1])).is_err());
    root.drain(now);
    assert!(root.change("a", Some(b"1")).is_err() && !root.waits());
    // (who forgets it does not stop the root for ever)
    root.tick(now + Duration::from_secs(600));
    assert!(root.is_draining());
    root.tick(now + Duration::from_secs(601));
    assert!(!root.is_draining());
}

#[test]
fn changes_that_are_asked_for_together_come_to_their_places_together() {
    let folder = Folder::new("together");
    let (mut root, now) = root(&folder.0, true);
    let names = || {
        let names = fs::read_dir(&folder.0).unwrap().map(|it| it.unwrap().file_name());
        let mut names: Vec<_> = names.map(|name| name.into_string().unwrap()).collect();
        names.retain(|name| !name.starts_with('.'));
        names.sort();
        names
    };
    for key in ["a", "b", "c"] {
        root.ask(key, Some(key.as_bytes())).unwrap();
    }
    assert!(names().is_empty());
    assert_eq!(root.commit(), []);
    assert_eq!(names(), ["a", "b", "c"]);
    let all = ["a", "b", "c"].map(|key| entry(key, Some(key)));
    assert_eq!(next(&mut root), Some(('C', all.to_vec())));
    // (of one key the last one counts, and what it unsets is gone)
    root.ask("a", Some(b"1")).unwrap();
    root.ask("a", Some(b"2")).unwrap();
    root.ask("b", Some(b"3")).unwrap();
    root.ask("b", None).unwrap();
    assert_eq!(root.commit(), []);
    assert_eq!(
        (names(), fs::read(folder.0.join("a")).unwrap()),
        (vec!["a".into(), "c".into()], b"2".into())
    );
    assert_eq!(next(&mut root), Some(('C', vec![entry("a", Some("2")), entry("b", None)])));
    // (a round that begins before they are there reads them)
    root.ask("c", Some(b"4")).unwrap();
    root.begin_round(now);
    assert_eq!(root.commit(), []);
    let round: Vec<_> = std::iter::from_fn(|| next(&mut root)).collect();
    assert_eq!(round[0], ('C', vec![entry("c", Some("4"))]));
    assert_eq!(round.last(), Some(&('T', vec![entry("a", Some("2")), entry("c", Some("4"))])));
    // (all of it is its own, so there is nothing new in the folder)
    root.notified(now);
    root.tick(root.deadline());
    assert_eq!(next(&mut root), None);
    assert!(names() == ["a", "c"] && fs::read_dir(&folder.0).unwrap().count() == 3);
}

#[test]
fn a_change_that_cannot_be_written_is_refused_and_is_as_it_was() {
    let folder = Folder::new("refused");
    fs::write(folder.0.join("a"), "1").unwrap();
    let (mut root, _) = root(&folder.0, true);
    fs::remove_file(folder.0.join("a")).unwrap();
    fs::create_dir_all(folder.0.join("a/b")).unwrap();
    root.ask("a", Some(b"2")).unwrap();
    root.ask("c", Some(b"3")).unwrap();
    let failed = root.commit();
    assert!(matches!(&failed[..], [(key, _)] if key == "a"), "{failed:?}");
    // (what cannot be read stays as it was too)
    assert_eq!(next(&mut root), Some(('C', vec![entry("c", Some("3"))])));
    assert_eq!(root.settings(), 2);
    assert!(root.change("a", Some(b"2")).is_err());
}

#[test]
fn a_round_that_is_due_while_one_is_under_way_begins_after_it() {
    let folder = Folder::new("overdue");
    let (mut root, now) = root(&folder.0, false);
    let kinds = |root: &mut Tried, most: usize| -> String {
        (0..most).map_while(|_| next(root)).map(|(kind, _)| kind).collect()
    };
    root.tick(now);
    assert_eq!(kinds(&mut root, 2), "TH");
    // (one that is asked for is the one under way)
    root.begin_round(now);
    root.tick(now + ROUND);
    root.tick(now + 2 * ROUND);
    assert_eq!(kinds(&mut root, 20), "HHTHHHT");
    assert_eq!(root.deadline(), now + 3 * ROUND);
    root.tick(now + 3 * ROUND);
    root.begin_round(now + 3 * ROUND);
    assert_eq!(kinds(&mut root, 20), "HHHT");
}

#[test]
fn of_a_folder_what_changed_is_seen_whoever_changed_it() {
    let folder = Folder::new("seen");
    let (mut root, now) = root(&folder.0, true);
    let mut seen = |change: &dyn Fn(&Path), expected: Said| {
        change(&folder.0);
        root.notified(now);
        root.tick(root.deadline());
        let next = next(&mut root);
        assert_eq!(next, Some(('C', expected)).filter(|(_, said)| !said.is_empty()));
    };
    seen(&|it| fs::write(it.join("a"), "1").unwrap(), vec![entry("a", Some("1"))]);
    let moved = |it: &Path| {
        fs::write(it.join(".b.new"), "2").unwrap();
        fs::rename(it.join(".b.new"), it.join("b")).unwrap();
        fs::rename(it.join("a"), it.join("c")).unwrap();
    };
    let changes = vec![entry("a", None), entry("b", Some("2")), entry("c", Some("1"))];
    seen(&moved, changes);
    seen(&|it| fs::write(it.join("a"), [0; VALUE_BYTES + 1]).unwrap(), vec![]);
    seen(&|it| fs::write(it.join("a"), "5").unwrap(), vec![entry("a", Some("5"))]);
    seen(&|it| fs::remove_file(it.join("c")).unwrap(), vec![entry("c", None)]);
}

/// What was asked for is not read back, so nothing is due after it. Where somebody else has changed
/// something beside it, that is read.
#[test]
fn what_others_change_beside_what_is_asked_for_is_seen() {
    let folder = Folder::new("beside");
    let path = |key: &str| folder.0.join(key);
    let (mut root, now) = root(&folder.0, true);
    let mut asks = |others: &dyn Fn(), value: Option<&str>, is_due: bool| {
        others();
        root.change("a", value.map(str::as_bytes)).unwrap();
        assert_eq!(root.deadline() < now + ROUND, is_due, "{value:?}");
        assert_eq!(next(&mut root), Some(('C', vec![entry("a", value)])));
        if is_due {
            root.tick(root.deadline());
        }
        next(&mut root)
    };
    assert_eq!(asks(&|| (), Some("1"), false), None);
    assert_eq!(asks(&|| (), Some("2"), false), None);
    assert_eq!(asks(&|| (), None, false), None);
    let other = Some(('C', vec![entry("b", Some("3"))]));
    assert_eq!(asks(&|| fs::write(path("b"), "3").unwrap(), Some("4"), true), other);
    assert_eq!(asks(&|| fs::write(path("a"), "5").unwrap(), Some("6"), true), None);
    assert_eq!(asks(&|| fs::remove_file(path("a")).unwrap(), Some("7"), true), None);
    assert_eq!(asks(&|| fs::write(path("a"), "8").unwrap(), None, true), None);
}

#[test]
fn what_cannot_be_read_unsets_nothing() {
    let folder = Folder::new("unread");
    fs::write(folder.0.join("a"), "1").unwrap();
    fs::write(folder.0.join("b"), "2").unwrap();
    let (mut root, now) = root(&folder.0, true);
    let big = vec![0; VALUE_BYTES + 1];
    fs::write(folder.0.join("a"), big).unwrap();
    root.notified(now);
    root.tick(root.deadline());
    assert_eq!(next(&mut root), None);
    fs::rename(&folder.0, folder.0.with_extension("away")).unwrap();
    root.notified(now);
    root.tick(root.deadline());
    assert_eq!((next(&mut root), root.settings()), (None, 2));
    fs::rename(folder.0.with_extension("away"), &folder.0).unwrap();
}

#[test]
fn what_was_never_read_unsets_nothing() {
    let folder = Folder::new("unknown");
    let [away, bad, file] = ["away", "bad", "all.toml"].map(|name| folder.0.join(name));
    fs::create_dir(&bad).and_then(|()| std::os::unix::fs::symlink("b", bad.join("b"))).unwrap();
    fs::write(&file, "a = \"1").unwrap();
    for path in [&away, &bad, &file] {
        let (mut root, now) = root(path, true);
        assert!(root.change("c", Some(b"1")).is_err() && !root.waits(), "{path:?}");
        let _ = fs::remove_dir_all(path);
        fs::write(path, "a = 1").unwrap();
        root.tick(now + ROUND);
        assert_eq!(next(&mut root), Some(('T', vec![entry("a", Some("1"))])), "{path:?}");
    }
}

#[test]
fn an_empty_folder_unsets_nothing_unless_it_says_so() {
    let folder = Folder::new("empty");
    let marker = folder.0.join(".empty");
    fs::remove_file(&marker).unwrap();
    // (a folder where nothing is mounted, at the start)
    let (mut root, now) = root(&folder.0, true);
    assert!(!root.waits());
    fs::write(folder.0.join(".other"), "").unwrap();
    root.tick(now + ROUND);
    assert!(!root.waits());
    fs::write(folder.0.join("a"), "1").unwrap();
    root.tick(now + 2 * ROUND);
    assert_eq!(next(&mut root), Some(('T', vec![entry("a", Some("1"))])));
    while root.next(100).is_some() {}
    // (and later)
    let away = folder.0.with_extension("mounted");
    fs::rename(&folder.0, &away).and_then(|()| fs::create_dir(&folder.0)).unwrap();
    root.notified(now);
    root.tick(root.deadline());
    assert_eq!((next(&mut root), root.settings()), (None, 1));
    root.tick(now + 3 * ROUND);
    let all = std::iter::from_fn(|| next(&mut root)).last();
    assert_eq!(all, Some(('T', vec![entry("a", Some("1"))])));
    fs::write(&marker, "").unwrap();
    root.tick(now + 4 * ROUND);
    let all = std::iter::from_fn(|| next(&mut root)).last();
    assert_eq!(all, Some(('T', vec![])));
    fs::remove_dir_all(away).unwrap();
}

#[test]
fn the_first_setting_of_an_empty_folder_may_be_published() {
    let folder = Folder::new("first");
    fs::remove_file(folder.0.join(".empty")).unwrap();
    let (mut root, _) = root(&folder.0, true);
    assert!(!root.waits() && root.faults().len() == 1, "{:?}", root.faults());
    root.change("a", Some(b"1")).unwrap();
    assert_eq!(next(&mut root), Some(('T', vec![entry("a", Some("1"))])));
    assert_eq!(root.faults(), [""; 0]);
    // (not where something is there, and is no setting)
    fs::remove_file(folder.0.join("a")).unwrap();
    fs::create_dir(folder.0.join("inner")).unwrap();
    let (mut root, _) = self::root(&folder.0, true);
    let why = root.change("a", Some(b"1")).unwrap_err().to_string();
    assert!(why.contains("is not known"), "{why}");
}

#[test]
fn no_link_is_followed_and_nothing_but_a_plain_file_is_read() {
    let folder = Folder::new("plain");
    fs::write(folder.0.join("a"), "1").unwrap();
    fs::write(folder.0.with_extension("secret"), "of the agent alone").unwrap();
    std::os::unix::fs::symlink(folder.0.with_extension("secret"), folder.0.join("b")).unwrap();
    std::os::unix::fs::symlink("/dev/zero", folder.0.join("c")).unwrap();
    std::os::unix::net::UnixListener::bind(folder.0.join("d")).unwrap();
    assert!(std::process::Command::new("mkfifo")
        .arg(folder.0.join("e"))
        .status()
        .unwrap()
        .success());
    let (mut root, now) = root(&folder.0, false);
    root.tick(now);
    assert_eq!(next(&mut root), Some(('T', vec![entry("a", Some("1"))])));
    let why = "it is no plain file, and no link is followed";
    assert_eq!(root.faults(), ["b", "c", "d", "e"].map(|key| format!("{key}: {why}")));
    while root.next(100).is_some() {}
    // (one that was a setting, and is a link now, stays as it was)
    fs::remove_file(folder.0.join("a")).unwrap();
    fs::rename(folder.0.join("b"), folder.0.join("a")).unwrap();
    root.notified(now);
    root.tick(root.deadline());
    assert_eq!((next(&mut root), root.settings()), (None, 1));
    fs::remove_file(folder.0.with_extension("secret")).unwrap();
    // (one with nothing else is no empty one; and no name makes a line of its own)
    fs::remove_file(folder.0.join(".empty")).unwrap();
    fs::write(folder.0.join("x\nparent  evil"), "1").unwrap();
    let (root, _) = self::root(&folder.0, true);
    let faults = root.faults();
    let all: Vec<&str> = faults.iter().map(|it| it.split(": ").last().unwrap()).collect();
    assert_eq!(all[0], "nothing in it can be published", "{faults:?}");
    assert_eq!(all.iter().filter(|it| **it == why).count(), 4, "{faults:?}");
    let key = faults.iter().find(|it| it.contains("evil")).unwrap();
    assert!(key.starts_with("`x\\u000aparent  evil` is no key") && !key.contains('\n'), "{key}");
}

#[test]
fn what_cannot_be_published_is_named_until_it_can() {
    let folder = Folder::new("faults");
    fs::write(folder.0.join("a"), "1").unwrap();
    let (mut root, now) = root(&folder.0, true);
    assert_eq!(root.faults(), [""; 0]);
    let mut at = now;
    let mut after = |root: &mut Tried, change: &dyn Fn(&Path)| {
        change(&folder.0);
        at += Duration::from_secs(1);
        root.notified(at);
        root.tick(root.deadline());
        while root.next(100).is_some() {}
        root.faults()
    };
    let long = vec![b'x'; VALUE_BYTES + 1];
    let faults = after(&mut root, &|it| fs::write(it.join("a"), &long).unwrap());
    assert_eq!(faults, ["a: it has more than 1048576 bytes"]);
    assert_eq!(after(&mut root, &|it| fs::write(it.join("a"), "2").unwrap()), [""; 0]);
    let faults = after(&mut root, &|it| fs::write(it.join("no key"), "2").unwrap());
    assert!(faults.len() == 1 && faults[0].starts_with("`no key` is no key: that is 1 to 128"));
    assert_eq!(after(&mut root, &|it| fs::remove_file(it.join("no key")).unwrap()), [""; 0]);
    // (too many bytes together, and gone)
    let faults = after(&mut root, &|it| {
        (0..17).for_each(|at| fs::write(it.join(format!("big{at}")), &long[1..]).unwrap());
    });
    assert!(faults.len() == 1 && faults[0].contains("all settings have more than"), "{faults:?}");
    (0..17).for_each(|at| fs::remove_file(folder.0.join(format!("big{at}"))).unwrap());
    assert_eq!(after(&mut root, &|it| fs::write(it.join("a"), "3").unwrap()), [""; 0]);
    let faults = after(&mut root, &|it| fs::rename(it, it.with_extension("gone")).unwrap());
    assert!(faults.len() == 1 && faults[0].contains("No such file"), "{faults:?}");
    fs::rename(folder.0.with_extension("gone"), &folder.0).unwrap();
    let why = root.ask("../a", None).unwrap_err().to_string();
    assert!(why.contains("the first one no dot or hyphen"), "{why}");
}

#[test]
fn a_file_that_is_removed_is_unset_though_it_was_the_last() {
    let folder = Folder::new("last");
    fs::write(folder.0.join("a"), "1").unwrap();
    fs::remove_file(folder.0.join(".empty")).unwrap();
    let (mut root, now) = root(&folder.0, true);
    fs::remove_file(folder.0.join("a")).unwrap();
    root.notified(now);
    root.tick(root.deadline());
    assert_eq!(next(&mut root), Some(('C', vec![entry("a", None)])));
    root.tick(now + ROUND);
    let all = std::iter::from_fn(|| next(&mut root)).last();
    assert_eq!(all, Some(('T', vec![])));
}

/// What the root remembers is wrong here since nobody tells it that a file changed.
#[test]
fn each_table_is_what_the_folder_has() {
    let folder = Folder::new("remembered");
    for key in ["a", "b", "c"] {
        fs::write(folder.0.join(key), "1").unwrap();
    }
    let (mut root, now) = root(&folder.0, true);
    let all = |b: &str| vec![entry("a", Some("2")), entry("b", Some(b)), entry("c", Some("1"))];
    let changed = |root: &mut Tried| {
        root.change("a", Some(b"2")).unwrap();
        said(&root.next(5).unwrap().body)
    };
    // (between two rounds)
    fs::write(folder.0.join("b"), "3").unwrap();
    let table = std::iter::from_fn(|| Some(changed(&mut root))).find(|(kind, _)| *kind == 'T');
    assert_eq!(table, Some(('T', all("3"))));
    // (and while one is under way)
    root.tick(now + ROUND);
    assert_eq!(next(&mut root), Some(('H', vec![])));
    fs::write(folder.0.join("b"), "4").unwrap();
    let table = std::iter::from_fn(|| next(&mut root)).find(|(kind, _)| *kind == 'T');
    assert_eq!(table, Some(('T', all("4"))));
}

#[test]
fn a_file_may_hold_all_settings() {
    let folder = Folder::new("file");
    let (toml, json) = (folder.0.join("all.toml"), folder.0.join("all.json"));
    fs::write(&toml, "a = \"text\"\nb = 7\n").unwrap();
    fs::write(&json, r#"{"a": "text", "b": [1, 2]}"#).unwrap();
    let all: BTreeMap<&Path, &str> = [(toml.as_path(), "7"), (json.as_path(), "[1,2]")].into();
    for (path, value) in all {
        let (mut root, now) = root(path, false);
        let expected = vec![entry("a", Some("text")), entry("b", Some(value))];
        assert_eq!(next(&mut root), Some(('T', expected)));
        assert!(root.change("a", Some(b"1")).is_err(), "it is edited by hand");
        // (what is no such file changes nothing)
        for text in ["{", "", " \n"] {
            fs::write(path, text).unwrap();
            root.notified(now);
            root.tick(now + ROUND / 2);
            assert_eq!(root.settings(), 2);
        }
    }
    fs::write(&toml, "# none\n").unwrap();
    assert_eq!(next(&mut self::root(&toml, false).0), Some(('T', vec![])));
}

#[test]
fn the_checksum_is_that_of_another_program() {
    let mut state = 5_u64;
    let bytes: Vec<u8> = (0..5_000)
        .map(|_| {
            state = state.wrapping_mul(6_364_136_223_846_793_005).wrapping_add(1);
            (state >> 56) as u8
        })
        .collect();
    for length in (0..100).chain([4_096, 4_999]) {
        for from in 0..9.min(bytes.len() - length + 1) {
            let part = &bytes[from..from + length];
            assert_eq!(checksum(part), crc32fast::hash(part), "{from} {length}");
        }
    }
}

#[test]
fn what_is_asked_for_together_has_room_together() {
    let folder = Folder::new("room");
    let value = vec![0; VALUE_BYTES];
    for at in 0..15 {
        fs::write(folder.0.join(format!("old{at}")), &value).unwrap();
    }
    let (mut root, _) = root(&folder.0, true);
    let asked = ["a", "b", "c"].map(|key| root.ask(key, Some(&value[1_000..])).is_ok());
    root.commit();
    let longest = std::iter::from_fn(|| root.next(100)).map(|it| it.body.bytes.len()).max();
    let bytes: u64 =
        fs::read_dir(&folder.0).unwrap().map(|it| it.unwrap().metadata().unwrap().len()).sum();
    assert!(bytes <= 16 << 20, "{asked:?}: the folder has {bytes} bytes, a body {longest:?}");
}

#[test]
fn what_is_asked_for_while_the_disk_is_busy_is_bounded() {
    let folder = Folder::new("asks");
    let (mut root, _) = root(&folder.0, true);
    let value = vec![0; VALUE_BYTES];
    let taken = (0..100).filter(|_| root.ask("a", Some(&value)).is_ok()).count();
    assert!(taken <= 16, "{taken} values of 1 MiB wait");
}

/// Makes a folder's settings these.
fn put(folder: &Folder, keys: &[&str]) {
    for entry in fs::read_dir(&folder.0).unwrap().flatten() {
        let name = entry.file_name().into_string().unwrap();
        if !name.starts_with('.') && !keys.contains(&&*name) {
            fs::remove_file(entry.path()).unwrap();
        }
    }
    keys.iter().for_each(|key| fs::write(folder.0.join(key), *key).unwrap());
}

/// What is not published, with the reason why it is held, as one line.
fn diff(root: &mut Tried) -> (String, String) {
    let now = root.now;
    root.ask_diff(now, "who".into());
    root.wait();
    let (who, diff) = root.diffs().unwrap();
    assert_eq!(who, ["who"]);
    let sign = |bytes: Option<u64>| bytes.map_or("-".into(), |bytes| format!("{bytes} "));
    let changes = diff.changes.iter().map(|it| format!("{}{}", sign(it.bytes), it.key));
    let why = diff.held.split(": held").next().unwrap().to_owned();
    (why, changes.collect::<Vec<_>>().join(", "))
}

fn said_of(why: &str, changes: &str) -> (String, String) {
    (why.into(), changes.into())
}

/// Everything that is published until nothing waits.
fn all(root: &mut Tried) -> Vec<Said> {
    let next = std::iter::from_fn(|| next(root));
    next.filter(|(kind, _)| *kind != 'H').map(|(_, said)| said).collect()
}

#[test]
fn what_unsets_more_than_half_is_held_until_it_is_confirmed() {
    let folder = Folder::new("held");
    put(&folder, &["a", "b", "c", "d", "e"]);
    let (mut root, now) = root(&folder.0, true);
    // (as many as half of five, rounded down, may go)
    put(&folder, &["a", "b", "c", "f"]);
    root.notified(now);
    root.tick(root.deadline());
    assert_eq!(root.held(), 0);
    let change = vec![entry("d", None), entry("e", None), entry("f", Some("f"))];
    assert_eq!(all(&mut root), [change]);
    // what goes since the last round counts together, however it comes
    put(&folder, &["a", "b", "f"]);
    root.notified(now);
    root.tick(root.deadline());
    let why = "3 of 5 settings would be unset";
    assert_eq!((root.held(), all(&mut root)), (1, vec![]));
    assert_eq!(diff(&mut root), said_of(why, "-c"));
    assert_eq!(root.faults(), [format!("{why}: held until `rignoldactl confirm`")]);
    // nothing is published of it; rounds are of what was published before
    root.tick(now + ROUND);
    let table = |more: &[(&str, &str)]| {
        let all = [("a", "a"), ("b", "b"), ("c", "c"), ("f", "f")];
        let all: BTreeMap<_, _> = all.into_iter().chain(more.iter().copied()).collect();
        all.into_iter().map(|(key, value)| entry(key, Some(value))).collect::<Said>()
    };
    assert_eq!(all(&mut root), [table(&[])]);
    // and what is asked for by name, which is one of those then
    root.change("g", Some(b"g")).unwrap();
    assert_eq!(all(&mut root), [vec![entry("g", Some("g"))]]);
    assert_eq!(root.answers(), [("g".into(), Ok(()))]);
    assert_eq!(diff(&mut root), said_of(why, "-c"));
    assert_eq!(root.promote("a@eu", "who".into()), Err(Refused::IsHeld));
    root.tick(now + 2 * ROUND);
    assert_eq!(all(&mut root), [table(&[("g", "g")])]);
    fs::remove_file(folder.0.join("g")).unwrap();
    root.change("g", None).unwrap();
    assert_eq!(all(&mut root), [vec![entry("g", None)]]);
    assert_eq!(root.change("g", None).unwrap_err().to_string(), "`g` is not set");
    // what is confirmed is what was seen, and nothing that came since
    assert_eq!(
        root.confirm(&"1".repeat(64), now, "who".into()).unwrap_err().to_string()[..26],
        *"another change is held sin"
    );
    let why = root.confirm("0123456789abcdef", now, "who".into()).unwrap_err().to_string();
    assert!(why.contains("64 hexadecimal digits"), "{why}");
    put(&folder, &["a"]);
    root.confirm("", now, "who".into()).unwrap();
    root.wait();
    let answers = root.answers();
    assert!(
        matches!(&answers[..], [(_, Err(why))] if why.to_string().contains("4 of 5")),
        "{answers:?}"
    );
    assert_eq!(diff(&mut root), said_of("4 of 5 settings would be unset", "-b, -c, -f"));
    root.confirm("", now, "who".into()).unwrap();
    root.wait();
    let table = vec![entry("a", Some("a"))];
    assert_eq!(all(&mut root).last(), Some(&table));
    assert_eq!(root.answers(), [("who".into(), Ok(()))]);
    assert_eq!((root.held(), root.faults().len()), (0, 0));
    assert_eq!(root.confirm("", now, "who".into()), Err(Refused::NothingIsHeld));
    // one setting alone may always go
    put(&folder, &[]);
    root.notified(now);
    root.tick(root.deadline());
    assert_eq!(all(&mut root), [vec![entry("a", None)]]);
}

#[test]
fn a_digest_confirms_what_was_seen_alone() {
    let folder = Folder::new("digest");
    let (mut root, now) =
        root_of(config::Root { hold: true, ..config(&folder.0) }, BTreeMap::new(), true);
    fs::write(folder.0.join("a"), "yes").unwrap();
    let digest = |root: &mut Tried| {
        root.ask_diff(now, "who".into());
        root.wait();
        root.diffs().unwrap().1.digest
    };
    let seen = digest(&mut root);
    fs::write(folder.0.join("a"), "any").unwrap();
    root.confirm(&seen, now, "who".into()).unwrap();
    root.wait();
    assert!(matches!(&root.answers()[..], [(_, Err(_))]));
    assert_eq!((all(&mut root), root.held()), (vec![], 1));
    assert_ne!(digest(&mut root), seen);
    assert!(root.confirm(&seen, now, "who".into()).is_err());
    fs::write(folder.0.join("a"), "yes").unwrap();
    assert_eq!(digest(&mut root), seen);
    root.confirm(&seen, now, "who".into()).unwrap();
    root.wait();
    assert_eq!((all(&mut root), root.held()), (vec![vec![entry("a", Some("yes"))]], 0));
}

#[test]
fn what_comes_back_is_held_no_more() {
    let folder = Folder::new("back");
    put(&folder, &["a", "b", "c", "d"]);
    let (mut root, now) = root(&folder.0, true);
    // (who asks for it unsets as much as he wants to)
    for key in ["a", "b", "c"] {
        root.change(key, None).unwrap();
    }
    put(&folder, &["a", "b", "c", "d"]);
    root.tick(now + ROUND);
    all(&mut root);
    put(&folder, &["a"]);
    root.notified(now + ROUND);
    root.tick(root.deadline());
    assert_eq!((root.held(), all(&mut root)), (3, vec![]));
    put(&folder, &["a", "b", "c", "d"]);
    root.notified(now + ROUND);
    root.tick(root.deadline());
    assert_eq!((root.held(), all(&mut root)), (0, vec![]));
    assert_eq!(diff(&mut root), said_of("", ""));
}

#[test]
fn a_root_that_begins_anew_holds_what_its_own_files_lack() {
    let folder = Folder::new("anew");
    put(&folder, &["a"]);
    let applied = |keys: &[&str]| keys.iter().map(|key| (key.to_string(), (*key).into())).collect();
    let (mut root, now) = root_of(config(&folder.0), applied(&["a", "b", "c"]), false);
    root.tick(now);
    let why = "2 of 3 settings would be unset";
    assert_eq!((root.held(), all(&mut root)), (2, vec![]));
    assert_eq!(diff(&mut root), said_of(why, "-b, -c"));
    // (of what an earlier life published nothing was kept: so no table is)
    root.change("a", Some(b"2")).unwrap();
    assert_eq!(all(&mut root), [vec![entry("a", Some("2"))]]);
    root.begin_round(now);
    assert_eq!((root.held(), all(&mut root)), (2, vec![]));
    root.confirm("", now, "who".into()).unwrap();
    root.wait();
    assert_eq!(all(&mut root).last(), Some(&vec![entry("a", Some("2"))]));
    // one that holds each change has what it applied confirmed
    put(&folder, &["a"]);
    let hold = config::Root { hold: true, ..config(&folder.0) };
    let (mut root, now) = root_of(hold, applied(&["a"]), true);
    assert_eq!((root.held(), all(&mut root)), (0, vec![]));
    put(&folder, &["a", "b"]);
    root.notified(now);
    root.tick(root.deadline());
    assert_eq!((root.held(), all(&mut root)), (1, vec![]));
    assert_eq!(diff(&mut root), said_of("1 settings would change", "1 b"));
}

#[test]
fn a_number_says_how_many_may_go() {
    for (unsets, held) in [(0, 1), (1, 0)] {
        let folder = Folder::new(&format!("number{unsets}"));
        put(&folder, &["a", "b", "c", "d"]);
        let config = config::Root { unsets: Some(unsets), ..config(&folder.0) };
        let (mut root, now) = root_of(config, BTreeMap::new(), true);
        put(&folder, &["a", "b", "c"]);
        root.notified(now);
        root.tick(root.deadline());
        assert_eq!(root.held(), held, "{unsets}");
    }
}

/// What waits while it drains is shown, and goes its way then.
#[test]
fn what_waits_for_the_end_of_a_drain_is_shown() {
    let folder = Folder::new("drains");
    put(&folder, &["a", "b"]);
    let (mut root, now) = root(&folder.0, true);
    root.drain(now);
    put(&folder, &["a", "c"]);
    assert_eq!(diff(&mut root), said_of("", "-b, 1 c"));
    assert!(root.confirm("", now, "who".into()).is_err());
    root.resume();
    assert_eq!(all(&mut root), [vec![entry("b", None), entry("c", Some("c"))]]);
}

/// Ends a root once what it published is kept, and begins another one, of an agent that applied
/// this.
fn begins_again(config: &config::Root, root: Tried, now: Time, applied: &[&str]) -> (Tried, Time) {
    let kept = Path::new(&config.settings).join(".rignolda/published");
    let is_kept = |root: &Tried| {
        let text = fs::read_to_string(&kept).ok();
        text.map(|it| it.lines().filter(|line| !line.ends_with(" -")).count() as u64)
            == Some(root.settings())
    };
    let mut root = root;
    let until = rignoldad::system::time() + Duration::from_secs(60);
    while !is_kept(&root) && rignoldad::system::time() < until {
        root.tick(now + Duration::from_secs(30));
        std::thread::sleep(Duration::from_millis(1));
    }
    drop(root);
    let applied = applied.iter().map(|key| (key.to_string(), (*key).into())).collect();
    root_of(config.clone(), applied, false)
}

const KEYS: [&str; 6] = ["a", "b", "c", "d", "e", "f"];

/// It knows what it published, though it applies nothing, or that is lost.
#[test]
fn a_root_that_begins_anew_holds_what_its_folder_lacks() {
    for (name, applied) in [("lacks", &[][..]), ("lacks-some", &["a", "b"])] {
        let folder = Folder::new(name);
        put(&folder, &KEYS);
        let config = config(&folder.0);
        let (mut before, now) = root(&folder.0, true);
        before.change("b..eu", Some(b"x")).unwrap_err();
        before.change("b@eu", Some(b"x")).unwrap();
        all(&mut before);
        let (mut root, now) = begins_again(&config, before, now, applied);
        assert_eq!((root.held(), all(&mut root).len()), (0, 2), "nothing is lacking");
        fs::remove_file(folder.0.join("b@eu")).unwrap();
        put(&folder, &["a", "b"]);
        let (mut root, now) = begins_again(&config, root, now, applied);
        let why = "5 of 7 settings would be unset";
        assert_eq!(root.held(), 5, "{name}");
        // (what is published again is as it was)
        assert_eq!(all(&mut root), [vec![entry("a", Some("a"))]]);
        assert_eq!(diff(&mut root), said_of(why, "-b@eu, -c, -d, -e, -f"));
        root.tick(now + ROUND);
        assert_eq!(all(&mut root), [] as [Said; 0], "no table");
        // what somebody names goes out, unless agents would lose what is not known; the others stay
        root.change("new", Some(b"1")).unwrap();
        root.change("c", Some(b"2")).unwrap();
        root.change("d", None).unwrap();
        let said: Said = all(&mut root).into_iter().flatten().collect();
        assert_eq!(said, [entry("c", Some("2")), entry("d", None), entry("new", Some("1"))]);
        assert_eq!(root.change("b", Some(b"2")), Err(Refused::IsHeld));
        assert_eq!(diff(&mut root), said_of("3 of 6 settings would be unset", "-b@eu, -e, -f"));
        root.confirm("", now, "who".into()).unwrap();
        root.wait();
        let table = [("a", "a"), ("b", "b"), ("c", "2"), ("new", "1")];
        let table: Said = table.map(|(key, value)| entry(key, Some(value))).into();
        assert_eq!(all(&mut root).last(), Some(&table));
    }
}

/// What it applied, or still lies in the folder, is what it published.
#[test]
fn rounds_of_what_was_published_go_on_where_a_change_is_held_at_a_start() {
    let folder = Folder::new("goes-on");
    put(&folder, &KEYS);
    let config = config(&folder.0);
    let (root, now) = root(&folder.0, true);
    put(&folder, &["a", "b"]);
    let (mut root, now) = begins_again(&config, root, now, &KEYS[1..]);
    let table: Said = KEYS.map(|key| entry(key, Some(key))).into();
    assert_eq!((root.held(), all(&mut root)), (4, vec![table.clone(); 2]));
    root.tick(now + ROUND);
    assert_eq!(all(&mut root), [&table[..]]);
    put(&folder, &KEYS);
    root.tick(now + 2 * ROUND);
    assert_eq!((root.held(), all(&mut root)), (0, vec![table]));
}

/// Also where that is not all at once, and over a start.
#[test]
fn what_goes_in_steps_is_held_as_what_goes_at_once() {
    let folder = Folder::new("steps");
    put(&folder, &KEYS);
    let config = config(&folder.0);
    let (mut root, mut now) = root(&folder.0, true);
    for (most, held) in [(5, 0), (4, 0), (3, 0), (2, 1)] {
        put(&folder, &KEYS[..most]);
        now += ROUND / 9;
        root.begin_round(now);
        let table: Said = KEYS[..most.max(3)].iter().map(|key| entry(key, Some(key))).collect();
        assert_eq!(all(&mut root).last(), Some(&table), "{most}");
        assert_eq!(root.held(), held, "{most}");
        if most == 4 {
            (root, now) = begins_again(&config, root, now, &[]);
            all(&mut root);
        }
    }
}

#[test]
fn what_is_asked_for_beside_a_change_that_is_held_is_answered() {
    let folder = Folder::new("beside");
    put(&folder, &KEYS);
    let (mut root, now) = root(&folder.0, true);
    // (nobody has told it yet)
    put(&folder, &[]);
    root.change("urgent", Some(b"1")).unwrap();
    root.notified(now);
    root.tick(root.deadline());
    assert_eq!((root.held(), all(&mut root)), (6, vec![vec![entry("urgent", Some("1"))]]));
    assert_eq!(root.answers(), [("urgent".into(), Ok(()))]);
    root.tick(now + ROUND);
    let more = entry("urgent", Some("1"));
    let table: Said = KEYS.map(|key| entry(key, Some(key))).into_iter().chain([more]).collect();
    assert_eq!((root.held(), all(&mut root)), (6, vec![table]));
}

/// As where a mount is missing.
#[test]
fn an_empty_folder_takes_no_first_setting_where_others_were_published() {
    let folder = Folder::new("others");
    fs::remove_file(folder.0.join(".empty")).unwrap();
    let (mut root, _) = root(&folder.0, true);
    // (agents have numbers, and nothing was kept of who published them)
    root.hears([0, 7]);
    let why = root.change("a", Some(b"1")).unwrap_err().to_string();
    assert!(why.contains("is a mount missing"), "{why}");
    assert!(!folder.0.join("a").exists());
    // one that ran
    let settings = folder.0.join("settings");
    fs::create_dir(&settings).unwrap();
    let (mut root, now) = self::root(&settings, true);
    root.change("a", Some(b"1")).unwrap();
    root.change("b", Some(b"1")).unwrap();
    all(&mut root);
    let away = folder.0.join("away");
    fs::rename(&settings, &away).unwrap();
    fs::create_dir(&settings).unwrap();
    root.tick(now + ROUND);
    let why = root.change("a", Some(b"2")).unwrap_err().to_string();
    assert!(why.contains("is a mount missing"), "{why}");
    assert_eq!((settings.join("a").exists(), root.settings()), (false, 2));
    fs::remove_dir_all(&settings).unwrap();
    fs::rename(&away, &settings).unwrap();
    root.tick(now + 2 * ROUND);
    // (and where all of them are unset by name, the next one is a first one)
    root.change("a", None).unwrap();
    root.change("b", None).unwrap();
    all(&mut root);
    let (mut root, _) = begins_again(&config(&settings), root, now + 3 * ROUND, &[]);
    root.hears([7]);
    root.change("a", Some(b"1")).unwrap();
    assert_eq!(all(&mut root), [vec![entry("a", Some("1"))]]);
}

/// What lies there for git, an editor or a command is no setting: what is beside it is not read.
#[test]
fn a_file_with_a_dot_in_front_has_that_setting_read_alone_which_it_becomes() {
    let (folder, other) = (Folder::new("dots"), Folder::new("dots-other"));
    put(&folder, &["a", "b"]);
    fs::hard_link(folder.0.join("b"), other.0.join("b")).unwrap();
    let (mut root, now) = root(&folder.0, true);
    // (nobody is told what changes by its name in another folder)
    fs::write(other.0.join("b"), "2").unwrap();
    fs::write(folder.0.join(".a.swp"), "2").unwrap();
    fs::rename(folder.0.join(".a.swp"), folder.0.join("a")).unwrap();
    fs::create_dir(folder.0.join(".git")).unwrap();
    root.notified(now);
    root.tick(root.deadline());
    assert_eq!(all(&mut root), [vec![entry("a", Some("2"))]]);
    root.tick(now + ROUND);
    assert_eq!(all(&mut root).last(), Some(&vec![entry("a", Some("2")), entry("b", Some("2"))]));
}

/// Where this process has these bytes in memory that it may write. They are given with all bits the
/// other way, so that they are not found in the test itself.
fn copies(inverted: &[u8]) -> Vec<u64> {
    const PIECE: usize = 1 << 16;
    let maps = fs::read_to_string("/proc/self/maps").unwrap();
    let memory = File::open("/proc/self/mem").unwrap();
    let (mut piece, mut found) = (vec![0; PIECE + inverted.len()], Vec::new());
    let own = piece.as_ptr_range();
    let own = own.start as u64..own.end as u64;
    for line in maps.lines().filter(|line| line.contains(" rw")) {
        let (start, end) = line.split_once(' ').unwrap().0.split_once('-').unwrap();
        let [start, end] = [start, end].map(|it| u64::from_str_radix(it, 16).unwrap());
        for at in (start..end).step_by(PIECE) {
            let length = piece.len().min((end - at) as usize);
            let Ok(length) = memory.read_at(&mut piece[..length], at) else { continue };
            let (mut rest, mut skipped) = (&piece[..length], Vec::new());
            let mut ends = Vec::new();
            while rest.read_until(!inverted[0], &mut skipped).unwrap() > 0 {
                ends.push(length - rest.len());
                skipped.clear();
            }
            let is_one = |it: &[u8]| it.iter().zip(inverted).all(|(one, other)| *one == !other);
            let all = ends.into_iter().map(|end| end - 1..end - 1 + inverted.len());
            let places = all.filter(|it| piece.get(it.clone()).is_some_and(is_one));
            let places = places.map(|it| at + it.start as u64);
            found.extend(places.filter(|place| !own.contains(place)));
        }
    }
    piece.fill(0);
    found.sort_unstable();
    found.dedup();
    found
}

/// Writes over one of these places from this byte of it on, if it has the same bytes still.
fn spoil(at: u64, inverted: &[u8], from: usize, bytes: &[u8]) {
    let memory = OpenOptions::new().read(true).write(true).open("/proc/self/mem").unwrap();
    let mut there = [0; 64];
    memory.read_exact_at(&mut there[..inverted.len()], at).unwrap();
    if there.iter().zip(inverted).all(|(one, other)| *one == !other) {
        memory.write_all_at(bytes, at + from as u64).unwrap();
    }
    there.fill(0);
}

/// Does this in a process of its own, which runs this test alone: what is spoiled is nobody else's.
fn alone(test: &str, act: impl FnOnce()) {
    const ALONE: &str = "RIGNOLDA_ALONE";
    if std::env::var_os(ALONE).is_some() {
        return act();
    }
    let mut process = Command::new(std::env::current_exe().unwrap());
    let done = process.args([test, "--exact", "--nocapture"]).env(ALONE, "").output().unwrap();
    let said = [done.stdout, done.stderr].concat();
    assert!(done.status.success(), "{}", String::from_utf8_lossy(&said));
}

#[test]
fn a_name_that_is_spoilt_holds_no_change_for_longer_than_a_round() {
    let test = "a_name_that_is_spoilt_holds_no_change_for_longer_than_a_round";
    alone(test, name_is_spoilt);
}

/// In each of the places where it is in the memory of a root, mostly several times, since they are
/// others each time.
fn name_is_spoilt() {
    let name = |at: usize| format!("Qspoilt-by-a-fault-of-memory-{at:03}");
    for at in 0..60 {
        let folder = Folder::new(&format!("spoilt{at}"));
        put(&folder, &["b", "c"]);
        fs::write(folder.0.join(name(at)), "1").unwrap();
        let config = config::Root { unsets: Some(0), ..config(&folder.0) };
        let (mut root, now) = root_of(config.clone(), BTreeMap::new(), true);
        let kept = folder.0.join(".rignolda/published");
        let is_kept = |root: &mut Tried, later: Time, value: &[u8]| {
            let (until, sha) = (rignoldad::system::time() + Duration::from_secs(60), sha256(value));
            let digits: String = sha.iter().map(|byte| format!("{byte:02x}")).collect();
            while !fs::read_to_string(&kept).is_ok_and(|text| text.contains(&digits)) {
                root.tick(later + Duration::from_secs(30));
                assert!(rignoldad::system::time() < until, "{at}: it is not kept");
                std::thread::sleep(Duration::from_millis(1));
            }
        };
        is_kept(&mut root, now, b"c");
        let inverted: Vec<u8> = name(at).bytes().map(|byte| !byte).collect();
        let places = copies(&inverted);
        assert!((3..20).contains(&places.len()), "a root has it {} times", places.len());
        // (what is free has words of who gives it away in front)
        spoil(places[at % places.len()], &inverted, 20, b"S");
        // (this one may be held until the round is over)
        fs::write(folder.0.join("b"), "2").unwrap();
        root.begin_round(now);
        all(&mut root);
        root.tick(now + ROUND);
        let table = all(&mut root).pop().unwrap();
        let own = || entry(&name(at), Some("1"));
        let right = |c| vec![own(), entry("b", Some("2")), entry("c", Some(c))];
        assert_eq!((root.held(), table), (0, right("c")), "{at}");
        fs::write(folder.0.join("c"), "3").unwrap();
        root.begin_round(now + ROUND);
        let table = all(&mut root).pop().unwrap();
        assert_eq!((root.held(), table), (0, right("3")), "{at}");
        // (and what is kept is right, too)
        is_kept(&mut root, now + ROUND, b"3");
        drop(root);
        let (mut root, _) = root_of(config, BTreeMap::new(), false);
        assert_eq!((root.held(), all(&mut root).len()), (0, 2), "{at}");
    }
}

#[test]
fn a_count_that_is_spoilt_refuses_nothing_for_longer_than_what_waits() {
    let test = "a_count_that_is_spoilt_refuses_nothing_for_longer_than_what_waits";
    alone(test, count_is_spoilt);
}

/// Of all places where it is in the memory of a root, one after the other.
fn count_is_spoilt() {
    // (a setting takes 6 bytes more than its name and value)
    let bytes = |at: usize| 700_001 + 16 * at;
    for at in 0.. {
        let folder = Folder::new(&format!("count{at}"));
        let (mut root, _) = root(&folder.0, true);
        root.ask("a", Some(&vec![b'x'; bytes(at)])).unwrap();
        let inverted = (!(bytes(at) as u64 + 7)).to_le_bytes();
        let places = copies(&inverted);
        let Some(place) = places.get(at) else {
            assert!(at > 0);
            break;
        };
        spoil(*place, &inverted, 0, &(1_u64 << 50).to_le_bytes());
        // (as long as that waits, it may be refused)
        let _ = root.ask("a", Some(b"1"));
        assert_eq!(root.commit(), []);
        all(&mut root);
        for key in ["b", "c", "d"] {
            root.ask(key, Some(b"1")).unwrap();
        }
        assert_eq!(root.commit(), []);
        assert_eq!(root.settings(), 4, "{at}");
    }
}
