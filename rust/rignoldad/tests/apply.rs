//! The files of settings and their hooks.
use rignolda_machine::apply::{self, found, Applied, Applier as Machine, Hook, Outcome};
use rignolda_machine::config::Apply;
use rignolda_machine::net::Body;
use rignolda_machine::settings::{furthest, Heard, Meaning, Publisher, Table};
use rignoldad::place::LocalFiles;
use rignoldad::workers::Workers;
use std::cell::Cell;
use std::collections::BTreeMap;
use std::fs::{self, Permissions};
use std::io;
use std::os::unix::fs::{symlink, MetadataExt, PermissionsExt};
use std::path::{Path, PathBuf};
use std::process::{Command, Stdio};
use std::sync::atomic::{AtomicU64, Ordering};
use std::sync::{Arc, Mutex};
use std::time::Duration;

/// A folder of one test, removed at its end.
struct Place(PathBuf);

impl Place {
    fn new() -> Place {
        static MADE: AtomicU64 = AtomicU64::new(0);
        let number = MADE.fetch_add(1, Ordering::Relaxed);
        let path = std::env::temp_dir().join(format!("rignoldad-{}-{number}", std::process::id()));
        fs::create_dir_all(&path).unwrap();
        Place(path)
    }

    fn folder(&self) -> PathBuf {
        self.0.join("settings")
    }

    fn config(&self) -> Apply {
        Apply {
            folder: self.folder().display().to_string(),
            mode: 0o640,
            hook_timeout: Duration::from_secs(600),
            ..Apply::default()
        }
    }

    /// A hook with these lines of shell.
    fn with_hook(&self, lines: &str) -> Apply {
        let path = self.0.join("hook");
        fs::write(&path, format!("#!/bin/sh\ncd {}\n{lines}\n", self.0.display())).unwrap();
        fs::set_permissions(&path, Permissions::from_mode(0o755)).unwrap();
        Apply { hook: Some(path.display().to_string()), ..self.config() }
    }

    fn calls(&self) -> Vec<String> {
        let text = fs::read_to_string(self.0.join("calls")).unwrap_or_default();
        text.lines().map(String::from).collect()
    }

    /// The settings' files.
    fn files(&self) -> BTreeMap<String, String> {
        let files = fs::read_dir(self.folder()).unwrap().map(|entry| entry.unwrap().path());
        let name = |path: &Path| path.file_name().unwrap().to_str().unwrap().to_string();
        files
            .filter(|path| !name(path).starts_with('.'))
            .map(|path| (name(&path), fs::read_to_string(&path).unwrap()))
            .collect()
    }
}

impl Drop for Place {
    fn drop(&mut self) {
        let _ = fs::remove_dir_all(&self.0);
    }
}

const LOG: &str = "echo \"$1 $2 $(cat) $RIGNOLDA_SEQUENCE\" >>calls";

/// What bodies say.
trait Bodies {
    fn says(&mut self, meaning: Meaning<'_>, number: u64, looks: bool, fills: bool);
    fn set(&mut self, key: &str, value: &[u8], sequence: u64);
    fn unset(&mut self, key: &str, sequence: u64);
    fn table<const N: usize>(&mut self, entries: [(&str, &[u8]); N], sequence: u64);
}

/// An applier and its workers, in a loop that goes on until it is dropped.
struct Applier {
    config: Apply,
    both: Arc<Mutex<(Machine, Workers)>>,
}

impl Applier {
    fn new(config: &Apply) -> Applier {
        let machine = Machine::new(config, found(&LocalFiles, &config.folder).due);
        let workers = Workers::new(config, Arc::new(|| ())).unwrap();
        let both = Arc::new(Mutex::new((machine, workers)));
        let goes_on = Arc::downgrade(&both);
        std::thread::spawn(move || {
            while let Some(both) = goes_on.upgrade() {
                go_on(&mut both.lock().unwrap());
                drop(both);
                std::thread::sleep(Duration::from_millis(1));
            }
        });
        Applier { config: config.clone(), both }
    }

    /// What the applier says now.
    fn is<T>(&self, what: impl FnOnce(&mut Machine) -> T) -> T {
        let mut both = self.both.lock().unwrap();
        go_on(&mut both);
        let is = what(&mut both.0);
        go_on(&mut both);
        is
    }

    fn take(&mut self, meaning: &Meaning<'_>, number: u64, heard: Heard) -> bool {
        self.is(|it| it.take(&Body::new(number, meaning), meaning, number, heard))
    }

    fn reload(&mut self, config: &Apply) {
        self.is(|it| it.reload(config));
    }

    fn floor(&self) -> u64 {
        found(&LocalFiles, &self.config.folder).floor
    }

    fn applied(&self, sequence: u64) -> u64 {
        self.is(|it| it.applied(sequence))
    }

    fn done(&mut self) -> Vec<Applied> {
        self.is(Machine::done)
    }

    fn found_later(&self) -> Option<u64> {
        self.is(Machine::found_later)
    }

    fn files(&self, sequence: u64) -> Option<(u64, u64)> {
        self.is(|it| it.files(sequence))
    }

    fn is_busy(&self) -> bool {
        self.is(|it| it.is_busy())
    }

    fn failing(&self) -> u64 {
        self.is(|it| it.failing())
    }

    fn hook_failures(&self) -> u64 {
        self.is(|it| it.hook_failures())
    }

    fn mended(&self) -> u64 {
        self.is(|it| it.mended())
    }
}

fn go_on((machine, workers): &mut (Machine, Workers)) {
    workers.go_on(machine, rignoldad::system::time());
}

impl Bodies for Applier {
    fn says(&mut self, meaning: Meaning<'_>, number: u64, looks: bool, fills: bool) {
        let heard = Heard { takes: true, applies: true, looks, fills, ..Heard::default() };
        assert!(self.take(&meaning, number, heard));
    }

    fn set(&mut self, key: &str, value: &[u8], sequence: u64) {
        self.says(Meaning::Changes(vec![(key, Some(value))]), sequence, false, false);
    }

    fn unset(&mut self, key: &str, sequence: u64) {
        self.says(Meaning::Changes(vec![(key, None)]), sequence, false, false);
    }

    fn table<const N: usize>(&mut self, entries: [(&str, &[u8]); N], sequence: u64) {
        let entries = entries.map(|(key, value)| (key, Some(value)));
        self.says(Meaning::Table(entries.into()), sequence, true, false);
    }
}

fn refusal(config: &Apply) -> Option<String> {
    apply::refusal(&LocalFiles, config)
}

fn start(config: &Apply) -> Applier {
    Applier::new(config)
}

fn until(what: impl Fn() -> bool) {
    let end = rignoldad::system::time() + Duration::from_secs(60);
    while !what() {
        assert!(rignoldad::system::time() < end, "it did not come in a minute");
        std::thread::sleep(Duration::from_millis(2));
    }
}

/// Waits until all up to a number is applied: what was done.
fn applied(applier: &mut Applier, sequence: u64) -> Vec<(String, u64, Outcome)> {
    until(|| applier.applied(sequence) == sequence);
    applier
        .done()
        .into_iter()
        .map(|Applied { key, sequence, status }| (key, sequence, status))
        .collect()
}

fn map<const N: usize>(entries: [(&str, &str); N]) -> BTreeMap<String, String> {
    entries.into_iter().map(|(key, value)| (key.into(), value.into())).collect()
}

#[test]
fn keeps_a_file_for_each_setting() {
    let place = Place::new();
    let mut applier = start(&place.config());
    applier.set("a", b"1", 1);
    applier.set("b", b"", 2);
    applier.set("c", b"3", 3);
    applier.unset("c", 4);
    applier.unset("never", 5);
    applied(&mut applier, 5);
    assert_eq!(place.files(), map([("a", "1"), ("b", "")]));
    let mode = fs::metadata(place.folder().join("a")).unwrap().permissions().mode();
    assert_eq!(mode & 0o7777, 0o640);
    assert_eq!(applier.failing(), 0);
}

#[test]
fn writes_only_what_changed() {
    let place = Place::new();
    let mut applier = start(&place.config());
    applier.set("a", b"1", 1);
    assert_eq!(applied(&mut applier, 1), [("a".into(), 1, Outcome::Done)]);
    let before = fs::metadata(place.folder().join("a")).unwrap().modified().unwrap();
    applier.set("a", b"1", 2);
    applier.table([("a", &b"1"[..])], 3);
    assert_eq!(applied(&mut applier, 3), []);
    assert_eq!(fs::metadata(place.folder().join("a")).unwrap().modified().unwrap(), before);
}

#[test]
fn a_table_removes_what_it_does_not_name() {
    let place = Place::new();
    let mut applier = start(&place.config());
    for key in ["a", "b", "c"] {
        applier.set(key, b"1", 1);
    }
    applied(&mut applier, 1);
    applier.table([("b", &b"2"[..]), ("d", b"4")], 2);
    applied(&mut applier, 2);
    assert_eq!(place.files(), map([("b", "2"), ("d", "4")]));
    // (what comes after a table that waits is put on it)
    applier.table([("x", &b"1"[..])], 3);
    applier.set("y", b"2", 4);
    applier.unset("x", 5);
    applied(&mut applier, 5);
    assert_eq!(place.files(), map([("y", "2")]));
    applier.table([], 6);
    applied(&mut applier, 6);
    assert_eq!(place.files(), map([]));
}

#[test]
fn a_table_mends_whatever_is_in_the_folder() {
    let place = Place::new();
    let mut applier = start(&place.config());
    let table = [("a", &b"one"[..]), ("b", b"two"), ("c", b"three"), ("d", b""), ("e", b"five")];
    applier.table(table, 1);
    applied(&mut applier, 1);
    let right = place.files();
    let folder = place.folder();
    let spoil: [&dyn Fn(); 6] = [
        &|| {
            fs::write(folder.join("a"), "xxx").unwrap();
            fs::remove_file(folder.join("b")).unwrap();
            fs::create_dir_all(folder.join("b/c/d")).unwrap();
            fs::remove_file(folder.join("c")).unwrap();
            fs::write(place.0.join("elsewhere"), "three").unwrap();
            symlink(place.0.join("elsewhere"), folder.join("c")).unwrap();
            fs::set_permissions(folder.join("e"), Permissions::from_mode(0o666)).unwrap();
            fs::write(folder.join("unknown"), "1").unwrap();
        },
        &|| fs::remove_dir_all(&folder).unwrap(),
        &|| {
            fs::create_dir_all(folder.join(".new/x"))
                .and_then(|()| fs::write(folder.join("a"), ""))
                .unwrap()
        },
        &|| {
            symlink("/nowhere", folder.join("unknown")).unwrap();
            fs::write(folder.join("d"), [255; 5_000]).unwrap();
        },
        &|| {
            let _ = fs::remove_dir_all(folder.join(".pending"));
            fs::write(folder.join(".pending"), "garbage").unwrap();
            fs::remove_file(folder.join("a")).unwrap();
        },
        &|| {
            // (the system's call for its removal calls itself for each of them)
            fs::remove_file(folder.join("a")).unwrap();
            fs::create_dir_all(folder.join("a").join("d/".repeat(850))).unwrap();
        },
    ];
    for (at, spoil) in spoil.iter().enumerate() {
        spoil();
        let sequence = at as u64 + 2;
        applier.table(table, sequence);
        applied(&mut applier, sequence);
        assert_eq!(place.files(), right, "{at}");
        assert_eq!(applier.failing(), 0, "{at}");
        for key in right.keys() {
            let is = fs::symlink_metadata(folder.join(key)).unwrap();
            assert!(is.is_file() && is.permissions().mode() & 0o7777 == 0o640, "{at} {key}");
        }
    }
    assert_eq!(fs::read_to_string(place.0.join("elsewhere")).unwrap(), "three");
}

#[test]
fn a_table_between_rounds_looks_at_no_file_that_is_as_it_was_put() {
    let place = Place::new();
    let mut applier = start(&place.with_hook(LOG));
    let folder = place.folder();
    applier.table([("a", b"1"), ("b", b"2"), ("c", b"3")], 1);
    applied(&mut applier, 1);
    fs::write(folder.join("a"), "spoiled").unwrap();
    fs::write(folder.join("unknown"), "1").unwrap();
    let between = |it: &mut Applier, sequence| {
        let entries = [("a", &b"1"[..]), ("b", b"4")].map(|(key, value)| (key, Some(value)));
        it.says(Meaning::Table(entries.into()), sequence, false, false);
    };
    // (what changed, or is not named, is applied)
    between(&mut applier, 2);
    applied(&mut applier, 2);
    assert_eq!(place.files(), map([("a", "spoiled"), ("b", "4"), ("unknown", "1")]));
    applier.table([("a", b"1"), ("b", b"4")], 3);
    between(&mut applier, 4);
    applied(&mut applier, 4);
    assert_eq!(place.files(), map([("a", "1"), ("b", "4")]));
    // (hooks of several keys run at once)
    let (mut first, mut then) = (place.calls()[..3].to_vec(), place.calls()[3..5].to_vec());
    first.sort();
    then.sort();
    assert_eq!(first, ["set a 1 1", "set b 2 1", "set c 3 1"]);
    assert_eq!(then, ["set b 4 2", "unset c  2"]);
    // (of one that began anew every file is looked at that it has not put)
    drop(applier);
    let mut applier = start(&place.config());
    fs::write(folder.join("a"), "spoiled").unwrap();
    between(&mut applier, 5);
    applied(&mut applier, 5);
    assert_eq!(place.files(), map([("a", "1"), ("b", "4")]));
}

/// Of what is not as it should be, what the agent itself had put, or not put, was somebody else's.
#[test]
fn what_somebody_else_changed_is_counted() {
    let place = Place::new();
    let mut applier = start(&place.config());
    let folder = place.folder();
    let mended = |it: &mut Applier, sequence| {
        it.table([("a", b"1"), ("b", b"2")], sequence);
        applied(it, sequence);
        assert_eq!(place.files(), map([("a", "1"), ("b", "2")]));
        it.mended()
    };
    assert_eq!(mended(&mut applier, 1), 0);
    applier.set("a", b"0", 2);
    applier.set("c", b"3", 3);
    assert_eq!(mended(&mut applier, 4), 0);
    fs::write(folder.join("a"), "spoiled").unwrap();
    fs::remove_file(folder.join("b")).unwrap();
    fs::write(folder.join("c"), "3").unwrap();
    assert_eq!(mended(&mut applier, 5), 3);
    assert_eq!(mended(&mut applier, 6), 3);
    // (one that has just begun has put nothing)
    drop(applier);
    fs::write(folder.join("a"), "spoiled").unwrap();
    fs::write(folder.join("c"), "3").unwrap();
    let mut applier = start(&place.config());
    assert_eq!(mended(&mut applier, 7), 0);
    fs::write(folder.join("c"), "3").unwrap();
    assert_eq!(mended(&mut applier, 8), 1);
}

#[test]
fn a_key_never_leaves_the_folder() {
    let place = Place::new();
    let mut applier = start(&place.config());
    fs::write(place.0.join("outside"), "mine").unwrap();
    applier.set("../outside", b"theirs", 1);
    applier.unset("../outside", 2);
    applier.table([("/etc/x", &b"1"[..]), (".pending", b"1"), ("good", b"1")], 3);
    applied(&mut applier, 3);
    assert_eq!(fs::read_to_string(place.0.join("outside")).unwrap(), "mine");
    assert_eq!(place.files(), map([("good", "1")]));
}

#[test]
fn a_hook_gets_each_change_once() {
    let place = Place::new();
    // (it is there from a reload on)
    let mut applier = start(&place.config());
    applier.reload(&place.with_hook(LOG));
    applier.set("a", b"1", 7);
    applied(&mut applier, 7);
    applier.set("a", b"1", 8);
    applier.table([("a", &b"1"[..]), ("b", b"2")], 9);
    applied(&mut applier, 9);
    applier.unset("a", 10);
    applied(&mut applier, 10);
    assert_eq!(place.calls(), ["set a 1 7", "set b 2 9", "unset a  10"]);
    assert_eq!(fs::read_dir(place.folder().join(".pending")).unwrap().count(), 0);
}

#[test]
fn of_changes_that_wait_the_hook_gets_the_last() {
    let place = Place::new();
    let mut applier =
        start(&place.with_hook(&format!("{LOG}\nwhile [ ! -e go ]; do sleep 0.01; done")));
    applier.set("a", b"1", 1);
    until(|| place.calls().len() == 1);
    for sequence in 2..=50 {
        applier.set("a", sequence.to_string().as_bytes(), sequence);
    }
    // (the file is there already, and nothing is applied that an older change waits before)
    until(|| place.files() == map([("a", "50")]));
    assert_eq!(applier.applied(50), 0);
    fs::write(place.0.join("go"), "").unwrap();
    applied(&mut applier, 50);
    assert_eq!(place.calls(), ["set a 1 1", "set a 50 50"]);
}

#[test]
fn a_hook_that_hangs_holds_up_its_own_key_alone() {
    let place = Place::new();
    let hangs = format!("{LOG}\n[ $2 != a ] || while [ ! -e go ]; do sleep 0.01; done");
    let mut applier = start(&place.with_hook(&hangs));
    applier.set("a", b"1", 1);
    until(|| place.calls().len() == 1);
    applier.set("a", b"2", 2);
    for sequence in 3..=9 {
        applier.set(&format!("b{sequence}"), b"", sequence);
    }
    until(|| place.calls().len() == 8);
    // (of one key they run in their order, one after the other)
    assert!(!place.calls().contains(&"set a 2 2".to_string()));
    assert_eq!(applier.applied(9), 0);
    fs::write(place.0.join("go"), "").unwrap();
    applied(&mut applier, 9);
    assert_eq!(place.calls().last().unwrap(), "set a 2 2");
}

#[test]
fn a_hook_gets_nothing_that_is_the_agents_alone() {
    let place = Place::new();
    for name in ["NOTIFY_SOCKET", "WATCHDOG_USEC", "CREDENTIALS_DIRECTORY"] {
        std::env::set_var(name, "/nowhere");
    }
    let mut applier = start(&place.with_hook("env >calls"));
    applier.set("a", b"1", 1);
    applied(&mut applier, 1);
    let calls = place.calls();
    let is_there = |name: &str| calls.iter().any(|line| line.starts_with(name));
    assert!(is_there("RIGNOLDA_SEQUENCE=1"), "{calls:?}");
    assert!(!is_there("NOTIFY") && !is_there("WATCHDOG") && !is_there("CREDENTIALS"), "{calls:?}");
}

/// What no setting names is removed there.
#[test]
fn a_folder_that_may_be_somebody_elses_is_not_taken() {
    let place = Place::new();
    let config = place.config();
    assert!(refusal(&config).is_none(), "it is not there");
    fs::create_dir(place.folder()).unwrap();
    for name in [".gitkeep", "lost+found"] {
        fs::write(place.folder().join(name), "").unwrap();
    }
    assert!(refusal(&config).is_none(), "no setting has such a name");
    for is_folder in [false, true] {
        let path = place.folder().join("app.conf");
        if is_folder {
            fs::create_dir(&path).unwrap();
        } else {
            fs::write(&path, "mine").unwrap();
        }
        let why = refusal(&config).expect("it may be somebody else's");
        assert!(why.contains("`app.conf`") && why.contains("settings"), "{why}");
        // (a marker, what 0.5.0 left there, or consent)
        for marker in [".rignolda", ".pending"] {
            fs::write(place.folder().join(marker), "").unwrap();
            assert!(refusal(&config).is_none());
            fs::remove_file(place.folder().join(marker)).unwrap();
        }
        let taken = Apply { take: true, ..config.clone() };
        assert!(refusal(&taken).is_none());
        // (the agent runs, and says so once; with consent the next table sets all)
        let mut applier = start(&config);
        for sequence in [1, 2] {
            applier.table([("a", b"1")], sequence);
            let said = applied(&mut applier, sequence);
            assert_eq!(said.len(), usize::from(sequence == 1), "{said:?}");
        }
        assert!(path.exists() && !place.folder().join("a").exists());
        assert_eq!(applier.failing(), 1);
        applier.reload(&taken);
        applier.table([("a", b"1")], 3);
        applied(&mut applier, 3);
        assert_eq!((applier.failing(), place.folder().join("a").exists()), (0, true));
        drop(applier);
        fs::remove_dir_all(place.folder()).unwrap();
        fs::create_dir(place.folder()).unwrap();
        let _ = fs::remove_dir(&path).or_else(|_| fs::remove_file(&path));
    }
    // (one that was taken is known again, though its marker was lost while the agent ran)
    let mut applier = start(&config);
    applier.table([("a", b"1")], 1);
    applied(&mut applier, 1);
    fs::remove_file(place.folder().join(".rignolda")).unwrap();
    applier.table([("a", b"1")], 2);
    applied(&mut applier, 2);
    drop(applier);
    assert!(refusal(&config).is_none());
    // (or while it did not run, as long as a table names all that is there)
    fs::remove_file(place.folder().join(".rignolda")).unwrap();
    assert!(refusal(&config).is_some());
    let mut applier = start(&config);
    applier.set("a", b"2", 3);
    applied(&mut applier, 3);
    assert_eq!(
        (applier.failing(), fs::read(place.folder().join("a")).unwrap()),
        (1, b"1".to_vec())
    );
    applier.table([("a", b"2"), ("b", b"3")], 4);
    applied(&mut applier, 4);
    assert_eq!(
        (applier.failing(), fs::read(place.folder().join("a")).unwrap()),
        (0, b"2".to_vec())
    );
    assert!(refusal(&config).is_none());
}

/// A bind mount, until the end of a test.
struct Mounted(PathBuf);

impl Mounted {
    /// Nothing where this machine does not let it.
    fn new(from: &Path, to: &Path) -> Option<Mounted> {
        let done = Command::new("mount").arg("--bind").args([from, to]).output();
        done.is_ok_and(|it| it.status.success()).then(|| Mounted(to.into()))
    }
}

impl Drop for Mounted {
    fn drop(&mut self) {
        let _ = Command::new("umount").arg(&self.0).status();
    }
}

/// What agents apply, and another table.
const TABLE: [(&str, &[u8]); 2] = [("a", b"1"), ("b", b"2")];

/// Consent is that of one folder, and not of what comes to its place while the agent runs.
#[test]
fn nothing_goes_of_a_folder_that_comes_to_the_place_of_its_own() {
    for (how, name) in ["rename", "link", "mount"].into_iter().zip(["precious", "a", "precious"]) {
        let place = Place::new();
        let (folder, away) = (place.folder(), place.0.join("away"));
        let other = place.0.join("other");
        let mut applier = start(&place.config());
        applier.table(TABLE, 1);
        applied(&mut applier, 1);
        fs::create_dir(&other).unwrap();
        fs::write(other.join(name), "mine").unwrap();
        let mut mounted = None;
        match how {
            "mount" => {
                mounted = Mounted::new(&other, &folder);
                if mounted.is_none() {
                    continue;
                }
            }
            "link" => {
                fs::rename(&folder, &away).unwrap();
                symlink(&other, &folder).unwrap();
            }
            _ => {
                fs::rename(&folder, &away).unwrap();
                fs::rename(&other, &folder).unwrap();
            }
        }
        applier.table(TABLE, 2);
        applied(&mut applier, 2);
        applier.set("a", b"3", 3);
        applier.unset(name, 4);
        applied(&mut applier, 4);
        assert_eq!((place.files(), applier.failing()), (map([(name, "mine")]), 1), "{how}");
        // (its own is its own again)
        drop(mounted);
        if folder.is_symlink() {
            fs::remove_file(&folder).unwrap();
        }
        if away.exists() {
            let _ = fs::rename(&folder, &other);
            fs::rename(&away, &folder).unwrap();
        }
        applier.table([("a", b"3"), ("b", b"2")], 5);
        applied(&mut applier, 5);
        assert_eq!(place.files(), map([("a", "3"), ("b", "2")]), "{how}");
        assert_eq!(applier.failing(), 0, "{how}");
        assert_eq!(fs::read_to_string(other.join(name)).unwrap(), "mine", "{how}");
    }
}

#[test]
fn a_folder_that_comes_to_its_place_is_taken_where_all_of_it_is_the_agents() {
    let place = Place::new();
    let (folder, away) = (place.folder(), place.0.join("away"));
    let mut applier = start(&place.config());
    applier.table([("a", b"1"), ("b", b"2"), ("c", b"3")], 1);
    let had = applied(&mut applier, 1).len();
    assert_eq!(had, 3);
    // (a copy without the marker, a part of one, and an empty one; the table is a later one)
    for (at, copied) in (2..).zip([&["a", "b", "c"][..], &["b"], &[]]) {
        let _ = fs::remove_dir_all(&away);
        fs::rename(&folder, &away).unwrap();
        fs::create_dir(&folder).unwrap();
        for name in copied {
            fs::copy(away.join(name), folder.join(name)).unwrap();
        }
        applier.table([("a", b"1"), ("b", b"4"), ("c", b"3")], at);
        applied(&mut applier, at);
        assert_eq!(applier.failing(), 0, "{copied:?}");
        assert_eq!(place.files(), map([("a", "1"), ("b", "4"), ("c", "3")]), "{copied:?}");
        assert!(folder.join(".rignolda").exists());
        applier.table([("a", b"1"), ("b", b"2"), ("c", b"3")], at);
        applied(&mut applier, at);
    }
    // (a change alone does not make it right, and the next table between rounds does)
    fs::remove_dir_all(&folder).unwrap();
    applier.set("a", b"1", 9);
    applied(&mut applier, 9);
    assert!(applier.files(9).is_none(), "its files are not all there");
    let entries = TABLE.map(|(key, value)| (key, Some(value)));
    applier.says(Meaning::Table(entries.into()), 10, false, false);
    applied(&mut applier, 10);
    assert_eq!(place.files(), map([("a", "1"), ("b", "2")]));
    assert!(applier.files(10).is_some());
}

/// An old copy has values for groups of long ago, which go as its other files do.
#[test]
fn an_old_copy_of_its_folder_is_right_after_a_table() {
    let place = Place::new();
    let (folder, old) = (place.folder(), place.0.join("old"));
    let mut applier = start(&place.config());
    applier.table([("a", b"1"), ("a..canary", b"2"), ("b..canary", b"3")], 1);
    applied(&mut applier, 1);
    let copied = Command::new("cp").args(["-a"]).args([&folder, &old]).status();
    assert!(copied.unwrap().success());
    applier.table([("a", b"4"), ("c..canary", b"5")], 2);
    applied(&mut applier, 2);
    fs::remove_dir_all(&folder).unwrap();
    fs::rename(&old, &folder).unwrap();
    applier.table([("a", b"4"), ("c..canary", b"5")], 3);
    applied(&mut applier, 3);
    assert_eq!((applier.failing(), place.files()), (0, map([("a", "4")])));
    let grouped = || {
        let there = fs::read_dir(folder.join(".groups")).unwrap();
        let names = there.map(|it| it.unwrap().file_name().into_string().unwrap());
        names.filter(|it| !it.starts_with('.')).collect::<Vec<_>>()
    };
    assert_eq!(grouped(), ["c..canary"]);
    // (also one of that folder alone)
    let copied = Command::new("cp").args(["-a"]).args([&folder.join(".groups"), &old]).status();
    assert!(copied.unwrap().success());
    applier.table([("a", b"4"), ("d..canary", b"6")], 4);
    applied(&mut applier, 4);
    fs::remove_dir_all(folder.join(".groups")).unwrap();
    fs::rename(&old, folder.join(".groups")).unwrap();
    applier.table([("a", b"4"), ("d..canary", b"6")], 5);
    applied(&mut applier, 5);
    assert_eq!((applier.failing(), grouped()), (0, vec!["d..canary".to_string()]));
}

/// What has another name elsewhere, or is a folder of somebody, is not written to or emptied.
#[test]
fn what_comes_to_the_place_of_the_agents_own_names_is_not_changed() {
    let place = Place::new();
    let (folder, other) = (place.folder(), place.0.join("other"));
    let config = place.with_hook("true");
    let mut applier = start(&config);
    let table: [(&str, &[u8]); 2] = [("a", b"1"), ("a..canary", b"2")];
    applier.table(table, 1);
    applied(&mut applier, 1);
    fs::create_dir(&other).unwrap();
    let names = ["a", "a..canary", "b..canary", "number"];
    let all = names.map(|name| (name, other.join(name)));
    all.iter().for_each(|(name, path)| fs::write(path, name).unwrap());
    // the marker is another name of a file, the other folders are links
    fs::remove_file(folder.join(".rignolda")).unwrap();
    fs::hard_link(other.join("number"), folder.join(".rignolda")).unwrap();
    for name in [".pending", ".groups"] {
        fs::remove_dir_all(folder.join(name)).unwrap();
        symlink(&other, folder.join(name)).unwrap();
    }
    for number in 2..4 {
        applier.table([("a", &b"3"[..]), ("a..canary", b"4")], number);
        applied(&mut applier, number);
        applier.set("a", b"5", number);
        applier.unset("b..canary", number);
        applied(&mut applier, number);
    }
    let untouched = || all.iter().all(|(name, path)| fs::read(path).unwrap() == name.as_bytes());
    assert!(untouched() && fs::read_dir(&other).unwrap().count() == names.len());
    assert_eq!((applier.floor(), applier.failing()), (3, 0));
    // another folder, moved there, is moved aside and kept
    fs::rename(folder.join(".groups"), place.0.join("away")).unwrap();
    fs::rename(&other, folder.join(".groups")).unwrap();
    applier.table(table, 4);
    applied(&mut applier, 4);
    assert_eq!(applier.failing(), 0);
    assert_eq!(fs::read(folder.join(".groups/a..canary")).unwrap(), b"2");
    fs::rename(folder.join(".groups.aside1"), &other).unwrap();
    assert!(untouched() && fs::read_dir(&other).unwrap().count() == names.len());
    // (the agent's own is opened, if it may not be entered)
    drop(applier);
    fs::set_permissions(folder.join(".groups"), Permissions::from_mode(0o000)).unwrap();
    let mut applier = start(&config);
    applier.table(table, 5);
    applied(&mut applier, 5);
    let mode = fs::metadata(folder.join(".groups")).unwrap().permissions().mode();
    assert_eq!((applier.failing(), mode & 0o700), (0, 0o700));
}

/// A folder in the place of a file that is set goes, unless it is a mount; one that has the name of
/// a setting that is not there is somebody's.
#[test]
fn no_folder_goes_that_is_in_nobodys_way_and_no_mount_is_emptied() {
    let place = Place::new();
    let (folder, other) = (place.folder(), place.0.join("other"));
    let mut applier = start(&place.config());
    applier.table(TABLE, 1);
    applied(&mut applier, 1);
    fs::create_dir_all(folder.join("c/inner")).unwrap();
    applier.unset("c", 2);
    applied(&mut applier, 2);
    applier.table(TABLE, 3);
    applied(&mut applier, 3);
    assert!(folder.join("c/inner").is_dir() && applier.failing() == 0);
    fs::create_dir(&other).unwrap();
    fs::write(other.join("file"), "mine").unwrap();
    for name in ["a", ".rignolda", ".pending"] {
        let _ = fs::remove_file(folder.join(name));
        fs::create_dir_all(folder.join(name).join("in it")).unwrap();
        let Some(_mounted) = Mounted::new(&other, &folder.join(name).join("in it")) else { return };
        applier.table([("a", b"2")], 4);
        applied(&mut applier, 4);
        assert_eq!(fs::read_to_string(other.join("file")).unwrap(), "mine", "{name}");
    }
}

/// It is deleted while files are written; whoever is ended then leaves what is known again.
#[test]
fn there_is_no_moment_with_files_and_no_marker() {
    let place = Place::new();
    let folder = place.folder();
    let mut applier = start(&place.config());
    let keys: Vec<String> = (0..400).map(|at| format!("k{at}")).collect();
    let mut tried = 0;
    for number in 1..200 {
        if tried == 9 {
            return;
        }
        let value = number.to_string();
        let entries = keys.iter().map(|key| (&**key, Some(value.as_bytes()))).collect();
        applier.says(Meaning::Table(entries), number, true, false);
        let first = (number * 20 % 400).to_string();
        until(|| fs::read(folder.join(format!("k{first}"))).is_ok_and(|it| it == value.as_bytes()));
        let _ = Command::new("rm").arg("-rf").arg(&folder).stderr(Stdio::null()).status();
        // (who goes on removing for longer may take away the marker after the last look)
        let looks_again = applier.is(|it| it.applied(number) != number || it.until().is_some());
        applied(&mut applier, number);
        if looks_again {
            let there = || fs::read_dir(&folder).into_iter().flatten().count();
            until(|| there() == 0 || folder.join(".rignolda").exists());
            tried += 1;
        }
    }
    panic!("it was looked at before all was removed");
}

#[test]
fn what_is_wrong_with_the_folder_itself_is_mended() {
    let place = Place::new();
    let mut applier = start(&place.config());
    applier.table([("a", b"1")], 1);
    applied(&mut applier, 1);
    fs::create_dir(place.0.join("elsewhere")).unwrap();
    fs::write(place.0.join("elsewhere/file"), "mine").unwrap();
    symlink(place.0.join("elsewhere"), place.folder().join("linked")).unwrap();
    fs::create_dir(place.folder().join("inner")).unwrap();
    fs::set_permissions(place.folder(), Permissions::from_mode(0o000)).unwrap();
    applier.table([("a", b"1")], 2);
    applied(&mut applier, 2);
    let mode = fs::metadata(place.folder()).unwrap().permissions().mode();
    // (whoever may read its files may list it)
    assert_eq!(mode & 0o777, 0o750);
    assert!(fs::symlink_metadata(place.folder().join("linked")).is_err());
    assert!(place.0.join("elsewhere/file").exists() && place.folder().join("inner").is_dir());
}

#[test]
fn what_lies_where_the_folder_was_is_moved_aside_and_kept() {
    for kind in ["file", "pipe", "link", "link to itself", "file of others"] {
        let place = Place::new();
        let (folder, aside) = (place.folder(), place.0.join("settings.aside1"));
        let mut applier = start(&place.config());
        applier.table([("a", b"1")], 1);
        applied(&mut applier, 1);
        fs::rename(&folder, place.0.join("away")).unwrap();
        match kind {
            "pipe" => assert!(Command::new("mkfifo").arg(&folder).status().unwrap().success()),
            "link" => symlink(place.0.join("away/a"), &folder).unwrap(),
            "link to itself" => symlink(&folder, &folder).unwrap(),
            _ => fs::write(&folder, "mine").unwrap(),
        }
        let is_own = kind != "file of others";
        let mode = if is_own { 0o755 } else { 0o777 };
        fs::set_permissions(&place.0, Permissions::from_mode(mode)).unwrap();
        let was = fs::symlink_metadata(&folder).unwrap().ino();
        applier.table([("a", b"1"), ("b", b"2")], 2);
        applied(&mut applier, 2);
        let kept = if is_own { aside } else { folder };
        assert_eq!(fs::symlink_metadata(&kept).unwrap().ino(), was, "{kind}");
        assert_eq!(applier.failing(), u64::from(!is_own), "{kind}");
        if is_own {
            assert_eq!(place.files(), map([("a", "1"), ("b", "2")]), "{kind}");
        }
        assert_eq!(fs::read_to_string(place.0.join("away/a")).unwrap(), "1", "{kind}");
    }
}

#[test]
fn a_folder_of_due_hooks_that_nobody_may_enter_holds_no_change_up() {
    let place = Place::new();
    let config = place.with_hook(&format!("{LOG}\n[ -e good ]"));
    let pending = place.folder().join(".pending");
    let is_closed = || fs::metadata(&pending).unwrap().permissions().mode() & 0o700 != 0o700;
    let close = || fs::set_permissions(&pending, Permissions::from_mode(0o000)).unwrap();
    let mut applier = start(&config);
    applier.set("a", b"1", 1);
    applied(&mut applier, 1);
    close();
    applier.set("b", b"1", 2);
    applied(&mut applier, 2);
    assert!(!is_closed());
    drop(applier);
    // (what was due is, and while it stood still it was closed too)
    close();
    fs::write(place.0.join("good"), "").unwrap();
    fs::remove_file(place.0.join("calls")).unwrap();
    let mut applier = start(&config);
    applier.table([("a", &b"1"[..]), ("b", &b"1"[..])], 3);
    applied(&mut applier, 3);
    let mut calls = place.calls();
    calls.sort();
    assert_eq!(calls, ["set a 1 3", "set b 1 3"]);
    assert!(!is_closed() && applier.failing() == 0);
}

#[test]
fn a_failure_is_said_once_and_again_when_it_is_another_one() {
    let place = Place::new();
    let mut applier = start(&place.with_hook("exit $(cat code)"));
    let mut said = Vec::new();
    for (sequence, code) in (1..).zip(["1", "1", "2", "2", "0", "0", "1"]) {
        fs::write(place.0.join("code"), code).unwrap();
        applier.table([("a", b"1")], sequence);
        said.extend(applied(&mut applier, sequence).into_iter().map(|it| it.2.to_string()));
    }
    let failed = |code| format!("its hook: exit status: {code}");
    assert_eq!(said, [failed(1), failed(2), "done".into()]);
}

#[test]
fn a_hook_that_fails_is_run_again_by_the_next_table() {
    let place = Place::new();
    let mut applier = start(&place.with_hook(&format!("{LOG}\n[ -e good ]")));
    applier.set("a", b"1", 1);
    let done = applied(&mut applier, 1);
    assert!(matches!(&done[..], [(_, 1, Outcome::Hook(_))]), "{done:?}");
    assert_eq!((applier.failing(), applier.hook_failures()), (1, 1));
    fs::write(place.0.join("good"), "").unwrap();
    applier.table([("a", &b"1"[..])], 2);
    applied(&mut applier, 2);
    assert_eq!(applier.failing(), 0);
    applier.table([("a", &b"1"[..])], 3);
    applied(&mut applier, 3);
    assert_eq!(place.calls(), ["set a 1 1", "set a 1 2"]);
}

#[test]
fn what_fails_by_a_hook_alone_ends_with_the_hook() {
    for (is_many, is_replaced) in [(true, true), (true, false), (false, true), (false, false)] {
        let place = Place::new();
        let config = |lines: &str| {
            let config = place.with_hook(lines);
            let run = config.hook.clone().unwrap();
            let hook = Hook { keys: vec!["a".into()], run, timeout: config.hook_timeout };
            if is_many {
                Apply { hook: None, hooks: vec![hook], ..config }
            } else {
                config
            }
        };
        let mut applier = start(&config("[ -e good ]"));
        applier.set("a", b"1", 1);
        applied(&mut applier, 1);
        assert_eq!(applier.failing(), 1);
        fs::write(place.0.join("good"), "").unwrap();
        let timeout = Duration::from_secs(500);
        applier.reload(&match (is_many, is_replaced) {
            (_, false) => place.config(),
            (false, true) => config("true"),
            (true, true) => {
                let all = config("[ -e good ]");
                let hooks = all.hooks.iter().map(|it| Hook { timeout, ..it.clone() }).collect();
                Apply { hooks, ..all }
            }
        });
        assert!(!is_many || applier.failing() == 0, "the hook is another one, or none");
        applier.table([("a", &b"1"[..])], 2);
        applied(&mut applier, 2);
        assert_eq!(applier.failing(), 0, "{is_many} {is_replaced}");
    }
    // (one that is gone, and runs to its end)
    let place = Place::new();
    let config = place.with_hook("echo >>calls; while [ ! -e go ]; do sleep 0.01; done; exit 1");
    let run = config.hook.clone().unwrap();
    let hook = Hook { keys: vec!["*".into()], run, timeout: config.hook_timeout };
    let mut applier = start(&Apply { hook: None, hooks: vec![hook], ..config });
    applier.set("a", b"1", 1);
    until(|| !place.calls().is_empty());
    applier.reload(&place.config());
    fs::write(place.0.join("go"), "").unwrap();
    until(|| applier.hook_failures() == 1);
    applier.table([("a", &b"1"[..])], 2);
    applied(&mut applier, 2);
    assert_eq!(applier.failing(), 0);
}

#[test]
fn a_hook_that_was_due_is_run_after_a_crash() {
    let place = Place::new();
    let config = place.with_hook(&format!("{LOG}\n[ -e good ]"));
    let mut applier = start(&config);
    applier.set("a", b"1", 1);
    applier.set("gone", b"1", 2);
    applied(&mut applier, 2);
    drop(applier);
    fs::remove_file(place.folder().join("gone")).unwrap();
    fs::write(place.0.join("good"), "").unwrap();
    fs::remove_file(place.0.join("calls")).unwrap();
    let mut applier = start(&config);
    applier.table([("a", &b"1"[..])], 3);
    applied(&mut applier, 3);
    let mut calls = place.calls();
    calls.sort();
    assert_eq!(calls, ["set a 1 3", "unset gone  3"]);
}

#[test]
fn a_hook_that_does_not_end_is_ended() {
    let place = Place::new();
    let hook = place.with_hook("[ $2 = b ] || sleep 1000 & wait");
    let mut applier = start(&Apply { hook_timeout: Duration::from_millis(200), ..hook.clone() });
    applier.set("a", &[7; 1 << 20], 1);
    let done = applied(&mut applier, 1);
    let is_up = |why: &str| why == "its time was up";
    assert!(matches!(&done[..], [(_, 1, Outcome::Hook(why))] if is_up(why)), "{done:?}");
    // (and the next one has its turn, and more time here than any machine needs)
    applier.reload(&hook);
    applier.set("b", b"", 2);
    let done = applied(&mut applier, 2);
    assert!(matches!(&done[..], [(_, 2, Outcome::Done)]), "{done:?}");
}

#[test]
fn a_file_that_cannot_be_written_is_failing_until_it_can() {
    let place = Place::new();
    // (the disk that this leads to may come back)
    symlink(place.0.join("nowhere"), place.folder()).unwrap();
    let mut applier = start(&place.config());
    applier.set("a", b"1", 1);
    let done = applied(&mut applier, 1);
    assert!(matches!(&done[..], [(_, 1, Outcome::File(_))]), "{done:?}");
    assert_eq!(applier.failing(), 1);
    fs::remove_file(place.folder()).unwrap();
    applier.table([("a", &b"1"[..])], 2);
    applied(&mut applier, 2);
    assert_eq!(applier.failing(), 0);
    assert_eq!(place.files(), map([("a", "1")]));
}

/// The table that makes up for what was missed brings changes of any age: nothing is known to be
/// applied before all its hooks ended.
#[test]
fn a_table_that_fills_a_gap_is_applied_as_a_whole() {
    let place = Place::new();
    let config = place.with_hook("while ! [ -e go ]; do sleep 0.01; done; echo \"$2\" >>calls");
    let mut applier = start(&config);
    let entries = [("a", Some(&b"1"[..])), ("b", Some(b"2"))];
    applier.says(Meaning::Table(entries.into()), 9, true, true);
    until(|| place.folder().join("b").exists() && !applier.is_busy());
    assert_eq!(applier.applied(9), 0);
    applier.set("c", b"3", 10);
    until(|| place.folder().join("c").exists());
    assert_eq!(applier.applied(10), 0);
    fs::write(place.0.join("go"), "").unwrap();
    until(|| applier.applied(10) > 0);
    assert!(place.calls().len() >= 2, "{:?}", place.calls());
    until(|| applier.applied(10) == 10);
    let mut calls = place.calls();
    calls.sort();
    assert_eq!(calls, ["a", "b", "c"]);
}

#[test]
fn nothing_counts_as_applied_until_a_table_follows_what_a_refused_folder_dropped() {
    let place = Place::new();
    let config = place.config();
    fs::create_dir(place.folder()).unwrap();
    fs::write(place.folder().join("app.conf"), "mine").unwrap();
    let mut applier = start(&config);
    applier.table([("a", b"1"), ("b", b"2")], 1);
    applied(&mut applier, 1);
    assert_eq!(applier.failing(), 1);
    // (consent comes, and then a change alone: the settings of the table are not there yet)
    applier.reload(&Apply { take: true, ..config });
    applier.set("c", b"3", 2);
    applied(&mut applier, 2);
    assert!(place.folder().join("a").exists() || applier.failing() > 0, "`a` is not applied");
    applier.table([("a", b"1"), ("b", b"2"), ("c", b"3")], 3);
    applied(&mut applier, 3);
    assert_eq!((applier.failing(), place.files().len()), (0, 3));
}

/// An agent's memory of bodies, and its files.
struct Life(Table, Applier);

impl Life {
    fn begins(config: &Apply) -> Life {
        let (mut table, applier) = (Table::default(), start(config));
        table.taker.floor = applier.floor();
        Life(table, applier)
    }

    /// A body comes. Where it is applied, that is waited for.
    fn hears(&mut self, number: u64, meaning: Meaning<'_>) {
        assert!(self.0.takes(number, &meaning));
        assert!(self.1.take(&meaning, self.0.taker.number, self.0.heard));
        if self.0.heard.applies {
            until(|| self.1.applied(number) == number);
            self.1.done();
        }
        assert_eq!(self.1.applied(number) == number, self.0.heard.applies);
    }

    fn changes(&mut self, number: u64, key: &str, value: &str) {
        self.hears(number, Meaning::Changes(vec![(key, Some(value.as_bytes()))]));
    }

    fn table(&mut self, number: u64, key: &str, value: &str) {
        self.hears(number, Meaning::Table(vec![(key, Some(value.as_bytes()))]));
    }
}

#[test]
fn an_agent_that_begins_anew_applies_nothing_older_than_its_files() {
    let place = Place::new();
    let config = place.with_hook(LOG);
    let mut life = Life::begins(&config);
    life.table(100, "colour", "red");
    life.changes(101, "colour", "blue");
    drop(life);
    let marker = fs::read_to_string(place.folder().join(".rignolda")).unwrap();
    assert_eq!(marker.trim_end().parse(), Ok(101));
    // (its parent begins with the last whole table)
    let mut life = Life::begins(&config);
    assert_eq!(life.0.taker.floor, 101);
    life.table(100, "colour", "red");
    assert!(!life.1.is_busy());
    life.changes(101, "colour", "blue");
    assert_eq!(place.files(), map([("colour", "blue")]));
    life.changes(102, "colour", "green");
    assert_eq!(
        place.calls(),
        ["set colour red 100", "set colour blue 101", "set colour green 102"]
    );
}

/// After a loss of power the marker may be older than the files, since neither is synced: what is
/// newer than the marker is applied, and the next table makes all right.
#[test]
fn a_marker_older_than_the_files_lets_older_ones_come_until_the_next_table() {
    let place = Place::new();
    let config = place.config();
    let mut life = Life::begins(&config);
    life.table(100, "colour", "red");
    let marker = fs::read(place.folder().join(".rignolda")).unwrap();
    life.changes(101, "colour", "blue");
    life.changes(102, "colour", "green");
    drop(life);
    fs::write(place.folder().join(".rignolda"), marker).unwrap();
    let mut life = Life::begins(&config);
    assert_eq!(life.0.taker.floor, 100);
    life.table(100, "colour", "red");
    life.changes(101, "colour", "blue");
    assert_eq!(place.files(), map([("colour", "blue")]));
    life.table(103, "colour", "green");
    assert_eq!((place.files(), life.1.floor()), (map([("colour", "green")]), 103));
}

#[test]
fn what_waits_is_applied_together() {
    let place = Place::new();
    let config = place.with_hook(LOG);
    fs::create_dir(place.folder()).unwrap();
    fs::write(place.folder().join(".rignolda"), "9").unwrap();
    fs::write(place.folder().join("a"), "spoiled").unwrap();
    let mut life = Life::begins(&config);
    life.table(6, "a", "1");
    life.changes(7, "b", "1");
    life.changes(8, "b", "2");
    assert_eq!(place.files(), map([("a", "spoiled")]));
    // (whatever kind of body comes up to the number)
    life.hears(9, Meaning::Harmless);
    assert_eq!(place.files(), map([("a", "1"), ("b", "2")]));
    until(|| place.calls().len() == 2);
    let mut calls = place.calls();
    calls.sort();
    assert_eq!(calls, ["set a 1 6", "set b 2 8"]);
}

#[test]
fn what_waits_goes_where_something_after_it_is_missing() {
    let place = Place::new();
    let mut life = Life::begins(&place.config());
    life.changes(9, "a", "new");
    drop(life);
    let mut life = Life::begins(&place.config());
    // (8 is missing, and may have set `a` anew)
    life.changes(7, "a", "old");
    life.changes(10, "b", "2");
    assert_eq!(place.files(), map([("a", "new"), ("b", "2")]));
}

#[test]
fn a_marker_that_cannot_be_read_holds_nothing_back() {
    let spoiled: [&[u8]; 6] = [b"", b"\n", b"7 8", b"-7", b"18446744073709551616", &[b'7'; 99]];
    for bytes in spoiled {
        let place = Place::new();
        fs::create_dir(place.folder()).unwrap();
        let marker = place.folder().join(".rignolda");
        fs::write(&marker, bytes).unwrap();
        let mut life = Life::begins(&place.config());
        assert_eq!(life.0.taker.floor, 0, "{bytes:?}");
        life.table(3, "a", "1");
        assert_eq!(fs::read_to_string(&marker).unwrap().trim_end().parse(), Ok(3));
    }
}

#[test]
fn whatever_is_in_the_place_of_the_marker_is_replaced() {
    let place = Place::new();
    let (marker, elsewhere) = (place.folder().join(".rignolda"), place.0.join("elsewhere"));
    let mut life = Life::begins(&place.config());
    for number in 1..10 {
        match number {
            1..=4 => life.table(number, "a", "1"),
            _ => life.changes(number, "a", &number.to_string()),
        }
        assert_eq!(life.1.floor(), number);
        fs::remove_file(&marker).unwrap();
        match number % 4 {
            0 => (),
            1 => fs::create_dir_all(marker.join("folder")).unwrap(),
            2 => symlink(&elsewhere, &marker).unwrap(),
            _ => fs::write(&marker, [b'9'; 99]).unwrap(),
        }
    }
    assert!(!elsewhere.exists());
}

#[test]
fn nothing_in_the_folder_stays_open() {
    let place = Place::new();
    let mut life = Life::begins(&place.config());
    life.table(1, "a", "1");
    life.changes(2, "a", "2");
    let is_there = |at: io::Result<fs::DirEntry>| {
        at.and_then(|at| fs::read_link(at.path())).is_ok_and(|it| it.starts_with(&place.0))
    };
    until(|| !fs::read_dir("/proc/self/fd").unwrap().any(is_there));
}

/// As where the memory of a machine goes back to an older time, and its disk does not.
#[test]
fn an_agent_whose_files_are_from_later_than_its_memory_applies_nothing_older() {
    for (name, is_table) in [("as it was", true), ("as it was", false), ("another file", false)] {
        let place = Place::new();
        let (marker, new) = (place.folder().join(".rignolda"), place.0.join("new"));
        let mut life = Life::begins(&place.config());
        life.table(100, "colour", "red");
        match is_table {
            true => life.table(101, "colour", "blue"),
            false => life.changes(101, "colour", "blue"),
        }
        fs::write(place.folder().join("colour"), "late").unwrap();
        match name {
            "as it was" => fs::write(&marker, format!("{:020}\n", 110)).unwrap(),
            _ => {
                fs::write(&new, "110").unwrap();
                fs::rename(&new, &marker).unwrap();
            }
        }
        let change = Meaning::Changes(vec![("colour", Some(b"old"))]);
        for number in 102..104 {
            assert!(life.0.takes(number, &change) && life.0.heard.applies);
            assert!(life.1.take(&change, number, life.0.heard));
            until(|| !life.1.is_busy());
        }
        // (until the loop knows, a newer one is as little what it would be to an agent that starts)
        let table = Meaning::Table(vec![("colour", Some(b"old"))]);
        assert!(life.0.takes(120, &table) && life.1.take(&table, 120, life.0.heard));
        let says = (life.1.is_busy(), life.1.applied(120), life.1.files(120));
        assert_eq!((place.files(), says), (map([("colour", "late")]), (false, 0, None)));
        assert_eq!((life.1.found_later(), life.1.found_later()), (Some(110), None), "{name}");
        life.0 = Table::default();
        life.0.taker.floor = life.1.floor();
        assert_eq!(life.0.taker.floor, 110);
        life.changes(105, "colour", "old");
        assert_eq!(place.files(), map([("colour", "late")]));
        life.changes(111, "size", "1");
        assert_eq!(place.files(), map([("colour", "late"), ("size", "1")]));
        assert_eq!(life.1.files(111), None, "of files that nobody looked at no digest is known");
        life.table(112, "colour", "newest");
        assert_eq!((place.files(), life.1.floor()), (map([("colour", "newest")]), 112));
        assert_eq!((life.1.files(112).map(|it| it.0), life.1.mended()), (Some(112), 0));
    }
}

#[test]
fn a_hook_is_told_no_value_that_is_older_than_the_files() {
    let place = Place::new();
    let config = place.with_hook(&format!("{LOG}\nuntil [ -e go ]; do sleep 0.01; done"));
    let mut life = Life(Table::default(), start(&config));
    let hears = |life: &mut Life, number, value: &str| {
        let table = Meaning::Table(vec![("colour", Some(value.as_bytes()))]);
        assert!(life.0.takes(number, &table) && life.1.take(&table, number, life.0.heard));
        until(|| !life.1.is_busy() || life.1.files(number).is_some_and(|it| it.0 == number));
    };
    hears(&mut life, 1, "first");
    until(|| place.calls().len() == 1);
    // (it waits for the first one to end)
    hears(&mut life, 2, "old");
    fs::write(place.folder().join("colour"), "late").unwrap();
    fs::write(place.folder().join(".rignolda"), "9").unwrap();
    fs::write(place.0.join("go"), "").unwrap();
    let later = Cell::new(None);
    until(|| {
        later.set(later.get().or(life.1.found_later()));
        later.get().is_some()
    });
    assert_eq!(later.get(), Some(9));
    life.0 = Table::default();
    life.0.taker.floor = life.1.floor();
    life.table(10, "colour", "late");
    assert_eq!(place.calls(), ["set colour first 1", "set colour late 10"]);
}

/// Somebody changes the marker of an agent while it runs: all comes right as where it starts with
/// that, the root goes on above it, and no other agent is passed.
#[test]
fn a_marker_that_is_changed_while_the_agent_runs_comes_right() {
    let begun = 1_800_000_000_000_000_u64;
    let moved = [1_000_000, 1 << 40, 1 << 62, (1 << 63) - 1, 1 << 63, (1 << 63) + 1, u64::MAX - 9];
    let moved = moved.map(|by| begun.wrapping_add(by).to_string());
    let others = ["0", "1", "18446744073709551615", "garbage", ""].map(String::from);
    for text in moved.iter().chain(&others) {
        let place = Place::new();
        let marker = place.folder().join(".rignolda");
        let mut life = Life(Table::default(), start(&place.config()));
        let (mut publisher, mut other) = (Publisher::new(begun), Table::default());
        for (round, value) in [(0, "one"), (1, "two"), (2, "three"), (3, "three"), (4, "three")] {
            if round == 1 {
                match &**text {
                    "" => fs::remove_file(&marker).unwrap(),
                    text => fs::write(&marker, text).unwrap(),
                }
            }
            publisher.set("colour", value.into());
            publisher.begin_round(3);
            let mut above = 0;
            while let Some(published) = publisher.next(100) {
                let (number, meaning) = published.body.meaning().unwrap();
                assert!(other.takes(number, &meaning), "{text}: {number} is passed");
                if life.0.takes(number, &meaning) {
                    assert!(life.1.take(&meaning, number, life.0.heard));
                    until(|| life.1.applied(number) == number || !life.1.is_busy());
                    life.1.done();
                }
                if let Some(floor) = life.1.found_later() {
                    life.0 = Table::default();
                    life.0.taker.floor = floor;
                }
                let taker = &life.0.taker;
                let ahead = furthest(number, [taker.number, taker.floor]);
                above += u32::from(above < 2 && publisher.go_above(ahead));
            }
            let (last, is) = (other.taker.number, fs::read_to_string(&marker).unwrap());
            if round == 0 || round == 4 {
                assert_eq!(place.files(), map([("colour", value)]), "{text}, round {round}");
                assert_eq!(
                    (life.0.taker.number, is.trim_end().parse()),
                    (last, Ok(last)),
                    "{text}"
                );
                assert_eq!(life.1.files(last).map(|it| it.0), Some(last), "{text}");
            }
        }
    }
}
