//! Files of settings: each is whole, as it was or as it is now.
use rignolda_machine::apply::{FileSystem, Step};
use rignoldad::batch::Batch;
use rignoldad::place::LocalFiles;
use std::fs::{self, File, Permissions};
use std::io::Read;
use std::os::unix::fs::{symlink, PermissionsExt};
use std::path::{Path, PathBuf};
use std::sync::atomic::{AtomicBool, AtomicU32, Ordering};
use std::thread;

type Folder = rignolda_machine::apply::Folder<LocalFiles>;

/// That at this path.
fn folder_at(path: impl AsRef<Path>) -> Folder {
    Folder::new(LocalFiles, path.as_ref().display().to_string())
}

fn remove(path: &Path) -> std::io::Result<()> {
    LocalFiles.remove(path.to_str().unwrap())
}

/// A folder of one test, removed at its end.
struct Place(PathBuf);

impl Place {
    fn new(name: &str) -> Place {
        let name = format!("rignolda-files-{}-{}", name, std::process::id());
        let path = std::env::temp_dir().join(name);
        remove(&path).unwrap();
        fs::create_dir(&path).unwrap();
        Place(path)
    }

    fn names(&self) -> Vec<String> {
        let all = fs::read_dir(&self.0).unwrap();
        let mut names: Vec<String> =
            all.map(|it| it.unwrap().file_name().into_string().unwrap()).collect();
        names.sort();
        names
    }
}

impl Drop for Place {
    fn drop(&mut self) {
        let _ = fs::remove_dir_all(&self.0);
    }
}

const MODE: u32 = 0o640;

fn text(path: impl AsRef<Path>) -> String {
    fs::read_to_string(path).unwrap()
}

fn mode(path: impl AsRef<Path>) -> u32 {
    fs::metadata(path).unwrap().permissions().mode() & 0o7777
}

fn set_mode(path: impl AsRef<Path>, mode: u32) {
    fs::set_permissions(path, Permissions::from_mode(mode)).unwrap();
}

#[test]
fn who_reads_a_file_while_it_is_put_has_the_old_one_whole() {
    let place = Place::new("old");
    let mut folder = folder_at(&place.0);
    let mut batch = Batch::default();
    folder.put("a", Some(b"old value"), MODE).unwrap();
    fs::write(place.0.join("b"), "old value").unwrap();
    let mut old = ["a", "b"].map(|key| File::open(place.0.join(key)).unwrap());
    folder.put("a", Some(b"new"), MODE).unwrap();
    batch.write(place.0.join("b"), b"new").unwrap();
    assert!(batch.commit().is_empty());
    for (file, key) in old.iter_mut().zip(["a", "b"]) {
        let mut read = String::new();
        file.read_to_string(&mut read).unwrap();
        assert_eq!((&*read, &*text(place.0.join(key))), ("old value", "new"), "{key}");
    }
    assert_eq!(place.names(), ["a", "b"]);
}

#[test]
fn a_file_has_its_mode_whatever_the_mask_of_the_process_is() {
    let place = Place::new("mode");
    let mut folder = folder_at(&place.0);
    // (each mask takes some bit of one of these away)
    for mode in [0o666, 0o640, 0o600, 0o777, 0o666] {
        for value in [&b"1"[..], b"2", b"3"] {
            folder.put("a", Some(value), mode).unwrap();
            assert_eq!(self::mode(place.0.join("a")), mode);
            assert!(!folder.differs("a", Some(value), mode));
        }
    }
    set_mode(place.0.join("a"), 0o600);
    assert!(folder.differs("a", Some(b"3"), 0o666));
}

#[test]
fn what_a_batch_writes_is_for_its_owner_and_group_at_most() {
    let place = Place::new("private");
    let path = |name: &str| place.0.join(name);
    let [secret, linked, other] = ["secret", "linked", "other"].map(path);
    let beside = [0, 2, 3, 4, 5, 6].map(|at| path(&format!(".rignolda{at}.new")));
    let all: Vec<PathBuf> =
        ["secret", "open", "run-by-all", "closed", "new", "linked"].map(path).into();
    let modes = [0o600, 0o666, 0o6777, 0o444];
    for (path, is) in all.iter().zip(modes).chain([(&beside[0], 0o666), (&other, 0o4755)]) {
        // (one was left by a process that was killed)
        fs::write(path, "old").unwrap();
        set_mode(path, is);
    }
    symlink(&other, &linked).unwrap();
    // (a folder of such a name is somebody's)
    fs::create_dir_all(path(".rignolda1.new/inner")).unwrap();
    let mut batch = Batch::default();
    for path in &all {
        batch.write(path.clone(), b"1").unwrap();
    }
    let expected = [0o600, 0o640, 0o640, 0o640, 0o640, 0o640];
    assert_eq!(beside.each_ref().map(mode), expected);
    assert!(batch.commit().is_empty());
    assert_eq!(all.iter().map(mode).collect::<Vec<_>>(), expected);
    assert_eq!((&*text(&secret), &*text(&linked), linked.is_symlink()), ("1", "1", false));
    assert_eq!((&*text(&other), mode(&other)), ("old", 0o4755));
    assert!(path(".rignolda1.new/inner").is_dir() && !beside[0].exists());
}

#[test]
fn nobody_else_can_read_a_private_file_while_it_is_written() {
    let place = Place::new("beside");
    let value = vec![7; 1 << 20];
    let (looks, others, over) = (AtomicU32::new(0), AtomicU32::new(0), AtomicBool::new(false));
    let beside = [".new", ".rignolda0.new"].map(|name| place.0.join(name));
    fs::write(place.0.join("b"), "old").unwrap();
    set_mode(place.0.join("b"), 0o600);
    thread::scope(|scope| {
        scope.spawn(|| {
            while !over.load(Ordering::Relaxed) {
                for is in beside.iter().filter_map(|path| fs::metadata(path).ok()) {
                    others.fetch_or(is.permissions().mode() & 0o077, Ordering::Relaxed);
                    looks.fetch_add(1, Ordering::Relaxed);
                }
            }
        });
        // (until somebody has looked in the middle of it often enough, as far as the system lets)
        let (mut folder, mut seen) = (folder_at(&place.0), [0, 0]);
        for _ in 0..60 {
            let writes: [&mut dyn FnMut(); 2] =
                [&mut || assert!(folder.put("a", Some(&value), 0o600).unwrap()), &mut || {
                    Batch::default().write(place.0.join("b"), &value).unwrap()
                }];
            for (write, seen) in writes.into_iter().zip(&mut seen) {
                // (what the turn before has left is nothing to look at)
                let _ = fs::remove_file(&beside[1]);
                let before = looks.load(Ordering::Relaxed);
                write();
                *seen += u32::from(looks.load(Ordering::Relaxed) > before);
            }
            if seen.iter().all(|seen| *seen > 4) {
                break;
            }
        }
        over.store(true, Ordering::Relaxed);
    });
    assert_eq!(others.into_inner(), 0, "others could read it");
}

#[test]
fn whatever_is_in_the_way_is_replaced_and_nothing_elsewhere() {
    let place = Place::new("way");
    let elsewhere = place.0.join("elsewhere");
    let path = place.0.join("settings");
    let mut folder = folder_at(&path);
    fs::write(&elsewhere, "mine").unwrap();
    // (the folder is not there yet)
    folder.put("a", Some(b"1"), MODE).unwrap();
    let ways: [&dyn Fn(&Path); 3] = [
        &|at| symlink(&elsewhere, at).unwrap(),
        &|at| fs::create_dir_all(at.join("x/y")).unwrap(),
        &|at| fs::write(at, "in the way").unwrap(),
    ];
    for (number, way) in ways.iter().enumerate() {
        for name in ["a", ".new"] {
            remove(&path.join(name)).unwrap();
            way(&path.join(name));
            assert!(name == ".new" || folder.differs("a", Some(b"1"), MODE));
            folder.put("a", Some(b"1"), MODE).unwrap();
            assert_eq!(text(path.join("a")), "1", "{number} {name}");
            assert!(!folder.differs("a", Some(b"1"), MODE));
        }
    }
    assert_eq!(text(&elsewhere), "mine");
    assert!(folder.put("../elsewhere", Some(b"2"), MODE).is_err());
    assert!(folder.put(".new", None, MODE).is_err());
    folder.put("a", None, MODE).unwrap();
    folder.put("a", None, MODE).unwrap();
    assert!(folder.names().is_empty() && !folder.differs("a", None, MODE));
}

#[test]
fn what_was_put_last_is_looked_at_and_never_believed() {
    let place = Place::new("looks");
    let file = place.0.join("a");
    let mut folder = folder_at(&place.0);
    folder.put("a", Some(b"one"), MODE).unwrap();
    let spoil: [&dyn Fn(); 4] = [
        &|| fs::write(&file, "two").unwrap(),
        &|| fs::write(&file, "longer").unwrap(),
        &|| fs::write(&file, "").unwrap(),
        &|| fs::remove_file(&file).unwrap(),
    ];
    for (number, spoil) in spoil.iter().enumerate() {
        spoil();
        assert!(folder.differs("a", Some(b"one"), MODE), "{number}");
        folder.put("a", Some(b"one"), MODE).unwrap();
    }
    // (another value is put in any case)
    assert!(folder.differs("a", Some(b"two"), MODE));
    assert!(folder.differs("a", None, MODE));
    // (one that begins anew looks as well)
    let mut folder = folder_at(&place.0);
    assert!(!folder.differs("a", Some(b"one"), MODE));
    assert!(folder.differs("a", Some(b"two"), MODE));
}

#[test]
fn a_batch_that_is_not_committed_changes_no_file() {
    let place = Place::new("killed");
    let paths: Vec<PathBuf> = (0..40).map(|at| place.0.join(format!("k{at}"))).collect();
    paths.iter().for_each(|path| fs::write(path, "old").unwrap());
    let mut batch = Batch::default();
    for path in &paths {
        assert!(!batch.has(path));
        batch.write(path.clone(), b"new").unwrap();
        assert!(batch.has(path));
    }
    // (so does a process that is killed here)
    drop(batch);
    assert!(paths.iter().all(|path| text(path) == "old"));
    let mut batch = Batch::default();
    for path in &paths {
        batch.write(path.clone(), b"new").unwrap();
    }
    assert!(batch.commit().is_empty() && paths.iter().all(|path| !batch.has(path)));
    assert!(paths.iter().all(|path| text(path) == "new"));
    assert_eq!(place.names().len(), 40, "nothing is left beside them");
}

#[test]
fn those_of_a_batch_that_fail_are_named_and_the_others_are_there() {
    let place = Place::new("failed");
    let [a, b, c] = ["a", "b", "c"].map(|key| place.0.join(key));
    fs::create_dir_all(b.join("x")).unwrap();
    let mut batch = Batch::default();
    for path in [&a, &b, &c] {
        batch.write(path.clone(), b"1").unwrap();
    }
    let failed = batch.commit();
    let failed: Vec<&PathBuf> = failed.iter().map(|(path, _)| path).collect();
    assert_eq!(failed, [&b]);
    assert_eq!((text(&a), text(&c)), ("1".into(), "1".into()));
    assert!(batch.write(place.0.join("no/such"), b"1").is_err());
    assert!(batch.commit().is_empty());
    assert_eq!(place.names(), ["a", "b", "c"]);
}

#[test]
fn what_is_none_of_settings_is_named_and_a_link_to_a_folder_is_no_folder() {
    let place = Place::new("others");
    let mut folder = folder_at(&place.0);
    folder.put("a", Some(b"1"), 0o640).unwrap();
    fs::create_dir_all(place.0.join("inner/deep")).unwrap();
    std::os::unix::fs::symlink("inner", place.0.join("link")).unwrap();
    for name in [".hidden", "no key", ".new"] {
        fs::write(place.0.join(name), "").unwrap();
    }
    let sorted = |mut names: Vec<String>| {
        names.sort();
        names
    };
    assert_eq!(sorted(folder.others()), [".hidden", "inner", "no key"]);
    assert_eq!(sorted(folder.names()), [".hidden", ".new", "a", "link", "no key"]);
    set_mode(place.0.clone(), 0o040);
    folder.mend().unwrap();
    assert_eq!(mode(&place.0), 0o740);
}

#[test]
fn whoever_may_read_the_files_may_list_the_folder() {
    let place = Place::new("listed");
    fs::create_dir_all(&place.0).unwrap();
    for (was, of_files, is) in [
        (0o750, 0o640, 0o750),
        (0o700, 0o640, 0o750),
        (0o750, 0o644, 0o755),
        (0o700, 0o600, 0o700),
        (0o755, 0o640, 0o755),
    ] {
        set_mode(place.0.clone(), was);
        let at = place.0.to_str().unwrap();
        LocalFiles.does(at, Step::Lists(of_files)).unwrap();
        assert_eq!(mode(&place.0), is, "{was:o} {of_files:o}");
    }
}

#[test]
fn the_first_file_is_there_before_any_other_one() {
    let top = std::env::temp_dir().join(format!("rignolda-first-{}", std::process::id()));
    let (path, first) = (top.join("files"), top.join("files/.first"));
    let _ = fs::remove_dir_all(&top);
    let mut folder = folder_at(&path);
    folder.begins_with(".first", b"1".to_vec());
    assert!(folder.open().unwrap() && !folder.open().unwrap());
    let put = |folder: &mut Folder, key| {
        let _ = fs::remove_file(&first);
        let done = folder.put(key, Some(b"value"), 0o640);
        (done.is_ok(), path.join(key).exists(), fs::read(&first).ok())
    };
    let well = (true, true, Some(b"1".to_vec()));
    assert_eq!(put(&mut folder, "a"), well);
    assert_eq!(put(&mut folder, "a"), well);
    // (it was removed, and what was put there is not known any more)
    fs::remove_dir_all(&top).unwrap();
    assert_eq!(put(&mut folder, "b"), well);
    assert!(!folder.knows("a") && folder.knows("b"));
    // another one is in its place: nothing comes into that, also where its own is gone
    fs::rename(&path, top.join("away")).unwrap();
    fs::create_dir(&path).unwrap();
    folder.put("c", Some(b"value"), 0o640).unwrap();
    assert!(top.join("away/c").exists());
    fs::remove_dir_all(top.join("away")).unwrap();
    assert_eq!(put(&mut folder, "d"), (false, false, None));
    folder.begins_again();
    assert_eq!(fs::read_dir(&path).unwrap().count(), 0);
    fs::remove_dir_all(&top).unwrap();
}
