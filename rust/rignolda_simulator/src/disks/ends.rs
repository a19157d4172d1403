//! A process that ends at any step, and what the next one makes of what is left.
use super::*;
use rignolda_machine::apply::{Applier, Digest, House, What};
use rignolda_machine::config::Apply;
use rignolda_machine::net::Body;
use rignolda_machine::settings::{Heard, Meaning};

const LAST: u64 = 14;

/// An applier and its worker, and what hooks were told of each key.
struct Life {
    applier: Applier,
    keeper: Keeper<Files>,
    told: BTreeMap<String, Option<Vec<u8>>>,
}

impl Life {
    fn begins(files: &Files) -> Life {
        let config = Apply {
            folder: FOLDER.into(),
            mode: 0o640,
            groups: vec!["canary".into()],
            hook: Some("/hook".into()),
            ..Apply::default()
        };
        let applier = Applier::new(&config, found(files, FOLDER).due);
        Life { applier, keeper: Keeper::new(files.clone(), FOLDER, sha256), told: BTreeMap::new() }
    }

    /// It hears this, and does all that follows from it.
    fn hears(&mut self, number: u64, meaning: Meaning<'_>) {
        let looks = matches!(meaning, Meaning::Table(_));
        let heard = Heard { takes: true, applies: true, looks, ..Heard::default() };
        assert!(self.applier.take(&Body::new(number, &meaning), &meaning, number, heard));
        let now = Time::default();
        loop {
            let jobs = self.applier.jobs(now);
            if jobs.is_empty() {
                break;
            }
            for (at, job) in jobs {
                let told = &mut self.told;
                let run = |_: &House<Files>, _: &Apply, what: &What| {
                    if let What::One(key, change, _) = what {
                        told.insert(key.clone(), change.value.as_deref().map(<[u8]>::to_vec));
                    }
                    Ok(())
                };
                let done = self.keeper.work(job, now, run);
                self.applier.ended(at, done, now);
            }
        }
    }

    /// All that is published, each value with its number.
    fn hears_all(&mut self) {
        let table = |all: [(&'static str, &'static str); 3]| {
            Meaning::Table(all.map(|(key, value)| (key, Some(value.as_bytes()))).into())
        };
        self.hears(11, table([("a", "11"), ("b", "11 long"), ("c..canary", "11")]));
        self.hears(12, Meaning::Changes(vec![("a", Some(b"12")), ("c..canary", Some(b"12"))]));
        self.hears(13, Meaning::Changes(vec![("b", None), ("d", Some(b"13"))]));
        self.hears(LAST, table([("a", "14"), ("c..canary", "12"), ("e", "14")]));
    }
}

fn read(files: &Files, folder: &str) -> BTreeMap<String, String> {
    let all = files.found(folder, as_key).unwrap_or_default().settings.into_iter();
    all.map(|(key, value)| (key, String::from_utf8(value).unwrap())).collect()
}

fn map<const N: usize>(all: [(&str, &str); N]) -> BTreeMap<String, String> {
    all.map(|(key, value)| (key.into(), value.into())).into()
}

/// What is there of files is of published values, and none is newer than the marker says; of what
/// changed, and no hook was told, hooks are due.
#[test]
fn whoever_ends_at_any_step_leaves_what_is_right_by_a_table() {
    for steps in 0.. {
        let files = Files::default();
        files.tree().left = Some(steps);
        let mut life = Life::begins(&files);
        life.hears_all();
        let is_over = files.does("/none", Step::Make).is_err();
        files.tree().left = None;
        let (is, left) = (read(&files, FOLDER), found(&files, FOLDER));
        for (key, value) in &is {
            let words: Vec<&str> = value.split(' ').collect();
            let number = words[0].parse::<u64>().unwrap_or_else(|_| panic!("{steps}: {is:?}"));
            assert!(number <= left.floor, "{steps}: {key} is {value}, after {}", left.floor);
            assert!(
                words.len() == 1 + usize::from((&**key, number) == ("b", 11)),
                "{steps}: {is:?}"
            );
        }
        for key in is.keys().chain(life.told.keys()) {
            let told = life.told.get(key).cloned().flatten();
            let is_told = told.as_deref() == is.get(key).map(String::as_bytes);
            assert!(is_told || left.due.contains(key), "{steps}: no hook of {key} is due");
        }
        let mut life = Life::begins(&files);
        life.hears(LAST, Meaning::Table(vec![("a", Some(b"14")), ("c..canary", Some(b"12"))]));
        assert_eq!(read(&files, FOLDER), map([("a", "14"), ("c", "12")]), "{steps}");
        let grouped = read(&files, &format!("{FOLDER}/.groups"));
        assert_eq!((grouped, life.applier.failing()), (map([("c..canary", "12")]), 0), "{steps}");
        assert!(found(&files, FOLDER).due.is_empty(), "{steps}");
        if !is_over {
            break;
        }
    }
}

/// Whoever ends while it is promoted is the root of all that it applied, or is none.
#[test]
fn whoever_ends_while_it_is_promoted_is_the_root_of_all_or_none() {
    for steps in 0.. {
        let mut disk = Disk::new(Random::new(1, "disk", 0), true, None);
        let mut life = Life::begins(&disk.files);
        life.hears_all();
        disk.files.does(ROOT, Step::Rewrite("/root/.stands-by", "")).unwrap();
        let mut folder = Settings::from([("a".into(), b"old".into()), ("z".into(), b"old".into())]);
        let own = {
            let (mut own, mut grouped) = (Digest::new(sha256), Digest::new(sha256));
            disk.settings().iter().for_each(|(key, value)| own.set(key, Some(value)));
            grouped.set(".groups/c..canary", Some(b"12"));
            own.whole(&grouped)
        };
        disk.files.tree().left = Some(steps);
        let job = standby::Job::Promote { rank: 77, copies: true, digest: Some(own) };
        drop(disk.stands_work(job, &mut folder));
        let is_over = disk.files.does("/none", Step::Make).is_err();
        disk.files.tree().left = None;
        let begun = disk.begins().standby.unwrap();
        let published: Settings = [("a", "14"), ("c..canary", "12"), ("e", "14")]
            .map(|(key, value)| (key.into(), value.into()))
            .into();
        let is_root = begun.role == rignoldactl::Standby::Looks;
        assert_eq!(is_root, begun.rank == 77);
        assert!(!is_root || folder == published && begun.may == Some(77), "{steps}: {folder:?}");
        if !is_over {
            assert!(is_root && disk.is_promoted);
            break;
        }
    }
}
