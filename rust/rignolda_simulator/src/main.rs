//! Whole trees of agents in one thread and in virtual time. A seed replays a run, whatever faults
//! it has; and a promise that is broken is printed with the seed that shows it.
//!
//! ```text
//! simulate [seed=1] [runs=100] [class=world|memory|markers|fields|all] [agents=40] [faults=N]
//!          [seconds=N] [talks=1] [paths=1]
//! ```
#![forbid(unsafe_code)]
mod disks;
mod drawn;
mod faults;
mod judge;
mod lines;
mod random;
mod run;
mod world;

use faults::Class;
use run::{run, Counts, Plan};
use std::cell::RefCell;
use std::collections::BTreeMap;
use std::panic::{catch_unwind, AssertUnwindSafe};
use std::process::ExitCode;
use std::time::{Duration, Instant};

/// After how long a line says how far it is.
const SAYS: Duration = Duration::from_secs(30);

thread_local! {
    /// Where this thread panicked last.
    static PANICKED: RefCell<String> = const { RefCell::new(String::new()) };
}

/// Where it panicked last.
fn panicked() -> String {
    PANICKED.with(RefCell::take)
}

/// Where a panic was, and what it says, without its numbers. (What a library says is followed by
/// who called it.)
fn told(why: &str) -> String {
    let (place, text) = why.split_once('\n').unwrap_or((why, ""));
    let text = text.replace(|it: char| it.is_ascii_digit(), "").replace('\n', " ");
    let called = || {
        let trace = std::backtrace::Backtrace::force_capture().to_string();
        let is_own = |it: &&str| it.contains("rignolda") && !it.contains("simulate");
        trace.lines().filter(is_own).take(2).map(str::trim).collect::<Vec<_>>().join(" in ")
    };
    match place.contains("/rustc/") {
        true => format!("{text}, {}", called()),
        false => format!("{place} {text}"),
    }
}

/// What was asked for.
struct Options(BTreeMap<String, String>);

impl Options {
    fn number(&self, name: &str, other: u64) -> u64 {
        self.0.get(name).map_or(other, |it| it.parse().unwrap_or_else(|_| usage(name)))
    }

    fn class(&self, seed: u64) -> Class {
        let all = [Class::World, Class::World, Class::Memory, Class::World, Class::Memory];
        match self.0.get("class").map_or("all", String::as_str) {
            "world" => Class::World,
            "memory" => Class::Memory,
            "markers" => Class::Markers,
            "fields" => Class::Fields,
            "all" if seed % 6 < 5 => all[seed as usize % 6],
            "all" => Class::Markers,
            _ => usage("class"),
        }
    }
}

fn usage(what: &str) -> ! {
    eprintln!("simulate: {what}: expected is NAME=VALUE; see the front of main.rs");
    std::process::exit(2)
}

/// A run, where a panic breaks a promise too.
fn once(plan: Plan) -> (Counts, Result<(), String>) {
    catch_unwind(AssertUnwindSafe(|| run(plan))).unwrap_or_else(|why| {
        let text = why.downcast_ref::<String>().cloned();
        let text = text.or_else(|| why.downcast_ref::<&str>().map(|it| (*it).into()));
        (Counts::default(), Err(format!("PANIC: {}", text.unwrap_or_default())))
    })
}

/// The fewest faults, of its first ones, by which this run breaks the same promise.
fn shrunk(plan: Plan, struck: u64, broken: &str) -> u64 {
    let kind = |it: &str| it.split(':').next().unwrap_or_default().to_owned();
    let (mut least, mut most) = (0, struck);
    while least < most {
        let faults = (least + most) / 2;
        match once(Plan { faults, talks: false, ..plan }).1 {
            Err(why) if kind(&why) == kind(broken) => most = faults,
            _ => least = faults + 1,
        }
    }
    most
}

fn main() -> ExitCode {
    let words = std::env::args().skip(1);
    let pairs = words.map(|it| match it.split_once('=') {
        Some((name, value)) => (name.to_owned(), value.to_owned()),
        None => usage(&it),
    });
    let options = Options(pairs.collect());
    let (first, runs) = (options.number("seed", 1), options.number("runs", 100));
    let seconds = Duration::from_secs(options.number("seconds", u64::MAX >> 32));
    let talks = options.number("talks", 0) == 1;
    std::panic::set_hook(Box::new(move |why| {
        let text = told(&why.to_string());
        if talks {
            eprintln!("{text}");
        }
        PANICKED.with(|it| it.replace(text));
    }));
    let (begun, mut said) = (Instant::now(), Instant::now());
    let (mut all, mut done, mut broken) = (Counts::default(), 0, 0);
    let mut rounds = BTreeMap::<u64, u64>::new();
    for seed in first..first + runs {
        if begun.elapsed() >= seconds {
            break;
        }
        let plan = Plan {
            seed,
            class: options.class(seed),
            agents: options.number("agents", 40),
            faults: options.number("faults", u64::MAX),
            talks,
        };
        let (counts, judged) = once(plan);
        done += 1;
        counts
            .faults
            .iter()
            .for_each(|(what, count)| *all.faults.entry(what).or_default() += count);
        let sums = [
            (&mut all.fields, counts.fields),
            (&mut all.panics, counts.panics),
            (&mut all.ends, counts.ends),
        ];
        for (sum, counts) in sums {
            counts.into_iter().for_each(|(what, count)| *sum.entry(what).or_default() += count);
        }
        all.turns += counts.turns;
        all.millis += counts.millis;
        all.agents += counts.agents;
        all.waits += counts.waits;
        match judged {
            Ok(()) => *rounds.entry(counts.rounds).or_default() += 1,
            Err(why) => {
                broken += 1;
                let least = shrunk(plan, counts.struck.min(plan.faults), &why);
                println!("seed={seed} class={:?} faults={least}: {why}", plan.class);
            }
        }
        if said.elapsed() >= SAYS {
            said = Instant::now();
            eprintln!("{done} runs, {broken} broken, {} s", begun.elapsed().as_secs());
        }
    }
    let faults: u64 = all.faults.values().sum();
    for (what, count) in &all.faults {
        println!("{count:>9} {what}");
    }
    let of_fields = if options.number("paths", 0) == 1 { &all.fields } else { &BTreeMap::new() };
    let more = [(of_fields, "struck"), (&all.panics, "panicked:"), (&all.ends, "ended:")];
    for (counts, word) in more {
        counts.iter().for_each(|(what, count)| println!("{count:>9} {word} {what}"));
    }
    println!(
        "{faults} faults of {} agents in {:.1} virtual hours; {} turns; wait ended {} times; \
         rounds needed {rounds:?}; {:.1} s",
        all.agents,
        all.millis as f64 / 3.6e6,
        all.turns,
        all.waits,
        begun.elapsed().as_secs_f64()
    );
    println!("{} passed, {broken} failed", done - broken);
    if broken > 0 {
        ExitCode::FAILURE
    } else {
        ExitCode::SUCCESS
    }
}
