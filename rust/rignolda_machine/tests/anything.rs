//! Anything comes to an agent, in any order: it ends in acts, never in a panic, and nothing grows
//! without a bound.
use rignolda_machine::apply::{self, Ended, Identity, Outcome};
use rignolda_machine::config::{Apply, Config, Root};
use rignolda_machine::control::{Request, Standby as Role};
use rignolda_machine::machine::{Act, Found, Host, Input, Machine, Now};
use rignolda_machine::net::wire::{self, Hello, FIRST, OLD, VERSION};
use rignolda_machine::net::{Address, Body, Call, Children, End, Parent, Setup, Shown, Way, Whom};
use rignolda_machine::settings::{self, Change, Meaning, Waiting};
use rignolda_machine::{root, standby, Refused, Ticket, Time};
use std::collections::BTreeMap;
use std::time::Duration;

mod common;
use common::Random;

const NAMES: [&str; 6] = ["a", "b", "c", "first", "second", "nobody"];
const KEYS: [&str; 6] = ["k", "k@g", "k@h", "l", "..", ""];
/// How many steps each agent has, and how many acts one step may have.
const STEPS: usize = 6_000;
const ACTS: usize = 2_000;

/// What is drawn.
struct Drawn(Random);

impl Drawn {
    fn of<T: Clone>(&mut self, all: &[T]) -> T {
        all[self.0.below(all.len())].clone()
    }

    fn once_in(&mut self, times: usize) -> bool {
        self.0.below(times) == 0
    }

    fn text(&mut self, all: &[&str]) -> String {
        self.of(all).into()
    }

    fn number(&mut self) -> u64 {
        let any = self.0.number();
        self.of(&[0, 1, 2, 499, 500, 501, any % 9, any, u64::MAX])
    }

    fn bytes(&mut self) -> Vec<u8> {
        let (length, byte) = (self.of(&[0, 1, 5, 200]), self.0.number() as u8);
        vec![byte; length]
    }

    fn values(&mut self) -> BTreeMap<String, Vec<u8>> {
        (0..self.0.below(4)).map(|_| (self.text(&KEYS), self.bytes())).collect()
    }

    fn result(&mut self) -> Result<(), String> {
        if self.once_in(2) {
            Ok(())
        } else {
            Err("why".into())
        }
    }

    fn address(&mut self) -> Address {
        let server = "127.0.0.1:1".into();
        self.of(&[Address::Tcp(server), Address::Unix("/a".into())])
    }

    fn store(&mut self) -> Address {
        Address::Redis { server: "127.0.0.1:2".into(), prefix: "p".into() }
    }

    fn end(&mut self) -> End {
        let names = if self.once_in(2) { Some(vec![self.text(&NAMES)]) } else { None };
        let shown = self.of(&[Shown::Nothing, Shown::Something, Shown::Certificate]);
        End { place: "there".into(), shown, names, ..End::default() }
    }

    /// What an agent or a stranger may say, cut anywhere.
    fn said(&mut self) -> Vec<u8> {
        let mut said = Vec::new();
        for _ in 0..1 + self.0.below(4) {
            let (from, to) = (self.text(&NAMES), self.text(&NAMES));
            let (version, life) = (self.of(&[OLD, FIRST, VERSION, 9]), self.number());
            let label = self.of(&[0_u16, 1, 254, 255, 7]);
            let hello = Hello { version, life, label, from, to };
            said.extend(match self.0.below(12) {
                0 | 1 => hello.bytes(),
                2 | 3 => hello.look(),
                4 | 5 => wire::way(&Way { cost: label, names: vec![self.text(&NAMES)] }),
                6 | 7 => {
                    let body = self.body();
                    [&wire::frame(label, &body)[..], &body.bytes].concat()
                }
                8 | 9 => wire::ack(label),
                10 => wire::report(br#"[{"name":"b","sequence":7},{"name":"c","parent":"b"}]"#),
                _ => self.bytes(),
            });
        }
        said.truncate(said.len() - self.0.below(said.len().max(1)).min(3));
        said
    }

    fn body(&mut self) -> std::sync::Arc<Body> {
        let (number, value) = (self.number(), self.bytes());
        let entries = vec![("k", Some(&value[..])), ("l", None)];
        Body::new(
            number,
            &match self.0.below(3) {
                0 => Meaning::Harmless,
                1 => Meaning::Changes(entries),
                _ => Meaning::Table(vec![("k", Some(&value[..]))]),
            },
        )
    }

    fn request(&mut self) -> Request {
        let (key, name, value) = (self.text(&KEYS), self.text(&NAMES), self.bytes());
        let (as_is, digest) = (self.once_in(2), self.text(&["", "0", "ff"]));
        self.of(&[
            Request::Publish { key: key.clone(), value },
            Request::Unset { key: key.clone() },
            Request::Ping,
            Request::Status,
            Request::Tree,
            Request::Promote { as_is },
            Request::Demote,
            Request::Drain,
            Request::Resume,
            Request::ChildAdd { name: name.clone() },
            Request::ChildRemove { name: name.clone() },
            Request::Forget { name },
            Request::Round,
            Request::Look,
            Request::Diff,
            Request::Confirm { digest },
            Request::PromoteValue { key: key.clone() },
            Request::Key { key },
        ])
    }

    /// What a root's disk may say, asked or not.
    fn of_disk(&mut self) -> root::Done {
        match self.0.below(6) {
            0 | 1 => root::Done::Read(Ok(settings::Found {
                settings: self.values(),
                ..Default::default()
            })),
            2 => root::Done::Read(Err(root::Empty {
                why: "why".into(),
                has_none: self.once_in(2),
                is_new: self.once_in(2),
                faults: settings::Faults::default(),
            })),
            3 => root::Done::Keys(self.kept()),
            4 => {
                let all = self.kept().into_iter();
                let all = all
                    .map(|it| (it, if self.once_in(3) { Err(Refused::NoStandby) } else { Ok(()) }));
                root::Done::Written { all: all.collect(), others: self.once_in(3) }
            }
            _ if self.once_in(2) => root::Done::Recalled(None),
            _ => root::Done::Kept(self.result()),
        }
    }

    fn kept(&mut self) -> Vec<root::Kept> {
        let kept = |it: &mut Drawn| (it.text(&KEYS), Some(it.bytes()).filter(|it| it.len() > 1));
        (0..self.0.below(3)).map(|_| kept(self)).collect()
    }

    fn stood(&mut self) -> standby::Done {
        match self.0.below(6) {
            0 => standby::Done::Promoted(self.number(), Ok(self.values())),
            1 => standby::Done::Promoted(self.number(), Err(Refused::NoStandby)),
            2 => standby::Done::Demoted(self.result()),
            3 => standby::Done::StandsBy(self.result()),
            4 => standby::Done::Noted,
            _ => standby::Done::Reserved(self.number()),
        }
    }

    fn change(&mut self) -> Change {
        Change { value: None, first: self.number(), last: self.number() }
    }

    fn applied(&mut self) -> apply::Done {
        let is = Some(Identity([self.number(), 0, 0, 0])).filter(|_| self.once_in(2));
        let ended = Ended { is, sum: self.number(), whole: None, grouped: vec![], facts: vec![] };
        let kept = apply::Kept {
            key: self.text(&KEYS),
            change: self.change(),
            put: self.once_in(2),
            differs: self.once_in(2),
            done: self.result(),
        };
        match self.0.below(9) {
            0 => apply::Done::Marked(Waiting::default(), is),
            1 => apply::Done::Refused(Outcome::File("why".into())),
            2 => apply::Done::Later(self.number()),
            3 => apply::Done::Kept(vec![kept], Some(ended).filter(|_| self.once_in(2))),
            4 => apply::Done::KeptAtOnce(is, vec![kept], ended),
            5 => apply::Done::Rested(None),
            6 => apply::Done::Ran(self.result()),
            7 => apply::Done::Newer(self.number(), self.change()),
            _ => apply::Done::Settled,
        }
    }
}

/// A root, an agent between, a leaf, and one that may be promoted.
fn config(kind: usize) -> Config {
    let parent = |name: &str, address: Option<&str>| Parent {
        name: Some(name.into()),
        address: address.map(|it| Address::parse(it).unwrap()),
        price: None,
    };
    let store = "redis://127.0.0.1:2/p";
    let (name, parents): (_, Vec<_>) = match kind {
        0 => ("first", vec![]),
        1 => ("a", vec![parent("first", Some("127.0.0.1:1")), parent("second", Some(store))]),
        2 => ("c", vec![parent("a", None)]),
        _ => ("second", vec![parent("first", Some("127.0.0.1:1"))]),
    };
    let children: BTreeMap<_, _> = match kind {
        0 | 3 => {
            BTreeMap::from([("a".into(), None), ("b".into(), Some(Address::parse(store).unwrap()))])
        }
        1 => BTreeMap::from([("b".into(), None), ("c".into(), Some(Address::Unix("/a".into())))]),
        _ => BTreeMap::new(),
    };
    Config {
        peers: Setup {
            name: name.into(),
            parents,
            rank: None,
            children: Children::Named(children),
            ack_timeout: Duration::from_millis(500),
            evict: Duration::from_secs(9),
            poll: Duration::from_millis(100),
        },
        listens: true,
        backlog: 16,
        root: [0, 3].contains(&kind).then(|| Root {
            settings: "settings".into(),
            standby: kind == 3,
            round: Duration::from_secs(10),
            harmless: None,
            hold: false,
            unsets: None,
        }),
        apply: Some(Apply {
            folder: "applied".into(),
            groups: vec!["g".into()],
            hook: Some("hook".into()),
            may_be_root: kind == 3,
            ..Apply::default()
        }),
    }
}

fn sha256(parts: &[&[u8]]) -> [u8; 32] {
    let mut sum = [0; 32];
    parts.iter().flat_map(|it| it.iter()).enumerate().for_each(|(at, byte)| sum[at % 32] ^= byte);
    sum
}

fn machine(kind: usize, now: Now, acts: &mut Vec<Act>) -> Machine {
    let standby = (kind == 3).then_some(standby::Begun {
        role: Role::StandsBy,
        rank: 3,
        noted: None,
        may: None,
        fact: None,
    });
    let found = Found { applied: Some(apply::Found::default()), standby };
    let host = Host { drawn: 7, waiting: 8, restarts: None, sha256 };
    Machine::new(config(kind), found, host, now, acts)
}

#[test]
fn anything_in_any_order_ends_in_acts() {
    for seed in 0..12 {
        let kind = seed as usize % 4;
        let mut drawn = Drawn(Random(0x1234_5678 + 977 * seed));
        let mut now =
            Now { at: Time::after(Duration::from_secs(100)), unix: Duration::from_secs(9) };
        let (mut acts, mut made) = (Vec::new(), 0);
        let mut machine = machine(kind, now, &mut acts);
        for _ in 0..STEPS {
            if drawn.once_in(3) {
                let so_much = Duration::from_millis(drawn.of(&[1, 20, 600, 3_000, 40_000]));
                (now.at, now.unix) = (now.at + so_much, now.unix + so_much);
            }
            let mut calls = acts.iter().filter_map(|it| match it {
                Act::Call(call) => Some(call.clone()),
                _ => None,
            });
            let call = calls.next_back();
            let turned = acts.iter().any(|it| matches!(it, Act::Turn(..)));
            acts.clear();
            // (mostly a line that is one)
            let lines: Vec<u64> = machine.peers.lines().collect();
            let line = if drawn.once_in(9) {
                drawn.number()
            } else {
                drawn.of(&[&lines[..], &[3]].concat())
            };
            let (said, store) = (drawn.said(), drawn.store());
            let input = match drawn.0.below(18) {
                0 | 1 => {
                    made += 1;
                    Input::Accepted(made, drawn.end())
                }
                2 => match call {
                    Some(call) => {
                        made += 1;
                        Input::Called(call, Ok((made, drawn.end())))
                    }
                    None => {
                        let whom = drawn.of(&[
                            Whom::Parent,
                            Whom::Child("b".into()),
                            Whom::Candidate(1),
                            Whom::Candidate(77),
                        ]);
                        let call = Call { whom, address: drawn.address(), failed: 7 };
                        let made = if drawn.once_in(2) {
                            Ok((line, drawn.end()))
                        } else {
                            Err("why".into())
                        };
                        Input::Called(call, made)
                    }
                },
                3 => Input::Shown(line, drawn.end()),
                4..=7 => Input::Bytes(line, &said),
                8 => Input::Sent(line),
                9 => Input::Over(line, "over"),
                10 => Input::Leave(line, "left"),
                11 if turned || drawn.once_in(2) => {
                    let got = (0..drawn.0.below(9)).map(|_| drawn.said()).collect();
                    Input::Turned(
                        &store,
                        if drawn.once_in(5) { Err("why".into()) } else { Ok(got) },
                    )
                }
                11 => Input::Changed,
                12 => Input::Disk(drawn.of_disk()),
                13 => Input::Stood(drawn.stood()),
                14 => Input::Applied(drawn.of(&[0, 1, 2, 4, 5, 99]), drawn.applied()),
                15 => Input::Asked(Ticket::of_number(drawn.number()), drawn.request()),
                16 if drawn.once_in(9) => {
                    let mut config = config(kind);
                    config.peers.rank = machine.config.peers.rank;
                    Input::Reload(Box::new(config))
                }
                _ => Input::Tick,
            };
            machine.step(now, input, &mut acts);
            assert!(acts.len() < ACTS, "{} acts", acts.len());
            assert!(machine.until() <= now.at + Duration::from_secs(3));
            assert!(machine.peers.lines().count() < 40 && machine.peers.relay().kept().0 <= 16);
            // (what cannot be ends the process)
            if acts.iter().any(|it| matches!(it, Act::Fail(_) | Act::Restart)) {
                machine = self::machine(kind, now, &mut acts);
            }
        }
        // (where it changes places, its connections are counted anew)
        assert!(machine.peers.strange() > 0 || kind == 3, "{kind}");
    }
}
