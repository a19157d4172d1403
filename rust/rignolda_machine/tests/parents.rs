//! The choice of parents: the rule on plain states, and drawn nets that begin in any state.
use rignolda_machine::net::parents::{ParentError, Parents, Way, CIRCLE, NAMES, NONE};
use std::collections::VecDeque;

mod common;
use common::Random;

fn way(cost: u16, names: &[&str]) -> Way {
    let names = names.iter().map(|name| name.to_string()).collect();
    Way { cost, names }
}

/// An agent with children and so many parents.
fn agent(parents: usize) -> Parents {
    Parents::new("x", vec![None; parents]).with_children()
}

#[test]
fn the_way_is_the_parents_and_a_step() {
    assert_eq!(agent(0).says(), &way(0, &["x"]), "a root");
    assert_eq!(agent(3).says(), &way(NONE, &["x"]), "a head");
    let says = |at: usize, prices: [Option<u16>; 3], heard: &Way| {
        let mut x = Parents::new("x", prices).with_children();
        x.took(at, heard.clone());
        x.says().clone()
    };
    let hub = way(4, &["r", "hub"]);
    for (at, cost) in [(0, 5), (1, 13), (2, 21)] {
        assert_eq!(says(at, [None; 3], &hub), way(cost, &["r", "hub", "x"]), "{at}");
    }
    assert_eq!(says(1, [None, Some(3), None], &hub).cost, 8);
    assert_eq!(says(0, [Some(100), None, None], &hub).cost, 105);
    assert_eq!(says(0, [None; 3], &way(u16::MAX, &["r"])).cost, CIRCLE, "no sum overflows");
}

#[test]
fn a_parent_is_left_for_a_circle_alone() {
    let names: Vec<String> = (0..NAMES).map(|at| format!("n{at}")).collect();
    let long = |count: usize| Way { cost: 1, names: names[..count].to_vec() };
    for (heard, expected) in [
        (way(NONE, &["a"]), Ok(())),
        (way(CIRCLE - 2, &["a"]), Ok(())),
        (way(CIRCLE - 1, &["a"]), Err(ParentError::LongWay)),
        (way(u16::MAX, &["a"]), Err(ParentError::LongWay)),
        (way(1, &["x", "a"]), Err(ParentError::Circle)),
        (long(NAMES - 1), Ok(())),
        (long(NAMES), Err(ParentError::LongWay)),
    ] {
        let mut x = agent(2);
        x.took(0, way(0, &["a"]));
        assert_eq!(x.hears(heard.clone()), expected, "{heard:?}");
    }
}

#[test]
fn a_candidate_is_taken_that_is_better() {
    let mut x = agent(3);
    x.took(1, way(0, &["b"]));
    assert_eq!(x.says().cost, 9);
    // (as good as the parent is not better)
    assert_eq!(x.looked(0, &way(8, &["a"])), Err(ParentError::NoBetter));
    assert_eq!(x.looked(2, &way(0, &["c"])), Err(ParentError::NoBetter));
    assert_eq!(x.looked(0, &way(3, &["x", "a"])), Err(ParentError::Circle));
    assert_eq!(x.looked(3, &way(0, &["d"])), Err(ParentError::Unknown));
    assert_eq!(x.looked(0, &way(7, &["a"])), Ok(()));
    x.took(0, way(6, &["a"]));
    assert_eq!(x.says().cost, 7);
}

#[test]
fn nobody_moves_while_the_root_is_away() {
    let mut x = agent(2);
    x.took(0, way(1, &["r", "a"]));
    assert_eq!(x.hears(way(NONE, &["a"])), Ok(()));
    for _ in 0..3 {
        assert_eq!(x.looked(1, &way(NONE, &["b"])), Err(ParentError::NoRoot));
        assert_eq!(x.looked(1, &way(NONE - 9, &["b"])), Err(ParentError::NoRoot), "128 is none");
    }
    // (once one has a root, it is taken at once)
    assert_eq!(x.looked(1, &way(NONE - 10, &["b"])), Ok(()));
}

#[test]
fn who_has_no_parent_takes_one_without_a_root_only_where_no_circle_comes_of_it() {
    let lost = way(NONE, &["a"]);
    assert_eq!(agent(2).looked(0, &lost), Err(ParentError::NoRoot), "several, and children");
    assert_eq!(agent(1).looked(0, &lost), Ok(()), "one alone");
    assert_eq!(agent(1).looked(0, &way(1, &["x", "a"])), Err(ParentError::Circle));
    let mut leaf = Parents::new("x", [None, None]);
    assert_eq!(leaf.looked(1, &way(3, &["r", "b"])), Ok(()));
    assert_eq!(leaf.looked(0, &lost), Ok(()));
    leaf.took(0, lost.clone());
    assert_eq!(leaf.looked(1, &lost), Err(ParentError::NoRoot), "it stays");
}

#[test]
fn nobody_looks_where_nothing_could_be_better() {
    let mut x = agent(3);
    let looks = |x: &Parents| [0, 1, 2].map(|at| x.looks_at(at, false));
    assert_eq!(looks(&x), [false; 3], "without a parent they are called in turn");
    x.took(0, way(7, &["a"]));
    assert_eq!(looks(&x), [false; 3]);
    x.took(0, way(9, &["a"]));
    assert_eq!(looks(&x), [false, true, false]);
    x.took(2, way(0, &["c"]));
    assert_eq!(looks(&x), [true, true, false]);
    // (one that spoke version 1 may have become another one)
    assert!(x.looks_at(2, true));
}

#[test]
fn a_parent_of_version_1_counts_as_a_root_where_it_is_the_first_or_nobody_is_below() {
    let leaf = Parents::new("x", [None, None]);
    let cost = |x: &Parents| [x.old(0).cost, x.old(1).cost];
    assert_eq!(cost(&agent(2)), [0, NONE]);
    assert_eq!(cost(&leaf), [0, 0]);
}

/// An agent of a drawn net: its candidates, and the ways of its parent that are under way to it.
struct Agent {
    parents: Parents,
    candidates: Vec<usize>,
    is_connected: bool,
    queue: VecDeque<Way>,
}

/// Agents, the first of which is a root.
struct Net(Vec<Agent>, Random);

impl Net {
    /// A drawn net in a drawn state.
    fn new(seed: u64) -> Net {
        let mut random = Random(seed * 2 + 1);
        let count = 3 + random.below(14);
        let mut agents: Vec<Agent> = Vec::new();
        for at in 0..count {
            let mut candidates: Vec<usize> = Vec::new();
            // (an agent without parents is a root)
            for _ in 0..if at == 0 { 0 } else { 1 + random.below(4) } {
                let other = (at + 1 + random.below(count - 1)) % count;
                if !candidates.contains(&other) {
                    candidates.push(other);
                }
            }
            let prices: Vec<Option<u16>> = candidates
                .iter()
                .map(|_| (random.below(5) == 0).then(|| random.below(20) as u16))
                .collect();
            let parents = Parents::new(&format!("n{at}"), prices).with_children();
            let (is_connected, queue) = (false, VecDeque::new());
            agents.push(Agent { parents, candidates, is_connected, queue });
        }
        let mut net = Net(agents, random);
        for at in 1..count {
            let candidates = net.0[at].candidates.len();
            for _ in 0..net.1.below(4) * candidates {
                let (place, any) = (net.1.below(candidates), net.any());
                let _ = net.0[at].parents.looked(place, &any);
            }
            if candidates > 0 && net.1.below(4) > 0 {
                let (place, any) = (net.1.below(candidates), net.any());
                net.0[at].parents.took(place, any);
                net.0[at].is_connected = true;
                net.0[at].queue = (0..net.1.below(4)).map(|_| net.any()).collect();
            }
        }
        net
    }

    /// What somebody may have said at any time.
    fn any(&mut self) -> Way {
        let bound = [4, usize::from(CIRCLE)][self.1.below(2)];
        let names = (0..self.1.below(5)).map(|_| format!("n{}", self.1.below(self.0.len())));
        let names = names.collect();
        Way { cost: self.1.below(bound) as u16, names }
    }

    fn parent(&self, at: usize) -> Option<usize> {
        let agent = &self.0[at];
        let candidate = agent.candidates.get(agent.parents.at()).copied();
        candidate.filter(|_| agent.is_connected)
    }

    /// Who has this parent is told what it says.
    fn tell(&mut self, above: usize) {
        let says = self.0[above].parents.says().clone();
        for at in 0..self.0.len() {
            if self.parent(at) == Some(above) {
                self.0[at].queue.push_back(says.clone());
            }
        }
    }

    fn leave(&mut self, at: usize) {
        let place = self.0[at].parents.at();
        self.0[at].parents.tries(place);
        self.0[at].is_connected = false;
        self.0[at].queue.clear();
    }

    fn hear(&mut self, at: usize) {
        if let Some(way) = self.0[at].queue.pop_front() {
            if self.0[at].parents.hears(way).is_err() {
                self.leave(at);
            }
            if self.0[at].parents.has_news() {
                self.tell(at);
            }
        }
    }

    /// Whether the parent is another one then.
    fn look(&mut self, at: usize, place: usize, is_away: bool) -> bool {
        let (there, is_connected) = (self.0[at].candidates[place], self.0[at].is_connected);
        if (is_away && there == 0) || (is_connected && !self.0[at].parents.looks_at(place, false)) {
            return false;
        }
        let says = self.0[there].parents.says().clone();
        let agent = &mut self.0[at];
        let moves = agent.parents.looked(place, &says).is_ok();
        if moves {
            agent.parents.took(place, says.clone());
            agent.is_connected = true;
            agent.queue = VecDeque::from([says]);
            self.tell(at);
        }
        moves
    }

    /// In any order, each hears all that was under way to it, says its way again, and looks at each
    /// candidate: how many moved.
    fn round(&mut self, is_away: bool) -> usize {
        let mut acts: Vec<(usize, usize)> = Vec::new();
        for at in usize::from(is_away)..self.0.len() {
            let candidates = self.0[at].candidates.len();
            acts.extend((0..candidates + 1 + self.0[at].queue.len()).map(|act| (at, act)));
            if is_away && self.parent(at) == Some(0) {
                self.leave(at);
                self.tell(at);
            }
        }
        for last in (1..acts.len()).rev() {
            acts.swap(last, self.1.below(last + 1));
        }
        let mut moves = 0;
        for (at, act) in acts {
            let candidates = self.0[at].candidates.len();
            match act {
                act if act < candidates => moves += usize::from(self.look(at, act, is_away)),
                act if act == candidates => self.tell(at),
                _ => self.hear(at),
            }
        }
        moves
    }

    /// The least cost of each by the definition, if the root is there.
    fn least(&self) -> Vec<u16> {
        let mut least = vec![NONE; self.0.len()];
        least[0] = 0;
        for _ in 0..self.0.len() {
            for at in 1..self.0.len() {
                for (place, there) in self.0[at].candidates.iter().enumerate() {
                    let mut over = self.0[at].parents.clone();
                    over.took(place, way(least[*there], &[]));
                    least[at] = least[at].min(over.says().cost);
                }
            }
        }
        least
    }

    /// Whether each that can have a way to the root has one of least cost, and no parents make a
    /// circle.
    fn is_right(&self, least: &[u16]) -> bool {
        let ends = |at: usize| {
            let mut above = Some(at);
            for _ in 0..=self.0.len() {
                above = above.and_then(|at| self.parent(at));
            }
            above.is_none()
        };
        let costs = |at: usize| {
            let cost = self.0[at].parents.says().cost;
            cost == least[at] || (least[at] == NONE && cost >= NONE)
        };
        (0..self.0.len()).all(|at| ends(at) && costs(at))
    }
}

#[test]
fn drawn_nets_become_trees_of_least_cost_from_any_state() {
    let (mut most, mut moved_most) = (0, 0);
    for seed in 1..=400 {
        let mut net = Net::new(seed);
        let least = net.least();
        let bound = 2 * net.0.len() + 8;
        let settles = |net: &mut Net| {
            let rounds = (0..bound).find(|_| {
                net.round(false);
                net.is_right(&least)
            });
            rounds.unwrap_or_else(|| {
                for (at, it) in net.0.iter().enumerate() {
                    eprintln!(
                        "n{at} of {:?} at {:?} {} says {:?}, least {}",
                        it.candidates,
                        net.parent(at),
                        it.is_connected,
                        it.parents.says(),
                        least[at]
                    );
                }
                panic!("net {seed} is no tree after {bound} rounds")
            })
        };
        most = most.max(settles(&mut net));
        // (what is said twice is heard twice, and then nothing moves any more)
        let _ = (0..6).map(|_| net.round(false)).sum::<usize>();
        assert_eq!((0..12).map(|_| net.round(false)).sum::<usize>(), 0, "net {seed} moves");
        assert!(net.is_right(&least), "net {seed}");
        // (while the root is away, who has lost it says so, and then nobody moves)
        let _ = (0..bound).map(|_| net.round(true)).sum::<usize>();
        let moved: usize = (0..12).map(|_| net.round(true)).sum();
        moved_most = moved_most.max(moved);
        let has_way = |at: usize| net.0[at].parents.says().cost < NONE;
        assert!(!(1..net.0.len()).any(has_way), "net {seed} has ways without a root");
        most = most.max(settles(&mut net));
    }
    assert_eq!(moved_most, 0, "moves while the root is away");
    eprintln!("{most} rounds at most");
}
