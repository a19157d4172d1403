//! What several of these tests need. Each uses a part of it.
#![allow(dead_code)]
use rignolda_machine::net::{Body, Output};
use std::sync::Arc;

pub mod shell;

/// Drawn numbers that are the same in every run.
pub struct Random(pub u64);

impl Random {
    pub fn number(&mut self) -> u64 {
        self.0 ^= self.0 << 13;
        self.0 ^= self.0 >> 7;
        self.0 ^= self.0 << 17;
        self.0
    }

    pub fn below(&mut self, bound: usize) -> usize {
        (self.number() % bound as u64) as usize
    }
}

/// Who is told what comes.
pub trait Told {
    /// An item came: whether it is a whole table.
    fn item(&mut self, body: &Arc<Body>) -> bool;
    /// What else comes out.
    fn told(&mut self, output: Output);
}

/// What an agent was told. A text that begins with T is a whole table.
#[derive(Default)]
pub struct Said {
    pub items: Vec<String>,
    pub facts: Vec<String>,
}

impl Told for Said {
    fn item(&mut self, body: &Arc<Body>) -> bool {
        let text = String::from_utf8_lossy(&body.bytes).into_owned();
        let is_table = text.starts_with('T');
        self.items.push(text);
        is_table
    }

    fn told(&mut self, output: Output) {
        self.facts.extend(match output {
            Output::Report(child, report) => {
                Some(format!("report of {child} {}", String::from_utf8_lossy(&report)))
            }
            Output::Gone(child) => Some(format!("gone {child}")),
            Output::Fact(fact) => Some(format!("{} {fact}", fact.kind())),
            _ => None,
        });
    }
}
