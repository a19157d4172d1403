//! What one step of an agent asks for at most, by what came and by what there is.
use super::{Broken, Judge};
use rignolda_machine::machine::{Act, Machine};

/// How often one line is sent to and closed, and one other end called, in a step: a parent, too,
/// once as that and once to be looked at.
const SENDS: usize = 1;
/// How often more one is sent to that ends: what waits there goes at once.
const LASTS: usize = 4;
const CLOSES: usize = 1;
const CALLS: usize = 1;
/// How many jobs the disk of a root, that of who may be promoted, and the workers of files and
/// hooks are asked for.
const READS: usize = 3;
const STANDS: usize = 1;
const APPLIES: usize = 5;

impl Judge {
    /// A step of an agent asked for these: so many lines there were before it, or came by it.
    pub fn work(
        &self,
        it: usize,
        machine: &Machine,
        lines: usize,
        acts: &[Act],
    ) -> Result<(), Broken> {
        let ends = machine.config.peers.parents.len() + machine.peers.relay().children().count();
        let count = |is: fn(&Act) -> bool| acts.iter().filter(|it| is(it)).count();
        let closes = count(|it| matches!(it, Act::Close(_)));
        let sends = SENDS * lines + LASTS * (closes + 1);
        let all = [
            ("sends", count(|it| matches!(it, Act::Send(..))), sends),
            ("closes", closes, CLOSES * lines),
            ("calls", count(|it| matches!(it, Act::Call(_))), CALLS * (ends + 1)),
            ("turns of stores", count(|it| matches!(it, Act::Turn(..))), self.stores),
            ("reads", count(|it| matches!(it, Act::Disk(_))), READS),
            ("stands", count(|it| matches!(it, Act::Stand(_))), STANDS),
            ("applies", count(|it| matches!(it, Act::Apply(..))), APPLIES),
            ("checks", count(|it| matches!(it, Act::Check)), 1),
        ];
        let much = all.iter().find(|(_, count, most)| count > most);
        match much.filter(|_| !self.is_spoilt) {
            Some((what, count, most)) => {
                Err(format!("WORK: n{it} asks for {count} {what} in a step, and not {most}"))
            }
            None => Ok(()),
        }
    }
}
