// A tree of threads over the bounded channels of Rust's standard library, of capacity one: what one
// would take where nothing is lost. bench/run.py measures it beside `stab run`.
//
//   rustc -O -o bench/build/channels bench/channels.rs
//   bench/build/channels ITEMS PARENT..    of each node but the first, the place of its parent
//
// Each thread keeps what it receives and sends it to each of its children. The status is 0 where
// each has received every item.
use std::process::ExitCode;
use std::sync::mpsc::{Receiver, SyncSender, sync_channel};
use std::thread;

struct Node {
    upper: Option<Receiver<u32>>,
    lower: Vec<SyncSender<u32>>,
}

impl Node {
    fn takes(&self, list: &mut Vec<u32>, item: u32) {
        list.push(item);
        for child in &self.lower {
            child.send(item).expect("a child that receives");
        }
    }

    /// How many items a node receives; the root has them.
    fn works(self, items: u32) -> usize {
        let mut list = Vec::new();
        match &self.upper {
            None => (0..items).for_each(|item| self.takes(&mut list, item)),
            Some(upper) => upper.iter().for_each(|item| self.takes(&mut list, item)),
        }
        list.len()
    }
}

fn main() -> ExitCode {
    let mut words = std::env::args().skip(1).map(|word| word.parse().expect("a number"));
    let items = words.next().expect("a number of items");
    let mut nodes = vec![Node { upper: None, lower: Vec::new() }];
    for parent in words {
        let (lower, upper) = sync_channel(1);
        nodes[parent as usize].lower.push(lower);
        nodes.push(Node { upper: Some(upper), lower: Vec::new() });
    }
    let workers: Vec<_> =
        nodes.into_iter().map(|node| thread::spawn(move || node.works(items))).collect();
    let all = workers.into_iter().all(|it| it.join().is_ok_and(|count| count == items as usize));
    if all { ExitCode::SUCCESS } else { ExitCode::FAILURE }
}
