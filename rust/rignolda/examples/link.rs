//! A link of a [`Sender`], a [`Receiver`] and two bounded queues, which reads jobs from standard
//! input as `tests/library/link.c` says, and prints the same.
use rignolda::{Frame, Params, Receiver, Sender};
use std::collections::VecDeque;
use std::io::{self, Read, Write as _};
use std::str::SplitAsciiWhitespace;

struct Link {
    capacity: usize,
    sender: Sender,
    receiver: Receiver,
    frames: VecDeque<Frame>,
    acks: VecDeque<u16>,
    delivered: Vec<u32>,
    acked: usize,
    closed: bool,
}

/// The next number of the input.
fn number<T: std::str::FromStr>(words: &mut SplitAsciiWhitespace<'_>) -> T {
    words
        .next()
        .and_then(|word| word.parse().ok())
        .expect("a number")
}

/// Puts an entry into a queue, or loses it.
fn put<T>(queue: &mut VecDeque<T>, capacity: usize, entry: T) -> &'static str {
    if queue.len() == capacity {
        return "Lost";
    }
    queue.push_back(entry);
    "Sent"
}

impl Link {
    /// The link at its start.
    fn read(params: Params, words: &mut SplitAsciiWhitespace<'_>) -> Link {
        let sender = Sender::new(params, number(words));
        let receiver = Receiver::new(number(words));
        let mut frames = VecDeque::new();
        for _ in 0..number::<usize>(words) {
            let label = number(words);
            frames.push_back(Frame {
                label,
                item: number(words),
            });
        }
        let acks = (0..number::<usize>(words)).map(|_| number(words)).collect();
        Link {
            capacity: params.capacity().into(),
            sender,
            receiver,
            frames,
            acks,
            delivered: Vec::new(),
            acked: 0,
            closed: false,
        }
    }

    fn receive_frame(&mut self, keep: bool) -> &'static str {
        let front = match self.frames.front() {
            Some(front) => *front,
            None => return "Nothing",
        };
        let fresh = self.receiver.is_fresh(front);
        let item = self.receiver.on_frame(front);
        assert_eq!(item.is_some(), fresh);
        self.delivered.extend(item);
        if !keep {
            self.frames.pop_front();
        }
        if fresh {
            "Fresh"
        } else {
            "Old"
        }
    }

    fn receive_ack(&mut self, keep: bool) -> &'static str {
        let front = match self.acks.front() {
            Some(front) => *front,
            None => return "Nothing",
        };
        let taken = self.sender.on_ack(front);
        self.acked += usize::from(taken);
        if !keep {
            self.acks.pop_front();
        }
        if taken {
            "Acked"
        } else {
            "Ignored"
        }
    }

    /// Makes the event of this letter, and answers its effect.
    fn event(&mut self, letter: &str, words: &mut SplitAsciiWhitespace<'_>) -> &'static str {
        let argument = if "olL".contains(letter) {
            number::<u32>(words)
        } else {
            0
        };
        if self.closed {
            assert!(!self.sender.offer(1) && self.sender.frame().is_none());
            assert!(!self.sender.on_ack(self.sender.label()) && self.receiver.ack().is_none());
            return "Nothing";
        }
        match letter {
            "o" if self.sender.offer(argument) => "Held",
            "f" => match self.sender.frame() {
                Some(frame) => put(&mut self.frames, self.capacity, frame),
                None => "Nothing",
            },
            "r" | "R" => self.receive_frame(letter == "R"),
            "s" => match self.receiver.ack() {
                Some(label) => put(&mut self.acks, self.capacity, label),
                None => "Nothing",
            },
            "a" | "A" => self.receive_ack(letter == "A"),
            "l" if self.frames.remove(argument as usize).is_some() => "Lost",
            "L" if self.acks.remove(argument as usize).is_some() => "Lost",
            "c" => {
                self.sender.close();
                self.receiver.close();
                self.closed = true;
                "Closed"
            }
            _ => "Nothing",
        }
    }

    fn step(&self, effect: &str, delivered_before: usize) -> String {
        let or_dash = |words: Vec<String>| match words.len() {
            0 => "-".to_string(),
            _ => words.join(","),
        };
        let frames = self
            .frames
            .iter()
            .map(|frame| format!("{}={}", frame.label, frame.item));
        let held = self
            .sender
            .held()
            .map_or("-".to_string(), |item| item.to_string());
        let delivered = self.delivered.get(delivered_before);
        format!(
            "{effect} {} {held} {} {} {} {} {}\n",
            self.sender.label(),
            self.acked,
            or_dash(frames.collect()),
            or_dash(self.acks.iter().map(u16::to_string).collect()),
            self.receiver.label(),
            delivered.map_or("-".to_string(), u32::to_string),
        )
    }
}

fn main() -> io::Result<()> {
    let mut input = String::new();
    io::stdin().read_to_string(&mut input)?;
    let mut words = input.split_ascii_whitespace();
    let mut output = io::stdout();
    while let Some(capacity) = words.next() {
        let capacity = capacity.parse().expect("a capacity");
        let params = Params::new(capacity, number(&mut words)).expect("lawful parameters");
        let mut link = Link::read(params, &mut words);
        output.write_all(link.step("-", 0).as_bytes())?;
        for _ in 0..number::<usize>(&mut words) {
            let letter = words.next().expect("a letter");
            let before = link.delivered.len();
            let effect = link.event(letter, &mut words);
            output.write_all(link.step(effect, before).as_bytes())?;
        }
    }
    Ok(())
}
