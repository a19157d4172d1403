//! A connection to a server of Redis: what is sent and read is bounded in bytes and in time.
use std::io::{self, ErrorKind, Read, Write};
use std::net::{TcpStream, ToSocketAddrs};
use std::time::{Duration, Instant};

/// The longest line of an answer, such as an error.
const LINE_BYTES: usize = 4_096;
/// How many bytes are read or written at once at most.
const AT_ONCE: usize = 64 << 10;
/// How many bytes go over the slowest connection in a second at least.
const SLOWEST: u64 = 64 << 10;
const NO_ANSWER: &str = "its answer is none of Redis";

/// What Redis answers to a command.
#[derive(Debug, PartialEq, Eq)]
pub enum Reply {
    Nothing,
    /// That it is done, or will be, in a word or a few.
    Word(Vec<u8>),
    Text(Vec<u8>),
    Number(i64),
    List(Vec<Reply>),
    Error(String),
}

/// The answer that is due to a command: nothing else is read, so no answer has more bytes and parts
/// than this allows, together.
#[derive(Clone, Copy, Debug, PartialEq, Eq)]
pub enum Due {
    /// A word.
    Word,
    /// A text of so many bytes at most.
    Text(usize),
    /// A list of so many words at most.
    Words(usize),
}

/// A connection. What is asked in one turn has to be answered in a time, with more for the bytes
/// that have gone over it: so a server that drips does not hold its caller up.
#[derive(Debug)]
pub struct Connection {
    socket: TcpStream,
    output: Vec<u8>,
    input: Vec<u8>,
    timeout: Duration,
    /// When this turn began, and how many bytes went since.
    began: Instant,
    went: u64,
}

impl Connection {
    /// Opens one. No child process gets its descriptor.
    pub fn open(host: &str, port: u16, timeout: Duration) -> Result<Connection, String> {
        let (began, mut why) = (Instant::now(), "it has no address".to_string());
        for place in (host, port).to_socket_addrs().map_err(|e| e.to_string())? {
            let left = timeout.saturating_sub(began.elapsed()).max(Duration::from_millis(1));
            match TcpStream::connect_timeout(&place, left) {
                Ok(socket) => {
                    socket.set_nodelay(true).map_err(|e| e.to_string())?;
                    let (output, input) = (Vec::new(), Vec::new());
                    return Ok(Connection { socket, output, input, timeout, began, went: 0 });
                }
                Err(error) => why = said(&error),
            }
        }
        Err(why)
    }

    /// A turn begins, and its time.
    pub fn begin(&mut self) {
        (self.began, self.went) = (Instant::now(), 0);
    }

    /// Puts a command behind those that are sent with the next reply that is read.
    pub fn append(&mut self, words: &[&[u8]]) {
        self.output.extend(format!("*{}\r\n", words.len()).into_bytes());
        for word in words {
            self.output.extend(format!("${}\r\n", word.len()).into_bytes());
            self.output.extend_from_slice(word);
            self.output.extend_from_slice(b"\r\n");
        }
    }

    /// Reads the next reply, where it is one that is due, or an error.
    pub fn reply(&mut self, due: Due) -> Result<Reply, String> {
        self.send()?;
        let line = self.line()?;
        let (text, words) = match due {
            Due::Word => (0, 0),
            Due::Text(most) => (most, 0),
            Due::Words(most) => (0, most),
        };
        match (line.first(), number(&line)) {
            (Some(b'*'), Some(count)) if (0..=words as i64).contains(&count) => {
                let all = (0..count).map(|_| self.line().and_then(|line| self.one(line, 0)));
                all.collect::<Result<_, _>>().map(Reply::List)
            }
            (Some(b'*'), Some(0..)) => Err("its answer is too long".into()),
            _ => self.one(line, text),
        }
    }

    /// A reply that is no list of others, and begins with this line: a text has at most so many
    /// bytes.
    fn one(&mut self, line: Vec<u8>, most: usize) -> Result<Reply, String> {
        let text = || line[1..].to_vec();
        match (line.first(), number(&line)) {
            (Some(b'+'), _) => Ok(Reply::Word(text())),
            (Some(b'-'), _) => Ok(Reply::Error(String::from_utf8_lossy(&text()).into_owned())),
            (Some(b':'), Some(number)) => Ok(Reply::Number(number)),
            (Some(b'$' | b'*'), Some(-1)) => Ok(Reply::Nothing),
            (Some(b'$'), Some(length)) if (0..=most as i64).contains(&length) => {
                let length = length as usize;
                while self.input.len() < length + 2 {
                    self.read()?;
                }
                let rest = self.input.split_off(length + 2);
                let mut text = std::mem::replace(&mut self.input, rest);
                text.truncate(length);
                Ok(Reply::Text(text))
            }
            (Some(b'$'), Some(_)) => Err("its answer is too long".into()),
            _ => Err(NO_ANSWER.into()),
        }
    }

    /// The next line, without its end.
    fn line(&mut self) -> Result<Vec<u8>, String> {
        loop {
            let front = &self.input[..self.input.len().min(LINE_BYTES)];
            if let Some(end) = front.windows(2).position(|it| it == b"\r\n") {
                let mut line: Vec<u8> = self.input.drain(..end + 2).collect();
                line.truncate(end);
                return Ok(line);
            }
            if front.len() == LINE_BYTES {
                return Err(NO_ANSWER.into());
            }
            self.read()?;
        }
    }

    fn read(&mut self) -> Result<(), String> {
        let mut space = vec![0; AT_ONCE];
        self.socket.set_read_timeout(Some(self.left()?)).map_err(|e| said(&e))?;
        match self.socket.read(&mut space) {
            Ok(0) => return Err("it closed the connection".into()),
            Ok(count) => {
                self.went += count as u64;
                self.input.extend_from_slice(&space[..count]);
            }
            Err(error) if error.kind() == ErrorKind::Interrupted => (),
            Err(error) => return Err(said(&error)),
        }
        Ok(())
    }

    fn send(&mut self) -> Result<(), String> {
        let output = std::mem::take(&mut self.output);
        let mut sent = 0;
        while sent < output.len() {
            self.socket.set_write_timeout(Some(self.left()?)).map_err(|e| said(&e))?;
            match self.socket.write(&output[sent..output.len().min(sent + AT_ONCE)]) {
                Ok(count) => (sent, self.went) = (sent + count, self.went + count as u64),
                Err(error) if error.kind() == ErrorKind::Interrupted => (),
                Err(error) => return Err(said(&error)),
            }
        }
        Ok(())
    }

    /// How much time is left.
    fn left(&self) -> Result<Duration, String> {
        let more = Duration::from_millis(self.went * 1_000 / SLOWEST);
        let left = (self.timeout + more).checked_sub(self.began.elapsed());
        left.filter(|left| !left.is_zero()).ok_or_else(|| said(&ErrorKind::TimedOut.into()))
    }
}

/// The number of a line behind its first byte.
fn number(line: &[u8]) -> Option<i64> {
    std::str::from_utf8(line.get(1..)?).ok()?.parse().ok()
}

fn said(error: &io::Error) -> String {
    match error.kind() {
        ErrorKind::WouldBlock | ErrorKind::TimedOut => "it does not answer in time".into(),
        _ => format!("it does not answer: {error}"),
    }
}
