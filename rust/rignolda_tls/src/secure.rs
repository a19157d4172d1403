//! TLS over a socket: its handshake, of which [other threads](crate::Handshakes) do each step, and
//! then its bytes.
use crate::certificate::{names, reason, unix_time, unverified};
use crate::handshakes::{Job, Step};
use openssl::ssl::{Error, ErrorCode, SslRef, SslStream};
use rignolda_machine::net::{Origin, Shown};
use socket2::Socket;
use std::io::{self, ErrorKind, Read, Write};
use std::net::Shutdown;
use std::sync::mpsc::{self, TryRecvError};
use std::sync::Arc;
use std::time::Duration;
use std::{fmt, mem};

/// The most bytes of the other end's handshake: a few certificates, each of which takes time. With
/// what OpenSSL keeps, a connection without a hello has some 60 KiB, and 64 of them have 4 MiB.
const HANDSHAKE_BYTES: usize = 16 << 10;
/// The most bytes that may come without any data after it: a record of data has fewer. (A stream of
/// messages of TLS itself, as for new keys, would never let go of the loop.)
const IDLE_BYTES: usize = 20 << 10;
/// How many of these each record of data may bring again, besides its own.
const RECORD_BYTES: usize = 64;
/// What the other end's refusal begins with.
const REFUSES: &str = "the other end refuses this one";

pub(crate) const READ: usize = 0;
pub(crate) const WRITE: usize = 1;

pub(crate) type Stream = SslStream<Bounded>;

/// A socket of which no more is read than this, until data came.
#[derive(Debug)]
pub(crate) struct Bounded {
    pub(crate) socket: Arc<Socket>,
    left: usize,
}

impl Bounded {
    /// A socket of which the bytes of a handshake are read.
    pub(crate) fn new(socket: Arc<Socket>) -> Bounded {
        Bounded { socket, left: HANDSHAKE_BYTES }
    }
}

impl Read for Bounded {
    fn read(&mut self, to: &mut [u8]) -> io::Result<usize> {
        let most = self.left.min(to.len());
        if most == 0 && !to.is_empty() {
            return Err(io::Error::new(ErrorKind::InvalidData, "it sends too much without data"));
        }
        let count = (&*self.socket).read(&mut to[..most])?;
        self.left -= count;
        Ok(count)
    }
}

impl Write for Bounded {
    fn write(&mut self, from: &[u8]) -> io::Result<usize> {
        (&*self.socket).write(from)
    }

    fn flush(&mut self) -> io::Result<()> {
        Ok(())
    }
}

/// What came of a step of a handshake.
#[derive(Debug)]
pub(crate) enum Outcome {
    /// It is done, and of the certificates of the two ends, and of the authorities above the other
    /// end's, the first expires then: in seconds since 1970.
    Up(i64),
    /// It waits until something came, or until something can be written.
    Reads,
    Writes,
    /// It failed for this.
    Failed(String),
}

/// How far TLS is.
enum Stage {
    /// The handshake waits for the other end.
    Waits(Stream),
    /// A thread does a step of it, or will.
    Away(mpsc::Receiver<Step>),
    /// It is done.
    Up(Stream),
    /// It failed for this.
    Over(String),
}

/// TLS, and what its last act waited for.
pub struct Secure {
    pub(crate) socket: Arc<Socket>,
    stage: Stage,
    number: u64,
    origin: Origin,
    is_called: bool,
    /// Who has steps done; where nobody is there, they are done at once.
    asks: Option<mpsc::Sender<Job>>,
    /// How much of a processor's time the handshake took.
    spent: Duration,
    /// Whether it has begun, and whether something came while a thread had it.
    has_begun: bool,
    has_more: bool,
    expires: i64,
    /// Whether the last read, and the last write, wait until the line can be written.
    waits: [bool; 2],
}

impl fmt::Debug for Secure {
    fn fmt(&self, to: &mut fmt::Formatter<'_>) -> fmt::Result {
        let mut shown = to.debug_struct("Secure");
        shown.field("socket", &self.socket).field("number", &self.number);
        shown.field("shown", &self.shown()).finish_non_exhaustive()
    }
}

impl Secure {
    /// TLS whose handshake has not begun.
    pub(crate) fn new(
        stream: Stream,
        origin: Origin,
        is_called: bool,
        asks: Option<mpsc::Sender<Job>>,
    ) -> Secure {
        Secure {
            socket: stream.get_ref().socket.clone(),
            stage: Stage::Waits(stream),
            number: 0,
            origin,
            is_called,
            asks,
            spent: Duration::ZERO,
            has_begun: false,
            has_more: false,
            expires: i64::MAX,
            waits: [false; 2],
        }
    }

    pub(crate) fn is_numbered(&mut self, number: u64) {
        self.number = number;
    }

    pub(crate) fn origin(&self) -> Origin {
        self.origin
    }

    pub(crate) fn expires(&self) -> i64 {
        self.expires
    }

    pub(crate) fn waits_to_write(&self) -> bool {
        self.waits != [false; 2]
    }

    /// How much the other end has shown of who it is.
    pub(crate) fn shown(&self) -> Shown {
        match &self.stage {
            Stage::Waits(it) if it.get_ref().left == HANDSHAKE_BYTES => Shown::Nothing,
            Stage::Up(_) => Shown::Certificate,
            _ => Shown::Something,
        }
    }

    /// What is known once the other end's certificate was verified.
    pub(crate) fn verified(&self) -> Option<&SslRef> {
        match &self.stage {
            Stage::Up(stream) => Some(stream.ssl()),
            _ => None,
        }
    }

    /// The names of the other end's certificate, once it was verified.
    pub(crate) fn names(&self) -> Option<Vec<String>> {
        self.verified()?.peer_certificate().map(|it| names(&it))
    }

    /// Goes on with the handshake, and then does an act.
    pub(crate) fn act(
        &mut self,
        which: usize,
        act: impl FnOnce(&mut Stream) -> Result<usize, Error>,
    ) -> io::Result<usize> {
        self.greet(which);
        let stream = match &mut self.stage {
            Stage::Up(stream) => stream,
            Stage::Over(why) => return Err(io::Error::new(ErrorKind::InvalidData, why.clone())),
            Stage::Waits(_) | Stage::Away(_) => return Err(ErrorKind::WouldBlock.into()),
        };
        let done = act(stream);
        self.waits[which] = false;
        match done {
            Ok(count) => {
                let socket = stream.get_mut();
                if which == READ {
                    socket.left = (socket.left + count + RECORD_BYTES).min(IDLE_BYTES);
                }
                Ok(count)
            }
            Err(e) if e.code() == ErrorCode::WANT_READ => Err(ErrorKind::WouldBlock.into()),
            Err(e) if e.code() == ErrorCode::WANT_WRITE => {
                self.waits[which] = true;
                Err(ErrorKind::WouldBlock.into())
            }
            Err(e) if e.code() == ErrorCode::ZERO_RETURN => Err(ErrorKind::UnexpectedEof.into()),
            Err(e) => Err(io::Error::new(ErrorKind::InvalidData, failed(stream, &e, which))),
        }
    }

    /// Takes up what came of the last step of the handshake, and asks for the next one where there
    /// may be something to do for it.
    fn greet(&mut self, which: usize) {
        let mut is_next = !self.has_begun || which == READ || self.asks.is_none();
        if let Stage::Away(back) = &self.stage {
            match back.try_recv() {
                Ok(step) => self.takes(step),
                Err(TryRecvError::Disconnected) => self.stage = Stage::Over(NO_THREAD.into()),
                Err(TryRecvError::Empty) => {
                    self.has_more |= which == READ;
                    return;
                }
            }
            // (what came meanwhile is told once)
            is_next = mem::take(&mut self.has_more);
        }
        if is_next && matches!(self.stage, Stage::Waits(_)) {
            self.hand_over();
        }
    }

    /// Has the next step of the handshake done.
    fn hand_over(&mut self) {
        let (back, step) = mpsc::channel();
        let Stage::Waits(mut stream) = mem::replace(&mut self.stage, Stage::Away(step)) else {
            return;
        };
        self.has_begun = true;
        let Secure { number, origin, is_called, spent, .. } = *self;
        let Some(asks) = &self.asks else {
            let outcome = outcome(&mut stream);
            return self.takes(Step { stream, spent, outcome });
        };
        // (where nobody is there any more, it is learnt from the way back)
        let _ = asks.send(Job { stream, number, origin, is_called, spent, back });
    }

    fn takes(&mut self, Step { mut stream, spent, outcome }: Step) {
        self.spent = spent;
        self.waits = [false, matches!(outcome, Outcome::Writes)];
        self.stage = match outcome {
            Outcome::Reads | Outcome::Writes => Stage::Waits(stream),
            Outcome::Failed(why) => Stage::Over(why),
            Outcome::Up(expires) => {
                self.expires = expires;
                stream.get_mut().left = IDLE_BYTES;
                Stage::Up(stream)
            }
        };
    }
}

/// Why there is no handshake where the system gives no thread.
const NO_THREAD: &str = "no thread can be had for its handshake";

impl Drop for Secure {
    /// The other end sees it closed, also where a thread has its socket still.
    fn drop(&mut self) {
        if let Stage::Away(_) = self.stage {
            let _ = self.socket.shutdown(Shutdown::Both);
        }
    }
}

/// Goes on with a handshake as far as it can.
pub(crate) fn outcome(stream: &mut Stream) -> Outcome {
    match stream.do_handshake() {
        Ok(()) => Outcome::Up(expires(stream.ssl())),
        Err(e) if e.code() == ErrorCode::WANT_READ => Outcome::Reads,
        Err(e) if e.code() == ErrorCode::WANT_WRITE => Outcome::Writes,
        Err(e) => Outcome::Failed(failed(stream, &e, WRITE)),
    }
}

/// When the first certificate expires of the own one, and of those by which the other end's was
/// verified.
fn expires(ssl: &SslRef) -> i64 {
    let own = ssl.certificate().map(|it| unix_time(it.not_after()));
    let chain = ssl.verified_chain().into_iter().flatten();
    let all = own.into_iter().chain(chain.map(|it| unix_time(it.not_after())));
    all.min().unwrap_or(i64::MAX)
}

/// Why an act failed. Where it was refused, the other end has said why before it closed.
fn failed(stream: &mut Stream, error: &Error, which: usize) -> String {
    let own = why(stream, error);
    let said = match which {
        WRITE => stream.ssl_read(&mut [0]).err().map(|it| why(stream, &it)),
        _ => None,
    };
    said.filter(|it| it.starts_with(REFUSES)).unwrap_or(own)
}

/// Why an act failed, in words of an operator.
fn why(stream: &Stream, error: &Error) -> String {
    if let Some(error) = error.io_error() {
        return error.to_string();
    }
    match error.ssl_error().and_then(reason).unwrap_or("unexpected eof while reading") {
        "certificate verify failed" => {
            format!("its certificate {}", unverified(stream.ssl().verify_result()))
        }
        "peer did not return a certificate" => "it has no certificate".into(),
        "wrong version number" | "http request" | "packet length too long" => {
            "what it sends is no TLS".into()
        }
        "unexpected eof while reading" => "it closed the connection".into(),
        reason => match reason.split_once("alert ") {
            Some((_, "unknown ca")) => format!("{REFUSES}: unknown authority"),
            Some((_, "decrypt error")) => {
                format!("{REFUSES}: wrong signature, as of another authority of the same name")
            }
            Some((_, said)) => format!("{REFUSES}: {said}"),
            None => format!("TLS: {reason}"),
        },
    }
}
