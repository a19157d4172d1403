//! Looks at an address as another agent would, by a connection that waits: so an agent sees from
//! outside whether it can be reached, and whether whoever has no certificate is refused.
use crate::certificate::names;
use crate::line::context;
use crate::{Maker, Tls, TlsError};
use openssl::error::ErrorStack;
use openssl::pkey::{PKey, Public};
use openssl::ssl::{
    Error, Ssl, SslContext, SslMethod, SslRef, SslStream, SslVerifyMode, SslVersion,
};
use rignolda_machine::net::wire::{self, Expect, Hello, Message, FIRST, OLD, VERSION};
use rignolda_machine::net::{Address, Way};
use socket2::{Domain, SockAddr, Socket, Type};
use std::collections::BTreeSet;
use std::io::{self, ErrorKind, Read, Write};
use std::net::{IpAddr, Ipv4Addr, Ipv6Addr, SocketAddr, ToSocketAddrs};
use std::os::linux::net::SocketAddrExt;
use std::os::unix::net::UnixStream;
use std::path::Path;
use std::sync::{Arc, Mutex, MutexGuard, PoisonError};
use std::thread;
use std::time::{Duration, Instant};

/// The most bytes that the other end may send.
const BYTES: usize = 32 << 10;
/// EPERM, ENOMEM, EACCES, ENFILE, EMFILE, ENETDOWN, ENETUNREACH, ENOBUFS and EHOSTUNREACH of Linux:
/// nothing is known of the other end.
const LACKS: [i32; 9] = [1, 12, 13, 23, 24, 100, 101, 105, 113];

/// The addresses from which the agent itself connects to its own listeners now: nobody else has one
/// of them meanwhile.
#[derive(Clone, Debug, Default)]
pub struct Own(Arc<Mutex<BTreeSet<Place>>>);

/// Where a socket is. One that has no path is at a name that the system gives it.
#[derive(Clone, Debug, PartialEq, Eq, PartialOrd, Ord)]
enum Place {
    Tcp(SocketAddr),
    Unix(Vec<u8>),
}

impl Own {
    fn all(&self) -> MutexGuard<'_, BTreeSet<Place>> {
        self.0.lock().unwrap_or_else(PoisonError::into_inner)
    }

    /// Whether the other end of this socket is at one of them.
    pub(crate) fn is_other_end_of(&self, socket: &Socket, address: Option<SocketAddr>) -> bool {
        let own = self.all();
        !own.is_empty() && place(socket, address, true).is_some_and(|it| own.contains(&it))
    }
}

/// Where a socket is, or its other end, which has this address of TCP.
fn place(socket: &Socket, address: Option<SocketAddr>, is_other: bool) -> Option<Place> {
    if let Some(it) = address {
        // (one of IPv4 is such a one, also if it is written as one of IPv6)
        return Some(Place::Tcp(SocketAddr::new(it.ip().to_canonical(), it.port())));
    }
    let socket = UnixStream::from(socket.try_clone().ok()?);
    let address = if is_other { socket.peer_addr() } else { socket.local_addr() };
    Some(Place::Unix(address.ok()?.as_abstract_name()?.to_vec()))
}

/// As whom an end is looked at.
#[derive(Clone, Copy, Debug, PartialEq, Eq)]
pub enum By {
    /// By the agent's own certificate, if there is TLS.
    Own,
    /// Without TLS.
    Plain,
    /// By TLS, without a certificate.
    Nameless,
}

/// What a look came to.
#[derive(Clone, Debug, PartialEq, Eq)]
pub enum Looked {
    /// The end answered as an agent of the name that was asked for, and said this way.
    Answered(Way),
    /// It proved that it has the key, and then did not answer, for this.
    Proved(String),
    /// Without TLS, it closed the connection or said something else.
    Closed(String),
    /// It did nothing of that, for this.
    Nothing(String),
    /// It could not be tried: a descriptor or the address is missing, or the end's queue is full.
    NotTried(String),
}

/// Looks at ends for an agent.
#[derive(Debug)]
pub struct Looker {
    name: String,
    /// With the own certificate, and without one.
    tls: Option<[SslContext; 2]>,
    within: Duration,
}

impl Looker {
    /// For an agent of this name. Each look takes at most so long.
    ///
    /// # Errors
    ///
    /// As those of [`Maker::new`](crate::Maker::new).
    pub fn new(name: &str, tls: Option<&Tls>, within: Duration) -> Result<Looker, TlsError> {
        let nameless = || -> Result<_, ErrorStack> {
            let mut context = SslContext::builder(SslMethod::tls())?;
            context.set_min_proto_version(Some(SslVersion::TLS1_2))?;
            Ok(context.build())
        };
        let both = |tls| Ok([context(tls)?, nameless().map_err(|e| e.to_string())?]);
        let tls = tls.map(both).transpose().map_err(TlsError::new)?;
        Ok(Looker { name: name.into(), tls, within })
    }

    /// For an agent of this name, by the very TLS of this maker's lines.
    pub fn of(name: &str, maker: &Maker, within: Duration) -> Looker {
        let tls = maker.secure().map(|it| [it.clone(), it.clone()]);
        Looker { name: name.into(), tls, within }
    }

    /// Whether lines over TCP are by TLS.
    pub fn is_secure(&self) -> bool {
        self.tls.is_some()
    }

    /// Looks at the agent's own listener. That this has the agent's key counts, whatever else its
    /// certificate says.
    pub fn at_own(&self, address: &Address, by: By, own: &Own) -> Looked {
        let Some(place) = places(address).into_iter().next() else {
            return Looked::NotTried("it has no address".into());
        };
        let mut line = match Waits::connect(&place, self.within, Some(own)) {
            Ok(line) => line,
            Err(why) => return why,
        };
        let is_plain = by == By::Plain || place.as_socket().is_none();
        let Some([own, nameless]) = self.tls.as_ref().filter(|_| !is_plain) else {
            return self.plainly(&mut line, &self.name);
        };
        let Ok(mut ssl) = Ssl::new(if by == By::Own { own } else { nameless }) else {
            return Looked::NotTried("there is no room for TLS".into());
        };
        ssl.set_verify_callback(SslVerifyMode::PEER, |_, _| true);
        self.by_tls(line, ssl, |ssl| self.is_own(ssl), &self.name)
    }

    /// Looks at its own TLS, by a line to itself: so it is seen without anybody else whether that
    /// can be used at all. It is reached if it proves its own key.
    pub fn at_itself(&self) -> Looked {
        let not_tried = |e: io::Error| Looked::NotTried(e.to_string());
        let Some([own, _]) = &self.tls else { return Looked::NotTried("it has no TLS".into()) };
        let ends = [Ssl::new(own), Ssl::new(own)];
        let [Ok(mut ssl), Ok(other)] = ends else { return Looked::Nothing("TLS is none".into()) };
        ssl.set_verify_callback(SslVerifyMode::PEER, |_, _| true);
        let (here, there) = match UnixStream::pair() {
            Ok((here, there)) => (Waits::of(here.into(), self.within), there),
            Err(e) => return not_tried(e),
        };
        let accept = || {
            let there = SslStream::new(other, Waits::of(there.into(), self.within));
            let _ = there.map(|mut it| it.accept());
        };
        thread::scope(|scope| match thread::Builder::new().spawn_scoped(scope, accept) {
            Ok(_) => self.by_tls(here, ssl, |ssl| self.is_own(ssl), &self.name),
            Err(e) => not_tried(e),
        })
    }

    /// Whether the other end has the agent's own key.
    fn is_own(&self, ssl: &SslRef) -> bool {
        let key = self.tls.as_ref().and_then(|it| it[0].certificate()?.public_key().ok());
        let is = ssl.peer_certificate().and_then(|it| it.public_key().ok());
        let both = is.as_ref().zip(key.as_ref());
        both.is_some_and(|(is, key): (&PKey<Public>, _)| is.public_eq(key))
    }

    /// Looks at a parent of this name, if it is known, as the agent connects to it: at each place
    /// that its address has, until it answers.
    pub fn at_parent(&self, address: &Address, name: Option<&str>) -> Looked {
        let mut last = Looked::NotTried("it has no address".into());
        for place in places(address) {
            last = self.at_place(&place, name);
            if matches!(last, Looked::Answered(_)) {
                break;
            }
        }
        last
    }

    fn at_place(&self, address: &SockAddr, name: Option<&str>) -> Looked {
        let mut line = match Waits::connect(address, self.within, None) {
            Ok(line) => line,
            Err(why) => return why,
        };
        let to = name.unwrap_or_default();
        let Some([own, _]) = self.tls.as_ref().filter(|_| address.as_socket().is_some()) else {
            return self.plainly(&mut line, to);
        };
        let Ok(ssl) = Ssl::new(own) else {
            return Looked::NotTried("there is no room for TLS".into());
        };
        let has_name = |ssl: &SslRef| {
            let all = ssl.peer_certificate().map(|it| names(&it)).unwrap_or_default();
            name.is_none_or(|name| all.iter().any(|it| it == name))
        };
        self.by_tls(line, ssl, has_name, to)
    }

    /// Looks without TLS at an end of this name.
    fn plainly(&self, line: &mut Waits, to: &str) -> Looked {
        match self.looks(line, to) {
            Ok(way) => Looked::Answered(way),
            Err(why) if line.is_late => Looked::Nothing(why),
            Err(why) => Looked::Closed(why),
        }
    }

    /// Looks by TLS at an end that has to be the one that is meant.
    fn by_tls(&self, line: Waits, ssl: Ssl, is_it: impl Fn(&SslRef) -> bool, to: &str) -> Looked {
        let mut stream = match SslStream::new(ssl, line) {
            Ok(stream) => stream,
            Err(e) => return Looked::NotTried(e.to_string()),
        };
        let done = stream.connect();
        match &done {
            _ if done.is_ok() && !is_it(stream.ssl()) => {
                Looked::Nothing("it has another certificate".into())
            }
            Err(e) if is_refused(stream.ssl(), e) && is_it(stream.ssl()) => Looked::Proved(why(e)),
            Err(e) => Looked::Nothing(why(e)),
            Ok(()) => self.looks(&mut stream, to).map_or_else(Looked::Proved, Looked::Answered),
        }
    }

    /// Says a look, and reads the answer: the way of an agent of this name, or of any if it is
    /// empty.
    fn looks(&self, line: &mut (impl Read + Write), to: &str) -> Result<Way, String> {
        let label = Hello::range(OLD..=VERSION);
        let (from, to) = (self.name.clone(), to.to_owned());
        let hello = Hello { version: FIRST, life: 0, label, from, to };
        line.write_all(&hello.look()).map_err(|e| e.to_string())?;
        let (mut input, mut expect, mut space) = (Vec::new(), Expect::Hello, [0; 4_096]);
        loop {
            match wire::take(&mut input, expect).map_err(|e| e.to_string())? {
                Some(Message::Look(it)) if hello.to.is_empty() || it.from == hello.to => {
                    expect = Expect::Way;
                    continue;
                }
                Some(Message::Way(way)) => return Ok(way),
                Some(_) => return Err("it answers otherwise".into()),
                None => (),
            }
            match line.read(&mut space).map_err(|e| e.to_string())? {
                0 => return Err("it closed the connection".into()),
                count => input.extend_from_slice(&space[..count]),
            }
        }
    }
}

/// Where an address leads to: a name is looked up, which may take long.
fn places(address: &Address) -> Vec<SockAddr> {
    match address {
        Address::Unix(path) => SockAddr::unix(path).into_iter().collect(),
        Address::Tcp(text) => match text.to_socket_addrs() {
            Ok(all) => all.map(SockAddr::from).collect(),
            Err(_) => Vec::new(),
        },
        _ => Vec::new(),
    }
}

/// Why an act of TLS failed, in words of an operator.
fn why(error: &Error) -> String {
    let reason = error.ssl_error().and_then(crate::certificate::reason);
    reason.map_or_else(|| error.to_string(), |it| format!("TLS: {it}"))
}

/// Whether the other end has proved its key, and then refused this end's certificate: by TLS 1.3
/// the handshake is done before it can.
fn is_refused(ssl: &SslRef, error: &Error) -> bool {
    let reason = error.ssl_error().and_then(crate::certificate::reason);
    ssl.version2() == Some(SslVersion::TLS1_2) && reason.is_some_and(|it| it.contains("alert"))
}

/// A connection that waits, but not for long, and reads no more than so many bytes.
#[derive(Debug)]
struct Waits {
    socket: Socket,
    until: Instant,
    left: usize,
    /// Whether something did not come in time.
    is_late: bool,
    own: Option<(Own, Place)>,
}

impl Waits {
    /// A connection that there is.
    fn of(socket: Socket, within: Duration) -> Waits {
        Waits { socket, until: Instant::now() + within, left: BYTES, is_late: false, own: None }
    }

    /// Connects to an address, so that an own one knows it.
    fn connect(to: &SockAddr, within: Duration, own: Option<&Own>) -> Result<Waits, Looked> {
        let domain = to.as_socket().map_or(Domain::UNIX, Domain::for_address);
        let lacks = |e: io::Error| match e.raw_os_error() {
            Some(code) if LACKS.contains(&code) => Looked::NotTried(e.to_string()),
            // (nobody is told so at once: its queue is full)
            _ if matches!(e.kind(), ErrorKind::TimedOut | ErrorKind::WouldBlock) => {
                Looked::NotTried(e.to_string())
            }
            _ => Looked::Nothing(e.to_string()),
        };
        let socket = Socket::new(domain, Type::STREAM, None).map_err(lacks)?;
        let mut waits = Waits::of(socket, within);
        let (mut to, there) = (to, to.as_socket().map(|it| SockAddr::from(here(it))));
        if let Some(own) = own {
            let not_tried = |e: io::Error| Looked::NotTried(e.to_string());
            // (from the address itself: one that went away with its network is not looked at)
            let from = to.as_socket().map(|it| {
                let mut here = here(it);
                here.set_port(0);
                SockAddr::from(here)
            });
            let from = from.map_or_else(|| SockAddr::unix(""), Ok);
            from.and_then(|it| waits.socket.bind(&it)).map_err(not_tried)?;
            let at = waits.socket.local_addr().map_err(not_tried)?.as_socket();
            let at = place(&waits.socket, at, false);
            let at = at.ok_or_else(|| Looked::NotTried("it has no address".into()))?;
            own.all().insert(at.clone());
            waits.own = Some((own.clone(), at));
            to = there.as_ref().unwrap_or(to);
        }
        waits.socket.connect_timeout(to, within).map_err(lacks)?;
        Ok(waits)
    }

    fn left(&self) -> io::Result<Option<Duration>> {
        let left = self.until.saturating_duration_since(Instant::now());
        match left {
            Duration::ZERO => Err(io::Error::new(ErrorKind::TimedOut, "it takes too long")),
            left => Ok(Some(left)),
        }
    }
}

/// An address of this machine at which whoever listens at this one can be reached.
fn here(mut address: SocketAddr) -> SocketAddr {
    match address.ip() {
        IpAddr::V4(it) if it.is_unspecified() => address.set_ip(Ipv4Addr::LOCALHOST.into()),
        IpAddr::V6(it) if it.is_unspecified() => address.set_ip(Ipv6Addr::LOCALHOST.into()),
        _ => (),
    }
    address
}

impl Read for Waits {
    fn read(&mut self, to: &mut [u8]) -> io::Result<usize> {
        let most = self.left.min(to.len());
        if most == 0 && !to.is_empty() {
            return Err(io::Error::new(ErrorKind::InvalidData, "it sends too much"));
        }
        let left = self.left();
        self.is_late = left.is_err();
        self.socket.set_read_timeout(left?)?;
        let read = self.socket.read(&mut to[..most]);
        self.is_late = read.as_ref().is_err_and(|e| e.kind() == ErrorKind::WouldBlock);
        self.left -= *read.as_ref().unwrap_or(&0);
        read
    }
}

impl Write for Waits {
    fn write(&mut self, from: &[u8]) -> io::Result<usize> {
        self.socket.set_write_timeout(self.left()?)?;
        self.socket.write(from)
    }

    fn flush(&mut self) -> io::Result<()> {
        Ok(())
    }
}

impl Drop for Waits {
    fn drop(&mut self) {
        if let Some((own, from)) = &self.own {
            own.all().remove(from);
        }
    }
}

/// Asks whoever listens at a socket of this path, and waits for one line: without its end.
///
/// # Errors
///
/// What the look came to otherwise.
pub fn ask(path: &Path, request: &[u8], within: Duration) -> Result<Vec<u8>, Looked> {
    let nothing = |e: io::Error| Looked::Nothing(e.to_string());
    let mut line = Waits::connect(&SockAddr::unix(path).map_err(nothing)?, within, None)?;
    line.write_all(request).map_err(nothing)?;
    let (mut answer, mut space) = (Vec::new(), [0; 1_024]);
    loop {
        if let Some(end) = answer.iter().position(|it| *it == b'\n') {
            answer.truncate(end);
            return Ok(answer);
        }
        match line.read(&mut space).map_err(nothing)? {
            0 => return Err(Looked::Nothing("it closed the connection".into())),
            count => answer.extend_from_slice(&space[..count]),
        }
    }
}
