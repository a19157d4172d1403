//! A connection that never makes its caller wait: TCP, a Unix socket, or TLS over TCP.
use crate::certificate::{
    distrusted, has_revoked, names, private_key, read, reason, unix_time, REVOKED,
};
use crate::handshakes::Job;
use crate::reach::Own;
use crate::secure::{Bounded, READ, WRITE};
use crate::serve;
use crate::{Handshakes, Listener, Secure, Tls};
use openssl::error::ErrorStack;
use openssl::sha::Sha256;
use openssl::ssl::{
    Ssl, SslContext, SslMethod, SslMode, SslOptions, SslSessionCacheMode, SslStream, SslVerifyMode,
    SslVersion,
};
use openssl::x509::X509Ref;
use rignolda_machine::net::{is_name, End, Origin, Shown};
use socket2::{Domain, SockAddr, Socket, TcpKeepalive, Type};
use std::fmt;
use std::io::{self, IoSlice, Read, Write};
use std::os::unix::io::{AsRawFd, RawFd};
use std::path::Path;
use std::sync::{mpsc, Arc};
use std::time::Duration;

/// A connection: plain, or by TLS.
#[derive(Debug)]
pub enum Line {
    Plain(Socket, Origin),
    Tls(Box<Secure>),
}

/// How many names of a certificate are said at most.
const NAMES: usize = 3;

/// Why no lines can be made by the files of a [`Tls`].
#[derive(Clone, Debug, PartialEq, Eq)]
pub struct TlsError(String);

impl TlsError {
    pub(crate) fn new(why: String) -> TlsError {
        TlsError(why)
    }
}

impl fmt::Display for TlsError {
    fn fmt(&self, to: &mut fmt::Formatter<'_>) -> fmt::Result {
        to.write_str(&self.0)
    }
}

impl std::error::Error for TlsError {}

/// How lines are made: with which certificates, and when a silent machine counts as gone.
#[derive(Debug)]
pub struct Maker {
    tls: Option<SslContext>,
    /// The same once more, as a [word](PLAIN): so that no fault of the memory turns TLS off.
    is: u64,
    /// What the files have that it was made of, as a SHA-256.
    files: [u8; 32],
    timeout: Duration,
    asks: Option<mpsc::Sender<Job>>,
    own: Own,
}

/// Whether lines over TCP are plain, or by TLS: in each bit these are different.
const PLAIN: u64 = 0x5ca1_ab1e_0ddb_a11d;
const SECURE: u64 = !PLAIN;
/// Why no line is made where the two say different things.
const SPOILED: &str = "whether it uses TLS is not known";

impl Maker {
    /// Reads the certificates. `timeout` is how long sent bytes may stay without an answer of the
    /// other machine.
    pub fn new(tls: Option<&Tls>, timeout: Duration) -> Result<Maker, TlsError> {
        let context = tls.map(context).transpose().map_err(TlsError)?;
        let (files, is) =
            (digest(tls).map_err(TlsError)?, if tls.is_some() { SECURE } else { PLAIN });
        let tls = context;
        Ok(Maker { tls, is, files, timeout, asks: None, own: Own::default() })
    }

    /// The same made anew, by files that have what they had when it was made; nothing where they
    /// have something else, since whoever put it there says when it counts.
    ///
    /// # Errors
    ///
    /// As those of [`Maker::new`].
    pub fn renewed(&self, tls: Option<&Tls>) -> Result<Option<Maker>, TlsError> {
        let new = Maker::new(tls, self.timeout)?;
        let new = Maker { asks: self.asks.clone(), own: self.own.clone(), ..new };
        Ok(Some(new).filter(|new| new.files == self.files))
    }

    /// What it makes plain or by TLS, where that is to be so: else it makes no lines.
    fn context(&self) -> io::Result<Option<&SslContext>> {
        match (&self.tls, self.is) {
            (Some(context), SECURE) => Ok(Some(context)),
            (None, PLAIN) => Ok(None),
            _ => Err(io::Error::other(SPOILED)),
        }
    }

    /// How its lines are secured, if they are.
    pub(crate) fn secure(&self) -> Option<&SslContext> {
        self.context().ok()?
    }

    /// What cannot be, where something cannot: whether it is to make lines by TLS is said.
    pub fn fault(&self, is_secure: bool) -> Option<&'static str> {
        let is_so = self.context().is_ok_and(|it| it.is_some() == is_secure);
        (!is_so).then_some(SPOILED)
    }

    /// The same, by which connections of the agent [itself](Origin::Own) are known.
    #[must_use]
    pub fn with_own(self, own: &Own) -> Maker {
        Maker { own: own.clone(), ..self }
    }

    /// The same, whose lines have their handshakes done there; else whoever reads or writes a line
    /// does its handshake.
    #[must_use]
    pub fn with_handshakes(self, handshakes: &Handshakes) -> Maker {
        Maker { asks: Some(handshakes.asks()), ..self }
    }

    /// By what connections of the agent itself are known.
    pub fn own(&self) -> &Own {
        &self.own
    }

    /// How long sent bytes may stay without an answer.
    pub fn timeout(&self) -> Duration {
        self.timeout
    }

    /// Begins a connection. Whether it stands is seen when it is read or written.
    pub fn connect(&self, address: &SockAddr) -> io::Result<Line> {
        let domain = address.as_socket().map_or(Domain::UNIX, Domain::for_address);
        let socket = Socket::new(domain, Type::STREAM, None)?;
        socket.set_nonblocking(true)?;
        match socket.connect(address) {
            // EINPROGRESS, which is 115 on Linux
            Err(e) if e.raw_os_error() != Some(115) => return Err(e),
            _ => (),
        }
        let origin = address.as_socket().map_or(Origin::Here, Origin::Called);
        self.line(socket, origin, domain == Domain::UNIX, true)
    }

    /// Takes the next connection of a listener.
    pub fn accept(&self, listener: &Listener) -> io::Result<Line> {
        let socket = serve::Listener::accept(listener)?;
        let address = socket.peer_addr().ok().and_then(|it| it.as_socket());
        let origin = match address {
            _ if self.own.is_other_end_of(&socket, address) => Origin::Own,
            Some(it) => it.ip().into(),
            None => Origin::Here,
        };
        // (of the socket itself: what is remembered of its listener may be spoiled)
        let is_unix = socket.domain()? == Domain::UNIX;
        self.line(socket, origin, is_unix, false)
    }

    /// A line of a socket. By TLS it is told which end it is.
    fn line(
        &self,
        socket: Socket,
        origin: Origin,
        is_unix: bool,
        is_called: bool,
    ) -> io::Result<Line> {
        if is_unix {
            return Ok(Line::Plain(socket, origin));
        }
        socket.set_nodelay(true)?;
        let part = (self.timeout / 4).max(Duration::from_secs(1));
        let alive = TcpKeepalive::new().with_time(part).with_interval(part).with_retries(3);
        socket.set_tcp_keepalive(&alive)?;
        socket.set_tcp_user_timeout(Some(self.timeout))?;
        let Some(context) = self.context()? else { return Ok(Line::Plain(socket, origin)) };
        let mut ssl = Ssl::new(context)?;
        // (whatever the context has become)
        ssl.set_verify(VERIFIES);
        match is_called {
            true => ssl.set_connect_state(),
            false => ssl.set_accept_state(),
        }
        let stream = SslStream::new(ssl, Bounded::new(Arc::new(socket)))?;
        Ok(Line::Tls(Box::new(Secure::new(stream, origin, is_called, self.asks.clone()))))
    }

    /// The names of the agent's own certificate, where there is TLS.
    pub fn names(&self) -> Option<Vec<String>> {
        self.certificate().map(names)
    }

    /// When the agent's own certificate expires, in seconds since 1970, where there is TLS.
    pub fn expires(&self) -> Option<i64> {
        self.certificate().map(|it| unix_time(it.not_after()))
    }

    fn certificate(&self) -> Option<&X509Ref> {
        self.tls.as_ref()?.certificate()
    }
}

/// Whoever has no certificate, or none of the authority, is refused.
const VERIFIES: SslVerifyMode = SslVerifyMode::from_bits_truncate(
    SslVerifyMode::PEER.bits() | SslVerifyMode::FAIL_IF_NO_PEER_CERT.bits(),
);

/// What the files have, as a SHA-256: each one's length in 8 bytes, and its bytes.
fn digest(tls: Option<&Tls>) -> Result<[u8; 32], String> {
    let mut sha = Sha256::new();
    for (_, path) in tls.iter().flat_map(|it| it.files()) {
        let bytes = read(path)?;
        sha.update(&(bytes.len() as u64).to_be_bytes());
        sha.update(&bytes);
    }
    Ok(sha.finish())
}

pub(crate) fn context(tls: &Tls) -> Result<SslContext, String> {
    let with = |path: &Path| {
        let path = format!("{}: ", path.display());
        move |e: ErrorStack| path + reason(&e).unwrap_or("nothing in it can be used")
    };
    let make = || -> Result<_, ErrorStack> {
        let mut context = SslContext::builder(SslMethod::tls())?;
        context.set_min_proto_version(Some(SslVersion::TLS1_2))?;
        // (the groups of finite fields cost whoever accepts a hundred times as much)
        context.set_groups_list("X25519:P-256")?;
        context.set_cipher_list("ECDHE+AESGCM:ECDHE+CHACHA20")?;
        // (an authority, and at most two below it)
        context.set_verify_depth(3);
        context.set_options(SslOptions::NO_TICKET | SslOptions::NO_RENEGOTIATION);
        context.set_mode(
            SslMode::ENABLE_PARTIAL_WRITE
                | SslMode::ACCEPT_MOVING_WRITE_BUFFER
                | SslMode::RELEASE_BUFFERS,
        );
        context.set_session_cache_mode(SslSessionCacheMode::OFF);
        context.set_session_id_context(b"rignolda")?;
        context.set_verify(VERIFIES);
        Ok(context)
    };
    let mut context = make().map_err(|e| e.to_string())?;
    if has_revoked(&read(&tls.authority)?) {
        return Err(format!("{}: {REVOKED}", tls.authority.display()));
    }
    read(&tls.certificate)?;
    context.set_ca_file(&tls.authority).map_err(with(&tls.authority))?;
    context.set_certificate_chain_file(&tls.certificate).map_err(with(&tls.certificate))?;
    let key = private_key(&read(&tls.key)?).map_err(with(&tls.key))?;
    let done = context.set_private_key(&key).and_then(|()| context.check_private_key());
    done.map_err(with(&tls.key))?;
    Ok(context.build())
}

impl AsRawFd for Line {
    fn as_raw_fd(&self) -> RawFd {
        self.socket().as_raw_fd()
    }
}

impl Line {
    /// What is known of the other end.
    pub fn end(&self) -> End {
        let (origin, names) = match self {
            Line::Plain(_, origin) => (*origin, None),
            Line::Tls(secure) => (secure.origin(), Some(secure.names().unwrap_or_default())),
        };
        End { place: self.place(origin), origin, shown: self.shown(), names }
    }

    /// How much the other end has shown: by TLS its certificate, once it was verified.
    pub fn shown(&self) -> Shown {
        match self {
            Line::Plain(..) => Shown::Nothing,
            Line::Tls(secure) => secure.shown(),
        }
    }

    /// Whether a read that does not fill its room has taken all that there was, and what is written
    /// by one call goes together. (By TLS, a record comes in parts, and what is left of one is not
    /// the socket's any more.)
    pub fn is_socket(&self) -> bool {
        matches!(self, Line::Plain(..))
    }

    /// It has this number from now on, by which it is known once a step of its handshake ended.
    pub fn is_numbered(&mut self, number: u64) {
        if let Line::Tls(secure) = self {
            secure.is_numbered(number);
        }
    }

    /// Where the other end is, and who, as far as that is known.
    fn place(&self, origin: Origin) -> String {
        let address = match (origin, self.socket().peer_addr().map(|it| it.as_socket())) {
            // (it may not be connected yet)
            (Origin::Called(address), _) | (_, Ok(Some(address))) => address.to_string(),
            (_, Ok(None)) => "a local socket".into(),
            // (the other end has gone already)
            (_, Err(_)) => "an address that is not known any more".into(),
        };
        let Line::Tls(secure) = self else { return address };
        let Some(mut all) = secure.names() else { return address };
        // (whatever a certificate has, the journal gets little of it, and names alone)
        all.retain(|it| is_name(it));
        all.truncate(NAMES);
        match all.is_empty() {
            true => format!("{address}, whose certificate has no name of an agent"),
            false => format!("{address}, by its certificate {}", all.join(" or ")),
        }
    }

    fn socket(&self) -> &Socket {
        match self {
            Line::Plain(socket, _) => socket,
            Line::Tls(secure) => &secure.socket,
        }
    }

    /// When it has to be left, since the certificate of one of its ends has expired then: in
    /// seconds since 1970.
    pub fn expires(&self) -> i64 {
        match self {
            Line::Tls(secure) => secure.expires(),
            _ => i64::MAX,
        }
    }

    /// Whether it would be made by this maker too, as after its files were read again: by TLS its
    /// certificate has to be of the authorities of now.
    ///
    /// # Errors
    ///
    /// Why it would not be.
    pub fn holds(&self, maker: &Maker) -> Result<(), String> {
        match (self, &maker.tls) {
            (Line::Tls(secure), Some(context)) => match secure.verified() {
                Some(ssl) => distrusted(ssl, context.cert_store()),
                None => Err("the certificates were read again".into()),
            },
            _ => Ok(()),
        }
    }

    /// Whether to wait until the line can be written, where it has something to write or not.
    pub fn wants_write(&self, has_output: bool) -> bool {
        match self {
            Line::Tls(secure) => secure.waits_to_write(),
            _ => has_output,
        }
    }
}

impl Read for Line {
    fn read(&mut self, to: &mut [u8]) -> io::Result<usize> {
        match self {
            Line::Plain(socket, _) => socket.read(to),
            Line::Tls(secure) => secure.act(READ, |stream| stream.ssl_read(to)),
        }
    }
}

impl Write for Line {
    fn write(&mut self, from: &[u8]) -> io::Result<usize> {
        match self {
            Line::Plain(socket, _) => socket.write(from),
            Line::Tls(secure) => secure.act(WRITE, |stream| stream.ssl_write(from)),
        }
    }

    fn write_vectored(&mut self, from: &[IoSlice<'_>]) -> io::Result<usize> {
        match self {
            Line::Plain(socket, _) => socket.write_vectored(from),
            Line::Tls(_) => {
                self.write(from.iter().find(|it| !it.is_empty()).map_or(&[], |it| &**it))
            }
        }
    }

    fn flush(&mut self) -> io::Result<()> {
        Ok(())
    }
}

#[cfg(test)]
mod tests {
    use super::*;

    /// By a fault of the memory; else each maker knows which one it is.
    #[test]
    fn no_bit_turns_tls_off() {
        let timeout = Duration::from_secs(9);
        let address = SockAddr::from(std::net::SocketAddr::from(([127, 0, 0, 1], 9)));
        let context = || SslContext::builder(SslMethod::tls()).unwrap().build();
        for is_secure in [false, true] {
            let maker = |is, has_one: bool| {
                let plain = Maker::new(None, timeout).unwrap();
                Maker { tls: has_one.then(context), is, ..plain }
            };
            let is = if is_secure { SECURE } else { PLAIN };
            assert_eq!(maker(is, is_secure).fault(is_secure), None);
            let bits = (0..64).map(|bit| maker(is ^ 1 << bit, is_secure));
            for spoiled in bits.chain([0, u64::MAX, !is].map(|is| maker(is, is_secure))) {
                assert!(spoiled.fault(is_secure).is_some());
                let line = spoiled.connect(&address).map(drop);
                assert_eq!(line.unwrap_err().to_string(), SPOILED);
            }
            // (a context that came or went)
            let spoiled = maker(is, !is_secure);
            assert_eq!(spoiled.fault(is_secure), Some(SPOILED));
            assert_eq!(spoiled.connect(&address).map(drop).unwrap_err().to_string(), SPOILED);
        }
    }
}
