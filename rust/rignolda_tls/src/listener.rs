//! Where lines are accepted.
use crate::aside::moved_aside;
use crate::serve;
use rignolda_machine::net::Address;
use socket2::{Domain, SockAddr, Socket, Type};
use std::fs::{self, Permissions};
use std::io::{self, ErrorKind};
use std::net::{SocketAddr, TcpListener};
use std::os::unix::fs::{FileTypeExt, MetadataExt, PermissionsExt};
use std::os::unix::io::{AsRawFd, RawFd};
use std::os::unix::net::UnixListener;
use std::path::{Path, PathBuf};

/// How many connections may wait at a Unix socket.
const WAITING: i32 = 1_024;

/// Where lines are accepted. A Unix socket's file goes with it.
#[derive(Debug)]
pub struct Listener {
    pub socket: Socket,
    place: Option<Place>,
}

/// Where the file of a Unix socket is.
#[derive(Debug)]
struct Place {
    path: PathBuf,
    mode: Option<u32>,
    /// What tells the file from another one there: its device and number.
    is: (u64, u64),
    /// Where that was moved which lay in its place.
    moved: Option<PathBuf>,
}

impl Place {
    /// Listens at this path. A socket's file that nobody listens at any more is replaced, and what
    /// is no socket is [moved aside](moved_aside); the new one has its mode before anybody can
    /// connect.
    fn listen(path: &Path, mode: Option<u32>) -> io::Result<(Socket, Place)> {
        if is_listened_at(path)? {
            let why = "another process listens there";
            return Err(io::Error::new(ErrorKind::AddrInUse, why));
        }
        let mut moved = None;
        match fs::symlink_metadata(path) {
            Ok(is) if is.file_type().is_socket() => fs::remove_file(path)?,
            Ok(_) => {
                let aside = moved_aside(path);
                let why = |e| io::Error::other(format!("what is there is no socket: {e}"));
                moved = Some(aside.map_err(why)?);
            }
            Err(_) => (),
        }
        let socket = Socket::new(Domain::UNIX, Type::STREAM, None)?;
        socket.bind(&SockAddr::unix(path)?)?;
        mode.map_or(Ok(()), |it| fs::set_permissions(path, Permissions::from_mode(it)))?;
        socket.listen(WAITING)?;
        socket.set_nonblocking(true)?;
        let is = file_at(path).ok_or(ErrorKind::NotFound)?;
        Ok((socket, Place { path: path.into(), mode, is, moved }))
    }

    fn is_there(&self) -> bool {
        file_at(&self.path) == Some(self.is)
    }
}

/// What tells a file from another one, if one is there.
fn file_at(path: &Path) -> Option<(u64, u64)> {
    fs::symlink_metadata(path).ok().map(|it| (it.dev(), it.ino()))
}

/// Whether a process listens at a Unix socket of this path, which may have no room for one more.
fn is_listened_at(path: &Path) -> io::Result<bool> {
    let socket = Socket::new(Domain::UNIX, Type::STREAM, None)?;
    socket.set_nonblocking(true)?;
    let connected = socket.connect(&SockAddr::unix(path)?);
    Ok(connected.map_or_else(|e| e.kind() == ErrorKind::WouldBlock, |()| true))
}

impl Listener {
    /// Listens there. In the place of a Unix socket, one that nobody listens at any more is
    /// replaced, and what is no socket is moved aside.
    ///
    /// # Errors
    ///
    /// If another process listens there, if what is in a socket's place may not be moved, or if the
    /// system refuses it.
    pub fn new(address: &Address, mode: Option<u32>) -> io::Result<Listener> {
        let (socket, place) = match address {
            Address::Tcp(address) => {
                let listener = TcpListener::bind(address)?;
                listener.set_nonblocking(true)?;
                (listener.into(), None)
            }
            Address::Unix(path) => {
                let (socket, place) = Place::listen(path.as_ref(), mode)?;
                (socket, Some(place))
            }
            _ => return Err(ErrorKind::Unsupported.into()),
        };
        Ok(Listener { socket, place })
    }

    /// Where the file of its socket is, if it has one.
    pub fn path(&self) -> Option<&Path> {
        self.place.as_ref().map(|it| &*it.path)
    }

    /// Where that was moved which lay in the place of its socket, if something did.
    pub fn moved(&self) -> Option<&Path> {
        self.place.as_ref().and_then(|it| it.moved.as_deref())
    }

    /// Whether whoever connects comes to it: the file of its socket is at its place.
    pub fn is_in_place(&self) -> bool {
        self.place.as_ref().is_none_or(Place::is_there)
    }

    /// Makes its socket anew, as [`Listener::new`] does, if that is no longer at its place.
    ///
    /// # Errors
    ///
    /// As those of [`Listener::new`]; then it listens as before.
    pub fn comes_back(&mut self) -> io::Result<()> {
        if let Some(place) = self.place.as_ref().filter(|it| !it.is_there()) {
            let (socket, place) = Place::listen(&place.path, place.mode)?;
            (self.socket, self.place) = (socket, Some(place));
        }
        Ok(())
    }

    /// Whether its descriptor is that of a socket which listens there, as the system knows it: of a
    /// host that has a name it is not known at which address.
    pub fn is_of(&self, address: &Address) -> bool {
        let is = || self.socket.local_addr().ok()?.as_socket();
        // (of what is no socket of a path, the system says no such address)
        let at = || UnixListener::from(self.socket.try_clone().ok()?).local_addr().ok();
        let is_there = match address {
            Address::Tcp(text) => {
                // (one that asked for any port has got some)
                let is_one = |it: SocketAddr, is: SocketAddr| {
                    it == is || it.port() == 0 && it.ip() == is.ip()
                };
                is().is_some_and(|is| text.parse().map_or(true, |it| is_one(it, is)))
            }
            Address::Unix(path) => at().is_some_and(|is| is.as_pathname() == Some(path.as_ref())),
            _ => false,
        };
        is_there && self.socket.is_listener().unwrap_or(false)
    }

    /// Where it listens at this address, as the system knows it.
    pub fn place_of(&self, address: &Address) -> Address {
        let is = self.socket.local_addr().ok().and_then(|it| it.as_socket());
        is.map_or_else(|| address.clone(), |is| Address::Tcp(is.to_string()))
    }

    /// Has another descriptor of the same socket from now on, so that nothing is believed which was
    /// remembered of it; whoever waits to be accepted is accepted.
    ///
    /// # Errors
    ///
    /// If the system refuses it, as it has no descriptor left: then it listens as before.
    pub fn begins_anew(&mut self) -> io::Result<()> {
        self.socket = self.socket.try_clone()?;
        self.socket.set_nonblocking(true)
    }
}

impl AsRawFd for Listener {
    fn as_raw_fd(&self) -> RawFd {
        self.socket.as_raw_fd()
    }
}

impl serve::Listener for Listener {
    type Socket = Socket;

    /// Takes the next connection, without TLS.
    fn accept(&self) -> io::Result<Socket> {
        let socket = self.socket.accept()?.0;
        socket.set_nonblocking(true)?;
        Ok(socket)
    }
}

impl Drop for Listener {
    /// What is not its own stays.
    fn drop(&mut self) {
        let own = self.place.iter().filter(|it| it.is_there());
        own.for_each(|it| drop(fs::remove_file(&it.path)));
    }
}
