//! Connections to an address, which may have the name of a host.
use crate::{Line, Maker};
use rignolda_machine::net::{Address, Call};
use socket2::SockAddr;
use std::fmt;
use std::io::{self, ErrorKind};
use std::net::{SocketAddr, ToSocketAddrs};
use std::sync::{mpsc, Arc};
use std::thread;

/// What a look-up of a host's name brought, and what there is one of for each of them.
type Found = (Call<Address>, io::Result<Vec<SocketAddr>>, Arc<()>);
/// A call, and the line that it led to, or why it led to none.
pub type Called = (Call<Address>, io::Result<Line>);

/// Makes the connections that [`rignolda_machine::net::Peers`] asks for. A look-up waits, so
/// another thread does it.
pub struct Caller {
    to: mpsc::Sender<Found>,
    found: mpsc::Receiver<Found>,
    wake: Arc<dyn Fn() + Send + Sync>,
    under_way: Arc<()>,
}

impl fmt::Debug for Caller {
    fn fmt(&self, to: &mut fmt::Formatter<'_>) -> fmt::Result {
        to.debug_struct("Caller").field("looks_up", &self.looks_up()).finish_non_exhaustive()
    }
}

impl Caller {
    /// It calls `wake` whenever something was looked up.
    pub fn new(wake: Arc<dyn Fn() + Send + Sync>) -> Caller {
        let (to, found) = mpsc::channel();
        Caller { to, found, wake, under_way: Arc::new(()) }
    }

    /// Whether a name is looked up now.
    pub fn looks_up(&self) -> bool {
        Arc::strong_count(&self.under_way) > 1
    }

    /// Begins a connection. Nothing where a name is looked up before that.
    pub fn call(&self, call: Call<Address>, maker: &Maker) -> Option<Called> {
        let line = match &call.address {
            Address::Unix(path) => SockAddr::unix(path).and_then(|it| maker.connect(&it)),
            Address::Tcp(text) => match text.parse::<SocketAddr>() {
                Ok(address) => maker.connect(&address.into()),
                Err(_) => match self.look_up(call.clone()) {
                    Ok(()) => return None,
                    Err(error) => Err(error),
                },
            },
            _ => Err(ErrorKind::Unsupported.into()),
        };
        Some((call, line))
    }

    fn look_up(&self, call: Call<Address>) -> io::Result<()> {
        let (to, wake, one) = (self.to.clone(), self.wake.clone(), self.under_way.clone());
        let look_up = move || {
            let found = call.address.to_string().to_socket_addrs().map(Iterator::collect);
            let _ = to.send((call, found, one));
            wake();
        };
        thread::Builder::new().spawn(look_up).map(drop)
    }

    /// Begins the next connection whose name was looked up.
    pub fn found(&self, maker: &Maker) -> Option<Called> {
        let (call, found, _) = self.found.try_recv().ok()?;
        let nothing = || io::Error::new(ErrorKind::NotFound, "it has no address");
        let line = found.and_then(|places| {
            let place = places.get(call.failed % places.len().max(1)).ok_or_else(nothing)?;
            maker.connect(&SockAddr::from(*place))
        });
        Some((call, line))
    }
}
