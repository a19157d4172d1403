//! How an agent looks at itself from outside: what counts as reached, and what a fault of the
//! memory must not turn into a line without TLS.
use rignolda_machine::net::wire::{self, Expect, Hello, Message};
use rignolda_machine::net::{Address, Origin, Way};
use rignolda_tls::{ask, By, Line, Listener, Looked, Looker, Maker, Own, Tls};
use std::fs;
use std::io::{ErrorKind, Read, Write};
use std::path::Path;
use std::sync::atomic::{AtomicBool, Ordering};
use std::time::{Duration, Instant};

mod common;
use common::{certificate, exchange, listen, Folder, Pair, TIMEOUT};

const SOON: Duration = Duration::from_millis(300);

/// The files of an agent of this name.
fn files(folder: &Path, name: &str, pair: &Pair, authority: &Pair) -> Tls {
    let path = |kind: &str| folder.join(format!("{name}.{kind}"));
    fs::write(path("crt"), pair.0.to_pem().unwrap()).unwrap();
    fs::write(path("key"), pair.1.private_key_to_pem_pkcs8().unwrap()).unwrap();
    fs::write(path("ca"), authority.0.to_pem().unwrap()).unwrap();
    Tls { certificate: path("crt"), key: path("key"), authority: path("ca") }
}

fn way() -> Way {
    Way { cost: 3, names: ["root", "hub"].map(String::from).into() }
}

/// Answers each look with a hello of this name and a way, until it is to end.
fn answer(maker: &Maker, listener: &Listener, name: &str, ends: &AtomicBool) -> Vec<Origin> {
    let (mut lines, mut origins) = (Vec::<(Line, Vec<u8>)>::new(), Vec::new());
    while !ends.load(Ordering::Relaxed) {
        while let Ok(line) = maker.accept(listener) {
            origins.push(line.end().origin);
            lines.push((line, Vec::new()));
        }
        lines.retain_mut(|(line, input)| {
            let mut space = [0; 999];
            match line.read(&mut space) {
                Ok(0) => return false,
                Ok(count) => input.extend_from_slice(&space[..count]),
                Err(e) => return e.kind() == ErrorKind::WouldBlock,
            }
            match wire::take(input, Expect::Hello) {
                Ok(Some(Message::Look(it))) => {
                    let hello = Hello { from: name.into(), to: it.from.clone(), ..it };
                    line.write_all(&[hello.look(), wire::way(&way())].concat()).is_ok()
                }
                Ok(None) => true,
                _ => false,
            }
        });
        std::thread::sleep(Duration::from_millis(1));
    }
    origins
}

/// What looks at an end of this maker and name come to, and where they came from.
fn looks<const N: usize>(
    maker: &Maker,
    name: &str,
    looks: [&dyn Fn(&Address) -> Looked; N],
) -> ([Looked; N], Vec<Origin>) {
    let ((listener, at), ends) = (listen(), AtomicBool::new(false));
    let address = Address::Tcp(at.to_string());
    std::thread::scope(|scope| {
        let answers = scope.spawn(|| answer(maker, &listener, name, &ends));
        let seen = looks.map(|look| look(&address));
        ends.store(true, Ordering::Relaxed);
        (seen, answers.join().unwrap())
    })
}

fn is_proved(it: &Looked) -> bool {
    matches!(it, Looked::Proved(_))
}

fn is_nothing(it: &Looked) -> bool {
    matches!(it, Looked::Nothing(_))
}

fn is_closed(it: &Looked) -> bool {
    matches!(it, Looked::Closed(_))
}

#[test]
fn an_end_is_reached_if_it_proves_the_key_whatever_it_makes_of_the_certificate() {
    let folder = Folder::new("reach");
    let [authority, other] = ["authority", "other"].map(|it| certificate(it, &[], None, 9));
    let hub = certificate("hub", &["hub"], Some(&authority), 9);
    let tls = files(&folder.0, "hub", &hub, &authority);
    let own = Own::default();
    let maker = Maker::new(Some(&tls), TIMEOUT).unwrap().with_own(&own);
    let looker = Looker::new("hub", Some(&tls), TIMEOUT).unwrap();
    assert!(looker.is_secure());
    let at = |by| {
        let (looker, own) = (&looker, &own);
        move |address: &Address| looker.at_own(address, by, own)
    };
    let (seen, origins) = looks(&maker, "hub", [&at(By::Own), &at(By::Plain), &at(By::Nameless)]);
    assert_eq!(seen[0], Looked::Answered(way()));
    assert!(is_closed(&seen[1]), "without TLS: {seen:?}");
    assert!(is_proved(&seen[2]), "without a certificate: {seen:?}");
    // (who it is, the end knows)
    assert_eq!(origins, [Origin::Own; 3]);
    // it answers as another agent, or its authority is another one: it is reached, and the key of
    // another one is not the agent's
    let (seen, _) = looks(&maker, "spoke", [&at(By::Own)]);
    assert!(matches!(seen[0], Looked::Proved(_)), "{seen:?}");
    let strict = Maker::new(Some(&files(&folder.0, "strict", &hub, &other)), TIMEOUT).unwrap();
    let (seen, _) = looks(&strict, "hub", [&at(By::Own)]);
    assert!(is_proved(&seen[0]), "{seen:?}");
    let twin = certificate("hub", &["hub"], Some(&authority), 9);
    let twin = Maker::new(Some(&files(&folder.0, "twin", &twin, &authority)), TIMEOUT).unwrap();
    let (seen, _) = looks(&twin, "hub", [&at(By::Own)]);
    assert!(is_nothing(&seen[0]), "{seen:?}");
    // one that has expired is reached
    let old = certificate("hub", &["hub"], Some(&authority), 0);
    let tls = files(&folder.0, "old", &old, &authority);
    let (maker, looker) =
        (Maker::new(Some(&tls), TIMEOUT), Looker::new("hub", Some(&tls), TIMEOUT));
    let (maker, looker) = (maker.unwrap(), looker.unwrap());
    let (seen, _) = looks(&maker, "hub", [&|it: &Address| looker.at_own(it, By::Own, &own)]);
    assert!(is_proved(&seen[0]), "{seen:?}");
    // (and by a line to itself, whoever listens or not)
    assert!([&looker, &Looker::of("hub", &maker, TIMEOUT)]
        .iter()
        .all(|it| is_proved(&it.at_itself())));
    // without TLS, and where somebody answers without it, whoever asks is answered
    let plain = Maker::new(None, TIMEOUT).unwrap();
    let (seen, _) = looks(&plain, "hub", [&at(By::Plain), &at(By::Own)]);
    assert_eq!(seen[0], Looked::Answered(way()));
    assert!(is_nothing(&seen[1]), "{seen:?}");
}

#[test]
fn who_listens_and_accepts_nobody_or_is_not_there_is_not_reached() {
    let (looker, own) = (Looker::new("hub", None, SOON).unwrap(), Own::default());
    let (listener, at) = listen();
    let address = Address::Tcp(at.to_string());
    let begun = Instant::now();
    assert!(is_nothing(&looker.at_own(&address, By::Own, &own)));
    assert!(begun.elapsed() >= SOON);
    drop(listener);
    assert!(is_nothing(&looker.at_own(&address, By::Own, &own)));
    // (an address that went away with its network says nothing of the agent)
    let away = Address::Tcp("192.0.2.1:7464".into());
    let looked = looker.at_own(&away, By::Own, &own);
    assert!(matches!(looked, Looked::NotTried(_)), "{looked:?}");
    let folder = Folder::new("asked");
    let path = folder.0.join("socket");
    assert!(is_nothing(&ask(&path, b"?\n", SOON).unwrap_err()));
    let listener = Listener::new(&Address::Unix(path.display().to_string()), None).unwrap();
    assert!(is_nothing(&ask(&path, b"?\n", SOON).unwrap_err()), "nobody answers");
    std::thread::scope(|scope| {
        scope.spawn(|| {
            let maker = Maker::new(None, TIMEOUT).unwrap();
            let (mut line, mut space) = (common::accept(&maker, &listener), [0; 9]);
            drop(std::mem::replace(&mut line, common::accept(&maker, &listener)));
            while line.read(&mut space).is_err() {}
            line.write_all(b"yes\nand more").unwrap();
        });
        assert_eq!(ask(&path, b"?\n", TIMEOUT), Ok(b"yes".to_vec()));
    });
}

#[test]
fn a_parent_is_found_if_it_has_the_name_and_the_authority() {
    let folder = Folder::new("parent");
    let [authority, other] = ["authority", "other"].map(|it| certificate(it, &[], None, 9));
    let signed = |name: &str, by: &Pair| {
        let pair = certificate(name, &[name], Some(by), 9);
        files(&folder.0, name, &pair, by)
    };
    let looker = Looker::new("leaf", Some(&signed("leaf", &authority)), TIMEOUT).unwrap();
    let look = |name: Option<&'static str>| {
        let looker = &looker;
        move |address: &Address| looker.at_parent(address, name)
    };
    let hub = Maker::new(Some(&signed("hub", &authority)), TIMEOUT).unwrap();
    let (seen, origins) =
        looks(&hub, "hub", [&look(Some("hub")), &look(None), &look(Some("spoke"))]);
    assert_eq!(seen[..2], [Looked::Answered(way()), Looked::Answered(way())]);
    assert!(is_nothing(&seen[2]), "{seen:?}");
    assert!(origins.iter().all(|it| *it != Origin::Own), "{origins:?}");
    let strange = Maker::new(Some(&signed("hub", &other)), TIMEOUT).unwrap();
    let (seen, _) = looks(&strange, "hub", [&look(Some("hub"))]);
    assert!(is_nothing(&seen[0]), "{seen:?}");
}

#[test]
fn lines_are_made_anew_by_the_files_of_before_alone() {
    let folder = Folder::new("renewed");
    let authority = certificate("authority", &[], None, 9);
    let pair = || certificate("hub", &["hub"], Some(&authority), 9);
    let tls = files(&folder.0, "hub", &pair(), &authority);
    let maker = Maker::new(Some(&tls), TIMEOUT).unwrap();
    let renewed = maker.renewed(Some(&tls)).unwrap().expect("nothing has changed");
    let [mut up, mut down] = common::connected(&renewed, &maker).unwrap();
    exchange([&mut up, &mut down], 100_000).unwrap();
    assert_eq!((up.holds(&renewed), down.holds(&renewed)), (Ok(()), Ok(())));
    // (a certificate that lies there counts when somebody says so)
    files(&folder.0, "hub", &pair(), &authority);
    assert!(maker.renewed(Some(&tls)).unwrap().is_none());
    fs::remove_file(&tls.key).unwrap();
    assert!(maker.renewed(Some(&tls)).is_err());
    let plain = Maker::new(None, TIMEOUT).unwrap();
    assert!(plain.renewed(None).unwrap().is_some_and(|it| it.fault(false).is_none()));
    for (maker, is_secure) in [(&maker, true), (&plain, false)] {
        assert_eq!(maker.fault(is_secure), None);
        assert!(maker.fault(!is_secure).is_some());
    }
}

#[test]
fn a_listener_is_known_by_what_the_system_says_and_has_other_descriptors_now_and_then() {
    let folder = Folder::new("listener");
    let unix = |name: &str| Address::Unix(folder.0.join(name).display().to_string());
    let mut one = Listener::new(&unix("one"), None).unwrap();
    let other = Listener::new(&unix("other"), None).unwrap();
    let ((mut tcp, at), (tcp_2, at_2)) = (listen(), listen());
    let [at, at_2] = [at, at_2].map(|it| Address::Tcp(it.to_string()));
    assert!(one.is_of(&unix("one")) && other.is_of(&unix("other")));
    assert!(tcp.is_of(&at) && tcp.is_of(&Address::Tcp("127.0.0.1:0".into())));
    assert_eq!((tcp.place_of(&at_2), one.place_of(&unix("one"))), (at.clone(), unix("one")));
    for (it, no) in [(&one, unix("other")), (&one, at.clone()), (&tcp, at_2), (&tcp, unix("one"))] {
        assert!(!it.is_of(&no), "{no}");
    }
    // (of two that a fault has put in each other's place neither is where it is to be)
    std::mem::swap(&mut one.socket, &mut tcp.socket);
    assert!(!one.is_of(&unix("one")) && !tcp.is_of(&at));
    std::mem::swap(&mut one.socket, &mut tcp.socket);
    drop(tcp_2);
    let plain = Maker::new(None, TIMEOUT).unwrap();
    for (listener, address) in [(&mut one, unix("one")), (&mut tcp, at)] {
        use std::os::unix::io::AsRawFd;
        let before = listener.as_raw_fd();
        let place = match &address {
            Address::Unix(path) => socket2::SockAddr::unix(path).unwrap(),
            at => at.to_string().parse::<std::net::SocketAddr>().unwrap().into(),
        };
        let mut down = plain.connect(&place).unwrap();
        listener.begins_anew().unwrap();
        assert!(listener.is_of(&address) && listener.as_raw_fd() != before);
        let mut up = common::accept(&plain, listener);
        exchange([&mut up, &mut down], 9_999).unwrap();
    }
}
