//! Lines over loopback: what is written arrives, and by TLS the other end's name is in its
//! certificate.
use openssl::ssl::{SslConnector, SslConnectorBuilder, SslMethod, SslVerifyMode, SslVersion};
use rignolda_machine::net::{Address, Call, Whom};
use rignolda_tls::{unix_time, Caller, Listener, Maker, Tls};
use socket2::SockAddr;
use std::fs;
use std::io::{ErrorKind, Read, Write};
use std::net::TcpStream;
use std::os::unix::fs::PermissionsExt;
use std::sync::{mpsc, Arc};
use std::time::Instant;

mod common;
use common::{accept, certificate, connected, exchange, listen, maker, Folder, Pair, TIMEOUT};

#[test]
fn plain_lines_carry_bytes() {
    let plain = Maker::new(None, TIMEOUT).unwrap();
    let [mut up, mut down] = connected(&plain, &plain).unwrap();
    exchange([&mut up, &mut down], 3_000_000).unwrap();
    assert!(up.end().may_be("whoever"));
    drop(down);
    let end = Instant::now() + TIMEOUT;
    while !matches!(up.read(&mut [0; 9]), Ok(0)) {
        assert!(Instant::now() < end);
    }
}

#[test]
fn a_socket_of_a_path_is_a_line_too() {
    let folder = Folder::new("unix");
    let path = folder.0.join("socket");
    // (the file that a dead process left is replaced, and one that is in use is not)
    drop(Listener::new(&Address::Unix(path.display().to_string()), None).unwrap());
    let listener = Listener::new(&Address::Unix(path.display().to_string()), None).unwrap();
    assert!(Listener::new(&Address::Unix(path.display().to_string()), None).is_err());
    let maker = Maker::new(None, TIMEOUT).unwrap();
    drop(accept(&maker, &listener)); // of the one that asked whether it is in use
    let mut down = maker.connect(&SockAddr::unix(path).unwrap()).unwrap();
    let mut up = accept(&maker, &listener);
    exchange([&mut up, &mut down], 100_000).unwrap();
    drop(listener);
    // (its mode is what is asked for, whatever the mask of the process)
    for mode in [0o660, 0o600, 0o666] {
        let listener =
            Listener::new(&Address::Unix(folder.0.join("moded").display().to_string()), Some(mode))
                .unwrap();
        let file = fs::metadata(folder.0.join("moded")).unwrap();
        assert_eq!(file.permissions().mode() & 0o777, mode);
        drop(listener);
    }
}

#[test]
fn nobody_there_is_an_error_when_it_is_used() {
    let (listener, address) = listen();
    drop(listener);
    let maker = Maker::new(None, TIMEOUT).unwrap();
    let Ok(mut line) = maker.connect(&address.into()) else { return };
    let end = Instant::now() + TIMEOUT;
    while matches!(line.write(b"x"), Err(e) if e.kind() == ErrorKind::WouldBlock) {
        assert!(Instant::now() < end);
    }
    assert!(line.write(b"x").is_err());
}

#[test]
fn by_tls_each_end_is_who_its_certificate_names() {
    let folder = Folder::new("tls");
    let authority = certificate("authority", &[], None, 9);
    let sign =
        |common: &str, names: &[&str], days| certificate(common, names, Some(&authority), days);
    let root = maker(&folder.0, "root", &sign("other", &["root", "root2"], 9), &authority.0);
    let leaf = maker(&folder.0, "leaf", &sign("other", &["leaf"], 9), &authority.0);
    let [mut up, mut down] = connected(&root, &leaf).unwrap();
    exchange([&mut up, &mut down], 3_000_000).unwrap();
    assert!(down.end().may_be("root") && down.end().may_be("root2"));
    assert!(!down.end().may_be("other"), "the common name does not count");
    assert!(
        up.end().may_be("leaf")
            && !up.end().may_be("root")
            && !up.end().may_be("lea")
            && !up.end().may_be("")
    );
    assert!(up.end().place.ends_with(", by its certificate leaf"), "{}", up.end().place);
    assert!(
        down.end().place.ends_with(", by its certificate root or root2"),
        "{}",
        down.end().place
    );
    let nameless = maker(&folder.0, "nameless", &sign("leaf", &[], 9), &authority.0);
    let [up, _down] = connected(&root, &nameless).unwrap();
    assert!(!up.end().may_be("leaf"), "{}", up.end().place);
    assert!(
        up.end().place.ends_with(", whose certificate has no name of an agent"),
        "{}",
        up.end().place
    );
}

/// What the two ends of a connection say that cannot be made: whoever accepted it first.
fn refused(above: &Maker, below: &Maker) -> [String; 2] {
    let (listener, address) = listen();
    let down = below.connect(&address.into()).unwrap();
    let mut ends = [Some(accept(above, &listener)), Some(down)];
    let (mut said, end) = ([String::new(), String::new()], Instant::now() + TIMEOUT);
    while let Some(at) = (0..2).find(|at| ends[*at].is_some()) {
        assert!(Instant::now() < end, "{said:?}");
        for at in at..2 {
            let Some(line) = &mut ends[at] else { continue };
            // (as an agent, who writes its hello before it reads)
            match line.write(b"x").and_then(|_| line.read(&mut [0; 99])) {
                Err(e) if e.kind() == ErrorKind::WouldBlock => continue,
                Err(e) => said[at] = e.to_string(),
                Ok(0) => said[at] = "closed".into(),
                Ok(_) => continue,
            }
            ends[at] = None;
        }
    }
    said
}

#[test]
fn both_ends_learn_why_there_is_no_line() {
    let folder = Folder::new("refused");
    let [authority, strange, other] =
        ["authority", "authority", "other"].map(|name| certificate(name, &[], None, 9));
    let sign = |name: &str, by: &Pair, days| {
        let pair = certificate(name, &[name], Some(by), days);
        maker(&folder.0, &format!("{name}{days}"), &pair, &authority.0)
    };
    let root = sign("root", &authority, 9);
    let [above, below] = refused(&root, &sign("leaf", &authority, 0));
    assert_eq!(above, "its certificate has expired");
    assert_eq!(below, "the other end refuses this one: certificate expired");
    let [above, below] = refused(&root, &sign("leaf", &strange, 9));
    assert_eq!(above, "its certificate is of another authority");
    let said = "wrong signature, as of another authority of the same name";
    assert_eq!(below, format!("the other end refuses this one: {said}"));
    let [above, below] = refused(&root, &sign("leaf", &other, 9));
    assert_eq!(above, "its certificate is of another authority");
    assert_eq!(below, "the other end refuses this one: unknown authority");
    // (a parent whose authority the child does not know, and one whose time is over)
    let pair = certificate("leaf", &["leaf"], Some(&authority), 9);
    let distrusts = maker(&folder.0, "distrusts", &pair, &strange.0);
    let [above, below] = refused(&root, &distrusts);
    assert_eq!(below, "its certificate is of another authority");
    assert!(above.starts_with("the other end refuses this one: "), "{above}");
    let [_, below] = refused(&sign("root", &authority, 0), &distrusts);
    assert!(below.starts_with("its certificate "), "{below}");
    let plain = Maker::new(None, TIMEOUT).unwrap();
    assert_eq!(refused(&root, &plain)[0], "what it sends is no TLS");
    assert_eq!(refused(&plain, &root)[1], "what it sends is no TLS");
}

#[test]
fn a_line_knows_when_a_certificate_of_its_ends_expires() {
    let folder = Folder::new("expires");
    let authority = certificate("authority", &[], None, 9);
    let make = |name: &str, days| {
        let pair = certificate(name, &[name], Some(&authority), days);
        let end = unix_time(pair.0.not_after());
        (maker(&folder.0, name, &pair, &authority.0), end)
    };
    let ((root, last), (leaf, first)) = (make("root", 5), make("leaf", 3));
    for (maker, end) in [(&root, last), (&leaf, first)] {
        assert_eq!(maker.expires(), Some(end));
    }
    // (the clock went on between them)
    assert!(first < last);
    let [up, down] = connected(&root, &leaf).unwrap();
    assert_eq!((up.expires(), down.expires()), (first, first));
    // (an authority that ends before what it signed)
    let short = certificate("authority", &[], None, 2);
    let end = unix_time(short.0.not_after());
    let make = |name: &str| {
        let pair = certificate(name, &[name], Some(&short), 9);
        maker(&folder.0, name, &pair, &short.0)
    };
    let [up, down] = connected(&make("root"), &make("leaf")).unwrap();
    assert_eq!((up.expires(), down.expires()), (end, end));
    let plain = Maker::new(None, TIMEOUT).unwrap();
    let [up, _down] = connected(&plain, &plain).unwrap();
    assert!(up.expires() == i64::MAX && plain.expires().is_none());
}

#[test]
fn a_line_holds_while_its_authority_is_one() {
    let folder = Folder::new("holds");
    let [old, new] = [1, 2].map(|_| certificate("authority", &[], None, 9));
    let make = |name: &str, signed: &Pair, trusted: &[&Pair]| {
        let pair = certificate(name, &[name], Some(signed), 9);
        let maker = maker(&folder.0, name, &pair, &signed.0);
        let all = trusted.iter().flat_map(|it| it.0.to_pem().unwrap());
        fs::write(folder.0.join(format!("{name}.ca")), all.collect::<Vec<u8>>()).unwrap();
        (maker, name.to_owned())
    };
    let again = |name: &str| {
        let path = |kind: &str| folder.0.join(format!("{name}.{kind}"));
        let tls = Tls { certificate: path("crt"), key: path("key"), authority: path("ca") };
        Maker::new(Some(&tls), TIMEOUT).unwrap()
    };
    let ((root, name), (leaf, _)) = (make("root", &old, &[&old, &new]), make("leaf", &old, &[]));
    let [up, down] = connected(&root, &leaf).unwrap();
    let both = again(&name);
    assert_eq!([up.holds(&both), down.holds(&both)], [Ok(()), Ok(())]);
    let (_, name) = make("root", &new, &[&new]);
    let after = again(&name);
    let why = || Err("its certificate is of another authority".to_string());
    assert_eq!([up.holds(&after), down.holds(&after)], [why(), why()]);
    // (one whose handshake is under way began by the old ones)
    let (listener, address) = listen();
    let down = leaf.connect(&address.into()).unwrap();
    assert!(down.holds(&both).is_err() && accept(&root, &listener).holds(&both).is_err());
    assert_eq!(down.holds(&Maker::new(None, TIMEOUT).unwrap()), Ok(()));
}

/// Whether an agent talks with a client that was set up so, and what it says.
fn talks(name: &str, set_up: impl FnOnce(&mut SslConnectorBuilder)) -> Result<(), String> {
    let folder = Folder::new(name);
    let authority = certificate("authority", &[], None, 9);
    let pair = |name: &str| certificate(name, &[name], Some(&authority), 9);
    let (root, leaf) = (maker(&folder.0, "root", &pair("root"), &authority.0), pair("leaf"));
    let (listener, address) = listen();
    let mut client = SslConnector::builder(SslMethod::tls()).unwrap();
    client.set_verify(SslVerifyMode::NONE);
    client.set_certificate(&leaf.0).unwrap();
    client.set_private_key(&leaf.1).unwrap();
    set_up(&mut client);
    let client = client.build();
    let other = std::thread::spawn(move || {
        let mut stream = client.connect("root", TcpStream::connect(address).unwrap()).ok()?;
        // (records of one byte each)
        (0..3_000).try_for_each(|_| stream.write_all(b"x")).ok()?;
        stream.read_exact(&mut [0; 5]).ok()
    });
    let (mut line, mut came) = (accept(&root, &listener), 0);
    let end = Instant::now() + TIMEOUT;
    let done = loop {
        assert!(Instant::now() < end);
        match line.read(&mut [0; 100]) {
            Ok(0) => break Err("closed".into()),
            Ok(count) => came += count,
            Err(e) if e.kind() == ErrorKind::WouldBlock => (),
            Err(e) => break Err(e.to_string()),
        }
        if came == 3_000 {
            line.write_all(b"hello").unwrap();
            break Ok(());
        }
    };
    drop(line);
    other.join().unwrap();
    done
}

#[test]
fn a_handshake_is_bounded() {
    for cheap in ["X25519", "P-256"] {
        talks(cheap, |it| it.set_groups_list(cheap).unwrap()).unwrap();
    }
    for dear in ["ffdhe8192", "ffdhe2048", "P-521"] {
        let said = talks(dear, |it| it.set_groups_list(dear).unwrap()).unwrap_err();
        assert!(said.starts_with("TLS: no s"), "{said}");
        let said = talks(dear, |it| {
            it.set_max_proto_version(Some(SslVersion::TLS1_2)).unwrap();
            it.set_groups_list(dear).unwrap();
        });
        assert!(said.is_err());
    }
    // (some hundred bytes each)
    let more = certificate("more", &["more"], None, 9).0;
    talks("few", |it| (0..5).for_each(|_| it.add_extra_chain_cert(more.clone()).unwrap())).unwrap();
    let many = |it: &mut SslConnectorBuilder| {
        (0..100).for_each(|_| it.add_extra_chain_cert(more.clone()).unwrap());
    };
    assert_eq!(talks("many", many).unwrap_err(), "it sends too much without data");
}

#[test]
fn by_tls_no_old_version_and_no_nameless_client_is_taken() {
    let folder = Folder::new("versions");
    let authority = certificate("authority", &[], None, 9);
    let root = certificate("root", &[], Some(&authority), 9);
    let root = maker(&folder.0, "root", &root, &authority.0);
    let leaf = certificate("leaf", &[], Some(&authority), 9);
    let try_with = |named: bool, least: SslVersion, most: SslVersion| {
        let (listener, address) = listen();
        let mut client = SslConnector::builder(SslMethod::tls()).unwrap();
        client.set_verify(SslVerifyMode::NONE);
        client.set_cipher_list("DEFAULT:@SECLEVEL=0").unwrap();
        client.set_min_proto_version(Some(least)).unwrap();
        client.set_max_proto_version(Some(most)).unwrap();
        if named {
            client.set_certificate(&leaf.0).unwrap();
            client.set_private_key(&leaf.1).unwrap();
        }
        let client = client.build();
        let other = std::thread::spawn(move || {
            let mut stream = client.connect("root", TcpStream::connect(address).unwrap()).ok()?;
            stream.write_all(b"hello").ok()?;
            stream.read_exact(&mut [0; 5]).ok()
        });
        let mut line = accept(&root, &listener);
        let end = Instant::now() + TIMEOUT;
        let mut space = [0; 5];
        while matches!(line.read(&mut space), Err(e) if e.kind() == ErrorKind::WouldBlock) {
            assert!(Instant::now() < end);
        }
        let _ = line.write(b"hello");
        drop(line);
        other.join().unwrap().is_some() && space == *b"hello"
    };
    assert!(try_with(true, SslVersion::TLS1_2, SslVersion::TLS1_2));
    assert!(try_with(true, SslVersion::TLS1_3, SslVersion::TLS1_3));
    assert!(!try_with(true, SslVersion::TLS1, SslVersion::TLS1_1));
    assert!(!try_with(false, SslVersion::TLS1_2, SslVersion::TLS1_2));
    assert!(!try_with(false, SslVersion::TLS1_3, SslVersion::TLS1_3));
}

#[test]
fn a_key_that_does_not_belong_to_the_certificate_is_named() {
    let folder = Folder::new("key");
    let authority = certificate("authority", &[], None, 9);
    let (one, two) =
        (certificate("a", &[], Some(&authority), 9), certificate("b", &[], Some(&authority), 9));
    let path = |name: &str| folder.0.join(name);
    fs::write(path("crt"), one.0.to_pem().unwrap()).unwrap();
    fs::write(path("key"), two.1.private_key_to_pem_pkcs8().unwrap()).unwrap();
    fs::write(path("ca"), authority.0.to_pem().unwrap()).unwrap();
    let mut tls = Tls { certificate: path("crt"), key: path("key"), authority: path("ca") };
    let said = |tls: &Tls| Maker::new(Some(tls), TIMEOUT).err().unwrap().to_string();
    let begins = |file: &str| path(file).display().to_string();
    assert_eq!(said(&tls), format!("{}: key values mismatch", begins("key")));
    fs::write(path("key"), "no key").unwrap();
    assert_eq!(said(&tls), format!("{}: unsupported", begins("key")));
    // (nobody is asked for a word that opens it)
    let cipher = openssl::symm::Cipher::aes_128_cbc();
    let locked = one.1.private_key_to_pem_pkcs8_passphrase(cipher, b"word").unwrap();
    fs::write(path("key"), locked).unwrap();
    assert!(said(&tls).starts_with(&begins("key")) && !said(&tls).contains("error:"));
    tls.authority = path("absent");
    let why = "No such file or directory (os error 2)";
    assert_eq!(said(&tls), format!("{}: {why}", begins("absent")));
}

#[test]
fn the_name_of_a_host_is_looked_up_by_another_thread() {
    let (woken, wakes) = mpsc::channel();
    let caller = Caller::new(Arc::new(move || woken.send(()).unwrap()));
    let (maker, (listener, address)) = (Maker::new(None, TIMEOUT).unwrap(), listen());
    let call = |address| Call { whom: Whom::Parent, address, failed: 5 };
    let (called, line) = caller.call(call(Address::Tcp(address.to_string())), &maker).unwrap();
    assert_eq!(called.address, Address::Tcp(address.to_string()));
    exchange([&mut line.unwrap(), &mut accept(&maker, &listener)], 100).unwrap();
    let by_name = call(Address::Tcp(format!("localhost:{}", address.port())));
    assert!(caller.call(by_name.clone(), &maker).is_none());
    wakes.recv().unwrap();
    // (which of its addresses it is, the machine says)
    assert_eq!(caller.found(&maker).unwrap().0, by_name);
    assert!(caller.found(&maker).is_none() && wakes.try_recv().is_err());
    let stored = Address::Redis { server: "127.0.0.1:1".into(), prefix: "tree".into() };
    assert!(caller.call(call(stored), &maker).unwrap().1.is_err());
}
