//! What tests of lines share: certificates, and the two ends of a connection.
#![allow(dead_code)]
use openssl::asn1::Asn1Time;
use openssl::bn::BigNum;
use openssl::ec::{EcGroup, EcKey};
use openssl::hash::MessageDigest;
use openssl::nid::Nid;
use openssl::pkey::{PKey, Private};
use openssl::x509::extension::{BasicConstraints, SubjectAlternativeName};
use openssl::x509::{X509Builder, X509NameBuilder, X509};
use rignolda_machine::net::Address;
use rignolda_machine::Time;
use rignolda_tls::{Line, Listener, Maker, Tls};
use std::fs;
use std::io::{ErrorKind, Read, Write};
use std::net::SocketAddr;
use std::path::{Path, PathBuf};
use std::sync::OnceLock;
use std::time::{Duration, Instant};

/// What does not come on a machine with much else to do does not come at all.
pub const TIMEOUT: Duration = Duration::from_secs(60);

/// When it is, as an agent's shell says it.
pub fn time() -> Time {
    static BEGUN: OnceLock<Instant> = OnceLock::new();
    Time::after(BEGUN.get_or_init(Instant::now).elapsed())
}

pub struct Folder(pub PathBuf);

impl Folder {
    pub fn new(name: &str) -> Folder {
        let path =
            std::env::temp_dir().join(format!("rignolda-line-{name}-{}", std::process::id()));
        let _ = fs::remove_dir_all(&path);
        fs::create_dir(&path).unwrap();
        Folder(path)
    }
}

impl Drop for Folder {
    fn drop(&mut self) {
        let _ = fs::remove_dir_all(&self.0);
    }
}

pub type Pair = (X509, PKey<Private>);

/// A certificate: with names, or where there are none with `common` alone. Its own authority signs
/// it where none is given.
pub fn certificate(common: &str, names: &[&str], authority: Option<&Pair>, days: u32) -> Pair {
    let curve = EcGroup::from_curve_name(Nid::X9_62_PRIME256V1).unwrap();
    let key = PKey::from_ec_key(EcKey::generate(&curve).unwrap()).unwrap();
    let mut name = X509NameBuilder::new().unwrap();
    name.append_entry_by_text("CN", common).unwrap();
    let name = name.build();
    let mut builder = X509Builder::new().unwrap();
    builder.set_version(2).unwrap();
    let mut serial = BigNum::new().unwrap();
    serial.rand(64, openssl::bn::MsbOption::MAYBE_ZERO, false).unwrap();
    builder.set_serial_number(&serial.to_asn1_integer().unwrap()).unwrap();
    builder.set_subject_name(&name).unwrap();
    builder.set_pubkey(&key).unwrap();
    let now = openssl::asn1::Asn1Time::from_unix(1_700_000_000).unwrap();
    builder.set_not_before(&now).unwrap();
    let end = match days {
        0 => Asn1Time::from_unix(1_700_000_001).unwrap(),
        days => Asn1Time::days_from_now(days).unwrap(),
    };
    builder.set_not_after(&end).unwrap();
    match authority {
        None => {
            builder.set_issuer_name(&name).unwrap();
            builder
                .append_extension(BasicConstraints::new().critical().ca().build().unwrap())
                .unwrap();
            builder.sign(&key, MessageDigest::sha256()).unwrap();
        }
        Some((above, above_key)) => {
            builder.set_issuer_name(above.subject_name()).unwrap();
            if !names.is_empty() {
                let mut others = SubjectAlternativeName::new();
                for name in names {
                    others.dns(name);
                }
                let context = builder.x509v3_context(Some(above), None);
                let others = others.build(&context).unwrap();
                builder.append_extension(others).unwrap();
            }
            builder.sign(above_key, MessageDigest::sha256()).unwrap();
        }
    }
    (builder.build(), key)
}

pub fn maker(folder: &Path, name: &str, pair: &Pair, authority: &X509) -> Maker {
    let path = |kind: &str| folder.join(format!("{name}.{kind}"));
    fs::write(path("crt"), pair.0.to_pem().unwrap()).unwrap();
    fs::write(path("key"), pair.1.private_key_to_pem_pkcs8().unwrap()).unwrap();
    fs::write(path("ca"), authority.to_pem().unwrap()).unwrap();
    let tls = Tls { certificate: path("crt"), key: path("key"), authority: path("ca") };
    Maker::new(Some(&tls), TIMEOUT).unwrap()
}

pub fn listen() -> (Listener, SocketAddr) {
    let listener = Listener::new(&Address::Tcp("127.0.0.1:0".into()), None).unwrap();
    let address = listener.socket.local_addr().unwrap().as_socket().unwrap();
    (listener, address)
}

pub fn accept(maker: &Maker, listener: &Listener) -> Line {
    let end = Instant::now() + TIMEOUT;
    loop {
        match maker.accept(listener) {
            Ok(line) => return line,
            Err(e) if e.kind() == ErrorKind::WouldBlock && Instant::now() < end => (),
            Err(e) => panic!("{e}"),
        }
    }
}

/// Each end writes its bytes and reads the other's; neither waits.
pub fn exchange(ends: [&mut Line; 2], bytes: usize) -> Result<(), String> {
    let sent: [Vec<u8>; 2] = [7, 9].map(|it| (0..bytes).map(|at| (at % 251) as u8 ^ it).collect());
    let (mut written, mut read) = ([0, 0], [Vec::new(), Vec::new()]);
    let end = Instant::now() + TIMEOUT;
    while read.iter().any(|it| it.len() < bytes) {
        for at in 0..2 {
            let mut space = [0; 5_000];
            match ends[at].read(&mut space) {
                Ok(0) => return Err(format!("{at} was closed")),
                Ok(count) => read[at].extend_from_slice(&space[..count]),
                Err(e) if e.kind() == ErrorKind::WouldBlock => (),
                Err(e) => return Err(format!("{at}: {e}")),
            }
            match ends[at].write(&sent[at][written[at]..]) {
                Ok(count) => written[at] += count,
                Err(e) if e.kind() == ErrorKind::WouldBlock => (),
                Err(e) => return Err(format!("{at}: {e}")),
            }
        }
        if Instant::now() > end {
            return Err("nothing came in time".into());
        }
    }
    assert!(read[0] == sent[1] && read[1] == sent[0]);
    Ok(())
}

/// A connection of two makers, after it was tried.
pub fn connected(above: &Maker, below: &Maker) -> Result<[Line; 2], String> {
    let (listener, address) = listen();
    let mut down = below.connect(&address.into()).unwrap();
    let mut up = accept(above, &listener);
    exchange([&mut up, &mut down], 100).map(|()| [up, down])
}
