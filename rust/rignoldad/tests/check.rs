//! What `--check` says of an agent that cannot work on this machine, and of agents that do not fit.
use openssl::asn1::Asn1Time;
use openssl::bn::BigNum;
use openssl::ec::{EcGroup, EcKey};
use openssl::hash::MessageDigest;
use openssl::nid::Nid;
use openssl::pkey::{PKey, Private};
use openssl::symm::Cipher;
use openssl::x509::extension::{BasicConstraints, SubjectAlternativeName};
use openssl::x509::{X509Builder, X509NameBuilder, X509};
use rignolda_tls::{Maker, Tls};
use rignoldad::check::check;
use std::fs::{self, Permissions};
use std::io::Write;
use std::os::unix::fs::{symlink, MetadataExt, PermissionsExt};
use std::os::unix::net::UnixListener;
use std::path::{Path, PathBuf};
use std::time::{Duration, SystemTime, UNIX_EPOCH};

type Pair = (X509, PKey<Private>);
/// What is done in a folder before the check.
type Act = fn(&Path);
/// A file, and what is replaced in it by what.
type Edit = (usize, &'static str, &'static str);
type TreeCase<'a> = (&'a str, &'a [Edit], &'a [(usize, Said)]);
/// The names of a certificate, its days, and what is said of it.
type CertificateCase<'a> = ([&'a str; 2], [i64; 2], Option<(&'static str, bool)>);
/// A line from 1, a key, a part of the text, and whether it is a warning.
type Said = (usize, &'static str, &'static str, bool);

struct Folder(PathBuf);

impl Folder {
    fn new(name: &str) -> Folder {
        let path = std::env::temp_dir().join(format!("rignolda-{name}-{}", std::process::id()));
        let _ = fs::remove_dir_all(&path);
        fs::create_dir(&path).unwrap();
        fs::set_permissions(&path, Permissions::from_mode(0o777)).unwrap();
        Folder(path)
    }
}

impl Drop for Folder {
    fn drop(&mut self) {
        let _ = fs::remove_dir_all(&self.0);
    }
}

/// A certificate with a DNS name and a common name, valid from and to these days from now.
fn certificate(names: [&str; 2], authority: Option<&Pair>, days: [i64; 2]) -> Pair {
    let curve = EcGroup::from_curve_name(Nid::X9_62_PRIME256V1).unwrap();
    let key = PKey::from_ec_key(EcKey::generate(&curve).unwrap()).unwrap();
    let mut name = X509NameBuilder::new().unwrap();
    name.append_entry_by_text("CN", names[1]).unwrap();
    let name = name.build();
    let mut it = X509Builder::new().unwrap();
    it.set_version(2).unwrap();
    let mut serial = BigNum::new().unwrap();
    serial.rand(64, openssl::bn::MsbOption::MAYBE_ZERO, false).unwrap();
    it.set_serial_number(&serial.to_asn1_integer().unwrap()).unwrap();
    it.set_subject_name(&name).unwrap();
    it.set_pubkey(&key).unwrap();
    let now = SystemTime::now().duration_since(UNIX_EPOCH).unwrap().as_secs() as i64;
    let [begin, end] = days.map(|days| Asn1Time::from_unix(now + days * 86_400).unwrap());
    it.set_not_before(&begin).unwrap();
    it.set_not_after(&end).unwrap();
    match authority {
        None => {
            it.set_issuer_name(&name).unwrap();
            it.append_extension(BasicConstraints::new().critical().ca().build().unwrap()).unwrap();
        }
        Some((above, _)) => {
            it.set_issuer_name(above.subject_name()).unwrap();
            let names =
                SubjectAlternativeName::new().dns(names[0]).build(&it.x509v3_context(None, None));
            it.append_extension(names.unwrap()).unwrap();
        }
    }
    it.sign(authority.map_or(&key, |(_, key)| key), MessageDigest::sha256()).unwrap();
    (it.build(), key)
}

/// Where root tries this, another user is asked for, who may do less; else the one who tries it.
fn words() -> Vec<String> {
    match fs::metadata("/proc/self").unwrap().uid() {
        0 => ["setpriv", "--reuid=65534", "--regid=65534", "--clear-groups"].map(Into::into).into(),
        _ => Vec::new(),
    }
}

/// Whether just these faults are found: file, line, key, a part of the text, and whether it warns.
fn found(paths: &[PathBuf], expected: &[(usize, Said)]) -> Result<(), String> {
    let faults = check(paths, &words());
    let are_these = faults.len() == expected.len()
        && expected.iter().all(|(at, (line, key, text, warns))| {
            faults.iter().any(|(file, it)| {
                (file, &it.line, &*it.key, it.is_warning) == (at, line, *key, *warns)
                    && it.text.contains(text)
            })
        });
    are_these.then_some(()).ok_or(format!("{faults:#?}"))
}

const AGENT: &str = r#"name = "a"
parents = ["hub@127.0.0.1:7464"]
listen = "unix:DIR/link"
children = ["b"]
control = "DIR/control"
[tls]
certificate = "DIR/own"
key = "DIR/key"
authority = "DIR/authority"
[apply]
folder = "DIR/applied"
hook = "DIR/hook"
[store]
password = "DIR/password"
"#;

const ROOT: &str = r#"name = "a"
control = "DIR/control"
[root]
settings = "DIR/truth"
"#;

/// A folder in which all is there that `AGENT` and `ROOT` name, and the authority.
fn whole(name: &str) -> (Folder, Pair) {
    let folder = Folder::new(name);
    let authority = certificate(["", "authority"], None, [-1, 1_000]);
    let own = certificate(["a", "b"], Some(&authority), [-1, 40]);
    put(&folder.0, &own);
    let write = |name: &str, bytes: &[u8]| fs::write(folder.0.join(name), bytes).unwrap();
    write("authority", &authority.0.to_pem().unwrap());
    write("hook", b"#!/bin/sh\n");
    write("password", b"word\n");
    mode(&folder.0, "hook", 0o755);
    for name in ["truth", "applied"] {
        fs::create_dir(folder.0.join(name)).unwrap();
        mode(&folder.0, name, 0o777);
    }
    (folder, authority)
}

fn mode(folder: &Path, name: &str, mode: u32) {
    fs::set_permissions(folder.join(name), Permissions::from_mode(mode)).unwrap();
}

/// Writes a certificate and its key.
fn put(folder: &Path, (own, key): &Pair) {
    fs::write(folder.join("own"), own.to_pem().unwrap()).unwrap();
    fs::write(folder.join("key"), key.private_key_to_pem_pkcs8().unwrap()).unwrap();
}

fn fifo(path: PathBuf) {
    fs::remove_file(&path).unwrap();
    assert!(std::process::Command::new("mkfifo").arg(path).status().unwrap().success());
}

#[test]
fn says_what_cannot_work_on_this_machine() {
    let agents: &[(&str, Act, &[Said])] = &[
        ("all is well", |_| (), &[]),
        (
            "a missing key",
            |at| fs::remove_file(at.join("key")).unwrap(),
            &[(8, "tls.key", "is not there", false)],
        ),
        ("an unreadable key", |at| mode(at, "key", 0), &[(8, "tls.key", "cannot be read", false)]),
        (
            "a key for which a word is asked",
            |at| {
                let key = fs::read(at.join("key")).unwrap();
                let key = PKey::private_key_from_pem(&key).unwrap();
                let key = key.private_key_to_pem_pkcs8_passphrase(Cipher::aes_128_cbc(), b"word");
                fs::write(at.join("key"), key.unwrap()).unwrap();
            },
            &[(8, "tls.key", "nothing in it can be used", false)],
        ),
        (
            "a key that a start puts there",
            |at| {
                let path = at.join("agent.toml");
                let (text, key) = (fs::read_to_string(&path).unwrap(), at.join("key"));
                fs::write(path, text.replace(key.to_str().unwrap(), "/run/rignolda-no/key"))
                    .unwrap();
            },
            &[(8, "tls.key", "`/run/rignolda-no/key` is not there", true)],
        ),
        (
            "the key of another certificate",
            |at| {
                let other = certificate(["", "c"], None, [-1, 40]).1;
                fs::write(at.join("key"), other.private_key_to_pem_pkcs8().unwrap()).unwrap();
            },
            &[(8, "tls.key", "another certificate", false)],
        ),
        (
            "a missing certificate",
            |at| fs::remove_file(at.join("own")).unwrap(),
            &[(7, "tls.certificate", "is not there", false)],
        ),
        (
            "a certificate that is none",
            |at| fs::write(at.join("own"), "none").unwrap(),
            &[(7, "tls.certificate", "nothing in it", false)],
        ),
        (
            "a certificate that is a pipe",
            |at| fifo(at.join("own")),
            &[(7, "tls.certificate", "is no file", false)],
        ),
        (
            "an unreadable authority",
            |at| mode(at, "authority", 0),
            &[(9, "tls.authority", "cannot be read", false)],
        ),
        (
            "an authority that is none",
            |at| fs::write(at.join("authority"), "").unwrap(),
            &[(9, "tls.authority", "nothing in it", false)],
        ),
        (
            "another authority",
            |at| {
                let other = certificate(["", "authority"], None, [-1, 40]).0;
                fs::write(at.join("authority"), other.to_pem().unwrap()).unwrap();
            },
            &[(7, "tls.certificate", "did not sign it", false)],
        ),
        (
            "an authority that has expired",
            |at| {
                let other = certificate(["", "authority"], None, [-9, -1]).0;
                fs::write(at.join("authority"), other.to_pem().unwrap()).unwrap();
            },
            &[
                (9, "tls.authority", "has expired", false),
                (7, "tls.certificate", "did not sign it", false),
            ],
        ),
        (
            "an authority that expires soon, beside its next one",
            |at| {
                let [old, new] =
                    [20, 900].map(|days| certificate(["", "authority"], None, [-9, days]).0);
                let own = fs::read(at.join("authority")).unwrap();
                let all = [own, old.to_pem().unwrap(), new.to_pem().unwrap()].concat();
                fs::write(at.join("authority"), all).unwrap();
            },
            &[],
        ),
        (
            "a list of revoked certificates",
            |at| {
                let file = fs::OpenOptions::new().append(true).open(at.join("authority"));
                let list = "-----BEGIN X509 CRL-----\nMAA=\n-----END X509 CRL-----\n";
                file.unwrap().write_all(list.as_bytes()).unwrap();
            },
            &[(9, "tls.authority", "revoked certificates, which do not count", false)],
        ),
        (
            "a missing hook",
            |at| fs::remove_file(at.join("hook")).unwrap(),
            &[(12, "apply.hook", "is not there", false)],
        ),
        (
            "a hook that nobody may run",
            |at| mode(at, "hook", 0o644),
            &[(12, "apply.hook", "cannot be run", false)],
        ),
        (
            "a hook that is a folder",
            |at| {
                fs::remove_file(at.join("hook")).unwrap();
                fs::create_dir(at.join("hook")).unwrap();
            },
            &[(12, "apply.hook", "is no file", false)],
        ),
        ("no applied folder, which is made", |at| fs::remove_dir(at.join("applied")).unwrap(), &[]),
        (
            "an applied folder with files of somebody else",
            |at| fs::write(at.join("applied/app.conf"), "mine").unwrap(),
            &[(11, "apply.folder", "has `app.conf`", false)],
        ),
        (
            "an applied folder with files and the agent's marker",
            |at| {
                fs::write(at.join("applied/app.conf"), "its").unwrap();
                fs::write(at.join("applied/.rignolda"), "").unwrap();
            },
            &[],
        ),
        (
            "an applied folder of another user",
            |at| mode(at, "applied", 0o555),
            &[(11, "apply.folder", "cannot be written", false)],
        ),
        (
            "a control socket that is a file",
            |at| fs::write(at.join("control"), "mine").unwrap(),
            &[(5, "control", "no socket", false)],
        ),
        (
            "a listener that is a folder",
            |at| fs::create_dir(at.join("link")).unwrap(),
            &[(3, "listen", "no socket", false)],
        ),
        ("a socket that was left", |at| drop(UnixListener::bind(at.join("control")).unwrap()), &[]),
        (
            "a folder to which nobody may write",
            |at| mode(at, "", 0o755),
            &[
                (3, "listen", "cannot be written", false),
                (5, "control", "cannot be written", false),
            ],
        ),
        (
            "no password",
            |at| fs::remove_file(at.join("password")).unwrap(),
            &[(14, "store.password", "is not there", false)],
        ),
    ];
    let roots: &[(&str, Act, &[Said])] = &[
        ("a root is well", |_| (), &[]),
        (
            "no folder of settings",
            |at| fs::remove_dir(at.join("truth")).unwrap(),
            &[(4, "root.settings", "is not there", false)],
        ),
        (
            "a folder of settings that cannot be read",
            |at| mode(at, "truth", 0o311),
            &[(4, "root.settings", "cannot be read", false)],
        ),
        (
            "a folder of settings where nothing is published",
            |at| mode(at, "truth", 0o755),
            &[(4, "root.settings", "`publish`", true)],
        ),
        (
            "a folder of settings that are links, as of a ConfigMap",
            |at| {
                let truth = at.join("truth");
                fs::create_dir(truth.join("..1")).unwrap();
                fs::write(truth.join("..1/app.conf"), "1").unwrap();
                symlink("..1", truth.join("..data")).unwrap();
                symlink("..data/app.conf", truth.join("app.conf")).unwrap();
            },
            &[(4, "root.settings", "1 in it are links, as `app.conf`", true)],
        ),
    ];
    let mut wrong = Vec::new();
    for (text, cases) in [(AGENT, agents), (ROOT, roots)] {
        for (name, act, said) in cases {
            let (folder, _) = whole("machine");
            let path = folder.0.join("agent.toml");
            fs::write(&path, text.replace("DIR", folder.0.to_str().unwrap())).unwrap();
            act(&folder.0);
            let said: Vec<(usize, Said)> = said.iter().map(|said| (0, *said)).collect();
            wrong.extend(found(&[path], &said).err().map(|faults| format!("{name}: {faults}")));
        }
    }
    assert!(wrong.is_empty(), "{}", wrong.join("\n"));
}

/// (it would be waited for by the loop of an agent that reads its configuration again)
#[test]
fn no_pipe_in_the_place_of_a_certificate_is_waited_for() {
    for name in ["own", "key", "authority"] {
        let (folder, _) = whole("pipe");
        fifo(folder.0.join(name));
        let path = |name: &str| folder.0.join(name);
        let tls = Tls { certificate: path("own"), key: path("key"), authority: path("authority") };
        let why = Maker::new(Some(&tls), Duration::from_secs(1)).err().unwrap();
        assert_eq!(why.to_string(), format!("{}: it is no file", path(name).display()));
    }
}

#[test]
fn says_what_is_wrong_with_a_certificate() {
    let cases: &[CertificateCase] = &[
        (["a", "b"], [-1, 31], None),
        (["a", "b"], [-1, 29], Some(("expires soon", true))),
        (["a", "b"], [-2, -1], Some(("has expired", false))),
        (["a", "b"], [1, 60], Some(("is not yet valid", false))),
        (["b", "b"], [-1, 60], Some(("DNS name", false))),
        // (a common name counts for nothing)
        (["b", "a"], [-1, 60], Some(("DNS name", false))),
    ];
    let (folder, authority) = whole("certificates");
    let path = folder.0.join("agent.toml");
    fs::write(&path, AGENT.replace("DIR", folder.0.to_str().unwrap())).unwrap();
    for (names, days, said) in cases {
        put(&folder.0, &certificate(*names, Some(&authority), *days));
        let said: Vec<(usize, Said)> =
            said.iter().map(|(text, warns)| (0, (7, "tls.certificate", *text, *warns))).collect();
        let done = found(std::slice::from_ref(&path), &said);
        done.map_err(|faults| panic!("{names:?} {days:?}: {faults}")).unwrap();
    }
}

/// (a unit makes folders beneath /run, and puts a key there)
#[test]
fn what_a_start_makes_is_a_warning() {
    let folder = Folder::new("run");
    let path = folder.0.join("agent.toml");
    let text = "name = \"a\"\nparents = [\"hub@127.0.0.1:1\"]\ncontrol = \"/run/rignolda-no/c\"";
    fs::write(&path, text).unwrap();
    found(
        std::slice::from_ref(&path),
        &[(0, (3, "control", "`/run/rignolda-no` is not there", true))],
    )
    .unwrap();
    fs::write(&path, text.replace("/run", "/rignolda-no")).unwrap();
    found(&[path], &[(0, (3, "control", "is not there", false))]).unwrap();
}

#[test]
fn says_what_does_not_fit_in_a_tree() {
    const HUB: &str = "name = \"hub\"\nlisten = \"0.0.0.0:7464\"\n\
                       children = [\"r1\", \"r2\", \"r3\"]\ninsecure = true\n\
                       [root]\nsettings = \"/s\"\nharmless = 7\n";
    const R1: &str = "name = \"r1\"\nparents = [\"hub@10.0.0.1:7464\", \"r2@r2.example:7464\"]\n\
                      listen = \"10.0.0.2:7464\"\nchildren = [\"r3\", \"h1\"]\ninsecure = true\n";
    const R2: &str = "name = \"r2\"\nparents = [\"hub@hub.example:7464\", \"r3@10.0.0.4:7464\"]\n\
                      listen = \"[::]:7464\"\nchildren = [\"r1\", \"h2@10.0.0.9:1\"]\n\
                      insecure = true\n";
    const R3: &str = "name = \"r3\"\nparents = [\"hub@10.0.0.1:7464\", \"r1@10.0.0.2:7464\"]\n\
                      listen = \"10.0.0.4:7464\"\nchildren = \"any\"\ninsecure = true\n";
    const H1: &str = "name = \"h1\"\nparents = \"r1@10.0.0.2:7464\"\ninsecure = true\n";
    const H2: &str = "name = \"h2\"\nparents = \"r2\"\nlisten = \"0.0.0.0:1\"\ninsecure = true\n";
    const ALL: [&str; 6] = [HUB, R1, R2, R3, H1, H2];
    const TLS: &str = "\n[tls]\ncertificate = \"/a\"\nkey = \"/a\"\nauthority = \"/a\"\n";
    let cases: &[TreeCase] = &[
        ("a tree with second parents that go round", &[], &[]),
        (
            "a name that is there twice",
            &[
                (5, "\"h2\"", "\"h1\""),
                (5, "\"r2\"\nlisten = \"0.0.0.0:1\"", "\"r1@10.0.0.2:7464\""),
            ],
            &[(5, (1, "name", "4.toml too", false)), (2, (4, "children", "`h2`", true))],
        ),
        (
            "a parent that lacks a child",
            &[(1, ", \"h1\"", "")],
            &[(1, (4, "children", "`h1` is missing", false))],
        ),
        (
            "a child that no file has",
            &[(0, "\"r2\"", "\"r2\", \"r4\"")],
            &[(0, (3, "children", "`r4` has not", true))],
        ),
        (
            "a child that does not want it",
            &[(0, "\"r2\"", "\"r2\", \"h1\"")],
            &[(0, (3, "children", "`h1` has not", true))],
        ),
        (
            "a parent that connects to a child which does not want it",
            &[(0, "\"r2\"", "\"r2\", \"h2@10.0.0.9:1\"")],
            &[(0, (3, "children", "`h2` has not", false))],
        ),
        (
            "neither end connects",
            &[(2, "h2@10.0.0.9:1", "h2")],
            &[(2, (4, "children", "an address", false))],
        ),
        (
            "a port at which nobody listens",
            &[(4, "7464", "7465")],
            &[(4, (2, "parents", "no `listen` of `r1` is `10.0.0.2:7465`", false))],
        ),
        (
            "an address at which nobody listens",
            &[(4, "10.0.0.2", "10.0.0.3")],
            &[(4, (2, "parents", "no `listen` of `r1`", false))],
        ),
        (
            "an address of IPv6, where all of IPv4 alone is listened at",
            &[(1, "10.0.0.1:7464", "[fd00::1]:7464")],
            &[(1, (2, "parents", "no `listen` of `hub`", false))],
        ),
        (
            "a host's name that cannot be compared",
            &[(4, "10.0.0.2", "r1.example")],
            &[(4, (2, "parents", "no `listen` of `r1`", true))],
        ),
        (
            "a parent that connects where nobody listens",
            &[(5, ":1\"", ":2\"")],
            &[(2, (4, "children", "no `listen` of `h2`", false))],
        ),
        (
            "ends of a link in two stores",
            &[(4, "10.0.0.2:7464", "redis://10.0.0.8:1/t"), (1, "h1", "h1@redis://10.0.0.8:1/u")],
            &[
                (4, (2, "parents", "`redis://10.0.0.8:1/t`", false)),
                (1, (4, "children", "`redis://10.0.0.8:1/u`", false)),
            ],
        ),
        (
            "a parent that no file has",
            &[(4, "r1@", "r9@"), (1, ", \"h1\"", "")],
            &[
                (4, (2, "parents", "no file has `r9", false)),
                (4, (2, "parents", "no way leads to the root: h1", false)),
            ],
        ),
        (
            "two roots",
            &[
                (4, "parents = \"r1@10.0.0.2:7464\"\n", ""),
                (4, "true", "true\n[root]\nsettings = \"/s\""),
                (1, ", \"h1\"", ""),
            ],
            &[(4, (3, "root", "0.toml is the root", false))],
        ),
        (
            "no root",
            &[(0, "[root]\nsettings = \"/s\"\nharmless = 7", "parents = \"x@10.0.0.2:7464\"")],
            &[
                (0, (5, "parents", "no file has `x", false)),
                (0, (0, "root", "no file has [root]", false)),
            ],
        ),
        (
            "a ring without a way out",
            &[
                (0, "\"r1\", \"r2\", \"r3\"", "\"h3\""),
                (1, "\"hub@10.0.0.1:7464\", ", ""),
                (2, "\"hub@hub.example:7464\", ", ""),
                (3, "\"hub@10.0.0.1:7464\", ", ""),
            ],
            &[
                (0, (3, "children", "`h3` has not", true)),
                (1, (2, "parents", "no way leads to the root: r1, r2, r3, r1", false)),
                (2, (2, "parents", "no way leads to the root: r2, r3, r1, r2", false)),
                (3, (2, "parents", "no way leads to the root: r3, r1, r2, r3", false)),
                (4, (2, "parents", "no way leads to the root: h1, r1, r2, r3", false)),
                (5, (2, "parents", "no way leads to the root: h2, r2, r3, r1", false)),
            ],
        ),
        (
            "too few harmless items",
            &[(0, "harmless = 7", "harmless = 6")],
            &[(0, (7, "root.harmless", "at least 7", false))],
        ),
        (
            "a backlog that is gone before a child is back",
            &[(0, "[root]", "[link]\nevict = \"2s\"\nack_timeout = \"1s\"\n[root]")],
            &[
                (0, (6, "link.evict", "`ack_timeout` of `r1`", false)),
                (0, (6, "link.evict", "`ack_timeout` of `r2`", false)),
                (0, (6, "link.evict", "`ack_timeout` of `r3`", false)),
            ],
        ),
        (
            "TLS at one end",
            &[(4, "insecure = true", TLS)],
            &[(4, (2, "parents", "`r1` alone has", false))],
        ),
        (
            "a parent without a name",
            &[(4, "r1@", "")],
            &[(4, (2, "parents", "no name", true)), (1, (4, "children", "`h1` has not", true))],
        ),
        // (a file that is wrong hides what the tree is like)
        (
            "a file that is wrong",
            &[(0, "[root]", "[rot]")],
            &[(0, (0, "parents", "has a parent", false)), (0, (5, "rot", "no such key", false))],
        ),
    ];
    fit("tree", &ALL, cases);
}

/// Tries these cases of files: of each what is said of all files together.
fn fit(name: &str, all: &[&str], cases: &[TreeCase]) {
    let folder = Folder::new(name);
    let paths: Vec<PathBuf> =
        (0..all.len()).map(|at| folder.0.join(format!("{at}.toml"))).collect();
    let mut wrong = Vec::new();
    for (name, edits, said) in cases {
        let mut texts: Vec<String> = all.iter().map(|it| it.to_string()).collect();
        for (at, old, new) in *edits {
            assert!(texts[*at].contains(old), "{name}: {old}");
            texts[*at] = texts[*at].replacen(old, new, 1);
        }
        for (path, text) in paths.iter().zip(&texts) {
            fs::write(path, text).unwrap();
        }
        wrong.extend(found(&paths, said).err().map(|faults| format!("{name}: {faults}")));
    }
    assert!(wrong.is_empty(), "{}", wrong.join("\n"));
}

/// Two agents of which either may be the root, and one below both.
#[test]
fn says_what_does_not_fit_of_two_roots() {
    const ONE: &str = "name = \"one\"\nlisten = \"0.0.0.0:1\"\nparents = \"two@10.0.0.2:2\"\n\
                       children = [\"two\", \"h\"]\ncontrol = \"/r/c\"\ninsecure = true\n\
                       [apply]\nfolder = \"/a/b\"\n[root]\nsettings = \"/s\"\nstandby = true\n\
                       harmless = 7\n";
    const TWO: &str = "name = \"two\"\nlisten = \"0.0.0.0:2\"\nparents = \"one@10.0.0.1:1\"\n\
                       children = [\"one\", \"h\"]\ncontrol = \"/r/c\"\ninsecure = true\n\
                       [apply]\nfolder = \"/a/b\"\n[root]\nsettings = \"/s\"\nstandby = true\n\
                       harmless = 7\n";
    const H: &str = "name = \"h\"\nparents = [\"one@10.0.0.1:1\", \"two@10.0.0.2:2\"]\n\
                     insecure = true\n";
    let of_two = |line, key, text| (1, (line, key, text, false));
    let cases: &[TreeCase] = &[
        ("either may be the root", &[], &[]),
        (
            "one of them is no standby",
            &[(1, "standby = true\n", "")],
            &[of_two(4, "children", "is a parent"), of_two(9, "root", "unless it has `standby`")],
        ),
        (
            "one has no parents",
            &[(1, "parents = \"one@10.0.0.1:1\"\n", "")],
            &[of_two(0, "parents", "has parents until it is promoted")],
        ),
        (
            "one is to look into a store",
            &[(1, "10.0.0.1:1", "redis://10.0.0.1:1/t")],
            &[of_two(3, "parents", "in no store")],
        ),
        (
            "one does not look at the other",
            &[(1, "one@10.0.0.1:1", "x@10.0.0.9:9")],
            &[
                of_two(3, "parents", "no file has `x"),
                of_two(3, "parents", "`one` is missing: two roots look at each other"),
                of_two(3, "parents", "no way leads to the root `one`: two"),
                (0, (4, "children", "`two` has not", true)),
            ],
        ),
        (
            "one begins rounds with too few harmless items",
            &[(1, "harmless = 7", "harmless = 6")],
            &[of_two(12, "root.harmless", "at least 7")],
        ),
        (
            "one applies nothing",
            &[(1, "[apply]\nfolder = \"/a/b\"\n", "")],
            &[of_two(9, "root.standby", "[apply] is missing")],
        ),
    ];
    fit("roots", &[ONE, TWO, H], cases);
    // (what is no folder of its own is seen on its machine alone)
    let folder = Folder::new("no-folder");
    let (path, dir) = (folder.0.join("agent.toml"), folder.0.to_str().unwrap());
    let text = ONE.replace("/a/b", &format!("{dir}/applied")).replace("/r/c", &format!("{dir}/c"));
    let own = format!("\"{}\"", path.display());
    fs::write(&path, text.replace("\"/s\"", &own)).unwrap();
    found(&[path], &[(0, (10, "root.settings", "`promote` is refused", false))]).unwrap();
}

/// (a way costs at most 127, and each link 1)
#[test]
fn no_way_is_too_long() {
    let folder = Folder::new("deep");
    let paths: Vec<PathBuf> = (0..130).map(|at| folder.0.join(format!("{at}.toml"))).collect();
    for (at, path) in paths.iter().enumerate() {
        let ends = "[root]\nsettings = \"/s\"\nharmless = 257\n[link]\nbacklog = 1036\n";
        let parents = |up: usize| format!("parents = [\"a{up}@unix:/{up}\"]\n");
        let above = at.checked_sub(1).map_or(ends.into(), parents);
        let (name, child) = (format!("name = \"a{at}\"\n"), at + 1);
        let below = format!("listen = \"unix:/{at}\"\nchildren = [\"a{child}\"]\n");
        fs::write(path, name + if at < 129 { &below } else { "" } + &above).unwrap();
    }
    let said = |line| (line, "parents", "no way leads to the root", false);
    found(&paths, &[(128, said(4)), (129, said(2))]).unwrap();
    // (so many the deepest one needs; and what is not set counts for a depth of 10)
    for text in ["harmless = 256\n", ""] {
        let old = fs::read_to_string(&paths[0]).unwrap();
        let at = if text.is_empty() { (4, "root.harmless") } else { (6, "root.harmless") };
        let line = old.lines().find(|line| line.starts_with("harmless")).unwrap();
        fs::write(&paths[0], old.replace(&format!("{line}\n"), text)).unwrap();
        let few = (at.0, at.1, "at least 257", false);
        found(&paths, &[(0, few), (128, said(4)), (129, said(2))]).unwrap();
    }
}

/// The status that it ends with, what it writes to its output, and to its errors.
fn run(words: &[&str]) -> (Option<i32>, String, String) {
    let done = std::process::Command::new(env!("CARGO_BIN_EXE_rignoldad")).args(words).output();
    let done = done.unwrap();
    let text = |bytes: Vec<u8>| String::from_utf8(bytes).unwrap();
    (done.status.code(), text(done.stdout), text(done.stderr))
}

#[test]
fn the_status_says_whether_it_works() {
    let folder = Folder::new("status");
    let path = folder.0.join("agent.toml");
    let file = path.to_str().unwrap();
    let check = |text: &str| {
        fs::write(&path, text).unwrap();
        run(&["--check", file])
    };
    let good = "name = \"a\"\nparents = [\"b@127.0.0.1:1\"]\n";
    let (status, said, faults) = check(good);
    assert_eq!((status, &*faults), (Some(0), ""));
    assert!(said.starts_with("checked for "), "{said}");
    let (status, _, faults) = check(&(good.to_string() + "control = \"/run/rignolda-no/control\""));
    let warning = "warning: line 3: control: `/run/rignolda-no` is not there\n";
    assert_eq!((status, faults), (Some(0), format!("{file}: {warning}")));
    // (nothing that it says acts on a terminal)
    let (status, _, faults) =
        check(&(good.to_string() + "\"\u{1b}[2J\" = \"\\u001b]0;me\\u0007\""));
    assert_eq!(status, Some(1));
    assert!(!faults.trim_end().chars().any(char::is_control), "{faults:?}");
    let (status, _, faults) = check(&format!("name = \"{}\"\n", "\\u202e".repeat(90_000)));
    assert_eq!(status, Some(1));
    assert!(faults.is_ascii() && faults.len() < 10_000, "{}", faults.len());
    for words in [&["--other"][..], &[file, file], &["--user", "root", file]] {
        assert_eq!(run(words).0, Some(2), "{words:?}");
    }
    // (nobody ever writes to it)
    fs::write(&path, "").unwrap();
    fifo(path.clone());
    let (status, _, faults) = run(&["--check", file]);
    assert_eq!((status, faults), (Some(1), format!("{file}: it is no file\n")));
    let (status, _, faults) = run(&["--check", "/rignolda-no/agent.toml"]);
    assert_eq!(status, Some(1));
    assert!(faults.starts_with("/rignolda-no/agent.toml: No such file"), "{faults}");
    // (what is not run is not a configuration either)
    assert_eq!(run(&["/rignolda-no/agent.toml"]).0, Some(1));
    if fs::metadata("/proc/self").unwrap().uid() == 0 {
        let whose = |user: &str| run(&["--check", "--user", user, file]).1;
        assert_eq!(whose("root"), "checked for root\n");
        assert_eq!(whose("no-such"), "checked for root, as there is no user `no-such`\n");
    }
}
