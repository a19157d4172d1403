//! What a configuration means, and what is said of one that is wrong.
use rignoldad::config::{Address, Children, Config};
use rignoldad::depth::{too_deep, TOO_DEEP};
use std::time::Duration;

const WHOLE: &str = r#"
name = "rack3"
listen = ["10.1.0.3:7464", "[fd00::3]:7464", "unix:/run/rignolda/link"]
children = ["host31", "host32"]
parents = ["hub@hub.example:7464", "hub2@10.1.0.2:7464"]
control = "/run/rignolda/control"
metrics = "127.0.0.1:9464"
groups = ["canary", "eu"]

[link]
ack_timeout = "500ms"
backlog = 200
evict = "10m"

[tls]
certificate = "/etc/rignolda/agent.crt"
key = "/etc/rignolda/agent.key"
authority = "/etc/rignolda/authority.crt"

[apply]
folder = "/var/lib/rignolda/settings"
mode = "0600"
hook = "/etc/rignolda/hook"
hook_timeout = "1m"

[[hook]]
keys = ["app.*", "b"]
run = "/etc/rignolda/app"
timeout = "1m"

[[hook]]
keys = "*"
run = "/all"
"#;

#[test]
fn reads_every_key() {
    let config = Config::parse(WHOLE).unwrap();
    assert_eq!(config.agent.peers.name, "rack3");
    assert_eq!(config.listen[1], Address::Tcp("[fd00::3]:7464".into()));
    assert_eq!(config.listen[2], Address::Unix("/run/rignolda/link".into()));
    let children = [("host31".into(), None), ("host32".into(), None)];
    assert_eq!(config.agent.peers.children, Children::Named(children.into()));
    assert_eq!(config.agent.peers.parents[1].name.as_deref(), Some("hub2"));
    assert_eq!(config.agent.peers.parents[1].address, Some(Address::Tcp("10.1.0.2:7464".into())));
    assert_eq!(config.agent.peers.ack_timeout, Duration::from_millis(500));
    assert_eq!(config.agent.backlog, 200);
    assert_eq!(config.agent.peers.evict, Duration::from_secs(600));
    assert_eq!(config.tls.unwrap().authority.to_str(), Some("/etc/rignolda/authority.crt"));
    let apply = config.agent.apply.unwrap();
    assert_eq!((apply.mode, apply.hook_timeout), (0o600, Duration::from_secs(60)));
    assert_eq!(apply.groups, ["canary", "eu"]);
    let [app, all] = &apply.hooks[..] else { panic!("{:?}", apply.hooks) };
    assert_eq!(
        (&app.keys[..], app.timeout),
        (&["app.*".into(), "b".into()][..], Duration::from_secs(60))
    );
    assert_eq!((Some(&*all.run), all.timeout), (Some("/all"), Duration::from_secs(30)));
    assert_eq!(config.agent.root, None);
    assert!(!config.insecure);
    let root = |more: &str| {
        let text = format!("name = \"a\"\n[root]\nsettings = \"/s\"\n{more}");
        let root = Config::parse(&text).unwrap().agent.root.unwrap();
        (root.hold, root.unsets)
    };
    assert_eq!(root(""), (false, None));
    assert_eq!(root("hold = true\nunsets = 0"), (true, Some(0)));
    let harmless = |more: &str, depth| {
        let text = format!("name = \"a\"\n[root]\nsettings = \"/s\"\n{more}");
        Config::parse(&text).unwrap().agent.root.unwrap().harmless(depth)
    };
    assert_eq!(["", "harmless = 7"].map(|it| harmless(it, 10)), [23, 7]);
    // (however deep it is said to be, a round has no more than after a start)
    assert_eq!([1, 9, 11, 64, u32::MAX].map(|depth| harmless("", depth)), [5, 21, 23, 23, 23]);
}

#[test]
fn either_end_may_connect() {
    let child = "name = \"c\"\nlisten = \"[::1]:1\"\nparents = [\"hub cost=0\", \"b@[::1]:2\"]";
    let parents = Config::parse(child).unwrap().agent.peers.parents;
    assert_eq!([parents[0].price, parents[1].price], [Some(0), None]);
    let all: Vec<_> = parents.iter().map(|it| (it.to_string(), it.address.is_some())).collect();
    assert_eq!(all, [("hub".into(), false), ("b".into(), true)]);
    // (nobody connects to this root, so it listens nowhere)
    let root = "name = \"a\"\nchildren = [\"c@[::1]:1\", \"d@unix:/d\"]\n\
         [root]\nsettings = \"/s\"";
    let children = [
        ("c".into(), Some(Address::Tcp("[::1]:1".into()))),
        ("d".into(), Some(Address::Unix("/d".into()))),
    ];
    assert_eq!(Config::parse(root).unwrap().agent.peers.children, Children::Named(children.into()));
}

#[test]
fn says_each_fault_with_its_line_and_key() {
    let long = format!("name = \"{}\"\n[root]\nsettings = \"/s\"", "a".repeat(65));
    let cases: &[(&str, usize, &str, &str)] = &[
        ("", 0, "name", "is missing"),
        (&long, 1, "name", "1 to 64"),
        ("name = \"-a\"\n[root]\nsettings = \"/s\"", 1, "name", "no dot or hyphen"),
        ("name = \"a\"\nnmae = 1\n[root]\nsettings = \"/s\"", 2, "nmae", "no such key"),
        ("name = \"a\"\n[root]\nsettings = \"/s\"\nrund = 1", 4, "root.rund", "no such key"),
        ("name = \"a\"\n[root]\nround = \"1s\"", 2, "root.settings", "is missing"),
        ("name = \"a\"\n[root]\nsettings = 3", 3, "root.settings", "a text"),
        ("name = \"a\"\n[root]\nsettings = \"s\"", 3, "root.settings", "absolute"),
        ("name = \"a\"\n[root]\nsettings = \"/s\"\nround = \"5\"", 4, "root.round", "a time"),
        ("name = \"a\"\n[root]\nsettings = \"/s\"\nround = \"1ms\"", 4, "root.round", "100ms"),
        ("name = \"a\"\n[root]\nsettings = \"/s\"\nharmless = 0", 4, "root.harmless", "1 to"),
        ("name = \"a\"\n[root]\nsettings = \"/s\"\nhold = 1", 4, "root.hold", "true or false"),
        ("name = \"a\"\n[root]\nsettings = \"/s\"\nunsets = -1", 4, "root.unsets", "0 to 65536"),
        ("name = \"a", 1, "", "unterminated"),
        ("name = \"a\"", 0, "parents", "has a parent"),
        (
            "name = \"a\"\nparents = [\"127.0.0.1:1\"]\n[root]\nsettings = \"/s\"",
            3,
            "root",
            "no `parents`",
        ),
        ("name = \"a\"\nparents = [\"b@10.0.0.1:1\"]", 2, "parents", "is on the network"),
        ("name = \"a\"\nparents = [\"a@127.0.0.1:1\"]", 2, "parents", "of its own"),
        ("name = \"a\"\nparents = [\"b@127.0.0.1:0\"]", 2, "parents", "from 1 to 65535"),
        ("name = \"a\"\nparents = [\"b@::1:7464\"]", 2, "parents", "needs brackets"),
        ("name = \"a\"\nparents = [\"b\"]", 2, "parents", "one of `listen`"),
        ("name = \"a\"\nparents = [\"b@[::1]:2 cost=101\"]", 2, "parents", "of 0 to 100"),
        ("name = \"a\"\nparents = [\"b@[::1]:2 cost=\"]", 2, "parents", "of 0 to 100"),
        ("name = \"a\"\nparents = [\"b@[::1]:2 price=1\"]", 2, "parents", "from 1 to 65535"),
        ("name = \"a\"\nlisten = \"[::1]:1\"\nparents = [\"b/c\"]", 3, "parents", "1 to 64"),
        (
            "name = \"a\"\nchildren = [\"b@10.0.0.1:1\"]\n[root]\nsettings = \"/s\"",
            2,
            "children",
            "is on the network",
        ),
        (
            "name = \"a\"\nchildren = [\"b@[::1]:0\"]\n[root]\nsettings = \"/s\"",
            2,
            "children",
            "from 1 to 65535",
        ),
        (
            "name = \"a\"\nchildren = [\"a@[::1]:1\"]\n[root]\nsettings = \"/s\"",
            2,
            "children",
            "twice",
        ),
        (
            "name = \"a\"\nparents = [\"b@[::1]:1\"]\nchildren = [\"b@[::1]:2\"]",
            3,
            "children",
            "is a parent",
        ),
        ("name = \"a\"\nparents = [\"b@unix:run\"]", 2, "parents", "absolute path"),
        (
            "name = \"a\"\nparents = [\"127.0.0.1:1\"]\n[tls]\ncertificate = \"/a\"\nkey = \"/b\"\n\
             authority = \"/c\"",
            2,
            "parents",
            "NAME@ADDRESS",
        ),
        (
            "name = \"a\"\nparents = [\"127.0.0.1:1\"]\nlisten = \"0.0.0.0:2\"\nchildren = \"any\"",
            3,
            "listen",
            "is on the network",
        ),
        (
            "name = \"a\"\nparents = [\"127.0.0.1:1\"]\nlisten = \"127.0.0.1:2\"",
            3,
            "listen",
            "no `children`",
        ),
        ("name = \"a\"\nparents = [\"[::1]:1\"]\nchildren = [\"b\"]", 3, "children", "`listen`"),
        (
            "name = \"a\"\nparents = [\"127.0.0.1:1\"]\nlisten = \"127.0.0.1:2\"\n\
             children = [\"b\", \"b\"]",
            4,
            "children",
            "twice",
        ),
        (
            "name = \"a\"\nparents = [\"127.0.0.1:1\"]\nmetrics = \"10.0.0.1:1\"",
            3,
            "metrics",
            "loopback",
        ),
        (
            "name = \"a\"\nparents = [\"127.0.0.1:1\"]\n[link]\nbacklog = 0",
            4,
            "link.backlog",
            "8 to 65536",
        ),
        (
            "name = \"a\"\nparents = [\"127.0.0.1:1\"]\n[link]\nevict = \"1s\"",
            4,
            "link.evict",
            "longer than",
        ),
        (
            "name = \"a\"\n[root]\nsettings = \"/s\"\nharmless = 100\n[link]\nbacklog = 100",
            6,
            "link.backlog",
            "at least 408",
        ),
        (
            "name = \"a\"\n[root]\nsettings = \"/s\"\n[link]\nbacklog = 99",
            5,
            "link.backlog",
            "at least 100",
        ),
        (
            "name = \"a\"\nparents = [\"[::1]:1\"]\n[apply]\nfolder = \"/f/g\"\nmode = \"0240\"",
            5,
            "apply.mode",
            "to be read",
        ),
    ];
    let clash = |two: [&str; 2], line, key, text| {
        let it = format!(
            "name = \"a\"\nchildren = \"any\"\ninsecure = true\n{}\n{}\n[root]\n\
                          settings = \"/s\"",
            two[0], two[1]
        );
        (it, line, key, text)
    };
    let clashes = [
        clash(["listen = [\"[::1]:1\", \"[::1]:1\"]", ""], 4, "listen", "`[::1]:1`"),
        clash(["listen = [\"0.0.0.0:1\", \"127.0.0.1:1\"]", ""], 4, "listen", "`0.0.0.0:1`"),
        clash(["listen = [\"127.0.0.1:1\", \"0.0.0.0:1\"]", ""], 4, "listen", "`127.0.0.1:1`"),
        clash(["listen = [\"[::]:1\", \"0.0.0.0:1\"]", ""], 4, "listen", "`[::]:1`"),
        clash(["listen = \"hub:1\"", "metrics = \"0.0.0.0:1\""], 5, "metrics", "`hub:1`"),
        clash(["listen = \"unix:/c\"", "control = \"/c\""], 5, "control", "clashes"),
    ];
    for (text, line, key, said) in &clashes {
        let faults = Config::parse(text).expect_err(text);
        assert_eq!((faults.len(), faults[0].line, &*faults[0].key), (1, *line, *key), "{text}");
        assert!(faults[0].text.contains(said), "{}", faults[0].text);
    }
    for two in [
        ["listen = [\"127.0.0.1:1\", \"127.0.0.2:1\"]", ""],
        ["listen = [\"0.0.0.0:1\", \"[::1]:1\"]", ""],
        ["listen = \"0.0.0.0:1\"", "metrics = \"0.0.0.0:2\""],
    ] {
        assert!(Config::parse(&clash(two, 0, "", "").0).is_ok(), "{two:?}");
    }
    let folders = [
        ("name = \"a\"\n[root]\nsettings = \"/s/t\"\n[apply]\nfolder = \"/s/t\"", 5),
        // (a file of the truth would be removed, or be in the place of the folder)
        ("name = \"a\"\n[root]\nsettings = \"/s/t/u.toml\"\n[apply]\nfolder = \"/s/t\"", 5),
        ("name = \"a\"\n[root]\nsettings = \"/s/t\"\n[apply]\nfolder = \"/s/t/u\"", 5),
    ];
    let folders = folders.map(|(text, line)| (text, line, "apply.folder", "`root.settings`"));
    let shallow = "name = \"a\"\nparents = [\"127.0.0.1:1\"]\n[apply]\nfolder = \"/etc\"";
    let shallow = [(shallow, 4, "apply.folder", "of the agent's own")];
    for (text, line, key, said) in cases.iter().chain(&folders).chain(&shallow) {
        let faults = Config::parse(text).expect_err(text);
        let found =
            faults.iter().any(|f| (f.line, &f.key[..]) == (*line, *key) && f.text.contains(said));
        assert!(found, "{text}\n{line} {key} {said}\n{faults:?}");
    }
}

#[test]
fn says_all_faults_at_once_in_the_order_of_the_lines() {
    let text = "name = \"-\"\nparents = [\"127.0.0.1:0\"]\ncontrol = \"c\"\n[link]\nbacklog = 1";
    let lines: Vec<usize> = Config::parse(text).unwrap_err().iter().map(|f| f.line).collect();
    assert_eq!(lines, [1, 2, 3, 5]);
}

#[test]
fn plain_tcp_stays_on_the_machine_unless_it_is_asked_for() {
    let text = |address: &str| format!("name = \"a\"\nparents = [\"{address}\"]\n");
    for address in ["127.0.0.1:1", "127.9.9.9:1", "[::1]:1", "localhost:1", "unix:/a"] {
        assert!(Config::parse(&text(address)).is_ok(), "{address}");
    }
    for address in ["0.0.0.0:1", "[::]:1", "hub:1", "localhost.example:1", "127.0.0.1.example:1"] {
        assert!(Config::parse(&text(address)).is_err(), "{address}");
        assert!(Config::parse(&(text(address) + "insecure = true")).is_ok(), "{address}");
    }
    // (counts may be read on the network where nothing else may be plain there)
    for address in ["0.0.0.0:9464", "10.0.0.1:9464", "[::]:9464"] {
        let counts = text("127.0.0.1:1") + &format!("metrics = \"{address}\"\n");
        assert!(Config::parse(&counts).is_err(), "{address}");
        assert!(Config::parse(&(counts.clone() + "metrics_open = true")).is_ok(), "{address}");
        assert!(Config::parse(&(counts + "metrics_open = 1")).is_err(), "{address}");
    }
}

#[test]
fn a_link_in_a_store_has_an_address_at_both_ends() {
    let text = "name = \"a\"\nparents = [\"hub@redis://127.0.0.1:6379/tree\"]\n\
                children = [\"leaf@redis://[::1]:6379/tree\"]\n\
                [store]\nuser = \"agent\"\npassword = \"/p\"\ndatabase = 2\npoll = \"1s\"\n";
    let config = Config::parse(text).unwrap();
    let place =
        |server: &str| Some(Address::Redis { server: server.into(), prefix: "tree".into() });
    assert_eq!(config.agent.peers.parents[0].address, place("127.0.0.1:6379"));
    let leaf = [("leaf".to_string(), place("[::1]:6379"))];
    assert_eq!(config.agent.peers.children, Children::Named(leaf.into()));
    assert_eq!((&*config.store.user, config.store.database), ("agent", 2));
    assert_eq!(config.store.password.as_deref(), Some(std::path::Path::new("/p")));
    assert_eq!(config.agent.peers.poll.as_millis(), 1_000);
    let other = Config::parse(&text.replace("database = 2", "database = 3")).unwrap();
    assert_eq!(config.clone().take(other), ["store"]);
    // (TLS is of connections alone)
    let tls = "[tls]\ncertificate = \"/c\"\nkey = \"/k\"\nauthority = \"/a\"\n";
    for (address, is_good) in [
        ("hub@redis://store.example:6379/tree", false),
        ("redis://127.0.0.1:6379/tree", false),
        ("hub@redis://127.0.0.1:6379", false),
        ("hub@redis://127.0.0.1:6379/", false),
        ("hub@redis://127.0.0.1:6379/a/b", false),
        ("hub@redis://127.0.0.1/tree", false),
        ("hub@redis://unix:/a/tree", false),
        ("hub@redis://localhost:6379/tree", true),
    ] {
        let text = format!("name = \"a\"\nparents = [\"{address}\"]\n");
        assert_eq!(Config::parse(&text).is_ok(), is_good, "{address}");
        assert_eq!(Config::parse(&(text.clone() + tls)).is_ok(), is_good, "{address}");
        let insecure = address.contains("store.example") || is_good;
        assert_eq!(Config::parse(&(text + "insecure = true")).is_ok(), insecure, "{address}");
    }
    let listens = "name = \"a\"\nlisten = \"redis://127.0.0.1:1/t\"\nchildren = \"any\"\n[root]\n\
                   settings = \"/s\"\n";
    assert!(Config::parse(listens).unwrap_err()[0].text.contains("nobody can listen"));
}

#[test]
fn knows_which_keys_need_a_start() {
    let old = Config::parse(WHOLE).unwrap();
    let hot =
        WHOLE.replace("\"host32\"", "\"host33\"").replace("500ms", "1s").replace("hub2", "hub3");
    assert!(old.clone().take(Config::parse(&hot).unwrap()).is_empty());
    let cold =
        WHOLE.replace("rack3", "rack4").replace("/settings", "/other").replace("9464", "9465");
    let cold = Config::parse(&cold).unwrap();
    assert_eq!(old.clone().take(cold), ["name", "apply.folder", "metrics"]);
}

/// What is gone from the file is gone, or the agent says that it is not.
#[test]
fn a_table_that_came_or_went_is_taken_or_refused() {
    let agent = "name = \"a\"\nparents = \"b@127.0.0.1:1\"\n";
    let root = "name = \"a\"\n[root]\nsettings = \"/s\"\n";
    let apply = &*format!("{agent}[apply]\nfolder = \"/a/b\"\n");
    let with = |text: &str, more: &str| format!("{text}{more}\n");
    let tls = "[tls]\ncertificate = \"/c\"\nkey = \"/k\"\nauthority = \"/a\"";
    for (less, more, expected) in [
        (agent, apply.into(), Err("[apply] is gone")),
        (agent, root.into(), Err("a root is one")),
        (apply, with(apply, "[[hook]]\nkeys = \"*\"\nrun = \"/h\""), Ok("")),
        (apply, with(apply, "hook = \"/h\""), Ok("")),
        (apply, format!("groups = \"eu\"\n{apply}"), Ok("")),
        (agent, with(agent, tls), Ok("")),
        (agent, with(agent, "[link]\nevict = \"5m\""), Ok("")),
        (agent, with(agent, "[link]\nbacklog = 99"), Ok("link.backlog")),
        (agent, with(agent, "[store]\ndatabase = 1"), Ok("store")),
        (agent, with(agent, "control = \"/a\""), Ok("control")),
    ] {
        let [less, more] = [less, &more].map(|text| Config::parse(text).expect(text));
        for (old, new) in [(&more, &less), (&less, &more)] {
            let (mut now, refused) = (old.clone(), old.refuses(new));
            let late = refused.map_or_else(|| now.take(new.clone()).join(" "), String::from);
            let is_less = std::ptr::eq(old, &less);
            let now_new = |it: String| if is_less { it.replace("gone", "new") } else { it };
            match expected.map_err(|it| now_new(it.into())) {
                Ok(key) => assert_eq!((refused, &*late), (None, key)),
                Err(why) => assert!(refused.is_some() && late.contains(&why), "{late}"),
            }
            assert_eq!(now == *new, late.is_empty(), "{late}");
        }
    }
}

#[test]
fn refuses_what_goes_too_deep_for_its_reader() {
    let many = |text: &str| text.repeat(30_000);
    for (line, text) in [
        (2, format!("name = \"a\"\nx = {}{}", many("["), many("]"))),
        (1, format!("x = {}", many("{a = "))),
        (3, format!("\n\n[{}a]", many("a."))),
        (1, format!("{}a = 1", many("a . "))),
        (1, format!("{}a = 1", many("\"a\"."))),
        // (a text may end in two marks of its own)
        (2, format!("x = [\"\"\"\na\"\"\"\"\", {}", many("["))),
        (1, format!("x = ['a\\', {}", many("["))),
        (1, format!("x = [\"a\\\"\", {}", many("["))),
        (2, format!("x = \"a\ny = {}", many("["))),
    ] {
        let faults = Config::parse(&text).unwrap_err();
        assert_eq!(faults.len(), 1);
        assert_eq!((faults[0].line, faults[0].text.as_str()), (line, TOO_DEEP));
    }
    let deep = "[".repeat(100);
    for text in [
        format!("# {deep}\nx = \"{deep}\" # {deep}"),
        format!("x = '{deep}'\ny = \"\"\"\n{deep}\n\\\"\"\"\"\nz = '''{deep}''{deep}'''"),
        format!("x = {}{}", "[".repeat(32), "]".repeat(32)),
        format!("x = [{}]", "0.5, ".repeat(100)),
        format!("x = {}", "[], ".repeat(100)),
    ] {
        assert_eq!(too_deep(&text), None);
    }
}

/// Garbage, and the good text with some bytes of it changed: an answer, and no panic.
#[test]
fn drawn_bytes_do_no_harm() {
    let mut state = 0x9e37_79b9_7f4a_7c15_u64;
    let mut draw = move || {
        state ^= state << 13;
        state ^= state >> 7;
        state ^= state << 17;
        state
    };
    for _ in 0..3_000 {
        let mut bytes = WHOLE.as_bytes().to_vec();
        for _ in 0..1 + draw() % 8 {
            let at = draw() as usize % bytes.len();
            match draw() % 3 {
                0 => bytes[at] = draw() as u8,
                1 => bytes.insert(at, b"\"[]=.@\n0"[draw() as usize % 8]),
                _ => drop(bytes.remove(at)),
            }
        }
        if let Err(faults) = Config::parse(&String::from_utf8_lossy(&bytes)) {
            assert!(!faults.is_empty());
        }
    }
}

#[test]
fn says_what_is_wrong_with_groups_and_hooks() {
    let front = "name = \"a\"\nparents = [\"[::1]:1\"]\n";
    let apply = "[apply]\nfolder = \"/f/g\"\n";
    let hook = "[[hook]]\nkeys = \"*\"\nrun = \"/r\"\n";
    let list = || {
        let names: Vec<String> = (0..17).map(|at| format!("g{at}")).collect();
        format!("groups = {names:?}\n")
    };
    let cases: [(String, usize, &str, &str); 17] = [
        (format!("{front}groups = [\"a\"]\n"), 3, "groups", "keeps no settings"),
        (format!("{front}{hook}"), 3, "hook", "keeps no settings"),
        (format!("{front}groups = [\"a\", \"b/c\"]\n{apply}"), 3, "groups", "`b/c` is no group"),
        (format!("{front}groups = \"a..b\"\n{apply}"), 3, "groups", "two dots together"),
        (format!("{front}groups = \"a@b\"\n{apply}"), 3, "groups", "is no group"),
        (format!("{front}groups = [\"a\", \"a\"]\n{apply}"), 3, "groups", "`a` is there twice"),
        (format!("{front}{}{apply}", list()), 3, "groups", "more than 16"),
        (format!("{front}groups = 3\n{apply}"), 3, "groups", "a list of texts"),
        (format!("{front}{apply}[hook]\nrun = \"/r\"\n"), 5, "hook", "a table [[hook]]"),
        (format!("{front}{apply}{hook}[[hook]]\nrun = \"/r\"\n"), 8, "hook.keys", "is missing"),
        (format!("{front}{apply}{hook}[[hook]]\nkeys = \"*\"\n"), 8, "hook.run", "is missing"),
        (format!("{front}{apply}{hook}when = 1\n"), 8, "hook.when", "no such key"),
        (format!("{front}{apply}{hook}timeout = \"1ms\"\n"), 8, "hook.timeout", "100ms to"),
        (format!("{front}{apply}{hook}{hook}"), 8, "hook", "there twice"),
        (format!("{front}{apply}[[hook]]\nrun = \"r\"\nkeys = \"*\"\n"), 6, "hook.run", "absolute"),
        (
            format!("{front}{apply}[[hook]]\nrun = \"/r\"\nkeys = [\"a\", \"b*/c\"]\n"),
            7,
            "hook.keys",
            "`b*/c`",
        ),
        (format!("{front}{apply}[[hook]]\nrun = \"/r\"\nkeys = \"\"\n"), 7, "hook.keys", "not ``"),
    ];
    for (text, line, key, why) in cases {
        let faults = Config::parse(&text).unwrap_err();
        let [fault] = &faults[..] else { panic!("{text}: {faults:?}") };
        assert_eq!((fault.line, &*fault.key), (line, key), "{text}: {fault}");
        assert!(fault.text.contains(why), "{fault}");
    }
}
