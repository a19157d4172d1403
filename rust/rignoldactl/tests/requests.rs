//! What is said to an agent, and how it is written.
use rignoldactl::files::holders;
use rignoldactl::text::{plain, status_text};
use rignoldactl::{milliseconds, report, Compared, Key, Keys, Request, Response, Seen, Status};
use std::io::{BufRead, BufReader, Write};
use std::os::unix::net::UnixListener;
use std::process::{Command, Stdio};

#[test]
fn requests_and_answers_are_json() {
    let request = Request::Publish { key: "a".into(), value: vec![0, 255] };
    let text = r#"{"do":"publish","key":"a","value":"00ff"}"#;
    assert_eq!(serde_json::to_string(&request).unwrap(), text);
    assert_eq!(serde_json::from_str::<Request>(text).unwrap(), request);
    assert_eq!(serde_json::to_string(&Response::Published(7)).unwrap(), r#"{"published":7}"#);
    for bad in
        [r#"{"do":"publish","key":"a","value":"0"}"#, r#"{"do":"publish","key":"a","value":"zz"}"#]
    {
        assert!(serde_json::from_str::<Request>(bad).is_err());
    }
}

#[test]
fn what_is_known_of_a_key_is_json() {
    let text = r#"{"do":"key","key":"a"}"#;
    let request = Request::Key { key: "a".into() };
    assert_eq!(serde_json::from_str::<Request>(text).unwrap(), request);
    let known = Key { digest: 0xab, number: 7, old: 0, old_number: 0 };
    let value = r#"{"digest":"00000000000000ab","number":7,"old":"","old_number":0}"#;
    let text = format!(r#"{{"key":{{"all":{value},"groups":{{"eu":{value}}},"since":5}}}}"#);
    let groups = [("eu".into(), known.clone())].into();
    let known = Response::Key(Keys { all: known, groups, since: 5 });
    assert_eq!(serde_json::to_string(&known).unwrap(), text);
    // (by another program: `printf '\4\1pathup' | sha256sum`)
    assert_eq!(rignoldactl::digest("path", Some(b"up")), 0x36e4_557c_afcc_3106);
}

#[test]
fn times_have_units() {
    for (text, time) in
        [("0ms", 0), ("250ms", 250), ("2s", 2_000), ("3m", 180_000), ("1h", 3_600_000)]
    {
        assert_eq!(milliseconds(text), Some(time));
    }
    for text in ["", "s", "5", "5 s", "-5s", "5.5s", "18446744073709551615h", "5d"] {
        assert_eq!(milliseconds(text), None, "{text}");
    }
}

/// What an agent sends up has nothing that its reader takes for said.
#[test]
fn a_report_leaves_out_what_is_nothing() {
    let names = [("a", ""), ("b", "a")].map(|(name, parent)| (name.into(), parent.into()));
    let list = names.map(|(name, parent)| Seen { name, parent, ..Seen::default() });
    assert_eq!(report(&list), br#"[{"name":"a"},{"name":"b","parent":"a"}]"#);
    // (no name is left out, whatever it means elsewhere)
    let seen = Seen {
        name: "same".into(),
        parent: "nothing".into(),
        connected: true,
        applied: u64::MAX,
        applies: true,
        files: 7,
        digest: 0x0123_4567_89ab_cdef,
        ..Seen::default()
    };
    let bytes = report(std::slice::from_ref(&seen));
    let text = String::from_utf8_lossy(&bytes);
    assert!(text.contains(r#""digest":"0123456789abcdef""#), "{text}");
    assert_eq!(serde_json::from_slice::<Vec<Seen>>(&bytes).unwrap(), [seen]);
    // (an empty one is none, and what is no digest is no list)
    for (digest, is_one) in [("", true), ("ff", true), ("x", false), ("1ffffffffffffffff", false)] {
        let text = format!(r#"[{{"name":"a","digest":"{digest}"}}]"#);
        assert_eq!(serde_json::from_str::<Vec<Seen>>(&text).is_ok(), is_one, "{text}");
    }
}

/// What a peer, a file or a configuration is called is in one line.
#[test]
fn a_status_has_no_line_that_others_wrote() {
    let evil = "x\nparent         evil\u{1b}[2J".to_string();
    let status = Status {
        name: evil.clone(),
        version: evil.clone(),
        no_parent: evil.clone(),
        other_root: evil.clone(),
        way: vec![evil.clone()],
        groups: vec![evil.clone()],
        folder: evil.clone(),
        refused: 1,
        last_refused: evil.clone(),
        faults: vec![evil.clone()],
        reload_failed: evil,
        ..Status::default()
    };
    let text = plain(&status_text(&status));
    assert!(!text.lines().any(|line| line.starts_with("parent         evil")), "{text}");
    assert_eq!(text.matches("\\nparent         evil\\u001b").count(), 9, "{text}");
}

/// Then the command ends with 3, and says nothing of a time that is up.
#[test]
fn an_agent_that_ends_while_it_is_waited_for_does_not_answer() {
    let path = std::env::temp_dir().join(format!("rignoldactl-ends-{}", std::process::id()));
    let _ = std::fs::remove_file(&path);
    let server = UnixListener::bind(&path).unwrap();
    let mut wait = Command::new(env!("CARGO_BIN_EXE_rignoldactl"));
    let wait = wait.arg("--socket").arg(&path).arg("wait").stderr(Stdio::piped()).spawn().unwrap();
    for answer in ["{\"status\": {\"is_root\": true}}\n", ""] {
        let (mut client, _) = server.accept().unwrap();
        BufReader::new(&client).read_line(&mut String::new()).unwrap();
        client.write_all(answer.as_bytes()).unwrap();
    }
    let done = wait.wait_with_output().unwrap();
    let said = String::from_utf8(done.stderr).unwrap();
    assert!(done.status.code() == Some(3) && !said.contains("time is up"), "{said}");
    std::fs::remove_file(path).unwrap();
}

#[test]
fn of_a_holder_is_said_what_is_known_of_its_files() {
    let keys = |digest| {
        let all = Key { digest, number: 20, old: 1, old_number: 10 };
        Keys { all, ..Keys::default() }
    };
    let seen = |files| {
        let (connected, sequence, compared) = (true, 30, Compared::Same);
        Seen { connected, sequence, compared, files, ..Seen::default() }
    };
    let away = |seen| Seen { connected: false, ..seen };
    let is = |compared| Seen { compared, ..seen(25) };
    let new = Seen { sequence: 0, ..seen(0) };
    for (now, seen, digest, note) in [
        (2, seen(25), "0000000000000002", ""),
        (2, seen(20), "0000000000000002", ""),
        (2, seen(19), "0000000000000001", "older"),
        (2, away(seen(10)), "0000000000000001", "older, away"),
        (2, seen(9), "", "not known: it has older files"),
        (2, away(seen(9)), "", "not known: it has older files, away"),
        (0, seen(20), "", "unset"),
        (0, seen(19), "0000000000000001", "older"),
        (2, is(Compared::Nothing), "", "keeps no files"),
        (2, is(Compared::NotKnown), "", "not known"),
        (2, is(Compared::Differs), "", "not known: its files differ"),
        (2, new.clone(), "", "not known: it has said nothing yet"),
        (2, away(new), "", "never heard of"),
    ] {
        let it = &holders(&[seen], &keys(now))[0];
        assert_eq!((&*it.digest, &*it.note), (digest, note));
    }
}
