//! The page of a tree: what an agent says is text on it, and it is never too long.
use rignoldactl::{Compared, Seen};
use rignoldad::page::page;
use std::collections::BTreeMap;

fn up(name: &str, parent: &str) -> Seen {
    Seen {
        name: name.into(),
        parent: parent.into(),
        connected: true,
        sequence: 7,
        applied: 7,
        changed: 7,
        whole: true,
        ..Seen::default()
    }
}

/// By `date -u -d @N`.
#[test]
fn a_time_is_that_of_the_calendar() {
    for (at, expected) in [
        (0, "1970-01-01 00:00:00 UTC"),
        (951_782_399, "2000-02-28 23:59:59 UTC"),
        (951_868_799, "2000-02-29 23:59:59 UTC"),
        (1_795_888_000, "2026-11-28 17:46:40 UTC"),
        (4_107_542_400, "2100-03-01 00:00:00 UTC"),
    ] {
        assert!(page(&[up("hub", "")], at).contains(expected), "{expected}");
    }
}

/// Whatever an agent calls itself or its groups, it is text.
#[test]
fn nothing_that_an_agent_says_is_markup() {
    let bad = "</ul><script>alert('1')</script>\"&";
    let mut list = vec![up(bad, ""), up("a<b", bad)];
    list[1].groups = vec![bad.into(), "'x'".into()];
    let page = page(&list, 0);
    assert!(!page.contains("<script") && !page.contains("a<b") && !page.contains("'x'"));
    let text = "&lt;/ul&gt;&lt;script&gt;alert(&#39;1&#39;)&lt;/script&gt;&quot;&amp;";
    assert_eq!(page.matches(text).count(), 4);
    assert!(page.contains("<li>a&lt;b <i>"));
}

#[test]
fn a_page_of_300_agents_has_all_and_one_of_very_many_is_no_longer() {
    let tree = |racks: usize, hosts: usize, long: usize| {
        let mut list = vec![up("hub", "")];
        for rack in 0..racks {
            let name = format!("rack{rack:03}.{}", "r".repeat(long));
            list.push(up(&name, "hub"));
            for host in 0..hosts {
                let mut seen = up(&format!("host{rack:03}-{host:03}"), &name);
                (seen.connected, seen.place) = (host % 9 > 0, (host % 5 == 1).into());
                list.push(seen);
            }
        }
        list
    };
    let all = tree(13, 22, 8);
    let text = page(&all, 0);
    assert!(all.len() == 300 && text.len() < 20_000, "{}", text.len());
    assert!(!text.contains("id=more") && text.matches("<li").count() == 300);
    for list in [tree(100, 100, 8), tree(900, 10, 50)] {
        let text = page(&list, 0);
        assert!(text.len() <= 40_000, "{}", text.len());
        let more = list.len() - text.matches("<li").count();
        assert!(text.contains(&format!("<p id=more>and {more} more")));
        assert_eq!(text.matches("<ul").count(), text.matches("</ul>").count());
    }
    let mut chain = vec![up("n0", "")];
    (1..400).for_each(|at| chain.push(up(&format!("n{at}"), &format!("n{}", at - 1))));
    let text = page(&chain, 0);
    assert!(text.matches("<li").count() > 30 && text.len() <= 40_000);
}

/// The agents of a page: of each its parent, its groups and what is said of it.
fn agents_of(page: &str) -> BTreeMap<String, (String, String, Vec<String>)> {
    let (mut agents, mut above, mut last) = (BTreeMap::new(), Vec::new(), String::new());
    for piece in page.split('<').skip(1) {
        let (tag, text) = piece.split_once('>').unwrap();
        match tag.split(' ').next() {
            Some("ul") => above.push(last.clone()),
            Some("/ul") => last = above.pop().unwrap(),
            Some("li") => {
                last = text.trim().into();
                let agent = (above.last().unwrap().clone(), String::new(), Vec::new());
                assert!(agents.insert(last.clone(), agent).is_none(), "{last} is there twice");
            }
            Some("i") => agents.get_mut(&last).unwrap().1 = text.into(),
            Some("b") => {
                agents.get_mut(&last).unwrap().2 = text.split(", ").map(String::from).collect()
            }
            _ => (),
        }
    }
    agents
}

#[test]
fn it_counts_and_says_what_is_so_of_each_agent() {
    let mut list = vec![up("hub", ""), up("rack", "hub")];
    for at in 0..296 {
        let rack = || format!("host-{:04}", at % 14);
        let parent = if at < 14 { "rack".into() } else { rack() };
        let mut seen = up(&format!("host-{at:04}"), &parent);
        (seen.connected, seen.whole) = (at % 31 > 0, at % 37 > 0);
        seen.applied -= u64::from(at % 13 == 1) * (1 + at % 3);
        (seen.failing, seen.place) = ((at % 41 == 3).into(), (at % 17 == 2).into());
        if at % 11 == 6 {
            seen.groups = vec!["canary".into(), "eu".into()];
        }
        if at % 29 == 4 {
            seen.compared = Compared::Differs;
        }
        if at % 43 == 5 {
            seen.expires = 86_400 * 9;
        }
        list.push(seen);
    }
    let (name, parent) = ("new".into(), "rack".into());
    list.push(Seen { name, parent, ..Seen::default() });
    let text = page(&list, 0);
    let up = || list.iter().filter(|it| it.connected);
    let count = |is: fn(&&Seen) -> bool| up().filter(is).count();
    for (what, expected) in [
        ("agents", list.len()),
        ("up", count(|_| true)),
        ("away", list.len() - count(|_| true)),
        ("behind", count(|it| it.whole && it.applied < 7)),
        ("waiting", count(|it| !it.whole)),
        ("differing", count(|it| it.compared == Compared::Differs)),
        ("failing", count(|it| it.failing > 0)),
        ("moved", count(|it| it.place > 0)),
        ("expiring", count(|it| it.expires > 0)),
    ] {
        let is_said = |class| text.contains(&format!("<dd id={what}{class}>{expected}</div>"));
        let is_there = ["", " class=y", " class=r"].iter().any(is_said);
        assert!(expected > 1 && is_there, "{expected} {what}");
    }
    let agents = agents_of(&text);
    assert_eq!(agents.len(), list.len());
    for seen in &list {
        let (parent, groups, _) = &agents[&seen.name];
        assert_eq!((parent, groups), (&seen.parent, &seen.groups.join(" ")), "{}", seen.name);
    }
    for (name, notes) in [
        ("host-0002", "parent 2"),
        ("host-0003", "1 failing"),
        ("host-0004", "files differ"),
        ("host-0005", "certificate 9 d"),
        ("host-0014", "3 behind"),
        ("host-0031", "away 0.0 s"),
        ("host-0037", "waits for a table"),
        ("new", "never heard of"),
    ] {
        assert_eq!(agents[name].2, [notes], "{name}");
    }
    assert!(agents["host-0007"].2.is_empty());
}
