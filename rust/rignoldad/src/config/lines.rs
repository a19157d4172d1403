//! Where keys are in the text of a configuration, and where addresses lead.
use rignolda_machine::net::Address;
use std::net::IpAddr;

/// The line of a key, from 1, where it is written as is usual; of what is lacking in a table the
/// one where the table begins. 0 where there is none.
pub fn line_of(text: &str, key: &str) -> usize {
    let find = |key: &str| {
        let mut table = String::new();
        text.lines().map(str::trim).position(|line| {
            if let Some((name, _)) = line.strip_prefix('[').and_then(|rest| rest.split_once(']')) {
                let name = name.trim_start_matches('[').trim();
                table = format!("{name}.");
                return name == key;
            }
            line.split_once('=').is_some_and(|(word, _)| format!("{table}{}", word.trim()) == key)
        })
    };
    find(key).or_else(|| find(key.split_once('.')?.0)).map_or(0, |at| at + 1)
}

/// The line in which the table [[hook]] at this place begins, from 1, and the text from there on to
/// the next table.
pub fn hook_lines(text: &str, at: usize) -> (usize, String) {
    let is_head = |line: &str| line.trim_start().starts_with('[');
    let is_hook = |line: &str| line.split_whitespace().collect::<String>().starts_with("[[hook]]");
    let lines: Vec<&str> = text.lines().collect();
    let begins = (0..lines.len()).filter(|at| is_hook(lines[*at])).nth(at);
    let Some(begins) = begins else { return (line_of(text, "hook"), String::new()) };
    let others = lines[begins + 1..].iter().take_while(|line| !is_head(line));
    let own: Vec<&str> = [""].into_iter().chain(others.copied()).collect();
    (begins + 1, own.join("\n"))
}

/// Whether who connects to `to` comes to who listens at `at`. Nothing where a host's name hides it.
pub fn leads(to: &Address, at: &Address) -> Option<bool> {
    let (Address::Tcp(one), Address::Tcp(all)) = (to, at) else { return Some(to == at) };
    let split = |text: &str| {
        let (host, port) = text.rsplit_once(':').unwrap_or_default();
        (host.trim_matches(['[', ']']).parse::<IpAddr>().ok(), port.parse::<u16>().ok())
    };
    let ((one_ip, one_port), (all_ip, all_port)) = (split(one), split(all));
    match (one_ip, all_ip) {
        _ if one == all || one_port != all_port => Some(one == all),
        (None, Some(all)) if all.is_unspecified() => Some(true),
        // (who listens at all of IPv6 listens at all of IPv4 too)
        (Some(one), Some(all)) => Some(
            one.to_canonical() == all.to_canonical()
                || all.is_unspecified() && (all.is_ipv6() || one.is_ipv4()),
        ),
        _ => None,
    }
}
