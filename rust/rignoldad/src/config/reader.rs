//! Reads single values of a configuration, and notes what is wrong with them.
use super::{is_name, line_of, Address, Fault, NAME_BYTES};
use rignoldactl::milliseconds;
use std::ops::RangeInclusive;
use std::path::PathBuf;
use std::time::Duration;
use toml::value::{Table, Value};

/// All keys that there are, those of a table behind its name.
const KEYS: &str = "name groups listen children parents insecure control metrics metrics_open \
    root.settings root.standby root.round root.harmless root.hold root.unsets \
    link.ack_timeout link.backlog link.evict \
    store.user store.password store.database store.poll \
    tls.certificate tls.key tls.authority apply.folder apply.take apply.mode apply.hook \
    apply.hook_timeout";

/// The checks of one text, and the faults that they found.
pub(super) struct Check<'a> {
    pub(super) text: &'a str,
    pub(super) table: &'a Table,
    pub(super) insecure: bool,
    pub(super) faults: Vec<Fault>,
}

impl<'a> Check<'a> {
    pub(super) fn fault(&mut self, key: &str, text: impl Into<String>) {
        let fault = Fault::of(line_of(self.text, key), text);
        self.faults.push(Fault { key: key.into(), ..fault });
    }

    /// Reports a key where something is wrong with it.
    pub(super) fn refuse(&mut self, key: &str, is_wrong: bool, text: impl Into<String>) {
        if is_wrong {
            self.fault(key, text);
        }
    }

    /// Reports a key whose value is not as it has to be.
    pub(super) fn expect<T>(
        &mut self,
        key: &str,
        value: Option<T>,
        text: impl Into<String>,
    ) -> Option<T> {
        self.refuse(key, value.is_none(), text);
        value
    }

    pub(super) fn unknown(&mut self, table: &Table, before: &str) {
        for (key, value) in table {
            let path = format!("{before}{key}");
            let inside = format!("{path}.");
            let is_table =
                before.is_empty() && KEYS.split(' ').any(|known| known.starts_with(&inside));
            match value {
                Value::Table(table) if is_table => self.unknown(table, &inside),
                _ if is_table => self.fault(&path, "it is a table"),
                _ if path == "hook" => (),
                _ if KEYS.split(' ').any(|known| known == path) => (),
                _ => self.fault(&path, "there is no such key"),
            }
        }
    }

    pub(super) fn has(&self, table: &str) -> bool {
        self.table.get(table).is_some_and(Value::is_table)
    }

    pub(super) fn get(&self, key: &str) -> Option<&'a Value> {
        match key.split_once('.') {
            Some((table, key)) => self.table.get(table)?.get(key),
            None => self.table.get(key),
        }
    }

    /// The value of a key that is there, where it can be read so.
    pub(super) fn value<T>(
        &mut self,
        key: &str,
        text: &str,
        read: impl FnOnce(&'a Value) -> Option<T>,
    ) -> Option<T> {
        let value = read(self.get(key)?);
        self.expect(key, value, text)
    }

    pub(super) fn text(&mut self, key: &str) -> Option<&'a str> {
        self.value(key, "a text is expected", Value::as_str)
    }

    pub(super) fn is_set(&mut self, key: &str) -> bool {
        self.value(key, "true or false is expected", Value::as_bool) == Some(true)
    }

    /// A list of texts, or one text.
    pub(super) fn texts(&mut self, key: &str, most: usize) -> Vec<&'a str> {
        let read = |value: &'a Value| match value {
            Value::Array(all) => all.iter().map(Value::as_str).collect(),
            one => one.as_str().map(|text| vec![text]),
        };
        let texts = self.value(key, "a list of texts is expected", read).unwrap_or_default();
        if texts.len() > most {
            self.fault(key, format!("there are more than {most}"));
            return Vec::new();
        }
        texts
    }

    pub(super) fn path(&mut self, key: &str) -> Option<PathBuf> {
        let path = PathBuf::from(self.text(key)?);
        self.refuse(key, !path.is_absolute(), "the path has to be absolute");
        Some(path)
    }

    /// A path that has to be there.
    pub(super) fn needed(&mut self, key: &str) -> PathBuf {
        self.expect(key, self.get(key), "it is missing");
        self.path(key).unwrap_or_default()
    }

    /// The same, as a text.
    pub(super) fn needed_text(&mut self, key: &str) -> String {
        self.needed(key).display().to_string()
    }

    pub(super) fn number(&mut self, key: &str, usual: u64, bounds: RangeInclusive<u64>) -> u64 {
        let text = format!("a number of {} to {}", bounds.start(), bounds.end());
        let number = |it: &Value| u64::try_from(it.as_integer()?).ok();
        let read = |it: &Value| number(it).filter(|it| bounds.contains(it));
        self.value(key, &text, read).unwrap_or(usual)
    }

    /// A time, with its bounds in milliseconds.
    pub(super) fn time(&mut self, key: &str, usual: u64, bounds: RangeInclusive<u64>) -> Duration {
        let (least, most) = (bounds.start(), bounds.end() / 1_000);
        let text = format!("a time of {least}ms to {most}s, as \"500ms\" or \"10m\"");
        let read = |it: &Value| milliseconds(it.as_str()?).filter(|it| bounds.contains(it));
        Duration::from_millis(self.value(key, &text, read).unwrap_or(usual))
    }

    pub(super) fn name(&mut self, key: &str, name: &str) -> String {
        if !is_name(name) {
            let text = format!(
                "a name is 1 to {NAME_BYTES} letters, digits, `.`, `_` or `-`, the first one no \
                 dot or hyphen; not `{}`",
                name.escape_debug()
            );
            self.fault(key, text);
        }
        name.into()
    }

    pub(super) fn address(&mut self, key: &str, text: &str) -> Option<Address> {
        let (insecure, tls) = (self.insecure, self.has("tls"));
        let address = Address::parse(text).map_err(|why| why.to_string());
        let address = address.and_then(|it| match &it {
            Address::Redis { .. } if key == "listen" => Err("nobody can listen in a store".into()),
            Address::Redis { .. } if !insecure && !it.is_local() => {
                Err(format!("`{text}` is on the network without TLS: set `insecure`"))
            }
            Address::Tcp(_) if !insecure && !tls && !it.is_local() => {
                Err(format!("`{text}` is on the network: set [tls], or `insecure`"))
            }
            _ => Ok(it),
        });
        address.map_err(|why| self.fault(key, why)).ok()
    }
}
