//! Labels in place of digests, for who may ask and may not read: a digest tells a value that can be
//! guessed.
use openssl::sha::Sha256;
use rignoldactl::{Key, Keys, Response, Seen, Status};

/// What makes labels: the same digest has the same one as long as the process runs, and nobody else
/// can make it.
#[derive(Clone, Debug)]
pub struct Labels([u8; 16]);

impl Labels {
    /// Those of a process that has drawn this number.
    pub fn new(drawn: [u64; 2]) -> Labels {
        let [first, second] = drawn.map(u64::to_ne_bytes);
        let mut bytes = [0; 16];
        bytes[..8].copy_from_slice(&first);
        bytes[8..].copy_from_slice(&second);
        Labels(bytes)
    }

    /// The label of a digest; 0 of none.
    fn of(&self, digest: u64) -> u64 {
        let mut sha = Sha256::new();
        sha.update(&self.0);
        sha.update(&digest.to_be_bytes());
        let [a, b, c, d, e, f, g, h, ..] = sha.finish();
        if digest == 0 {
            0
        } else {
            u64::from_be_bytes([a, b, c, d, e, f, g, h])
        }
    }

    fn key(&self, key: &mut Key) {
        (key.digest, key.old) = (self.of(key.digest), self.of(key.old));
    }

    /// What is known of a key.
    pub fn keys(&self, mut keys: Keys) -> Keys {
        self.key(&mut keys.all);
        keys.groups.values_mut().for_each(|key| self.key(key));
        keys
    }

    /// An answer of the machine, as operators are shown it.
    pub fn response(&self, response: Response) -> Response {
        match response {
            Response::Key(keys) => Response::Key(self.keys(keys)),
            response => response,
        }
    }

    /// What is known of an agent, and of those below it.
    pub fn status(&self, status: Status) -> Status {
        Status { digest: self.of(status.digest), ..status }
    }

    /// The same of a list.
    pub fn list(&self, mut list: Vec<Seen>) -> Vec<Seen> {
        list.iter_mut().for_each(|seen| seen.digest = self.of(seen.digest));
        list
    }
}

#[cfg(test)]
mod tests {
    use super::*;

    #[test]
    fn a_label_tells_who_has_the_same_and_nothing_else() {
        let (one, other) = (Labels::new([1, 2]), Labels::new([1, 3]));
        let value = rignoldactl::digest("password", Some(b"hunter2"));
        let list = |labels: &Labels| {
            let list =
                [value, value, value ^ 1, 0].map(|digest| Seen { digest, ..Seen::default() });
            labels.list(list.to_vec()).iter().map(|seen| seen.digest).collect::<Vec<_>>()
        };
        let labels = list(&one);
        assert_eq!((labels[0], labels[3]), (labels[1], 0));
        assert!(![0, value, labels[2], list(&other)[0]].contains(&labels[0]));
        let key = Key { digest: value, number: 7, old: value ^ 1, old_number: 6 };
        let groups = [("eu".to_string(), key.clone())].into();
        let keys = one.keys(Keys { all: key, groups, since: 3 });
        let said = Key { digest: labels[0], number: 7, old: labels[2], old_number: 6 };
        assert_eq!((&keys.all, &keys.groups["eu"], keys.since), (&said, &said, 3));
        assert_eq!(one.status(Status { digest: value, ..Status::default() }).digest, labels[0]);
    }
}
