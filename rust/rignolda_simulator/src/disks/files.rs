//! The files of an agent, in memory: each step is the last one of its process if it ends there, and
//! fails if the disk is full and the step needs room.
use super::{Settings, RECORD};
use rignolda_machine::apply::{marker, FileSystem, Identity, Look, Place, Step, MARKER};
use rignolda_machine::root::Kept;
use rignolda_machine::settings::{shown, Found};
use std::cell::{RefCell, RefMut};
use std::collections::{BTreeMap, BTreeSet};
use std::hash::{BuildHasherDefault, DefaultHasher};
use std::io::{self, ErrorKind};
use std::rc::Rc;

/// The files of a process, as it works with them.
#[derive(Clone, Debug, Default)]
pub struct Files(Rc<RefCell<Tree>>);

/// What there is at each path.
#[derive(Clone, Debug, Default)]
pub struct Tree {
    pub all: BTreeMap<String, Node>,
    /// How many folders were made; and how often the disk became one of another time.
    made: u64,
    life: u64,
    /// Whether there is no room, and how many steps the process does yet, if it ends soon.
    pub is_full: bool,
    pub left: Option<u64>,
}

/// A folder, which one it is; or a file, its mode and its bytes.
#[derive(Clone, Debug)]
pub enum Node {
    Folder(u64),
    File(u32, Vec<u8>),
}

impl Files {
    /// All of them.
    pub fn tree(&self) -> RefMut<'_, Tree> {
        self.0.borrow_mut()
    }

    /// What is at these paths is as it was at another time.
    pub fn go_back(&self, to: &Tree, mut are: impl FnMut(&String) -> bool) {
        let tree = &mut *self.tree();
        tree.life += 1;
        let paths: BTreeSet<String> = tree.all.keys().chain(to.all.keys()).cloned().collect();
        for path in paths.into_iter().filter(|path| are(path)) {
            match to.all.get(&path) {
                Some(node) => drop(tree.all.insert(path, node.clone())),
                None => drop(tree.all.remove(&path)),
            }
        }
    }

    /// A folder has these settings, beside what is none.
    pub fn set(&self, folder: &str, settings: &Settings) {
        let (all, front) = (&mut self.tree().all, format!("{folder}/"));
        let is_none =
            |path: &String| path.strip_prefix(&front).is_none_or(|it| it.starts_with('.'));
        all.retain(|path, _| is_none(path));
        let file = |(key, value): (&String, &Vec<u8>)| {
            ([&front, &*shown(key)].concat(), Node::File(0o640, value.clone()))
        };
        all.extend(settings.iter().map(file));
    }

    /// Somebody makes a file this, or removes it, in a folder that is marked.
    pub fn spoil(&self, folder: &str, name: &str, bytes: Option<Vec<u8>>) {
        let (all, path) = (&mut self.tree().all, format!("{folder}/{name}"));
        let is_marked = all.contains_key(&format!("{folder}/{MARKER}"));
        match (bytes.filter(|_| is_marked), all.get_mut(&path)) {
            (Some(bytes), Some(Node::File(_, is))) => *is = bytes,
            (Some(bytes), _) => drop(all.insert(path, Node::File(0o640, bytes))),
            (None, _) => drop(all.remove(&path)),
        }
    }

    /// What there is, if one more step may be done.
    fn may(&self, needs_room: bool) -> io::Result<RefMut<'_, Tree>> {
        let mut tree = self.tree();
        match &mut tree.left {
            Some(0) => return Err(io::Error::other("its process is over")),
            Some(left) => *left -= 1,
            None => (),
        }
        match needs_room && tree.is_full {
            true => Err(io::Error::from_raw_os_error(28)),
            false => Ok(tree),
        }
    }

    /// Puts something into a folder.
    pub fn puts(&self, path: &str, node: Node) -> io::Result<()> {
        let folder = path.rsplit_once('/').map_or("", |it| it.0);
        let mut tree = self.may(true)?;
        if !folder.is_empty() && !tree.all.contains_key(folder) {
            return Err(ErrorKind::NotFound.into());
        }
        tree.all.insert(path.into(), node);
        Ok(())
    }
}

impl FileSystem for Files {
    type Held = ();
    type Marker = ();
    type Error = io::Error;
    type Digest = BuildHasherDefault<DefaultHasher>;

    fn is_missing(error: &io::Error) -> bool {
        error.kind() == ErrorKind::NotFound
    }

    fn is_denied(error: &io::Error) -> bool {
        error.kind() == ErrorKind::PermissionDenied
    }

    fn because(why: String) -> io::Error {
        io::Error::other(why)
    }

    fn open(&self, path: &str, _: bool) -> io::Result<Place<()>> {
        let tree = self.tree();
        match tree.all.get(path) {
            Some(Node::Folder(is)) => {
                Ok(Place { held: (), at: path.into(), is: Identity([tree.life, *is, 0, 0]) })
            }
            _ => Err(ErrorKind::NotFound.into()),
        }
    }

    fn open_or_make(&self, path: &str) -> io::Result<Place<()>> {
        self.open(path, false).or_else(|_| {
            self.does(path, Step::Make)?;
            self.open(path, false)
        })
    }

    fn look(&self, path: &str) -> io::Result<Look> {
        let (is_file, mode, bytes) = match self.tree().all.get(path) {
            Some(Node::File(mode, bytes)) => (true, *mode, bytes.len() as u64),
            Some(Node::Folder(_)) => (false, 0o750, 0),
            None => return Err(ErrorKind::NotFound.into()),
        };
        Ok(Look { is_file, is_folder: !is_file, mode, bytes })
    }

    fn list(&self, path: &str) -> io::Result<impl Iterator<Item = (String, bool)>> {
        self.open(path, false)?;
        let front = format!("{path}/");
        let tree = self.tree();
        let all = tree.all.range(front.clone()..);
        let all = all.map_while(|(at, node)| Some((at.strip_prefix(&front)?, node)));
        let all = all.filter(|(name, _)| !name.contains('/'));
        let all = all.map(|(name, node)| (name.into(), matches!(node, Node::Folder(_))));
        let all: Vec<_> = all.collect();
        Ok(all.into_iter())
    }

    fn read(&self, path: &str, most: usize) -> io::Result<Vec<u8>> {
        match self.tree().all.get(path) {
            Some(Node::File(_, bytes)) if bytes.len() <= most => Ok(bytes.clone()),
            Some(_) => Err(ErrorKind::Other.into()),
            None => Err(ErrorKind::NotFound.into()),
        }
    }

    fn has(&self, path: &str, value: &[u8]) -> bool {
        self.read(path, value.len()).is_ok_and(|it| it == value)
    }

    fn found(&self, path: &str, by: fn(&str) -> Option<String>) -> io::Result<Found> {
        let mut found = Found::default();
        for (name, _) in self.list(path)?.filter(|it| !it.1) {
            let value = self.read(&format!("{path}/{name}"), usize::MAX)?;
            found.settings.extend(by(&name).map(|key| (key, value)));
        }
        Ok(found)
    }

    fn has_mount(&self, _: &str) -> bool {
        false
    }

    fn does(&self, path: &str, step: Step) -> io::Result<()> {
        let made = self.tree().made;
        match step {
            Step::Make => {
                self.tree().made += 1;
                return self.puts(path, Node::Folder(made));
            }
            Step::Mend => return self.open_or_make(path).map(drop),
            Step::Rewrite(file, text) => return self.write_marker(&mut (), file, text),
            _ => (),
        }
        let all = &mut self.may(false)?.all;
        let done = match step {
            Step::Take(from) => all.remove(from).map(|it| drop(all.insert(path.into(), it))),
            Step::RemoveFile => all.remove(path).map(drop),
            Step::ForgetRecord => all.remove(RECORD).map(drop),
            step => {
                all.retain(|at, _| !matches!(step, Step::RemoveFolder) || !at.starts_with(path));
                Some(())
            }
        };
        done.ok_or(ErrorKind::NotFound.into())
    }

    fn write(
        &self,
        path: &str,
        mode: u32,
        _: Option<bool>,
        bytes: &[u8],
    ) -> io::Result<(bool, u32)> {
        self.puts(path, Node::File(mode, Vec::new()))?;
        self.puts(path, Node::File(mode, bytes.into())).map(|()| (true, mode))
    }

    fn moved_aside(&self, _: &str) -> io::Result<String> {
        Err(ErrorKind::Unsupported.into())
    }

    fn read_marker(&self, _: &mut (), path: &str) -> Vec<u8> {
        self.read(path, marker::BYTES).unwrap_or_default()
    }

    fn write_marker(&self, _: &mut (), path: &str, text: &str) -> io::Result<()> {
        // (in place, so that it needs room for a new one alone)
        let is_new = self.look(path).is_err();
        self.may(is_new)?.all.insert(path.into(), Node::File(0o640, text.into()));
        Ok(())
    }

    fn is_own(&self, _: &str) -> bool {
        true
    }

    fn keep_all(&self, folder: &str, all: &[Kept]) -> Vec<io::Result<()>> {
        let path = |key: &str| format!("{folder}/{}", shown(key));
        let keep = |(key, value): &Kept| match value {
            Some(value) => self.puts(&path(key), Node::File(0o640, value.clone())),
            None => self.does(&path(key), Step::RemoveFile),
        };
        all.iter().map(keep).collect()
    }
}
