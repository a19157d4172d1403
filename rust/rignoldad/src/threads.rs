//! The threads that do for an agent what may have to wait: each job is an [`Act`] of its machine,
//! and what came of it an [`Input`].
use crate::config::Config;
use crate::disk::{Disk, ASKED};
use crate::lines::silence;
use crate::place::LocalFiles;
use crate::workers::{Wake, Workers};
use rignolda_machine::apply::{found, Applier, Done};
use rignolda_machine::machine::{Act, Found, Input, Machine};
use rignolda_machine::standby::{self, Folders};
use rignolda_machine::Time;
use rignolda_redis::Stores;
use rignolda_redis::Worker;
use rignoldactl::{at, sha256, ErrorAt};
use std::os::unix::io::RawFd;

/// The threads of an agent.
pub struct Threads {
    /// That of a root, those of what is applied, and that of an agent that may be promoted.
    disk: Option<Disk>,
    apply: Option<Workers>,
    roles: Option<Worker<standby::Job, standby::Done>>,
    pub stores: Stores,
    wake: Wake,
}

impl Threads {
    /// Those that an agent has from its start on; and what they find.
    pub fn new(config: &Config, wake: Wake) -> Result<(Threads, Found), ErrorAt> {
        let apply = config.agent.apply.as_ref();
        let applied = apply.map(|it| found(&LocalFiles, &it.folder));
        let apply = apply.map(|it| Workers::new(it, wake.clone())).transpose();
        let root = config.agent.root.as_ref().filter(|root| root.standby);
        let folders = root.zip(config.agent.apply.as_ref()).map(|(root, apply)| Folders {
            system: LocalFiles,
            sha: sha256,
            root: root.settings.clone(),
            applied: apply.folder.clone(),
        });
        let found = Found { applied, standby: folders.as_ref().map(Folders::begun) };
        let start = |it: Folders<_>, wake: Wake| {
            Worker::start("standby", move |job| it.work(job), move || wake())
        };
        let roles = folders.map(|it| start(it, wake.clone())).transpose();
        let threads = Threads {
            disk: None,
            apply: apply.map_err(at("apply: its threads cannot be started"))?,
            roles: roles.map_err(at("root: its thread cannot be started"))?,
            stores: Stores::new(config.store.clone(), silence(config), wake.clone()),
            wake,
        };
        Ok((threads, found))
    }

    /// What can be read when the root's folder has changed, where that is waited for.
    pub fn descriptor(&self, machine: &Machine) -> Option<RawFd> {
        machine.came.root.as_ref().filter(|root| root.awaits_changes())?;
        self.disk.as_ref()?.descriptor()
    }

    /// When they are to be asked what they have done, if they do not wake the loop.
    pub fn asks_at(&self, machine: &Machine, now: Time) -> Option<Time> {
        let waits = machine.came.applier.as_ref().is_some_and(Applier::waits);
        self.apply.as_ref()?.takes_at(waits, now)
    }

    /// What came of what is applied.
    pub fn applied(&mut self) -> Vec<(usize, Done)> {
        self.apply.as_mut().map_or(Vec::new(), Workers::done)
    }

    /// What the others have done.
    pub fn done(&self) -> Vec<Input<'static>> {
        let mut done = Vec::new();
        let disk = self.disk.iter().flat_map(|it| std::iter::from_fn(|| it.done()));
        done.extend(disk.map(Input::Disk));
        let roles = self.roles.iter().flat_map(|it| std::iter::from_fn(|| it.done()));
        done.extend(roles.map(Input::Stood));
        done
    }

    /// Begins a job: what it is about is in the act.
    pub fn begin(&mut self, act: Act, config: &Config) -> Result<(), ErrorAt> {
        match (act, self) {
            (Act::Begins, threads) => {
                let disk = config.agent.root.as_ref().map(|it| {
                    let disk = Disk::start(it.settings.as_ref(), threads.wake.clone());
                    disk.map_err(at("root: its thread cannot be started"))
                });
                threads.disk = disk.transpose()?;
            }
            (Act::Anew, threads) => {
                threads.disk = None;
                let wake = threads.wake.clone();
                threads.stores = Stores::new(config.store.clone(), silence(config), wake);
            }
            (Act::Disk(job), Threads { disk: Some(it), .. }) => it.begin(job),
            (Act::Stand(job), Threads { roles: Some(it), .. }) => it.begin(job),
            (Act::Apply(at, job), Threads { apply: Some(it), .. }) => it.begin(at, job),
            _ => (),
        }
        Ok(())
    }

    /// What of them is not as the machine has it, where something is not.
    pub fn fault(&self, machine: &Machine) -> Option<&'static str> {
        let root = machine.came.root.as_ref();
        let disk = match (root.zip(machine.config.root.as_ref()), &self.disk) {
            (Some((root, config)), Some(disk)) => {
                disk.fault(config.settings.as_ref(), root.jobs_out())
            }
            (None, None) => None,
            _ => Some(ASKED),
        };
        let standby = machine.came.standby.as_ref();
        let roles = match (standby, &self.roles) {
            (Some(standby), Some(roles)) => (!roles.is_asked(standby.jobs_out())).then_some(ASKED),
            (None, None) => None,
            _ => Some(ASKED),
        };
        let apply = match (&machine.came.applier, &self.apply) {
            (Some(applier), Some(workers)) => workers.fault(applier),
            (None, None) => None,
            _ => Some("nobody applies settings"),
        };
        let stores = self.stores.fault(|store| machine.peers.asks(store));
        [disk, roles, apply, stores].into_iter().flatten().next()
    }
}
