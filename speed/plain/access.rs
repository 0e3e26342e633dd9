//! Who may read what: the entries of the access control list.

use crate::clusters::{Place, Privilege, find_endpoint};

#[derive(Clone, Copy, PartialEq)]
pub enum Mode {
    Pase,
    Case,
    Group,
}

pub struct Target {
    pub cluster: Option<u32>,
    pub endpoint: Option<u16>,
    pub device: Option<u32>,
}

pub struct Entry {
    pub fabric: u8,
    pub privilege: Privilege,
    pub mode: Mode,
    pub subjects: Vec<u64>,
    pub targets: Vec<Target>,
}

/// Who asks. A CAT is an identifier and a version of 16 bits each.
pub struct Actor {
    pub fabric: u8,
    pub mode: Mode,
    pub node: u64,
    pub cats: Vec<u32>,
}

/// The upper half of a subject that names CATs.
const CATS: u64 = 0xffff_fffd;

impl Actor {
    fn is_named(&self, subject: u64) -> bool {
        let (identifier, version) = ((subject >> 16) as u16, subject as u16);
        subject == self.node
            || subject >> 32 == CATS
                && self
                    .cats
                    .iter()
                    .any(|cat| (cat >> 16) as u16 == identifier && *cat as u16 >= version)
    }
}

impl Target {
    fn fits(&self, place: Place) -> bool {
        self.cluster.is_none_or(|cluster| cluster == place.cluster)
            && self
                .endpoint
                .is_none_or(|endpoint| endpoint == place.endpoint)
            && self.device.is_none_or(|device| {
                find_endpoint(place.endpoint).is_some_and(|it| it.device == device)
            })
    }
}

impl Entry {
    fn grants(&self, actor: &Actor, place: Place, wanted: Privilege) -> bool {
        self.mode == actor.mode
            && (self.subjects.is_empty()
                || self.subjects.iter().any(|subject| actor.is_named(*subject)))
            && (self.targets.is_empty() || self.targets.iter().any(|target| target.fits(place)))
            && self.privilege.includes(wanted)
    }
}

/// Whether an actor may read at a place for which this privilege is asked. Over PASE everybody may; otherwise an entry of the actor's own
/// fabric has to say so.
pub fn may_read(entries: &[Entry], actor: &Actor, place: Place, wanted: Privilege) -> bool {
    actor.mode == Mode::Pase
        || entries
            .iter()
            .any(|entry| entry.fabric == actor.fabric && entry.grants(actor, place, wanted))
}
