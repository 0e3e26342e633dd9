//! The node's state, and what it answers to a read.

use crate::access::{Actor, Entry, Mode, may_read};
use crate::clusters::{Cluster, ENDPOINTS, Endpoint, GLOBALS, Place, Privilege, find};
use crate::report::Report;
use crate::request::{Fault, Path, Read, Version, decode};

pub struct Fabric {
    pub index: u8,
    pub root: Vec<u8>,
    pub root_key: Vec<u8>,
    pub id: u64,
    pub node: u64,
    pub noc: Vec<u8>,
    pub icac: Vec<u8>,
    pub vendor: u16,
    pub label: String,
}

pub struct Network {
    pub id: Vec<u8>,
    pub is_connected: bool,
}

/// The values that are kept as they are, but for lists that only a write fills, which are empty here.
pub struct Values {
    pub on_off: bool,
    pub node_label: String,
    pub location: String,
    pub breadcrumb: u64,
    pub regulatory_config: u64,
    pub interface_enabled: bool,
    pub last_status: Option<u64>,
    pub last_network: Option<Vec<u8>>,
    pub window_status: u64,
    pub window_fabric: Option<u64>,
    pub window_vendor: Option<u64>,
    pub window_end: Option<u64>,
    pub bench_number: u32,
}

pub struct Node {
    pub fabrics: Vec<Fabric>,
    pub entries: Vec<Entry>,
    pub roots: Vec<Vec<u8>>,
    pub networks: Vec<Network>,
    pub values: Values,
    pub versions: Vec<Version>,
}

const UNSUPPORTED_ACCESS: u8 = 0x7e;
const INVALID_ACTION: u8 = 0x80;
const PATHS_EXHAUSTED: u8 = 0xc8;

/// What is not played here.
#[derive(Debug)]
pub struct NotPlayed(pub &'static str);

impl Values {
    /// Those of a new node.
    fn first() -> Values {
        Values {
            on_off: false,
            node_label: String::new(),
            location: String::from("XX"),
            breadcrumb: 0,
            regulatory_config: 2,
            interface_enabled: true,
            last_status: None,
            last_network: None,
            window_status: 0,
            window_fabric: None,
            window_vendor: None,
            window_end: None,
            bench_number: 0,
        }
    }
}

impl Node {
    /// A new node with these fabrics and entries.
    pub fn new(fabrics: Vec<Fabric>, entries: Vec<Entry>) -> Node {
        let mut roots: Vec<Vec<u8>> = Vec::new();
        for fabric in &fabrics {
            if !roots.contains(&fabric.root) {
                roots.push(fabric.root.clone());
            }
        }
        let versions = ENDPOINTS.iter().flat_map(|endpoint| {
            let of_cluster = |cluster: &&Cluster| Version {
                endpoint: endpoint.number,
                cluster: cluster.number,
                version: 1,
            };
            endpoint.clusters.iter().map(of_cluster)
        });
        Node {
            versions: versions.collect(),
            fabrics,
            entries,
            roots,
            networks: Vec::new(),
            values: Values::first(),
        }
    }

    /// Whether an actor is one that is answered.
    pub fn knows(&self, actor: &Actor) -> bool {
        actor.mode == Mode::Pase
            || self
                .fabrics
                .iter()
                .any(|fabric| fabric.index == actor.fabric)
    }

    /// Hands what is answered to a payload with this opcode to a report.
    pub fn answer(
        &self,
        actor: &Actor,
        opcode: u8,
        payload: &[u8],
        report: &mut Report,
    ) -> Result<(), NotPlayed> {
        match opcode {
            0x02 => match decode(payload) {
                Ok(read) if read.events > 0 => return Err(NotPlayed("a read of events")),
                Ok(read) if read.paths.iter().any(is_refused) => report.refuse(INVALID_ACTION),
                Ok(read) => self.read(actor, &read, report),
                Err(Fault::Malformed) => report.refuse(INVALID_ACTION),
                Err(Fault::TooManyPaths) => report.refuse(PATHS_EXHAUSTED),
            },
            0x03 | 0x06 | 0x08 | 0x0a => return Err(NotPlayed("a request that is no read")),
            _ => report.refuse(INVALID_ACTION),
        }
        Ok(())
    }

    fn read(&self, actor: &Actor, read: &Read, report: &mut Report) {
        for path in &read.paths {
            match *path {
                Path {
                    endpoint: Some(endpoint),
                    cluster: Some(cluster),
                    attribute: Some(attribute),
                    ..
                } => {
                    self.read_one(
                        actor,
                        read,
                        Place {
                            endpoint,
                            cluster,
                            attribute,
                        },
                        report,
                    );
                }
                _ => self.read_all(actor, read, path, report),
            }
        }
        report.finish();
    }

    /// Reads the one place that a path names.
    fn read_one(&self, actor: &Actor, read: &Read, place: Place, report: &mut Report) {
        let found = find(place);
        let wanted = found.map_or(Privilege::View, |(_, _, attribute)| attribute.read);
        if !may_read(&self.entries, actor, place, wanted) {
            return report.add_status(place, UNSUPPORTED_ACCESS);
        }
        match found {
            Ok((endpoint, cluster, _)) => self.tell(actor, read, place, endpoint, cluster, report),
            Err(status) => report.add_status(place, status),
        }
    }

    /// Reads what there is of the places that a path with a wildcard names.
    fn read_all(&self, actor: &Actor, read: &Read, path: &Path, report: &mut Report) {
        for endpoint in ENDPOINTS
            .iter()
            .filter(|it| path.endpoint.is_none_or(|number| it.number == number))
        {
            for cluster in endpoint
                .clusters
                .iter()
                .filter(|it| path.cluster.is_none_or(|number| it.number == number))
            {
                for attribute in cluster.all_attributes() {
                    if path
                        .attribute
                        .is_some_and(|number| attribute.number != number)
                    {
                        continue;
                    }
                    let place = Place {
                        endpoint: endpoint.number,
                        cluster: cluster.number,
                        attribute: attribute.number,
                    };
                    if may_read(&self.entries, actor, place, attribute.read) {
                        self.tell(actor, read, place, endpoint, cluster, report);
                    }
                }
            }
        }
    }

    /// Tells the value of a place, unless the reader has its version.
    fn tell(
        &self,
        actor: &Actor,
        read: &Read,
        place: Place,
        endpoint: &Endpoint,
        cluster: &Cluster,
        report: &mut Report,
    ) {
        let stands = |it: &&Version| it.endpoint == place.endpoint && it.cluster == place.cluster;
        let version = self.versions.iter().find(stands).map_or(0, |it| it.version);
        if !read
            .versions
            .iter()
            .filter(stands)
            .any(|it| it.version == version)
        {
            report.add_data(version, place, |out| {
                self.put_value(out, place, endpoint, cluster, actor.fabric, read.filtered)
            });
        }
    }
}

/// Whether a path is one for which a read is refused as a whole: it names an item of a list, or asks every cluster for what not every
/// cluster has.
fn is_refused(path: &Path) -> bool {
    let is_global = |number| GLOBALS.iter().any(|attribute| attribute.number == number);
    path.names_item
        || path.cluster.is_none() && path.attribute.is_some_and(|number| !is_global(number))
}
