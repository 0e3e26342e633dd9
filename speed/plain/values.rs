//! The value of each attribute, written under the tag that a report gives it.

use crate::access::{Entry, Mode, Target};
use crate::clusters::*;
use crate::node::{Fabric, Network, Node};
use crate::tlv::{Kind, put, put_bool, put_null, put_octets, put_optional, put_text, put_unsigned};

/// The tag of a value.
const VALUE: Option<u8> = Some(2);

const FABRICS: u8 = 16;
const ENTRIES: u8 = 4;
const SUBJECTS: u8 = 4;
const TARGETS: u8 = 3;
const NETWORKS: u8 = 4;
const KEY_MAP_ITEMS: u8 = 4;
const KEY_SETS: u8 = 3;
const CASE_SESSIONS: u8 = 3;
const SUBSCRIPTIONS: u8 = 3;

impl Node {
    /// Writes the value of a place as a reader of this fabric sees it.
    pub fn put_value(
        &self,
        out: &mut Vec<u8>,
        place: Place,
        endpoint: &Endpoint,
        cluster: &Cluster,
        reader: u8,
        filtered: bool,
    ) {
        match (place.cluster, place.attribute) {
            (_, GENERATED_COMMANDS) => put_numbers(out, cluster.generated),
            (_, ACCEPTED_COMMANDS) => put_numbers(out, cluster.accepted),
            (_, ATTRIBUTES) => put_numbers(
                out,
                cluster.all_attributes().map(|attribute| &attribute.number),
            ),
            (_, FEATURES) => put_unsigned(out, VALUE, cluster.features),
            (_, REVISION) => put_unsigned(out, VALUE, 1u8),
            (ON_OFF, _) => put_bool(out, VALUE, self.values.on_off),
            (DESCRIPTOR, attribute) => put_descriptor(out, attribute, endpoint),
            (ACCESS_CONTROL, attribute) => {
                self.put_access_control(out, attribute, reader, filtered)
            }
            (BASIC_INFORMATION, attribute) => self.put_basic_information(out, attribute),
            (GENERAL_COMMISSIONING, attribute) => self.put_general_commissioning(out, attribute),
            (NETWORK_COMMISSIONING, attribute) => self.put_network_commissioning(out, attribute),
            (ADMINISTRATOR_COMMISSIONING, attribute) => self.put_window(out, attribute),
            (OPERATIONAL_CREDENTIALS, attribute) => {
                self.put_credentials(out, attribute, reader, filtered)
            }
            (GROUP_KEY_MANAGEMENT, 2) => put_unsigned(out, VALUE, KEY_MAP_ITEMS),
            (GROUP_KEY_MANAGEMENT, 3) => put_unsigned(out, VALUE, KEY_SETS + 1),
            (BENCH, 1) => put_unsigned(out, VALUE, self.values.bench_number),
            // All others are lists without an item.
            _ => put_list(out, |_| {}),
        }
    }

    fn put_access_control(&self, out: &mut Vec<u8>, attribute: u32, reader: u8, filtered: bool) {
        match attribute {
            0 => put_list(out, |out| self.put_entries(out, reader, filtered)),
            2 => put_unsigned(out, VALUE, SUBJECTS),
            3 => put_unsigned(out, VALUE, TARGETS),
            _ => put_unsigned(out, VALUE, ENTRIES),
        }
    }

    fn put_window(&self, out: &mut Vec<u8>, attribute: u32) {
        match attribute {
            0 => put_unsigned(out, VALUE, self.values.window_status),
            1 => put_optional(out, VALUE, self.values.window_fabric),
            2 => put_optional(out, VALUE, self.values.window_vendor),
            _ => put_optional(out, VALUE, self.values.window_end),
        }
    }

    fn put_basic_information(&self, out: &mut Vec<u8>, attribute: u32) {
        match attribute {
            0 => put_unsigned(out, VALUE, 1u8),
            1 => put_text(out, VALUE, "Bench"),
            2 => put_unsigned(out, VALUE, 0xfff1u16),
            3 => put_text(out, VALUE, "Bench node"),
            4 => put_unsigned(out, VALUE, 0x8000u16),
            5 => put_text(out, VALUE, &self.values.node_label),
            6 => put_text(out, VALUE, &self.values.location),
            7 => put_unsigned(out, VALUE, 0u8),
            8 => put_text(out, VALUE, "0"),
            9 => put_unsigned(out, VALUE, 1u8),
            10 => put_text(out, VALUE, "1"),
            _ => put(out, VALUE, Kind::Structure, |out| {
                put_unsigned(out, Some(0), CASE_SESSIONS);
                put_unsigned(out, Some(1), SUBSCRIPTIONS);
            }),
        }
    }

    fn put_general_commissioning(&self, out: &mut Vec<u8>, attribute: u32) {
        match attribute {
            0 => put_unsigned(out, VALUE, self.values.breadcrumb),
            1 => put(out, VALUE, Kind::Structure, |out| {
                put_unsigned(out, Some(0), 60u8);
                put_unsigned(out, Some(1), 900u16);
            }),
            2 => put_unsigned(out, VALUE, self.values.regulatory_config),
            3 => put_unsigned(out, VALUE, 2u8),
            _ => put_bool(out, VALUE, true),
        }
    }

    fn put_network_commissioning(&self, out: &mut Vec<u8>, attribute: u32) {
        match attribute {
            0 => put_unsigned(out, VALUE, NETWORKS),
            1 => put_list(out, |out| {
                self.networks
                    .iter()
                    .for_each(|network| put_network(out, network))
            }),
            2 => put_unsigned(out, VALUE, 0u8),
            3 => put_unsigned(out, VALUE, 20u8),
            4 => put_bool(out, VALUE, self.values.interface_enabled),
            5 => put_optional(out, VALUE, self.values.last_status),
            6 => match &self.values.last_network {
                Some(id) => put_octets(out, VALUE, id),
                None => put_null(out, VALUE),
            },
            _ => put_null(out, VALUE),
        }
    }

    fn put_credentials(&self, out: &mut Vec<u8>, attribute: u32, reader: u8, filtered: bool) {
        let shown = |fabric: &&Fabric| !filtered || fabric.index == reader;
        match attribute {
            0 => put_list(out, |out| {
                self.fabrics
                    .iter()
                    .filter(shown)
                    .for_each(|it| put_noc(out, it, it.index == reader))
            }),
            1 => put_list(out, |out| {
                self.fabrics
                    .iter()
                    .filter(shown)
                    .for_each(|it| put_fabric(out, it))
            }),
            2 => put_unsigned(out, VALUE, FABRICS),
            3 => put_unsigned(out, VALUE, self.fabrics.len() as u64),
            4 => put_list(out, |out| {
                self.roots
                    .iter()
                    .for_each(|root| put_octets(out, None, root))
            }),
            _ => put_unsigned(out, VALUE, reader),
        }
    }

    /// The entries that are shown, those of others without what they say.
    fn put_entries(&self, out: &mut Vec<u8>, reader: u8, filtered: bool) {
        for entry in &self.entries {
            if entry.fabric == reader {
                put_entry(out, entry);
            } else if !filtered {
                put_structure(out, |out| put_unsigned(out, Some(254), entry.fabric));
            }
        }
    }
}

fn put_descriptor(out: &mut Vec<u8>, attribute: u32, endpoint: &Endpoint) {
    match attribute {
        0 => put_list(out, |out| {
            put_structure(out, |out| {
                put_unsigned(out, Some(0), endpoint.device);
                put_unsigned(out, Some(1), 1u8);
            });
        }),
        1 => put_numbers(out, endpoint.clusters.iter().map(|cluster| &cluster.number)),
        3 if endpoint.number == 0 => put_numbers(out, &[1]),
        _ => put_list(out, |_| {}),
    }
}

fn put_list(out: &mut Vec<u8>, items: impl FnOnce(&mut Vec<u8>)) {
    put(out, VALUE, Kind::Array, items);
}

/// An item of a list.
fn put_structure(out: &mut Vec<u8>, fields: impl FnOnce(&mut Vec<u8>)) {
    put(out, None, Kind::Structure, fields);
}

fn put_numbers<'a>(out: &mut Vec<u8>, numbers: impl IntoIterator<Item = &'a u32>) {
    put_list(out, |out| {
        numbers
            .into_iter()
            .for_each(|number| put_unsigned(out, None, *number))
    });
}

fn put_network(out: &mut Vec<u8>, network: &Network) {
    put_structure(out, |out| {
        put_octets(out, Some(0), &network.id);
        put_bool(out, Some(1), network.is_connected);
    });
}

fn put_noc(out: &mut Vec<u8>, fabric: &Fabric, is_own: bool) {
    put_structure(out, |out| {
        if is_own {
            put_octets(out, Some(1), &fabric.noc);
            match fabric.icac.as_slice() {
                [] => put_null(out, Some(2)),
                icac => put_octets(out, Some(2), icac),
            }
        }
        put_unsigned(out, Some(254), fabric.index);
    });
}

fn put_fabric(out: &mut Vec<u8>, fabric: &Fabric) {
    put_structure(out, |out| {
        put_octets(out, Some(1), &fabric.root_key);
        put_unsigned(out, Some(2), fabric.vendor);
        put_unsigned(out, Some(3), fabric.id);
        put_unsigned(out, Some(4), fabric.node);
        put_text(out, Some(5), &fabric.label);
        put_unsigned(out, Some(254), fabric.index);
    });
}

fn put_entry(out: &mut Vec<u8>, entry: &Entry) {
    put_structure(out, |out| {
        put_unsigned(out, Some(1), entry.privilege as u8 + 1);
        put_unsigned(
            out,
            Some(2),
            match entry.mode {
                Mode::Pase => 1u8,
                Mode::Case => 2,
                Mode::Group => 3,
            },
        );
        match entry.subjects.as_slice() {
            [] => put_null(out, Some(3)),
            subjects => put(out, Some(3), Kind::Array, |out| {
                subjects
                    .iter()
                    .for_each(|subject| put_unsigned(out, None, *subject));
            }),
        }
        match entry.targets.as_slice() {
            [] => put_null(out, Some(4)),
            targets => put(out, Some(4), Kind::Array, |out| {
                targets.iter().for_each(|target| put_target(out, target))
            }),
        }
        put_unsigned(out, Some(254), entry.fabric);
    });
}

fn put_target(out: &mut Vec<u8>, target: &Target) {
    put_structure(out, |out| {
        put_optional(out, Some(0), target.cluster);
        put_optional(out, Some(1), target.endpoint);
        put_optional(out, Some(2), target.device);
    });
}
