//! The fabrics and the access control entries of a configuration. Its other lists are passed over, since no plain read shows anything of them;
//! and that each row keeps its own rules is asked, but not that two of them differ.

use crate::access::{Entry, Mode, Target};
use crate::clusters::Privilege;
use crate::json::Json;
use crate::node::Fabric;

const FABRICS: usize = 16;
const ENTRIES: usize = 4;
const SUBJECTS: usize = 4;
const TARGETS: usize = 3;
const CERTIFICATE_BYTES: usize = 400;
const ROOT_KEY_BYTES: usize = 65;
const IPK_BYTES: usize = 16;
const LABEL_BYTES: usize = 32;
const LAST_OPERATIONAL_NODE: u64 = 0xffff_ffef_ffff_ffff;

/// The fabrics of a configuration, by their indexes, with the entries of all. None where they are not as they have to be.
pub fn fabrics_of(config: &Json) -> Option<(Vec<Fabric>, Vec<Entry>)> {
    let rows = list(config, "fabrics", FABRICS)?;
    let (mut fabrics, mut entries) = (Vec::new(), Vec::new());
    for (row, index) in rows.iter().zip(1..) {
        fabrics.push(fabric_of(row, index)?);
        for row in list(row, "acl", ENTRIES)? {
            entries.push(entry_of(row, index)?);
        }
    }
    Some((fabrics, entries))
}

fn fabric_of(row: &Json, index: u8) -> Option<Fabric> {
    bytes(row, "ipk", IPK_BYTES..=IPK_BYTES)?;
    Some(Fabric {
        index,
        root: bytes(row, "root", 1..=CERTIFICATE_BYTES)?,
        root_key: bytes(row, "root_key", ROOT_KEY_BYTES..=ROOT_KEY_BYTES)?,
        id: id(row.field("fabric_id")?)?,
        node: id(row.field("node_id")?).filter(is_operational)?,
        noc: bytes(row, "noc", 1..=CERTIFICATE_BYTES)?,
        icac: bytes(row, "icac", 0..=CERTIFICATE_BYTES)?,
        vendor: number(row.field("vendor")?)?,
        label: match row.field("label")? {
            Json::Text(label) if label.len() <= LABEL_BYTES => label.clone(),
            _ => return None,
        },
    })
}

fn entry_of(row: &Json, fabric: u8) -> Option<Entry> {
    use Privilege::*;
    let privilege = *[View, ProxyView, Operate, Manage, Administer]
        .get(number::<usize>(row.field("privilege")?)?.checked_sub(1)?)?;
    let mode = match number(row.field("mode")?)? {
        2u8 => Mode::Case,
        3 if privilege != Administer => Mode::Group,
        _ => return None,
    };
    let is_subject = |subject: &u64| match mode {
        Mode::Group => (1..=0xffff).contains(subject),
        _ => is_operational(subject) || subject >> 32 == 0xffff_fffd && subject & 0xffff != 0,
    };
    let subjects = list(row, "subjects", SUBJECTS)?
        .iter()
        .map(|it| id(it).filter(is_subject))
        .collect::<Option<_>>()?;
    let targets = list(row, "targets", TARGETS)?
        .iter()
        .map(target_of)
        .collect::<Option<_>>()?;
    Some(Entry {
        fabric,
        privilege,
        mode,
        subjects,
        targets,
    })
}

fn target_of(row: &Json) -> Option<Target> {
    let target = Target {
        cluster: optional_number(row, "cluster")?,
        endpoint: optional_number(row, "endpoint")?,
        device: optional_number(row, "device")?,
    };
    let stands = match (target.endpoint, target.device) {
        (Some(_), Some(_)) => false,
        (None, None) => target.cluster.is_some(),
        _ => true,
    };
    (stands && matches!(row, Json::Object(_))).then_some(target)
}

fn is_operational(node: &u64) -> bool {
    (1..=LAST_OPERATIONAL_NODE).contains(node)
}

/// A list with at most so many rows, which may be missing.
fn list<'a>(object: &'a Json, name: &str, most: usize) -> Option<&'a [Json]> {
    match (object, object.field(name)) {
        (Json::Object(_), None) => Some(&[]),
        (_, Some(Json::Array(rows))) if rows.len() <= most => Some(rows),
        _ => None,
    }
}

fn number<N: TryFrom<u64>>(value: &Json) -> Option<N> {
    match value {
        Json::Number(Some(number)) => N::try_from(*number).ok(),
        _ => None,
    }
}

fn optional_number<N: TryFrom<u64>>(object: &Json, name: &str) -> Option<Option<N>> {
    match object.field(name) {
        None | Some(Json::Null) => Some(None),
        Some(value) => number(value).map(Some),
    }
}

fn digits_of(value: &Json) -> Option<&str> {
    match value {
        Json::Text(text) if text.bytes().all(|it| it.is_ascii_hexdigit()) => Some(text),
        _ => None,
    }
}

fn id(value: &Json) -> Option<u64> {
    u64::from_str_radix(digits_of(value).filter(|it| it.len() == 16)?, 16).ok()
}

fn bytes(object: &Json, name: &str, lengths: std::ops::RangeInclusive<usize>) -> Option<Vec<u8>> {
    let digits = digits_of(object.field(name)?)
        .filter(|it| it.len() % 2 == 0 && lengths.contains(&(it.len() / 2)))?;
    (0..digits.len())
        .step_by(2)
        .map(|at| u8::from_str_radix(&digits[at..at + 2], 16).ok())
        .collect()
}
