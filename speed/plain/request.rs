//! What a read asks for, decoded from its payload.

use crate::tlv::{Kind, Malformed, Reader, Tag, Value};

/// The most attribute and event paths together.
const PATHS: usize = 16;

/// A path; what is missing is a wildcard.
#[derive(Default)]
pub struct Path {
    pub endpoint: Option<u16>,
    pub cluster: Option<u32>,
    pub attribute: Option<u32>,
    /// Whether it names a single item of a list by its number.
    pub names_item: bool,
}

/// A data version of a cluster on an endpoint.
pub struct Version {
    pub endpoint: u16,
    pub cluster: u32,
    pub version: u32,
}

#[derive(Default)]
pub struct Read {
    pub paths: Vec<Path>,
    /// How many paths of events there are.
    pub events: usize,
    pub filtered: bool,
    /// Data that the reader has already.
    pub versions: Vec<Version>,
}

pub enum Fault {
    Malformed,
    TooManyPaths,
}

impl From<Malformed> for Fault {
    fn from(_: Malformed) -> Self {
        Fault::Malformed
    }
}

/// Decodes a ReadRequest. Bytes behind it are passed over.
pub fn decode(bytes: &[u8]) -> Result<Read, Fault> {
    let mut reader = Reader::new(bytes);
    let Some((Tag::Anonymous, Value::Open(Kind::Structure))) = reader.element()? else {
        return Err(Fault::Malformed);
    };
    let (mut read, mut filtered, mut revision) = (Read::default(), None, None::<u64>);
    reader.members(Kind::Structure, |reader, field, value| {
        match field {
            Some(0) => reader.array(value, |reader, value| {
                Ok(read.paths.push(attribute_path(reader, value)?))
            })?,
            Some(1) => reader.array(value, |reader, value| {
                read.events += 1;
                event_path(reader, value)
            })?,
            Some(2) => reader.array(value, event_filter)?,
            Some(3) => filtered = Some(value.truth()?),
            Some(4) => reader.array(value, |reader, value| {
                Ok(read.versions.push(version_filter(reader, value)?))
            })?,
            Some(255) => revision = Some(value.unsigned()?),
            _ => reader.pass_over(value)?,
        }
        Ok(())
    })?;
    read.filtered = filtered.ok_or(Fault::Malformed)?;
    revision.ok_or(Fault::Malformed)?;
    if read.paths.len() + read.events > PATHS {
        return Err(Fault::TooManyPaths);
    }
    Ok(read)
}

/// The kind of container that a value is to be.
fn opened(value: Value, wanted: Kind) -> Result<Kind, Malformed> {
    match value {
        Value::Open(kind) if kind == wanted => Ok(kind),
        _ => Err(Malformed),
    }
}

fn attribute_path(reader: &mut Reader, value: Value) -> Result<Path, Malformed> {
    let mut path = Path::default();
    reader.members(opened(value, Kind::List)?, |reader, field, value| {
        match field {
            // Compressed paths are not taken.
            Some(0) if value.truth()? => return Err(Malformed),
            Some(0) => {}
            Some(2) => path.endpoint = Some(value.unsigned()?),
            Some(3) => path.cluster = Some(value.unsigned()?),
            Some(4) => path.attribute = Some(value.unsigned()?),
            // Null, which is for one item more, names the whole list.
            Some(5) if matches!(value, Value::Null) => {}
            Some(5) => {
                value.unsigned::<u16>()?;
                path.names_item = true;
            }
            _ => reader.pass_over(value)?,
        }
        Ok(())
    })?;
    Ok(path)
}

fn event_path(reader: &mut Reader, value: Value) -> Result<(), Malformed> {
    reader.members(
        opened(value, Kind::List)?,
        |reader, field, value| match field {
            Some(1) => value.unsigned::<u16>().map(|_| ()),
            Some(2 | 3) => value.unsigned::<u32>().map(|_| ()),
            _ => reader.pass_over(value),
        },
    )
}

fn event_filter(reader: &mut Reader, value: Value) -> Result<(), Malformed> {
    let mut least = None::<u64>;
    reader.members(
        opened(value, Kind::Structure)?,
        |reader, field, value| match field {
            Some(1) => Ok(least = Some(value.unsigned()?)),
            _ => reader.pass_over(value),
        },
    )?;
    least.map(|_| ()).ok_or(Malformed)
}

fn version_filter(reader: &mut Reader, value: Value) -> Result<Version, Malformed> {
    let (mut path, mut version) = (None, None);
    reader.members(opened(value, Kind::Structure)?, |reader, field, value| {
        match field {
            Some(0) => path = Some(cluster_path(reader, value)?),
            Some(1) => version = Some(value.unsigned()?),
            _ => reader.pass_over(value)?,
        }
        Ok(())
    })?;
    let (endpoint, cluster) = path.ok_or(Malformed)?;
    Ok(Version {
        endpoint,
        cluster,
        version: version.ok_or(Malformed)?,
    })
}

fn cluster_path(reader: &mut Reader, value: Value) -> Result<(u16, u32), Malformed> {
    let (mut endpoint, mut cluster) = (None, None);
    reader.members(opened(value, Kind::List)?, |reader, field, value| {
        match field {
            Some(1) => endpoint = Some(value.unsigned()?),
            Some(2) => cluster = Some(value.unsigned()?),
            _ => reader.pass_over(value)?,
        }
        Ok(())
    })?;
    Ok((endpoint.ok_or(Malformed)?, cluster.ok_or(Malformed)?))
}
