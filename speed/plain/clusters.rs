//! The table of clusters: what stands where, and who may read it.

#[derive(Clone, Copy, PartialEq)]
pub enum Privilege {
    View,
    ProxyView,
    Operate,
    Manage,
    Administer,
}

impl Privilege {
    /// Whether who has this privilege has the other one, too.
    pub fn includes(self, other: Privilege) -> bool {
        use Privilege::*;
        match self {
            View => other == View,
            ProxyView => matches!(other, View | ProxyView),
            Operate => matches!(other, View | Operate),
            Manage => matches!(other, View | Operate | Manage),
            Administer => true,
        }
    }
}

pub struct Attribute {
    pub number: u32,
    pub read: Privilege,
}

pub struct Cluster {
    pub number: u32,
    /// Its own attributes below the global ones, and those above them, ascending.
    pub attributes: &'static [Attribute],
    pub extensions: &'static [Attribute],
    pub accepted: &'static [u32],
    pub generated: &'static [u32],
    pub features: u8,
}

pub struct Endpoint {
    pub number: u16,
    pub device: u32,
    pub clusters: &'static [&'static Cluster],
}

#[derive(Clone, Copy)]
pub struct Place {
    pub endpoint: u16,
    pub cluster: u32,
    pub attribute: u32,
}

pub const UNSUPPORTED_ENDPOINT: u8 = 0x7f;
pub const UNSUPPORTED_CLUSTER: u8 = 0xc3;
pub const UNSUPPORTED_ATTRIBUTE: u8 = 0x86;

pub const ON_OFF: u32 = 0x06;
pub const DESCRIPTOR: u32 = 0x1d;
pub const BINDING: u32 = 0x1e;
pub const ACCESS_CONTROL: u32 = 0x1f;
pub const BASIC_INFORMATION: u32 = 0x28;
pub const GENERAL_COMMISSIONING: u32 = 0x30;
pub const NETWORK_COMMISSIONING: u32 = 0x31;
pub const ADMINISTRATOR_COMMISSIONING: u32 = 0x3c;
pub const OPERATIONAL_CREDENTIALS: u32 = 0x3e;
pub const GROUP_KEY_MANAGEMENT: u32 = 0x3f;
pub const USER_LABEL: u32 = 0x41;
pub const BENCH: u32 = 0xfff1_fc00;

pub const GENERATED_COMMANDS: u32 = 0xfff8;
pub const ACCEPTED_COMMANDS: u32 = 0xfff9;
pub const ATTRIBUTES: u32 = 0xfffb;
pub const FEATURES: u32 = 0xfffc;
pub const REVISION: u32 = 0xfffd;
pub const WINDOW_END: u32 = 0xfff1_0000;

const fn viewed(number: u32) -> Attribute {
    Attribute {
        number,
        read: Privilege::View,
    }
}

const fn administered(number: u32) -> Attribute {
    Attribute {
        number,
        read: Privilege::Administer,
    }
}

pub static GLOBALS: [Attribute; 5] = [
    viewed(GENERATED_COMMANDS),
    viewed(ACCEPTED_COMMANDS),
    viewed(ATTRIBUTES),
    viewed(FEATURES),
    viewed(REVISION),
];

const fn cluster(number: u32, attributes: &'static [Attribute]) -> Cluster {
    Cluster {
        number,
        attributes,
        extensions: &[],
        accepted: &[],
        generated: &[],
        features: 0,
    }
}

static DESCRIPTOR_TABLE: Cluster =
    cluster(DESCRIPTOR, &[viewed(0), viewed(1), viewed(2), viewed(3)]);

static ROOT_CLUSTERS: [&Cluster; 8] = [
    &DESCRIPTOR_TABLE,
    &cluster(
        ACCESS_CONTROL,
        &[administered(0), viewed(2), viewed(3), viewed(4)],
    ),
    &cluster(
        BASIC_INFORMATION,
        &[
            viewed(0),
            viewed(1),
            viewed(2),
            viewed(3),
            viewed(4),
            viewed(5),
            viewed(6),
            viewed(7),
            viewed(8),
            viewed(9),
            viewed(10),
            viewed(19),
        ],
    ),
    &Cluster {
        accepted: &[0, 2, 4],
        generated: &[1, 3, 5],
        ..cluster(
            GENERAL_COMMISSIONING,
            &[viewed(0), viewed(1), viewed(2), viewed(3), viewed(4)],
        )
    },
    &Cluster {
        accepted: &[2, 4, 6, 8],
        generated: &[5, 7],
        features: 1,
        ..cluster(
            NETWORK_COMMISSIONING,
            &[
                administered(0),
                administered(1),
                viewed(2),
                viewed(3),
                viewed(4),
                administered(5),
                administered(6),
                administered(7),
            ],
        )
    },
    &Cluster {
        extensions: &[viewed(WINDOW_END)],
        accepted: &[0, 1, 2],
        features: 1,
        ..cluster(
            ADMINISTRATOR_COMMISSIONING,
            &[viewed(0), viewed(1), viewed(2)],
        )
    },
    &Cluster {
        accepted: &[4, 6, 7, 9, 10, 11],
        generated: &[5, 8],
        ..cluster(
            OPERATIONAL_CREDENTIALS,
            &[
                administered(0),
                viewed(1),
                viewed(2),
                viewed(3),
                viewed(4),
                viewed(5),
            ],
        )
    },
    &Cluster {
        accepted: &[0, 1, 3, 4],
        generated: &[2, 5],
        ..cluster(
            GROUP_KEY_MANAGEMENT,
            &[viewed(0), viewed(1), viewed(2), viewed(3)],
        )
    },
];

static DEVICE_CLUSTERS: [&Cluster; 5] = [
    &Cluster {
        accepted: &[0, 1, 2],
        ..cluster(ON_OFF, &[viewed(0)])
    },
    &DESCRIPTOR_TABLE,
    &cluster(BINDING, &[viewed(0)]),
    &cluster(USER_LABEL, &[viewed(0)]),
    &Cluster {
        accepted: &[0],
        ..cluster(BENCH, &[viewed(0), viewed(1)])
    },
];

pub static ENDPOINTS: [Endpoint; 2] = [
    Endpoint {
        number: 0,
        device: 0x16,
        clusters: &ROOT_CLUSTERS,
    },
    Endpoint {
        number: 1,
        device: 0xfff1_0001,
        clusters: &DEVICE_CLUSTERS,
    },
];

impl Cluster {
    /// All its attributes, the global ones among them, ascending.
    pub fn all_attributes(&self) -> impl Iterator<Item = &'static Attribute> {
        self.attributes
            .iter()
            .chain(&GLOBALS)
            .chain(self.extensions)
    }
}

pub fn find_endpoint(number: u16) -> Option<&'static Endpoint> {
    ENDPOINTS.iter().find(|endpoint| endpoint.number == number)
}

/// What stands at a place, or the status of the first thing that is missing.
pub fn find(place: Place) -> Result<(&'static Endpoint, &'static Cluster, &'static Attribute), u8> {
    let endpoint = find_endpoint(place.endpoint).ok_or(UNSUPPORTED_ENDPOINT)?;
    let cluster = endpoint
        .clusters
        .iter()
        .find(|cluster| cluster.number == place.cluster)
        .ok_or(UNSUPPORTED_CLUSTER)?;
    let attribute = [cluster.attributes, &GLOBALS, cluster.extensions]
        .into_iter()
        .flatten()
        .find(|attribute| attribute.number == place.attribute)
        .ok_or(UNSUPPORTED_ATTRIBUTE)?;
    Ok((endpoint, cluster, attribute))
}
