//! The encoding of tagged values: elements read one after the other, and written in their narrow form.

/// What is wrong with bytes that are no element within the limits, or a message of another form.
#[derive(Debug)]
pub struct Malformed;

/// How many containers may be open inside each other.
const DEEPEST: u8 = 16;

/// The most bytes of a text or of octets.
const LONGEST: u64 = 65_535;

#[derive(Clone, Copy, PartialEq)]
pub enum Kind {
    Structure,
    Array,
    List,
}

#[derive(Clone, Copy, PartialEq)]
pub enum Tag {
    Anonymous,
    Context(u8),
    /// Its form without the width, the vendor, the profile and the number; of the common and the implicit profile the first two are 0.
    Profile(u8, u16, u16, u32),
}

/// A value as far as a request asks for it.
#[derive(Clone, Copy)]
pub enum Value {
    Unsigned(u64),
    Bool(bool),
    Null,
    /// A signed number, a float, a text or octets.
    Other,
    /// A container, whose members come next.
    Open(Kind),
}

/// The tags that the members of a container had so far.
#[derive(Default)]
struct Seen {
    context: [u64; 4],
    profile: Vec<Tag>,
}

impl Seen {
    /// Notes a tag. Answers whether it was there before.
    fn note(&mut self, tag: Tag) -> bool {
        match tag {
            Tag::Anonymous => false,
            Tag::Context(number) => {
                let (word, bit) = (usize::from(number / 64), 1 << (number % 64));
                let before = self.context[word] & bit != 0;
                self.context[word] |= bit;
                before
            }
            Tag::Profile(..) => {
                let before = self.profile.contains(&tag);
                self.profile.push(tag);
                before
            }
        }
    }
}

pub struct Reader<'a> {
    rest: &'a [u8],
    depth: u8,
}

impl<'a> Reader<'a> {
    pub fn new(bytes: &'a [u8]) -> Self {
        Reader {
            rest: bytes,
            depth: 0,
        }
    }

    fn take(&mut self, count: usize) -> Result<&'a [u8], Malformed> {
        let (front, rest) = self.rest.split_at_checked(count).ok_or(Malformed)?;
        self.rest = rest;
        Ok(front)
    }

    fn octet(&mut self) -> Result<u8, Malformed> {
        let (front, rest) = self.rest.split_first().ok_or(Malformed)?;
        self.rest = rest;
        Ok(*front)
    }

    /// A number of one, two, four or eight bytes, the lowest first.
    fn number(&mut self, width: usize) -> Result<u64, Malformed> {
        match *self.take(width)? {
            [only] => Ok(only.into()),
            [low, high] => Ok(u16::from_le_bytes([low, high]).into()),
            [a, b, c, d] => Ok(u32::from_le_bytes([a, b, c, d]).into()),
            ref all => all
                .try_into()
                .map(u64::from_le_bytes)
                .map_err(|_| Malformed),
        }
    }

    fn tag(&mut self, form: u8) -> Result<Tag, Malformed> {
        let width = if form % 2 == 0 { 2 } else { 4 };
        match form {
            0 => Ok(Tag::Anonymous),
            1 => Ok(Tag::Context(self.octet()?)),
            2..=5 => Ok(Tag::Profile(form / 2, 0, 0, self.number(width)? as u32)),
            _ => {
                let (vendor, profile) = (self.number(2)? as u16, self.number(2)? as u16);
                Ok(Tag::Profile(3, vendor, profile, self.number(width)? as u32))
            }
        }
    }

    /// A text or octets, behind the length.
    fn string(&mut self, width: usize, is_text: bool) -> Result<Value, Malformed> {
        let length = self.number(width)?;
        if length > LONGEST {
            return Err(Malformed);
        }
        let bytes = self.take(length as usize)?;
        if is_text && std::str::from_utf8(bytes).is_err() {
            return Err(Malformed);
        }
        Ok(Value::Other)
    }

    /// The next element, of a container its front alone. None where the container that is open ends.
    pub fn element(&mut self) -> Result<Option<(Tag, Value)>, Malformed> {
        let control = self.octet()?;
        if control == 0x18 && self.depth > 0 {
            return Ok(None);
        }
        let tag = self.tag(control >> 5)?;
        let kind = control & 0x1f;
        let width = 1 << (kind % 4);
        let value = match kind {
            0x00..=0x03 => self.take(width).map(|_| Value::Other)?,
            0x04..=0x07 => Value::Unsigned(self.number(width)?),
            0x08 | 0x09 => Value::Bool(kind == 0x09),
            0x0a | 0x0b => self
                .take(if kind == 0x0a { 4 } else { 8 })
                .map(|_| Value::Other)?,
            0x0c..=0x0f => self.string(width, true)?,
            0x10..=0x13 => self.string(width, false)?,
            0x14 => Value::Null,
            0x15 => Value::Open(Kind::Structure),
            0x16 => Value::Open(Kind::Array),
            0x17 => Value::Open(Kind::List),
            _ => return Err(Malformed),
        };
        Ok(Some((tag, value)))
    }

    /// Reads the members of a container, whose front was read, to its end. Each is handed on with the number of its context tag, where
    /// it is the first under that. What is handed a container reads that to its end.
    pub fn members(
        &mut self,
        kind: Kind,
        mut each: impl FnMut(&mut Self, Option<u8>, Value) -> Result<(), Malformed>,
    ) -> Result<(), Malformed> {
        if self.depth == DEEPEST {
            return Err(Malformed);
        }
        self.depth += 1;
        let mut seen = Seen::default();
        while let Some((tag, value)) = self.element()? {
            let again = seen.note(tag);
            if match kind {
                Kind::Structure => again || tag == Tag::Anonymous,
                Kind::Array => tag != Tag::Anonymous,
                Kind::List => false,
            } {
                return Err(Malformed);
            }
            let field = match tag {
                Tag::Context(number) if !again => Some(number),
                _ => None,
            };
            each(self, field, value)?;
        }
        self.depth -= 1;
        Ok(())
    }

    /// Reads a value to its end, where it is a container.
    pub fn pass_over(&mut self, value: Value) -> Result<(), Malformed> {
        match value {
            Value::Open(kind) => self.members(kind, |reader, _, value| reader.pass_over(value)),
            _ => Ok(()),
        }
    }

    /// The members of a value that is to be an array.
    pub fn array(
        &mut self,
        value: Value,
        mut each: impl FnMut(&mut Self, Value) -> Result<(), Malformed>,
    ) -> Result<(), Malformed> {
        match value {
            Value::Open(Kind::Array) => {
                self.members(Kind::Array, |reader, _, value| each(reader, value))
            }
            _ => Err(Malformed),
        }
    }

    /// How many bytes are left.
    pub fn left(&self) -> usize {
        self.rest.len()
    }
}

impl Value {
    /// An unsigned number within the range of a type.
    pub fn unsigned<N: TryFrom<u64>>(self) -> Result<N, Malformed> {
        match self {
            Value::Unsigned(number) => number.try_into().map_err(|_| Malformed),
            _ => Err(Malformed),
        }
    }

    pub fn truth(self) -> Result<bool, Malformed> {
        match self {
            Value::Bool(truth) => Ok(truth),
            _ => Err(Malformed),
        }
    }
}

// What is written has a context tag, or none.

fn front(out: &mut Vec<u8>, tag: Option<u8>, kind: u8) {
    match tag {
        Some(number) => out.extend_from_slice(&[0x20 | kind, number]),
        None => out.push(kind),
    }
}

/// A number in the least width, behind a front whose kind is of that width.
#[inline(always)]
fn sized(out: &mut Vec<u8>, tag: Option<u8>, kind: u8, number: u64) {
    match (tag, number) {
        // Most are of one byte under a tag.
        (Some(tag), 0..=0xff) => out.extend_from_slice(&[0x20 | kind, tag, number as u8]),
        _ => sized_otherwise(out, tag, kind, number),
    }
}

fn sized_otherwise(out: &mut Vec<u8>, tag: Option<u8>, kind: u8, number: u64) {
    let (step, width) = match number {
        0..=0xff => (0, 1),
        0x100..=0xffff => (1, 2),
        0x1_0000..=0xffff_ffff => (2, 4),
        _ => (3, 8),
    };
    front(out, tag, kind + step);
    out.extend_from_slice(&number.to_le_bytes()[..width]);
}

#[inline(always)]
pub fn put_unsigned(out: &mut Vec<u8>, tag: Option<u8>, number: impl Into<u64>) {
    sized(out, tag, 0x04, number.into());
}

pub fn put_bool(out: &mut Vec<u8>, tag: Option<u8>, truth: bool) {
    front(out, tag, 0x08 + u8::from(truth));
}

pub fn put_null(out: &mut Vec<u8>, tag: Option<u8>) {
    front(out, tag, 0x14);
}

/// A number, or null where there is none.
pub fn put_optional(out: &mut Vec<u8>, tag: Option<u8>, number: Option<impl Into<u64>>) {
    match number {
        Some(number) => put_unsigned(out, tag, number),
        None => put_null(out, tag),
    }
}

pub fn put_text(out: &mut Vec<u8>, tag: Option<u8>, text: &str) {
    sized(out, tag, 0x0c, text.len() as u64);
    out.extend_from_slice(text.as_bytes());
}

pub fn put_octets(out: &mut Vec<u8>, tag: Option<u8>, octets: &[u8]) {
    sized(out, tag, 0x10, octets.len() as u64);
    out.extend_from_slice(octets);
}

/// A container, whose members something else writes.
pub fn put(out: &mut Vec<u8>, tag: Option<u8>, kind: Kind, members: impl FnOnce(&mut Vec<u8>)) {
    front(
        out,
        tag,
        match kind {
            Kind::Structure => 0x15,
            Kind::Array => 0x16,
            Kind::List => 0x17,
        },
    );
    members(out);
    out.push(0x18);
}
