//! Recordings of plain lines, and the lines of the output.

use crate::access::{Actor, Mode};
use crate::node::NotPlayed;
use std::io::BufRead;

const RECORDING_BYTES: usize = 67_108_864;
const RECORDING_LINES: usize = 1_048_576;
const LINE_BYTES: usize = 4_096;
const PAYLOAD_BYTES: usize = 1_280;
const LAST_TIME: u64 = 281_474_976_710_655;
const LAST_FABRIC: u64 = 254;
const LAST_OPERATIONAL_NODE: u64 = 0xffff_ffef_ffff_ffff;

/// A line of a plain actor.
pub struct Ask {
    pub ms: u64,
    pub actor: Actor,
    pub opcode: u8,
    pub payload: Vec<u8>,
}

#[derive(Debug)]
pub enum Fault {
    TooLong,
    /// The number of the line, and the word for what is wrong.
    Line(usize, &'static str),
    NotPlayed(NotPlayed),
}

/// The front of some bytes up to the next of these, and what is behind that.
fn cut(bytes: &[u8], end: u8) -> (&[u8], &[u8]) {
    let mut rest = bytes;
    let length = rest.skip_until(end).unwrap_or(0);
    let front = &bytes[..length];
    (front.strip_suffix(&[end]).unwrap_or(front), rest)
}

/// All lines of a recording, or its first fault.
pub fn asks_of(text: &[u8]) -> Result<Vec<Ask>, Fault> {
    if text.len() > RECORDING_BYTES {
        return Err(Fault::TooLong);
    }
    let (head, mut rest) = cut(text, b'\n');
    if head.len() > LINE_BYTES {
        return Err(Fault::TooLong);
    }
    if head != b"matter-record 1" {
        return Err(Fault::Line(1, "head"));
    }
    let (mut asks, mut before) = (Vec::new(), 0);
    while !rest.is_empty() {
        let (line, behind) = cut(rest, b'\n');
        rest = behind;
        if line.len() > LINE_BYTES || asks.len() == RECORDING_LINES {
            return Err(Fault::TooLong);
        }
        let number = asks.len() + 2;
        let ask = ask_of(line, number)?;
        if ask.ms < before {
            return Err(Fault::Line(number, "time"));
        }
        before = ask.ms;
        asks.push(ask);
    }
    Ok(asks)
}

/// The fields of a line, and how many there are: 7 where there are more than six.
fn fields_of(line: &[u8]) -> ([&[u8]; 6], usize) {
    let mut fields: [&[u8]; 6] = [&[]; 6];
    let mut rest = line;
    for (at, place) in fields.iter_mut().enumerate() {
        let (field, behind) = cut(rest, b' ');
        let is_last = field.len() == rest.len();
        (*place, rest) = (field, behind);
        if is_last {
            return (fields, at + 1);
        }
    }
    (fields, 7)
}

/// What the line of this number tells.
fn ask_of(line: &[u8], number: usize) -> Result<Ask, Fault> {
    let [ms, fabric, actor, opcode, payload] = match fields_of(line) {
        ([b"A", fields @ ..], 6) => fields,
        ([b"D" | b"R", ..], 4) | ([b"T", ..], 2) | ([b"M" | b"X", ..], 3) => {
            return Err(Fault::NotPlayed(NotPlayed(
                "a line of another letter than A",
            )));
        }
        _ => return Err(Fault::Line(number, "form")),
    };
    let number_of = |field, last| {
        decimal(field)
            .filter(|it| *it <= last)
            .ok_or(Fault::Line(number, "number"))
    };
    let (ms, fabric) = (number_of(ms, LAST_TIME)?, number_of(fabric, LAST_FABRIC)?);
    let fault = || Fault::Line(number, "hex");
    Ok(Ask {
        ms,
        actor: actor_of(fabric as u8, actor).ok_or_else(fault)?,
        opcode: hex_number(opcode, 2).ok_or_else(fault)? as u8,
        payload: bytes_of(payload)
            .filter(|it| it.len() <= PAYLOAD_BYTES)
            .ok_or_else(fault)?,
    })
}

fn decimal(digits: &[u8]) -> Option<u64> {
    if digits.is_empty() || digits.len() > 1 && digits[0] == b'0' {
        return None;
    }
    digits.iter().try_fold(0u64, |number, digit| {
        let digit = digit.checked_sub(b'0').filter(|it| *it < 10)?;
        number.checked_mul(10)?.checked_add(u64::from(digit))
    })
}

/// The value of a hex digit; more than 15 where it is none.
fn digit_value(digit: u8) -> u8 {
    match digit {
        b'0'..=b'9' => digit - b'0',
        b'a'..=b'f' => digit - b'a' + 10,
        b'A'..=b'F' => digit - b'A' + 10,
        _ => 0x10,
    }
}

fn hex_number(digits: &[u8], count: usize) -> Option<u64> {
    if digits.len() != count {
        return None;
    }
    digits
        .iter()
        .try_fold(0, |number, digit| match digit_value(*digit) {
            value @ 0..=15 => Some(number << 4 | u64::from(value)),
            _ => None,
        })
}

/// The bytes of a payload; a dash is none.
fn bytes_of(digits: &[u8]) -> Option<Vec<u8>> {
    if digits == b"-" {
        return Some(Vec::new());
    }
    if digits.is_empty() || digits.len() % 2 != 0 {
        return None;
    }
    // The digits are read to the end before it is asked whether each was one.
    let mut wrong = 0;
    let pair = |pair: &[u8]| {
        let (high, low) = (digit_value(pair[0]), digit_value(pair[1]));
        wrong |= high | low;
        high << 4 | low
    };
    let bytes = digits.chunks_exact(2).map(pair).collect();
    (wrong < 0x10).then_some(bytes)
}

/// An actor: its node, and its CATs, each behind a plus. Fabric 0 is the plain PASE session.
fn actor_of(fabric: u8, field: &[u8]) -> Option<Actor> {
    let mut parts = field.split(|byte| *byte == b'+');
    let node = hex_number(parts.next()?, 16)?;
    let cat_of = |digits| {
        hex_number(digits, 8)
            .map(|cat| cat as u32)
            .filter(|cat| cat & 0xffff != 0)
    };
    let cats: Vec<u32> = parts.map(cat_of).collect::<Option<_>>()?;
    let stands = match fabric {
        0 => node == 0 && cats.is_empty(),
        _ => (1..=LAST_OPERATIONAL_NODE).contains(&node) && cats.len() <= 3,
    };
    let mode = if fabric == 0 { Mode::Pase } else { Mode::Case };
    stands.then_some(Actor {
        fabric,
        mode,
        node,
        cats,
    })
}

fn put_decimal(out: &mut Vec<u8>, number: u64) {
    let (mut digits, mut at, mut rest) = ([0; 20], 20, number);
    loop {
        at -= 1;
        digits[at] = b'0' + (rest % 10) as u8;
        rest /= 10;
        if rest == 0 {
            break;
        }
    }
    out.extend_from_slice(&digits[at..]);
}

fn put_hex(out: &mut Vec<u8>, bytes: &[u8]) {
    let digit = |value: u8| value + if value < 10 { b'0' } else { b'a' - 10 };
    // A longer run of zeroes below the digits is filled byte by byte.
    for piece in bytes.chunks(512) {
        let begin = out.len();
        out.resize(begin + 2 * piece.len(), 0);
        for (pair, byte) in out[begin..].chunks_exact_mut(2).zip(piece) {
            pair[0] = digit(byte >> 4);
            pair[1] = digit(byte & 15);
        }
    }
}

/// Writes the line of a payload that is sent.
pub fn put_sent(out: &mut Vec<u8>, ms: u64, fabric: u8, opcode: u8, payload: &[u8]) {
    out.extend_from_slice(b"P ");
    put_decimal(out, ms);
    out.push(b' ');
    put_decimal(out, u64::from(fabric));
    out.push(b' ');
    put_hex(out, &[opcode]);
    out.push(b' ');
    put_hex(out, payload);
    out.push(b'\n');
}
