//! The payloads of an answer: items joined as long as they fit, each payload written as a line of the output.

use crate::clusters::Place;
use crate::recording::put_sent;
use crate::tlv::{Kind, Reader, put, put_null, put_unsigned};

/// The most bytes that the items of one payload have together.
const ITEM_BYTES: usize = 1_176;

/// What stands in front of the items of a payload, and behind them where more follow, and where none do.
const HEAD: [u8; 3] = [0x15, 0x36, 0x01];
const MORE: [u8; 7] = [0x18, 0x29, 0x03, 0x24, 0xff, 0x01, 0x18];
const LAST: [u8; 7] = [0x18, 0x29, 0x04, 0x24, 0xff, 0x01, 0x18];
const NOTHING: [u8; 7] = [0x15, 0x29, 0x04, 0x24, 0xff, 0x01, 0x18];

/// The element type of an array.
const ARRAY: u8 = 0x16;

const STATUS_RESPONSE: u8 = 0x01;
const REPORT_DATA: u8 = 0x05;

/// The answer to one line, made in room that is used again for the next.
pub struct Report<'a> {
    pub ms: u64,
    pub fabric: u8,
    /// The payload that is begun: the head and its items so far.
    pub payload: &'a mut Vec<u8>,
    pub out: &'a mut Vec<u8>,
}

impl Report<'_> {
    /// Answers with a status alone.
    pub fn refuse(&mut self, status: u8) {
        let message = [0x15, 0x24, 0x00, status, 0x24, 0xff, 0x01, 0x18];
        put_sent(self.out, self.ms, self.fabric, STATUS_RESPONSE, &message);
    }

    pub fn add_status(&mut self, place: Place, status: u8) {
        self.add(|out| {
            put(out, Some(0), Kind::Structure, |out| {
                put_path(out, Some(0), place, false);
                put(out, Some(1), Kind::Structure, |out| {
                    put_unsigned(out, Some(0), status)
                });
            });
        });
    }

    /// Adds the value of a place, which is written under the tag 2. A list that is too long for one payload becomes an empty one and an item
    /// for each element.
    pub fn add_data(&mut self, version: u32, place: Place, value: impl FnOnce(&mut Vec<u8>)) {
        let mut value_begins = 0;
        let begin = self.append(|out| {
            put_data(out, version, place, false, |out| {
                value_begins = out.len();
                value(out);
            });
        });
        if self.payload.len() - begin <= ITEM_BYTES || self.payload[value_begins] & 0x1f != ARRAY {
            return self.settle(begin);
        }
        let array = self.payload[value_begins..].to_vec();
        self.payload.truncate(begin);
        self.add(|out| {
            put_data(out, version, place, false, |out| {
                put(out, Some(2), Kind::Array, |_| {})
            })
        });
        for element in elements_of(&array) {
            // An element has no tag; here it gets the tag of a value.
            self.add(|out| {
                put_data(out, version, place, true, |out| {
                    out.extend_from_slice(&[0x20 | element[0], 2]);
                    out.extend_from_slice(&element[1..]);
                });
            });
        }
    }

    /// Ends the answer.
    pub fn finish(&mut self) {
        if self.payload.is_empty() {
            put_sent(self.out, self.ms, self.fabric, REPORT_DATA, &NOTHING);
        } else {
            self.send(&LAST);
        }
    }

    /// Adds an item.
    fn add(&mut self, report: impl FnOnce(&mut Vec<u8>)) {
        let begin = self.append(report);
        self.settle(begin);
    }

    /// Puts an item behind those of the payload that is begun. Answers where it begins.
    fn append(&mut self, report: impl FnOnce(&mut Vec<u8>)) -> usize {
        if self.payload.is_empty() {
            self.payload.extend_from_slice(&HEAD);
        }
        let begin = self.payload.len();
        put(self.payload, None, Kind::Structure, report);
        begin
    }

    /// Leaves the last item, which begins here, where it fits into the payload, and otherwise begins the next one with it.
    fn settle(&mut self, begin: usize) {
        if begin > HEAD.len() && self.payload.len() - HEAD.len() > ITEM_BYTES {
            let item = self.payload.split_off(begin);
            self.send(&MORE);
            self.payload.extend_from_slice(&HEAD);
            self.payload.extend_from_slice(&item);
        }
    }

    /// Sends the payload that is begun, with this behind its items.
    fn send(&mut self, end: &[u8]) {
        self.payload.extend_from_slice(end);
        put_sent(self.out, self.ms, self.fabric, REPORT_DATA, self.payload);
        self.payload.clear();
    }
}

/// The elements of an array.
fn elements_of(array: &[u8]) -> Vec<&[u8]> {
    let mut reader = Reader::new(array);
    let mut elements = Vec::new();
    if let Ok(Some((_, value))) = reader.element() {
        let mut begin = array.len() - reader.left();
        let read = reader.array(value, |reader, value| {
            reader.pass_over(value)?;
            let end = array.len() - reader.left();
            elements.push(&array[begin..end]);
            begin = end;
            Ok(())
        });
        debug_assert!(read.is_ok());
    }
    elements
}

fn put_data(
    out: &mut Vec<u8>,
    version: u32,
    place: Place,
    is_element: bool,
    value: impl FnOnce(&mut Vec<u8>),
) {
    put(out, Some(1), Kind::Structure, |out| {
        put_unsigned(out, Some(0), version);
        put_path(out, Some(1), place, is_element);
        value(out);
    });
}

fn put_path(out: &mut Vec<u8>, tag: Option<u8>, place: Place, is_element: bool) {
    put(out, tag, Kind::List, |out| {
        put_unsigned(out, Some(2), place.endpoint);
        put_unsigned(out, Some(3), place.cluster);
        put_unsigned(out, Some(4), place.attribute);
        if is_element {
            put_null(out, Some(5));
        }
    });
}
