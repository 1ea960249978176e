//! The cache listing of document 01: marked records, one row for each; and the same with where each refused record broke.

use crate::agreed::locate;
use crate::answers::{kind, read};
use crate::place;
use crate::request::Reading;

const MARK: [u8; 2] = [0x4F, 0x52];

/// How many octets stand before a record's reference: the mark and the length.
const HEAD: usize = 4;

/// A record's reference at the front of what is left, or none where the mark is wrong or the record is cut.
fn record(left: &[u8]) -> Option<&[u8]> {
    let (head, rest) = left.split_at_checked(HEAD)?;
    let length = u16::from_be_bytes([head[2], head[3]]) as usize;
    if head[..2] == MARK {
        rest.get(..length)
    } else {
        None
    }
}

fn row(number: usize, reference: &[u8]) -> String {
    let bytes = reference.len();
    match read(true, reference) {
        Ok((_, table)) => {
            let [offset, length, profiles] = [0, 1, 2].map(|index| table.0[index] as usize);
            format!("{number} {bytes} {} {profiles} 0", kind(&reference[offset..offset + length]))
        }
        Err(refusal) => format!("{number} {bytes} - - {}", refusal.number),
    }
}

/// What stands behind a refused record's row: the place, and the offset in the file, in which the reference begins at `start`.
fn broken_where(start: usize, reference: &[u8]) -> String {
    match locate(Reading::Whole, reference) {
        Ok(_) => String::new(),
        Err(broken) => format!(" {} at {}", place::words(broken.refusal.place), start + broken.offset),
    }
}

/// The whole output for a cache.
pub fn list(cache: &[u8], tells_where: bool) -> String {
    let mut text = format!("record bytes kind profiles refusal{}\n", if tells_where { " where" } else { "" });
    let mut at = 0;
    let mut seen = 0;
    while at < cache.len() {
        let Some(reference) = record(&cache[at..]) else {
            return text + &format!("broken at {at}\n");
        };
        seen += 1;
        text += &row(seen, reference);
        if tells_where {
            text += &broken_where(at + HEAD, reference);
        }
        text.push('\n');
        at += HEAD + reference.len();
    }
    text + &format!("end {seen}\n")
}

/// A record of a cache.
pub fn put_record(cache: &mut Vec<u8>, reference: &[u8]) {
    cache.extend_from_slice(&MARK);
    cache.extend_from_slice(&(reference.len() as u16).to_be_bytes());
    cache.extend_from_slice(reference);
}
