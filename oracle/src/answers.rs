//! Answers requests as the program `answers` does: the Rust decides, and document 01's own refusals and the line's form are added.

use crate::agreed::{length_by, locate, read_by, write_by};
use crate::model::Broken;
use crate::refusal::{plain, Refusal};
use crate::request::{take, Request, Rule, Stop};
use crate::table::{check_view, Table, PLACES, PROFILES, SIZES, USED};
use broadcast_common::{Parse, Serialize};
use dvb_si::carousel::biop::ior::{Ior, NameComponent, ObjectKind, TaggedProfile, Tap};
use std::io::{self, Read, Write};

/// The most octets of a source and of an image.
pub const LIMIT: usize = 65_535;

/// What an output holds before a writing.
const BEFORE: u8 = 0xA5;

/// The line that ends a run.
const BAD_REQUEST: &[u8] = b"bad request";

/// An answer beside its line: the refusal; where the figures of a reading that tells where it broke count from; and a refused
/// writing's output as the Rust left it, where it had changed it.
#[derive(Default)]
pub struct Answered {
    pub refusal: Option<Refusal>,
    pub origin: usize,
    pub dirty: Vec<u8>,
}

impl Answered {
    /// How many octets the Rust had changed in an output that it then refused.
    pub fn changed(&self) -> usize {
        self.dirty.iter().filter(|octet| **octet != BEFORE).count()
    }
}

fn check_limit(number: usize, octets: usize) -> Result<(), Refusal> {
    if octets > LIMIT {
        return Err(Refusal { number, place: 0, first: octets, second: LIMIT });
    }
    Ok(())
}

/// A leading reference, or the whole slice: consumed octets and the table.
pub fn read(whole: bool, source: &[u8]) -> Result<(usize, Table), Refusal> {
    check_limit(6, source.len())?;
    let (ior, consumed) = if whole { (Ior::parse(source)?, source.len()) } else { Ior::parse_at(source)? };
    Ok((consumed, Table::of(&ior, source)?))
}

/// Refusals 6, 8 and 9 of a table.
pub fn checked(table: &Table, source: &[u8]) -> Result<(), Refusal> {
    check_limit(6, source.len())?;
    table.check_counts()?;
    table.check_views(source)
}

/// The Rust's value of a table that has been checked, and the length of its image; or refusal 10.
pub fn measured<'a>(table: &Table, source: &'a [u8]) -> Result<(Ior<'a>, usize), Refusal> {
    let ior = table.value(source);
    let length = ior.serialized_len();
    check_limit(10, length)?;
    Ok((ior, length))
}

/// A writing of a table that has been checked: how many octets.
pub fn written(table: &Table, source: &[u8], out: &mut [u8]) -> Result<usize, Refusal> {
    let (ior, _) = measured(table, source)?;
    Ok(ior.serialize_into(out)?)
}

pub fn length(table: &Table, source: &[u8]) -> Result<usize, Refusal> {
    checked(table, source)?;
    Ok(measured(table, source)?.1)
}

fn write(table: &Table, source: &[u8], out: &mut [u8]) -> Result<usize, Refusal> {
    checked(table, source)?;
    written(table, source, out)
}

/// The kind as it is printed: three letters, or the four octets.
pub fn kind(type_id: &[u8]) -> String {
    let ior = Ior { type_id, profiles: Vec::new() };
    let kind = ior.object_kind();
    let octets = kind.to_bytes();
    match kind {
        ObjectKind::Unknown(_) => octets.iter().map(|octet| format!("{octet:02x}")).collect(),
        _ => String::from_utf8_lossy(&octets[..3]).into_owned(),
    }
}

fn tap_numbers(use_: u16, selector: &[u8]) -> (Option<u32>, Option<u32>) {
    let tap = Tap { id: 0, use_, association_tag: 0, selector };
    (tap.transaction_id(), tap.timeout())
}

/// Consumed octets and the two views, offset and length each.
pub fn read_name(source: &[u8]) -> Result<[usize; 5], Refusal> {
    check_limit(6, source.len())?;
    let (name, consumed) = NameComponent::parse_8bit(source, 0, source.len())?;
    let offset = |part: &[u8]| part.as_ptr() as usize - source.as_ptr() as usize;
    Ok([consumed, offset(name.id), name.id.len(), offset(name.kind), name.kind.len()])
}

fn write_name(id: (u32, u32), kind: (u32, u32), source: &[u8], out: &mut [u8]) -> Result<usize, Refusal> {
    check_limit(6, source.len())?;
    check_view(id.0, id.1, 0, source)?;
    check_view(kind.0, kind.1, 0, source)?;
    let part = |view: (u32, u32)| &source[view.0 as usize..][..view.1 as usize];
    Ok(NameComponent { id: part(id), kind: part(kind) }.serialize_8bit(out)?)
}

/// The index of the first BIOP profile: the Rust hands out its body, and the index is that of the profile with this very body.
fn first_biop(table: &Table) -> Result<Option<usize>, Refusal> {
    if table.0[USED[PROFILES]] as usize > SIZES[PROFILES] {
        return Err(plain(8, PLACES[PROFILES]));
    }
    let ior = table.bare_value();
    let found = ior.biop_profile();
    let is_found = |profile: &TaggedProfile| match (profile, found) {
        (TaggedProfile::Biop(body), Some(found)) => std::ptr::eq(body, found),
        _ => false,
    };
    Ok(ior.profiles.iter().position(is_found))
}

/// The question of an address, by documents 01 and 02: the four constants, and behind the specifier type DVB's organisation number.
fn is_dvb_address(octets: &[u8; 20]) -> bool {
    octets[..2] == [0, 0] && octets[6] == 1 && octets[7..10] == [0x00, 0x01, 0x5A] && octets[16..] == [0xFF; 4]
}

const HEX: &[u8; 16] = b"0123456789abcdef";

fn put_decimal(line: &mut Vec<u8>, number: usize) {
    let mut digits = [0u8; 20];
    let mut at = digits.len();
    let mut left = number;
    loop {
        at -= 1;
        digits[at] = b'0' + (left % 10) as u8;
        left /= 10;
        if left == 0 {
            break;
        }
    }
    line.extend_from_slice(&digits[at..]);
}

fn put_spaced(line: &mut Vec<u8>, numbers: &[usize]) {
    for number in numbers {
        line.push(b' ');
        put_decimal(line, *number);
    }
}

/// Number, place and both figures: all zero for an accepted answer.
fn put_refusal(line: &mut Vec<u8>, refusal: Option<Refusal>) {
    let shown = refusal.unwrap_or(plain(0, 0));
    put_decimal(line, shown.number);
    put_spaced(line, &[shown.place, shown.first, shown.second]);
}

fn put_hex(line: &mut Vec<u8>, octets: &[u8]) {
    if octets.is_empty() {
        line.push(b'-');
    }
    for octet in octets {
        line.push(HEX[(octet >> 4) as usize]);
        line.push(HEX[(octet & 15) as usize]);
    }
}

fn put_table(line: &mut Vec<u8>, table: &Table) {
    for (index, number) in table.0.iter().enumerate().filter(|(_, number)| **number != 0) {
        put_spaced(line, &[index]);
        line.push(b':');
        put_decimal(line, *number as usize);
    }
}

fn refused<T>(result: &Result<T, Refusal>) -> Answered {
    Answered { refusal: result.as_ref().err().copied(), ..Answered::default() }
}

fn answer_read(whole: bool, source: &[u8], line: &mut Vec<u8>) -> Answered {
    let result = read(whole, source);
    put_refusal(line, refused(&result).refusal);
    put_spaced(line, &[result.as_ref().map_or(0, |(consumed, _)| *consumed)]);
    if let Ok((_, table)) = &result {
        put_table(line, table);
    }
    refused(&result)
}

fn answer_length(result: Result<usize, Refusal>, line: &mut Vec<u8>) -> Answered {
    put_refusal(line, refused(&result).refusal);
    put_spaced(line, &[result.unwrap_or(0)]);
    refused(&result)
}

/// A writing into an output that held the same octet throughout. A refused one changes no octet of ours, whatever the Rust did.
fn answer_writing(room: usize, line: &mut Vec<u8>, writing: impl FnOnce(&mut [u8]) -> Result<usize, Refusal>) -> Answered {
    let mut out = vec![BEFORE; room];
    let result = writing(&mut out);
    let mut answered = refused(&result);
    if result.is_err() && out.iter().any(|octet| *octet != BEFORE) {
        answered.dirty = std::mem::replace(&mut out, vec![BEFORE; room]);
    }
    put_refusal(line, answered.refusal);
    put_spaced(line, &[result.unwrap_or(0)]);
    line.push(b' ');
    put_hex(line, &out);
    answered
}

fn answer_tap(use_: u16, selector: &[u8], line: &mut Vec<u8>) -> Answered {
    let (transaction, timeout) = tap_numbers(use_, selector);
    let shown = |number: Option<u32>| number.map_or("none".to_string(), |number| number.to_string());
    line.extend_from_slice(format!("{} {}", shown(transaction), shown(timeout)).as_bytes());
    Answered::default()
}

fn answer_read_name(source: &[u8], line: &mut Vec<u8>) -> Answered {
    let result = read_name(source);
    put_refusal(line, refused(&result).refusal);
    put_spaced(line, &result.unwrap_or([0; 5]));
    refused(&result)
}

fn answer_where(result: Result<usize, Broken>, line: &mut Vec<u8>) -> Answered {
    let refusal = result.err().map(|broken| broken.refusal);
    let (offset, origin) = result.err().map_or((0, 0), |broken| (broken.offset, broken.origin));
    put_refusal(line, refusal);
    put_spaced(line, &[offset, result.unwrap_or(0)]);
    Answered { refusal, origin, ..Answered::default() }
}

fn answer_read_by(rule: Rule, whole: bool, source: &[u8], line: &mut Vec<u8>) -> Answered {
    let result = read_by(rule, whole, source);
    let answered = answer_where(result.as_ref().map(|(consumed, _)| *consumed).map_err(|broken| *broken), line);
    if let Ok((_, table)) = &result {
        put_table(line, table);
    }
    answered
}

fn answer_first(table: &Table, line: &mut Vec<u8>) -> Answered {
    let result = first_biop(table);
    put_refusal(line, refused(&result).refusal);
    match result {
        Ok(Some(index)) => put_spaced(line, &[index]),
        _ => line.extend_from_slice(b" none"),
    }
    refused(&result)
}

/// Puts the request's line behind `line`, without its end.
pub fn answer(request: &Request, line: &mut Vec<u8>) -> Answered {
    match request {
        Request::Read { whole, source } => answer_read(*whole, source, line),
        Request::Length { table, source } => answer_length(length(table, source), line),
        Request::Write { table, room, source } => answer_writing(*room, line, |out| write(table, source, out)),
        Request::Kind { source } => {
            line.extend_from_slice(kind(source).as_bytes());
            Answered::default()
        }
        Request::Tap { use_, selector } => answer_tap(*use_, selector, line),
        Request::ReadName { source } => answer_read_name(source, line),
        Request::WriteName { id, kind, room, source } => answer_writing(*room, line, |out| write_name(*id, *kind, source, out)),
        Request::First { table } => answer_first(table, line),
        Request::Address { octets } => {
            line.extend_from_slice(if is_dvb_address(octets) { b"yes" } else { b"no" });
            Answered::default()
        }
        Request::Where { reading, source } => answer_where(locate(*reading, source), line),
        Request::ReadBy { rule, whole, source } => answer_read_by(*rule, *whole, source, line),
        Request::LengthBy { rule, table, source } => answer_length(length_by(*rule, table, source), line),
        Request::WriteBy { rule, table, room, source, .. } => {
            answer_writing(*room, line, |out| write_by(*rule, table, source, out))
        }
    }
}

/// Hands each request of an input to `each`, until its end; false where a bad request ends the run.
pub fn each_request(mut input: impl Read, mut each: impl FnMut(Request) -> io::Result<()>) -> io::Result<bool> {
    let mut held = Vec::new();
    let mut chunk = vec![0; 1 << 18];
    loop {
        let mut at = 0;
        while at < held.len() {
            match take(&held[at..]) {
                Ok((request, size)) => {
                    each(request)?;
                    at += size;
                }
                Err(Stop::Bad) => return Ok(false),
                Err(Stop::Cut) => break,
            }
        }
        held.drain(..at);
        let got = input.read(&mut chunk)?;
        if got == 0 {
            return Ok(held.is_empty());
        }
        held.extend_from_slice(&chunk[..got]);
    }
}

/// Answers all requests of an input, a line for each, and the end of the run where a request is bad. A line goes out before the
/// next request is answered, as whoever compares expects.
pub fn answer_all(input: impl Read, mut output: impl Write) -> io::Result<()> {
    let mut line = Vec::new();
    let ended_well = each_request(input, |request| {
        line.clear();
        answer(&request, &mut line);
        line.push(b'\n');
        output.write_all(&line)?;
        output.flush()
    })?;
    if !ended_well {
        output.write_all(BAD_REQUEST)?;
        output.write_all(b"\n")?;
    }
    output.flush()
}
