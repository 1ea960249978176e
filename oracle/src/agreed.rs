//! Answers on which the Rust and the model must agree: readings that tell where they broke, and all that is asked under a rule for
//! type ids. The Rust has rule 1 alone. Under rule 2 it is asked for the same with the gap's octets counted to the type id; where
//! there is no right gap, the model decides alone. The oracle stops where the two differ.

use crate::answers::{checked, measured, read, read_name, written};
use crate::image;
use crate::model::{self, Broken};
use crate::readable::describe;
use crate::refusal::Refusal;
use crate::request::{Reading, Request, Rule, Way};
use crate::table::{Table, TYPE_ID};
use std::borrow::Cow;
use std::fmt::Debug;

/// The octets of a gap, and of the type id's length field.
const FILL: u8 = 0xFF;
const HEAD: usize = 4;

fn agree<T: PartialEq + Debug>(by_rust: Result<T, Refusal>, by_model: Result<T, Refusal>, asked: impl FnOnce() -> Request) {
    if by_rust != by_model {
        panic!("the Rust gives {by_rust:?} and the model {by_model:?} for {}", describe(&asked()));
    }
}

/// How many octets of gap follow a type id of that length.
fn gap(rule: Rule, type_id: usize) -> usize {
    match rule {
        Rule::Multiple => 0,
        Rule::Gap => type_id.wrapping_neg() % 4,
    }
}

/// The slice as the Rust is asked to read it, and how many octets of gap its type id has got; none where the gap isn't right.
fn widened(rule: Rule, source: &[u8]) -> Option<(Cow<'_, [u8]>, usize)> {
    let length = source.first_chunk().map_or(0, |head| u32::from_be_bytes(*head) as usize);
    let gap = gap(rule, length);
    if gap == 0 {
        return Some((source.into(), 0));
    }
    let end = HEAD + length + gap;
    if source.get(end - gap..end)?.iter().any(|octet| *octet != FILL) {
        return None;
    }
    let mut wide = source.to_vec();
    wide[..HEAD].copy_from_slice(&((length + gap) as u32).to_be_bytes());
    Some((wide.into(), gap))
}

fn read_both(rule: Rule, whole: bool, source: &[u8], asked: impl FnOnce() -> Request) -> Result<(usize, Table), Broken> {
    let by_model = model::read(rule, whole, source);
    if let Some((wide, gap)) = widened(rule, source) {
        let mut by_rust = read(whole, &wide);
        if let Ok((_, table)) = &mut by_rust {
            table.0[TYPE_ID + 1] -= gap as u32;
        }
        agree(by_rust.as_ref().map_err(|refusal| *refusal), by_model.as_ref().map_err(|broken| broken.refusal), asked);
    }
    by_model
}

/// A leading reference under a rule, or the whole slice: consumed octets and the table, or the refusal and where it broke.
pub fn read_by(rule: Rule, whole: bool, source: &[u8]) -> Result<(usize, Table), Broken> {
    read_both(rule, whole, source, || Request::ReadBy { rule, whole, source: source.to_vec() })
}

/// Consumed octets, or the refusal and where the reading broke. The Rust decides all but the offset.
pub fn locate(reading: Reading, source: &[u8]) -> Result<usize, Broken> {
    let asked = || Request::Where { reading, source: source.to_vec() };
    if reading != Reading::Name {
        return Ok(read_both(Rule::Multiple, reading == Reading::Whole, source, asked)?.0);
    }
    let by_model = model::read_name(source);
    agree(read_name(source).map(|[consumed, ..]| consumed), by_model.map_err(|broken| broken.refusal), asked);
    by_model
}

/// The table and the source that the Rust is asked to measure and write: the type id stands behind the source, with its gap.
fn with_gap(rule: Rule, table: &Table, source: &[u8]) -> (Table, Vec<u8>) {
    let [offset, length] = [table.0[TYPE_ID] as usize, table.0[TYPE_ID + 1] as usize];
    let wide = length + gap(rule, length);
    let mut joined = [source, &source[offset..offset + length]].concat();
    joined.resize(source.len() + wide, FILL);
    let mut table = table.clone();
    table.0[TYPE_ID] = source.len() as u32;
    table.0[TYPE_ID + 1] = wide as u32;
    (table, joined)
}

pub fn length_by(rule: Rule, table: &Table, source: &[u8]) -> Result<usize, Refusal> {
    checked(table, source)?;
    let (wide, joined) = with_gap(rule, table, source);
    let by_rust = measured(&wide, &joined).map(|(_, length)| length);
    let asked = || Request::LengthBy { rule, table: table.clone(), source: source.to_vec() };
    agree(by_rust, image::length(rule, table, source), asked);
    by_rust
}

/// A writing by the Rust, whose output then gets the type id's own length.
pub fn write_by(rule: Rule, table: &Table, source: &[u8], out: &mut [u8]) -> Result<usize, Refusal> {
    checked(table, source)?;
    let (wide, joined) = with_gap(rule, table, source);
    let by_rust = written(&wide, &joined, out);
    if by_rust.is_ok() {
        out[..HEAD].copy_from_slice(&table.0[TYPE_ID + 1].to_be_bytes());
    }
    let room = out.len();
    let asked = || Request::WriteBy { rule, way: Way::Constants, table: table.clone(), room, source: source.to_vec() };
    agree(by_rust.map(|length| out[..length].to_vec()), image::write(rule, table, source, room), asked);
    by_rust
}
