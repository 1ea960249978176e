//! Requests as readable lines, `OP NAME=VALUE ..`, and back: for people who look at a difference, and for the self-check's cases.
//!
//! Octets are hexadecimal, `-` for none; when they are read back, `_` separates groups and `GROUP*COUNT` repeats one. A table is
//! its numbers that aren't zero, `INDEX:NUMBER` with commas between; a view is `OFFSET+LENGTH`.

use crate::request::{Reading, Request, Rule, Way};
use crate::table::Table;
use std::collections::HashMap;
use std::fmt::{self, Debug, Formatter};

pub fn hex(octets: &[u8]) -> String {
    if octets.is_empty() {
        return "-".to_string();
    }
    octets.iter().map(|octet| format!("{octet:02X}")).collect()
}

/// The octets of a readable text; panics where it is none, since only cases and people write it.
pub fn octets(text: &str) -> Vec<u8> {
    if text == "-" {
        return Vec::new();
    }
    text.split('_').flat_map(group).collect()
}

fn group(text: &str) -> Vec<u8> {
    let (digits, count) = match text.split_once('*') {
        Some((digits, count)) => (digits, count.parse().expect("a count behind *")),
        None => (text, 1),
    };
    let pair = |at: usize| u8::from_str_radix(&digits[at..at + 2], 16).expect("two hexadecimal digits");
    let once: Vec<u8> = (0..digits.len()).step_by(2).map(pair).collect();
    once.repeat(count)
}

fn shown_table(table: &Table) -> String {
    let numbers = table.0.iter().enumerate().filter(|(_, number)| **number != 0);
    let shown: Vec<String> = numbers.map(|(index, number)| format!("{index}:{number}")).collect();
    if shown.is_empty() {
        "-".to_string()
    } else {
        shown.join(",")
    }
}

impl Debug for Table {
    fn fmt(&self, shown: &mut Formatter) -> fmt::Result {
        shown.write_str(&shown_table(self))
    }
}

fn read_table(text: &str) -> Table {
    let mut table = Table::empty();
    for pair in text.split(',').filter(|_| text != "-") {
        let (index, number) = pair.split_once(':').expect("INDEX:NUMBER");
        table.0[index.parse::<usize>().expect("an index")] = number.parse().expect("a number");
    }
    table
}

fn read_view(text: &str) -> (u32, u32) {
    let (offset, length) = text.split_once('+').expect("OFFSET+LENGTH");
    (offset.parse().expect("an offset"), length.parse().expect("a length"))
}

pub fn describe(request: &Request) -> String {
    match request {
        Request::Read { whole: false, source } => format!("leading src={}", hex(source)),
        Request::Read { whole: true, source } => format!("whole src={}", hex(source)),
        Request::Length { table, source } => format!("length table={} src={}", shown_table(table), hex(source)),
        Request::Write { table, room, source } => {
            format!("write table={} out={room} src={}", shown_table(table), hex(source))
        }
        Request::Kind { source } => format!("kind src={}", hex(source)),
        Request::Tap { use_, selector } => format!("tap use={use_:04X} src={}", hex(selector)),
        Request::ReadName { source } => format!("read-name src={}", hex(source)),
        Request::WriteName { id, kind, room, source } => {
            format!("write-name id={}+{} kind={}+{} out={room} src={}", id.0, id.1, kind.0, kind.1, hex(source))
        }
        Request::First { table } => format!("first table={}", shown_table(table)),
        Request::Address { octets } => format!("address src={}", hex(octets)),
        Request::Where { reading: Reading::Leading, source } => format!("where-leading src={}", hex(source)),
        Request::Where { reading: Reading::Whole, source } => format!("where-whole src={}", hex(source)),
        Request::Where { reading: Reading::Name, source } => format!("where-name src={}", hex(source)),
        Request::ReadBy { rule, whole, source } => {
            format!("{}-by rule={} src={}", if *whole { "whole" } else { "leading" }, *rule as u8, hex(source))
        }
        Request::LengthBy { rule, table, source } => {
            format!("length-by rule={} table={} src={}", *rule as u8, shown_table(table), hex(source))
        }
        Request::WriteBy { rule, way, table, room, source } => {
            let choice = format!("rule={} way={}", *rule as u8, *way as u8);
            format!("write-by {choice} table={} out={room} src={}", shown_table(table), hex(source))
        }
    }
}

/// The request that a readable line describes.
pub fn request(line: &str) -> Request {
    let mut words = line.split_whitespace();
    let op = words.next().expect("an op");
    let values: HashMap<&str, &str> = words.map(|word| word.split_once('=').expect("NAME=VALUE")).collect();
    let source = || octets(values["src"]);
    let table = || read_table(values["table"]);
    let room = || values["out"].parse().expect("a number of octets");
    let rule = || values["rule"].parse().ok().and_then(Rule::of).expect("a rule, 1 or 2");
    let way = || values["way"].parse().ok().and_then(Way::of).expect("a way, 1");
    match op {
        "leading" => Request::Read { whole: false, source: source() },
        "whole" => Request::Read { whole: true, source: source() },
        "length" => Request::Length { table: table(), source: source() },
        "write" => Request::Write { table: table(), room: room(), source: source() },
        "kind" => Request::Kind { source: source() },
        "tap" => {
            let use_ = u16::from_str_radix(values["use"], 16).expect("a use of four hexadecimal digits");
            Request::Tap { use_, selector: source() }
        }
        "read-name" => Request::ReadName { source: source() },
        "write-name" => {
            let (id, kind) = (read_view(values["id"]), read_view(values["kind"]));
            Request::WriteName { id, kind, room: room(), source: source() }
        }
        "first" => Request::First { table: table() },
        "address" => Request::Address { octets: source().try_into().expect("twenty octets") },
        "where-leading" => Request::Where { reading: Reading::Leading, source: source() },
        "where-whole" => Request::Where { reading: Reading::Whole, source: source() },
        "where-name" => Request::Where { reading: Reading::Name, source: source() },
        "leading-by" => Request::ReadBy { rule: rule(), whole: false, source: source() },
        "whole-by" => Request::ReadBy { rule: rule(), whole: true, source: source() },
        "length-by" => Request::LengthBy { rule: rule(), table: table(), source: source() },
        "write-by" => Request::WriteBy { rule: rule(), way: way(), table: table(), room: room(), source: source() },
        _ => panic!("no such op: {op}"),
    }
}
