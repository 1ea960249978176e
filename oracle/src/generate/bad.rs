//! Bad requests: another op, rule or way, a source or an output that is too long, a table that does not fit its fields.

use super::random::Random;
use super::tables::unfit;
use crate::request::{Reading, Request, Way, MOST};
use crate::table::Table;

/// A request with an empty source, whose count is then its last four octets.
fn without_source(random: &mut Random, room: usize) -> Request {
    let (table, source) = (Table::empty(), Vec::new());
    match random.below(11) {
        0 => Request::Read { whole: random.one_in(2), source },
        1 => Request::Length { table, source },
        2 => Request::Write { table, room, source },
        3 => Request::Kind { source },
        4 => Request::Tap { use_: 0x0016, selector: source },
        5 => Request::ReadName { source },
        6 => Request::Where { reading: random.pick(&[Reading::Leading, Reading::Whole, Reading::Name]), source },
        7 => Request::ReadBy { rule: random.rule(), whole: random.one_in(2), source },
        8 => Request::LengthBy { rule: random.rule(), table, source },
        9 => Request::WriteBy { rule: random.rule(), way: Way::Constants, table, room, source },
        _ => Request::WriteName { id: (0, 0), kind: (0, 0), room, source },
    }
}

fn put_long_source(random: &mut Random, run: &mut Vec<u8>) {
    without_source(random, 0).put(run);
    let octets = MOST + random.between(1, 9);
    let declared = random.pick(&[octets as u32, 0xFFFF_FFFF]);
    run.truncate(run.len() - 4);
    run.extend_from_slice(&declared.to_be_bytes());
    run.resize(run.len() + octets, 0);
}

fn put_long_output(random: &mut Random, run: &mut Vec<u8>) {
    let room = random.pick(&[MOST + 1, MOST + 9, 0xFFFF_FFFF]);
    let (table, source) = (Table::empty(), Vec::new());
    let request = match random.below(3) {
        0 => Request::Write { table, room, source },
        1 => Request::WriteBy { rule: random.rule(), way: Way::Constants, table, room, source },
        _ => Request::WriteName { id: (0, 0), kind: (0, 0), room, source },
    };
    request.put(run);
}

fn put_unfit(random: &mut Random, run: &mut Vec<u8>) {
    let table = unfit(random);
    let source = random.octets(5);
    let request = match random.below(5) {
        0 => Request::Length { table, source },
        1 => Request::Write { table, room: 3, source },
        2 => Request::LengthBy { rule: random.rule(), table, source },
        3 => Request::WriteBy { rule: random.rule(), way: Way::Constants, table, room: 3, source },
        _ => Request::First { table },
    };
    request.put(run);
}

/// Another rule behind the op, or another way behind the rule.
fn put_no_rule(random: &mut Random, run: &mut Vec<u8>) {
    let start = run.len();
    let (rule, table, source) = (random.rule(), Table::empty(), random.octets(9));
    let (request, choice) = match random.below(4) {
        0 => (Request::ReadBy { rule, whole: random.one_in(2), source }, 1),
        1 => (Request::LengthBy { rule, table, source }, 1),
        _ => (Request::WriteBy { rule, way: Way::Constants, table, room: 9, source }, random.between(1, 2)),
    };
    request.put(run);
    run[start + choice] = if choice == 1 { random.pick(&[0, 3, 255]) } else { random.pick(&[0, 2, 3, 255]) };
}

/// Puts a bad request behind a run.
pub fn put(random: &mut Random, run: &mut Vec<u8>) {
    match random.below(6) {
        0 => run.push(random.pick(&[0, 18, 19, 49, 128, 255])),
        1 => put_long_source(random, run),
        2 => put_long_output(random, run),
        3 => put_no_rule(random, run),
        _ => put_unfit(random, run),
    }
}
