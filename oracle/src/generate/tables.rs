//! Tables to measure and write: those of a plan, those of a reading, and each kind of fault in them.

use super::octets::well_formed;
use super::plan::{crowded, long, small, Part, Plan, TAG_BIOP, TAG_LITE_OPTIONS};
use super::random::Random;
use crate::agreed::{length_by, read_by};
use crate::answers::{length, LIMIT};
use crate::request::{Request, Rule, Way, MOST};
use crate::table::{
    entry, profile_count, Table, BIOP, EXTRAS, LITE_OPTIONS, NAMES, OPAQUE, PROFILES, SIZES, STARTS, TAPS, TYPE_ID, USED,
    WIDTHS,
};

/// A table in the making over a source of `size` octets.
struct Form<'a> {
    random: &'a mut Random,
    table: Table,
    size: usize,
}

impl Form<'_> {
    fn numbers(&mut self, at: usize, numbers: &[u32]) {
        self.table.0[at..at + numbers.len()].copy_from_slice(numbers);
    }

    /// A view of that length somewhere in the source, or of all of it where it is shorter.
    fn view(&mut self, at: usize, length: usize) {
        let length = length.min(self.size);
        let offset = self.random.between(0, self.size - length);
        self.numbers(at, &[offset as u32, length as u32]);
    }

    /// A number of at most `bits` bits, from 1 to 32.
    fn bits(&mut self, bits: u32) -> u32 {
        self.random.number() >> (32 - bits)
    }

    /// Counts one more entry of a table as used; where it stands, if there is room for it.
    fn next(&mut self, table: usize) -> Option<usize> {
        let used = self.table.0[USED[table]] as usize;
        self.table.0[USED[table]] += 1;
        (used < SIZES[table]).then(|| entry(table, used))
    }

    fn taps(&mut self, taps: &[usize]) {
        for selector in taps {
            if let Some(at) = self.next(TAPS) {
                let numbers = [self.bits(16), self.bits(16), self.bits(16)];
                self.numbers(at, &numbers);
                self.view(at + 3, *selector);
            }
        }
    }

    fn names(&mut self, names: &[(usize, usize)]) {
        for (id, kind) in names {
            if let Some(at) = self.next(NAMES) {
                self.view(at, *id);
                self.view(at + 2, *kind);
            }
        }
    }

    fn extras(&mut self, extras: &[usize]) {
        for length in extras {
            if let Some(at) = self.next(EXTRAS) {
                let tag = self.random.number();
                self.numbers(at, &[tag]);
                self.view(at + 1, *length);
            }
        }
    }

    /// A profile, if there is room for it, and its entries.
    fn part(&mut self, part: &Part) {
        let Some(at) = self.next(PROFILES) else { return };
        match part {
            Part::Opaque { tag, data } => {
                self.numbers(at, &[OPAQUE, *tag]);
                self.view(at + 2, *data);
            }
            Part::Biop { key, taps, extras } => {
                let numbers = [BIOP, self.bits(32), self.bits(16), self.bits(8), self.bits(8)];
                self.numbers(at, &numbers);
                self.view(at + 5, *key);
                self.numbers(at + 7, &[taps.len() as u32, extras.len() as u32]);
                self.taps(taps);
                self.extras(extras);
            }
            Part::LiteOptions { names, context, extras } => {
                let numbers = [LITE_OPTIONS, self.bits(32), self.bits(24), self.bits(16), self.bits(16), self.bits(16)];
                self.numbers(at, &numbers);
                self.numbers(at + 6, &[names.len() as u32]);
                self.view(at + 7, *context);
                self.numbers(at + 9, &[extras.len() as u32]);
                self.names(names);
                self.extras(extras);
            }
        }
    }

    fn plan(&mut self, plan: &Plan) {
        self.view(TYPE_ID, plan.type_id);
        plan.parts.iter().for_each(|part| self.part(part));
    }

    /// The places of the profiles' counts for a table.
    fn counts(&self, table: usize) -> Vec<usize> {
        let count = |index: usize| profile_count(self.table.sort(index), table).map(|at| entry(PROFILES, index) + at);
        (0..self.table.used(PROFILES)).filter_map(count).collect()
    }

    fn wrong_used(&mut self) {
        let table = self.random.between(PROFILES, EXTRAS);
        let at = USED[table];
        self.table.0[at] = match self.random.below(4) {
            0 => SIZES[table] as u32 + 1,
            _ => self.random.lie(self.table.0[at] as u64) as u32,
        };
    }

    fn wrong_count(&mut self) {
        let table = self.random.pick(&[TAPS, NAMES, EXTRAS]);
        let counts = self.counts(table);
        if !counts.is_empty() {
            let at = self.random.pick(&counts);
            self.table.0[at] = self.random.lie(self.table.0[at] as u64) as u32;
        }
    }

    /// Two counts whose sum is right only if it wraps at 32 bits.
    fn wrapping_counts(&mut self) {
        let table = self.random.pick(&[TAPS, NAMES, EXTRAS]);
        let counts = self.counts(table);
        if counts.len() > 1 {
            let by = self.random.pick(&[0x8000_0000, 0xFFFF_FFFF, 0xFFFF_FFF0, 0x0001_0000]);
            self.table.0[counts[0]] = self.table.0[counts[0]].wrapping_add(by);
            self.table.0[counts[1]] = self.table.0[counts[1]].wrapping_sub(by);
        }
    }

    fn wrong_view(&mut self) {
        let views = self.table.views();
        let (at, _) = self.random.pick(&views);
        let size = self.size as u32;
        let length = self.table.0[at + 1];
        let view = match self.random.below(9) {
            0 | 1 => [(size + 1).wrapping_sub(length), length],
            2 => [0xFFFF_FFFF, 2],
            3 => [0xFFFF_FFFF, 1],
            4 => [size + 1, 0],
            5 => [size, 0],
            6 => [0, size + 1],
            7 => [self.random.number(), length],
            _ => [self.table.0[at], self.random.lie(length as u64) as u32],
        };
        self.numbers(at, &view);
    }

    fn odd_type_id(&mut self) {
        let length = self.random.between(1, 7);
        self.view(TYPE_ID, length);
    }

    /// An opaque profile under a tag that the reader takes for BIOP or LiteOptions.
    fn known_tag(&mut self) {
        let opaque: Vec<usize> = (0..self.table.used(PROFILES)).filter(|index| self.table.sort(*index) == OPAQUE).collect();
        if !opaque.is_empty() {
            let index = self.random.pick(&opaque);
            self.table.0[entry(PROFILES, index) + 1] = self.random.pick(&[TAG_BIOP, TAG_LITE_OPTIONS]);
        }
    }

    fn fault(&mut self) {
        match self.random.below(12) {
            0 | 1 => self.wrong_used(),
            2 => self.wrong_count(),
            3 => self.wrapping_counts(),
            4..=8 => self.wrong_view(),
            9 | 10 => self.odd_type_id(),
            _ => self.known_tag(),
        }
    }

    /// Any numbers in the entries that are not used, and in the numbers of a used profile that its sort has no name for.
    fn garbage(&mut self) {
        for table in PROFILES..=EXTRAS {
            for at in entry(table, self.table.used(table))..STARTS[table] + WIDTHS[table] * SIZES[table] {
                self.table.0[at] = self.random.number();
            }
        }
        for index in 0..self.table.used(PROFILES) {
            let unnamed = match self.table.sort(index) {
                OPAQUE => 4..10,
                BIOP => 9..10,
                _ => 10..10,
            };
            for number in unnamed {
                self.table.0[entry(PROFILES, index) + number] = self.random.number();
            }
        }
    }
}

/// A plan whose image over a source of `size` octets, at least 16, has just `image` octets and the type id's gap.
fn exact(type_id: usize, size: usize, image: usize) -> Plan {
    let fixed = 8 + type_id + 47;
    let name = 8 + 2 * size;
    let names = vec![(size, size); (image - fixed) / name];
    let left = (image - fixed) % name;
    let mut parts = Vec::new();
    let mut context = left;
    if left > size {
        let data = (left - 8).min(size);
        parts.push(Part::Opaque { tag: 9, data });
        context = left - 8 - data;
    }
    parts.push(Part::LiteOptions { names, context, extras: Vec::new() });
    Plan { type_id, gaps: true, parts }
}

/// A plan, and how many octets the source has.
fn planned(random: &mut Random, gaps: bool) -> (Plan, usize) {
    match random.below(1000) {
        0..=7 => {
            let size = random.between(1100, 4000);
            let image = random.pick(&[LIMIT - 1, LIMIT, LIMIT + 1, LIMIT + 700]);
            (exact(0, size, image), size)
        }
        8..=12 => (small(random, gaps), random.pick(&[LIMIT - 1, LIMIT, LIMIT + 1, LIMIT + 2, MOST])),
        13..=80 => (crowded(random, gaps), random.between(0, 12)),
        81..=160 => (long(random, gaps), random.between(258, 300)),
        _ => (small(random, gaps), random.between(0, 40)),
    }
}

/// The same for a table that is asked for under a rule: some images lie around 65,535 octets with their gap or without it.
fn planned_by(random: &mut Random) -> (Plan, usize) {
    match random.below(100) {
        0..=3 => {
            let (type_id, size) = (random.between(0, 9), random.between(1100, 4000));
            let image = LIMIT - 4 + random.pick(&[0, 1, 2, 3, 4, 5, 5, 6]);
            (exact(type_id, size, image), size)
        }
        4 => (Plan { type_id: LIMIT - random.between(6, 14), gaps: true, parts: Vec::new() }, LIMIT),
        5 => (small(random, true), random.pick(&[LIMIT, LIMIT + 1, LIMIT + 2, MOST])),
        _ => planned(random, true),
    }
}

/// A table and its source: of a plan, or of a reading; under a rule or not.
fn table_and_source(random: &mut Random, by_rule: bool) -> (Table, Vec<u8>) {
    if random.one_in(4) {
        let plan = small(random, by_rule);
        let source = well_formed(random, &plan);
        // Rule 2 takes all that rule 1 takes.
        if let Ok((_, table)) = read_by(Rule::Gap, false, &source) {
            return (table, source);
        }
    }
    let (plan, size) = if by_rule { planned_by(random) } else { planned(random, false) };
    let source = random.octets(size);
    let mut form = Form { random, table: Table::empty(), size };
    form.plan(&plan);
    (form.table, source)
}

fn faulty_table_and_source(random: &mut Random, by_rule: bool) -> (Table, Vec<u8>) {
    let (table, source) = table_and_source(random, by_rule);
    let faults = random.pick(&[0, 0, 0, 1, 1, 1, 2, 3]);
    let garbage = random.one_in(3);
    let mut form = Form { random, table, size: source.len() };
    (0..faults).for_each(|_| form.fault());
    if garbage {
        form.garbage();
    }
    // A fault in a used count can make garbage used: such a table may hold numbers wider than their fields, and is no request.
    if form.table.fits() {
        (form.table, source)
    } else {
        faulty_table_and_source(random, by_rule)
    }
}

/// How large an output is: often just what the image needs, or one octet less.
pub fn room(random: &mut Random, needed: Option<usize>) -> usize {
    let needed = needed.unwrap_or_else(|| random.below(200));
    let room = match random.below(8) {
        0..=2 => needed,
        3 => needed.saturating_sub(1),
        4 => needed + 1,
        5 => needed + random.between(2, 20),
        6 => random.between(0, needed),
        _ => random.below(40),
    };
    room.min(MOST)
}

pub fn measure(random: &mut Random) -> Request {
    let (table, source) = faulty_table_and_source(random, false);
    Request::Length { table, source }
}

pub fn write(random: &mut Random) -> Request {
    let (table, source) = faulty_table_and_source(random, false);
    let room = room(random, length(&table, &source).ok());
    Request::Write { table, room, source }
}

pub fn measure_by(random: &mut Random) -> Request {
    let (table, source) = faulty_table_and_source(random, true);
    Request::LengthBy { rule: random.rule(), table, source }
}

/// Now and then the output is what the other rule's image needs.
pub fn write_by(random: &mut Random) -> Request {
    let (table, source) = faulty_table_and_source(random, true);
    let rule = random.rule();
    let fitting = if random.one_in(6) { random.rule() } else { rule };
    let room = room(random, length_by(fitting, &table, &source).ok());
    Request::WriteBy { rule, way: Way::Constants, table, room, source }
}

pub fn first(random: &mut Random) -> Request {
    let (table, _) = faulty_table_and_source(random, false);
    Request::First { table }
}

/// A table with a number wider than its field, or with an unknown sort, in a used entry.
pub fn unfit(random: &mut Random) -> Table {
    loop {
        let (mut table, _) = table_and_source(random, false);
        let profiles = table.used(PROFILES);
        let taps = table.used(TAPS);
        if taps > 0 && random.one_in(2) {
            table.0[entry(TAPS, random.below(taps)) + random.below(3)] = random.pick(&[0x1_0000, 0xFFFF_FFFF]);
        } else if profiles > 0 {
            let at = entry(PROFILES, random.below(profiles));
            table.0[at + random.below(6)] = random.pick(&[3, 0x100, 0x1_0000, 0x100_0000, 0xFFFF_FFFF]);
        }
        if !table.fits() {
            return table;
        }
    }
}
