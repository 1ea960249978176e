//! References as octets, well formed or damaged: lies in length and count fields, cuts, slack, octets inserted and removed.

use super::plan::{crowded, long, small, Part, Plan, TAG_BIOP, TAG_LITE_OPTIONS};
use super::random::Random;
use crate::request::Rule;
use std::ops::Range;

/// What is closed by a length field, and can be cut short or padded with every outer length still right.
#[derive(Clone, Copy, PartialEq, Eq)]
enum Container {
    Location,
    Binder,
    Biop,
    Service,
    LiteOptions,
}

/// What is done to a container's contents.
#[derive(Clone, Copy)]
enum Harm {
    /// The last so many octets go.
    Cut(usize),
    /// The first so many octets stay.
    Keep(usize),
    /// A cut in a field, or in the tag before it.
    CutField,
    /// So many octets are put behind.
    Slack(usize),
}

#[derive(Clone, Copy)]
struct Damage {
    part: usize,
    container: Container,
    harm: Harm,
}

struct Field {
    at: usize,
    width: usize,
}

/// A reference in the making, where its length and count fields stand, and which octets must have some value, each with two wrong
/// ones; of a plan with gaps also where the gap stands.
struct Draft<'a> {
    random: &'a mut Random,
    octets: Vec<u8>,
    fields: Vec<Field>,
    values: Vec<(usize, [u8; 2])>,
    gap: Option<Range<usize>>,
    parts_put: usize,
    damage: Option<Damage>,
    dvb: bool,
}

impl<'a> Draft<'a> {
    fn new(random: &'a mut Random, damage: Option<Damage>, dvb: bool) -> Draft<'a> {
        Draft { random, octets: Vec::new(), fields: Vec::new(), values: Vec::new(), gap: None, parts_put: 0, damage, dvb }
    }

    fn constant(&mut self, width: usize, value: u64) {
        self.octets.extend_from_slice(&value.to_be_bytes()[8 - width..]);
    }

    fn field(&mut self, width: usize, value: usize) {
        self.fields.push(Field { at: self.octets.len(), width });
        self.constant(width, value as u64);
    }

    fn filler(&mut self, count: usize) {
        let octets = self.random.octets(count);
        self.octets.extend_from_slice(&octets);
    }

    /// The octet that comes next must have some value; these two are wrong.
    fn value(&mut self, wrong: [u8; 2]) {
        self.values.push((self.octets.len(), wrong));
    }

    /// The tag that a component must bear, 49534F and this octet.
    fn tag(&mut self, last: u8) {
        self.constant(3, 0x49_534F);
        self.value([last ^ 0x01, last ^ 0x80]);
        self.constant(1, last as u64);
    }

    /// Where the contents of a container begin, behind a length that `close` sets.
    fn open(&mut self, width: usize) -> usize {
        self.field(width, 0);
        self.octets.len()
    }

    fn close(&mut self, container: Container, start: usize, width: usize) {
        if let Some(damage) = self.damage.filter(|damage| (damage.part, damage.container) == (self.parts_put, container)) {
            self.hurt(damage.harm, start);
        }
        let length = (self.octets.len() - start) as u64;
        self.octets[start - width..start].copy_from_slice(&length.to_be_bytes()[8 - width..]);
    }

    fn hurt(&mut self, harm: Harm, start: usize) {
        match harm {
            Harm::Cut(octets) => self.cut(start.max(self.octets.len().saturating_sub(octets))),
            Harm::Keep(octets) => self.cut(start + octets),
            Harm::CutField => self.cut_field(start),
            Harm::Slack(octets) => self.filler(octets),
        }
    }

    /// Ends the octets there, and forgets the fields that are not whole any more.
    fn cut(&mut self, end: usize) {
        self.octets.truncate(end);
        self.fields.retain(|field| field.at + field.width <= end);
        self.values.retain(|(at, _)| *at < end);
        self.gap.take_if(|gap| gap.end > end);
    }

    /// A cut in a field that stands at `start` or behind it, if there is one, or in the tag before it.
    fn cut_field(&mut self, start: usize) {
        let first = self.fields.partition_point(|field| field.at < start);
        if first < self.fields.len() {
            let Field { at, width } = self.fields[self.random.between(first, self.fields.len() - 1)];
            let end = (at + width).saturating_sub(self.random.between(0, 5));
            self.cut(end.max(start));
        }
    }

    fn extras(&mut self, extras: &[usize]) {
        for length in extras {
            let tag = if self.random.one_in(3) { 0x4953_4F40 } else { self.random.number() };
            self.constant(4, tag as u64);
            self.field(1, *length);
            self.filler(*length);
        }
    }

    fn location(&mut self, key: usize) {
        self.tag(0x50);
        let start = self.open(1);
        self.filler(6);
        self.constant(2, 0x0100);
        self.field(1, key);
        self.filler(key);
        self.close(Container::Location, start, 1);
    }

    fn binder(&mut self, taps: &[usize]) {
        self.tag(0x40);
        let start = self.open(1);
        self.field(1, taps.len());
        for selector in taps {
            self.filler(2);
            let use_ = self.random.pick(&[0x0016, 0x0017, 0x0001]);
            self.constant(2, use_);
            self.filler(2);
            self.field(1, *selector);
            self.filler(*selector);
        }
        self.close(Container::Binder, start, 1);
    }

    fn address(&mut self) {
        if !self.dvb {
            return self.filler(20);
        }
        self.constant(2, 0);
        self.filler(4);
        self.constant(1, 1);
        self.filler(9);
        self.constant(4, 0xFFFF_FFFF);
    }

    fn service(&mut self, names: &[(usize, usize)], context: usize) {
        self.tag(0x46);
        let start = self.open(4);
        self.value([19, 21]);
        self.field(1, 20);
        self.address();
        self.field(4, names.len());
        for (id, kind) in names {
            self.field(4, *id);
            self.filler(*id);
            self.field(4, *kind);
            self.filler(*kind);
        }
        self.field(4, context);
        self.filler(context);
        self.close(Container::Service, start, 4);
    }

    /// What the data of a known profile begin with: the order octet and the component count, which has its least.
    fn front(&mut self, least: u8, extras: usize) {
        self.value([0x01, 0xFF]);
        self.constant(1, 0);
        self.value([0, least - 1]);
        self.field(1, least as usize + extras);
    }

    fn part(&mut self, part: &Part) {
        match part {
            Part::Opaque { tag, data } => {
                self.constant(4, *tag as u64);
                self.field(4, *data);
                self.filler(*data);
            }
            Part::Biop { key, taps, extras } => {
                self.constant(4, TAG_BIOP as u64);
                let start = self.open(4);
                self.front(2, extras.len());
                self.location(*key);
                self.binder(taps);
                self.extras(extras);
                self.close(Container::Biop, start, 4);
            }
            Part::LiteOptions { names, context, extras } => {
                self.constant(4, TAG_LITE_OPTIONS as u64);
                let start = self.open(4);
                self.front(1, extras.len());
                self.service(names, *context);
                self.extras(extras);
                self.close(Container::LiteOptions, start, 4);
            }
        }
    }

    fn type_id(&mut self, length: usize) {
        self.field(4, length);
        if length == 4 {
            let kind = self.random.pick(&[b"dir\0", b"fil\0", b"str\0", b"srg\0", b"ste\0", b"xyz\0"]);
            self.octets.extend_from_slice(kind);
        } else {
            self.filler(length);
        }
    }

    fn gap(&mut self) {
        let start = self.octets.len();
        self.octets.resize(start.next_multiple_of(4), 0xFF);
        self.gap = Some(start..self.octets.len());
    }

    fn plan(&mut self, plan: &Plan) {
        self.type_id(plan.type_id);
        if plan.gaps {
            self.gap();
        }
        self.field(4, plan.parts.len());
        for part in &plan.parts {
            self.part(part);
            self.parts_put += 1;
        }
    }

    /// Another number in one of the length and count fields.
    fn lie(&mut self) {
        if self.fields.is_empty() {
            return;
        }
        let Field { at, width } = self.fields[self.random.below(self.fields.len())];
        let old = self.octets[at..at + width].iter().fold(0, |sum, octet| sum << 8 | *octet as u64);
        let new = self.random.lie(old).to_be_bytes();
        self.octets[at..at + width].copy_from_slice(&new[8 - width..]);
    }

    /// A cut somewhere, or in a field or the tag before it.
    fn truncate(&mut self) {
        if self.random.one_in(2) {
            self.cut_field(0);
        } else {
            let end = self.random.between(0, self.octets.len());
            self.cut(end);
        }
    }

    fn insert(&mut self) {
        let at = self.random.between(0, self.octets.len());
        let octet = self.random.number() as u8;
        self.octets.insert(at, octet);
        self.forget();
    }

    fn remove(&mut self) {
        if !self.octets.is_empty() {
            let at = self.random.below(self.octets.len());
            self.octets.remove(at);
            self.forget();
        }
    }

    /// Nothing stands where it stood.
    fn forget(&mut self) {
        self.fields.clear();
        self.values.clear();
        self.gap = None;
    }

    /// Another order octet, tag or address length, or too few components.
    fn spoil_value(&mut self) {
        if !self.values.is_empty() {
            let (at, wrong) = self.random.pick(&self.values);
            self.octets[at] = self.random.pick(&wrong);
        }
    }

    fn change(&mut self) {
        if !self.octets.is_empty() {
            let at = self.random.below(self.octets.len());
            self.octets[at] ^= self.random.pick(&[0x01, 0x02, 0x10, 0x80, 0xFF]);
        }
    }

    /// One octet of a gap wrong.
    fn change_gap(&mut self, gap: Range<usize>) {
        let at = self.random.between(gap.start, gap.end - 1);
        self.octets[at] = self.random.pick(&[0x00, 0x01, 0x7F, 0xEF, 0xFE]);
    }

    /// So many octets more in a gap, which may have had none.
    fn widen_gap(&mut self, gap: Range<usize>, count: usize) {
        self.octets.splice(gap.end..gap.end, vec![0xFF; count]);
        self.forget();
    }

    /// A gap that is wrong, cut, left out or too long.
    fn spoil_gap(&mut self, gap: Range<usize>) {
        match self.random.below(8) {
            _ if gap.is_empty() => self.widen_gap(gap, 4),
            0..=2 => self.change_gap(gap),
            3 => self.octets[gap].fill(0x00),
            4 | 5 => {
                let end = self.random.between(gap.start, gap.end - 1);
                self.cut(end);
            }
            6 => {
                self.octets.drain(gap);
                self.forget();
            }
            _ => self.widen_gap(gap, 1),
        }
    }

    fn mutate(&mut self) {
        if let Some(gap) = self.gap.clone() {
            if self.random.one_in(4) {
                return self.spoil_gap(gap);
            }
        }
        match self.random.below(10) {
            0..=2 => self.lie(),
            3 | 4 => self.truncate(),
            5 => self.insert(),
            6 => self.remove(),
            7 | 8 => self.spoil_value(),
            _ => self.change(),
        }
    }

    fn append(&mut self) {
        let count = self.random.pick(&[1, 1, 2, 4, 9]);
        self.filler(count);
    }
}

/// The containers of a profile.
fn containers(part: &Part) -> &'static [Container] {
    use Container::*;
    match part {
        Part::Opaque { .. } => &[],
        Part::Biop { .. } => &[Location, Binder, Biop],
        Part::LiteOptions { .. } => &[Service, LiteOptions],
    }
}

/// Damage to some profile of a plan, where one of them has a container.
fn damage(random: &mut Random, plan: &Plan) -> Option<Damage> {
    let known: Vec<usize> = (0..plan.parts.len()).filter(|part| !containers(&plan.parts[*part]).is_empty()).collect();
    if known.is_empty() {
        return None;
    }
    let part = random.pick(&known);
    let container = random.pick(containers(&plan.parts[part]));
    let octets = if random.one_in(2) { random.between(1, 4) } else { random.between(1, 60) };
    let harm = match random.below(6) {
        0 => Harm::Cut(octets),
        1 => Harm::Keep(octets - 1),
        2 | 3 => Harm::CutField,
        _ => Harm::Slack(octets),
    };
    Some(Damage { part, container, harm })
}

fn drafted(random: &mut Random, plan: &Plan, damage: Option<Damage>) -> Vec<u8> {
    let dvb = random.one_in(2);
    let mutations = if damage.is_some() { random.pick(&[0, 0, 0, 1]) } else { random.pick(&[0, 0, 1, 1, 1, 1, 2, 3]) };
    let appended = random.one_in(8);
    let mut draft = Draft::new(random, damage, dvb);
    draft.plan(plan);
    (0..mutations).for_each(|_| draft.mutate());
    if appended {
        draft.append();
    }
    draft.octets
}

/// A well-formed reference of a plan.
pub fn well_formed(random: &mut Random, plan: &Plan) -> Vec<u8> {
    let mut draft = Draft::new(random, None, true);
    draft.plan(plan);
    draft.octets
}

/// One whose opaque data, or whose type id, fills it up to about 65,535 octets.
fn huge(random: &mut Random, gaps: bool) -> Vec<u8> {
    let mut plan = small(random, gaps);
    let short = well_formed(random, &plan).len() + 8;
    let total = random.pick(&[65_534, 65_535, 65_536, 66_000, 70_000]);
    if gaps && random.one_in(2) {
        plan.type_id += total - short + random.below(12);
    } else {
        plan.parts.push(Part::Opaque { tag: 7, data: total - short });
    }
    let damage = random.one_in(4).then(|| damage(random, &plan)).flatten();
    let mut octets = drafted(random, &plan, damage);
    octets.truncate(70_000);
    octets
}

/// A sequence of numbers that a reference might begin with.
fn words(random: &mut Random, gaps: bool) -> Vec<u8> {
    const GAPPED: [u32; 9] = [1, 2, 3, 5, 6, 7, 0x61FF_FFFF, 0x6161_FFFF, 0x6161_61FF];
    let count = random.between(0, 10);
    let mut octets = Vec::new();
    for _ in 0..count {
        let word = if gaps && random.one_in(2) {
            random.pick(&GAPPED)
        } else {
            random.pick(&[0, 0, 1, 2, 4, 4, 8, 0xFF, 0x100, TAG_BIOP, TAG_LITE_OPTIONS, 0xFFFF_FFFF])
        };
        octets.extend_from_slice(&word.to_be_bytes());
    }
    let rest = random.between(0, 3);
    octets.extend(random.octets(rest));
    octets
}

/// Octets to read a reference from, of plans with gaps or without.
pub fn reference(random: &mut Random, gaps: bool) -> Vec<u8> {
    match random.below(3000) {
        0..=7 => huge(random, gaps),
        8..=120 => words(random, gaps),
        121..=420 => {
            let plan = crowded(random, gaps);
            let damage = random.one_in(4).then(|| damage(random, &plan)).flatten();
            drafted(random, &plan, damage)
        }
        421..=540 => {
            let plan = long(random, gaps);
            drafted(random, &plan, None)
        }
        541..=1400 => {
            let plan = small(random, gaps);
            let damage = damage(random, &plan);
            drafted(random, &plan, damage)
        }
        _ => {
            let plan = small(random, gaps);
            drafted(random, &plan, None)
        }
    }
}

/// One of two and more profiles, often with damage to the later ones.
fn later(random: &mut Random, gaps: bool) -> Vec<u8> {
    let mut plan = small(random, gaps);
    plan.parts.insert(0, Part::Opaque { tag: 7, data: random.below(4) });
    let damage = (!random.one_in(3)).then(|| damage(random, &plan)).flatten();
    drafted(random, &plan, damage)
}

/// Octets to read a reference from under a rule.
pub fn reference_by(random: &mut Random, rule: Rule) -> Vec<u8> {
    let gaps = random.below(10) < if rule == Rule::Gap { 8 } else { 3 };
    match random.below(100) {
        0 => huge(random, gaps),
        1..=60 => later(random, gaps),
        61..=72 => {
            let plan = crowded(random, gaps);
            drafted(random, &plan, None)
        }
        _ => reference(random, gaps),
    }
}
