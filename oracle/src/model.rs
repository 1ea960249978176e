//! A second opinion on readings, written from documents 01 and 02 and not from the Rust. It walks the octets by their positions
//! in the caller's slice: a refusal's third figure is where the walk stands, and the first two are worked out from there.

use crate::place;
use crate::refusal::Refusal;
use crate::request::Rule;
use crate::table::Table;

/// A refusal and where the reading broke.
#[derive(Clone, Copy, Debug, PartialEq, Eq)]
pub struct Broken {
    pub refusal: Refusal,
    /// The third figure: the offset in the caller's slice.
    pub offset: usize,
    /// Where the first two figures count from: the slice's start, or that of the profile's data.
    pub origin: usize,
}

type Read<T> = Result<T, Broken>;

/// Document 01's numbers. They stand here once more, so that the model shares none with what it is compared with.
pub const LONGEST: usize = 65_535;
pub const BIOP: usize = 0x4953_4F06;
pub const LITE_OPTIONS: usize = 0x4953_4F05;
pub const OBJECT_LOCATION: usize = 0x4953_4F50;
pub const CONN_BINDER: usize = 0x4953_4F40;
pub const SERVICE_LOCATION: usize = 0x4953_4F46;
pub const ADDRESS: usize = 20;

/// A table of a reference: its place, its size, where it stands among the flat table's numbers, and how many an entry has.
struct Shape {
    place: usize,
    size: usize,
    start: usize,
    width: usize,
}

/// Profiles, taps, names, extras.
const SHAPES: [Shape; 4] = [
    Shape { place: place::PROFILES, size: 8, start: 6, width: 10 },
    Shape { place: place::TAPS, size: 36, start: 86, width: 5 },
    Shape { place: place::NAMES, size: 32, start: 266, width: 4 },
    Shape { place: place::EXTRAS, size: 32, start: 394, width: 3 },
];

/// What a reference holds: the type id's view, and the entries of each table, in the order of their numbers.
#[derive(Default)]
struct Held {
    type_id: [usize; 2],
    profiles: Vec<Vec<usize>>,
    taps: Vec<Vec<usize>>,
    names: Vec<Vec<usize>>,
    extras: Vec<Vec<usize>>,
}

impl Held {
    fn tables(&self) -> [&Vec<Vec<usize>>; 4] {
        [&self.profiles, &self.taps, &self.names, &self.extras]
    }

    /// All as one flat table, in which there must be room.
    fn flat(&self) -> Table {
        let mut flat = Table::empty();
        let mut put = |at: usize, numbers: &[usize]| {
            numbers.iter().enumerate().for_each(|(index, number)| flat.0[at + index] = *number as u32);
        };
        put(0, &self.type_id);
        put(2, &self.tables().map(Vec::len));
        for (shape, entries) in SHAPES.iter().zip(self.tables()) {
            entries.iter().enumerate().for_each(|(index, entry)| put(shape.start + shape.width * index, entry));
        }
        flat
    }
}

/// The octets of the slice from `at` to `end`, which are still to be read.
struct Walk<'a> {
    slice: &'a [u8],
    origin: usize,
    at: usize,
    end: usize,
}

impl<'a> Walk<'a> {
    fn broken(&self, number: usize, place: usize, figures: [usize; 2], offset: usize) -> Broken {
        let [first, second] = figures;
        Broken { refusal: Refusal { number, place, first, second }, offset, origin: self.origin }
    }

    /// The big-endian number of so many octets at a position.
    fn number(&self, at: usize, width: usize) -> usize {
        self.slice[at..at + width].iter().fold(0, |number, octet| number * 256 + *octet as usize)
    }

    /// The next so many octets must be there; they are not passed.
    fn ask(&self, place: usize, width: usize) -> Read<()> {
        if self.end - self.at < width {
            let need = self.at + width - self.origin;
            let have = self.end - self.origin;
            return Err(self.broken(1, place, [need, have], self.at));
        }
        Ok(())
    }

    /// Where fixed fields of so many octets begin; they are passed.
    fn fixed(&mut self, place: usize, width: usize) -> Read<usize> {
        self.ask(place, width)?;
        let start = self.at;
        self.at += width;
        Ok(start)
    }

    /// Data of a declared length as a walk of their own; they are passed.
    fn data(&mut self, declared: usize) -> Read<Walk<'a>> {
        let available = self.end - self.at;
        if declared > available {
            return Err(self.broken(2, place::DATA, [declared, available], self.at));
        }
        let start = self.at;
        self.at += declared;
        Ok(Walk { slice: self.slice, origin: self.origin, at: start, end: self.at })
    }

    /// Offset and length of what is still to be read.
    fn view(&self) -> [usize; 2] {
        [self.at, self.end - self.at]
    }

    /// The view of data behind a length of so many octets.
    fn counted(&mut self, place: usize, width: usize) -> Read<[usize; 2]> {
        let length = self.fixed(place, width)?;
        Ok(self.data(self.number(length, width))?.view())
    }

    /// The field that begins at `field` must have a right value: refusal 3 or 4.
    fn demand(&self, right: bool, number: usize, place: usize, field: usize) -> Read<()> {
        if !right {
            return Err(self.broken(number, place, [0, 0], field));
        }
        Ok(())
    }

    fn nothing_left(&self, place: usize) -> Read<()> {
        if self.at < self.end {
            return Err(self.broken(1, place, [self.end - self.at, 0], self.at));
        }
        Ok(())
    }

    /// The data of a component under a tag that it must bear; its length has `width` octets.
    fn component(&mut self, header: usize, width: usize, tag_place: usize, tag: usize) -> Read<Walk<'a>> {
        let start = self.fixed(header, 4 + width)?;
        self.demand(self.number(start, 4) == tag, 3, tag_place, start)?;
        self.data(self.number(start + 4, width))
    }

    fn extras(&mut self, header: usize, count: usize, held: &mut Held) -> Read<()> {
        for _ in 0..count {
            let start = self.fixed(header, 5)?;
            let [at, length] = self.data(self.number(start + 4, 1))?.view();
            held.extras.push(vec![self.number(start, 4), at, length]);
        }
        Ok(())
    }

    /// How many components there are, behind the order octet.
    fn components(&mut self, fixed: usize, order: usize, count: usize, least: usize) -> Read<usize> {
        let start = self.fixed(fixed, 2)?;
        self.demand(self.number(start, 1) == 0, 3, order, start)?;
        let components = self.number(start + 1, 1);
        self.demand(components >= least, 4, count, start + 1)?;
        Ok(components)
    }

    /// A BIOP profile's first seven numbers.
    fn object_location(&mut self) -> Read<Vec<usize>> {
        let mut inside = self.component(place::OBJECT_LOCATION_HEADER, 1, place::OBJECT_LOCATION_TAG, OBJECT_LOCATION)?;
        let start = inside.fixed(place::OBJECT_LOCATION_FIXED, 9)?;
        let [at, length] = inside.data(inside.number(start + 8, 1))?.view();
        inside.nothing_left(place::OBJECT_LOCATION_LEFTOVER)?;
        let [carousel, module] = [self.number(start, 4), self.number(start + 4, 2)];
        Ok(vec![1, carousel, module, self.number(start + 6, 1), self.number(start + 7, 1), at, length])
    }

    /// How many taps there are.
    fn conn_binder(&mut self, held: &mut Held) -> Read<usize> {
        let mut inside = self.component(place::CONN_BINDER_HEADER, 1, place::CONN_BINDER_TAG, CONN_BINDER)?;
        let count = inside.fixed(place::TAP_COUNT, 1)?;
        let taps = inside.number(count, 1);
        for _ in 0..taps {
            let start = inside.fixed(place::TAP_FIXED, 7)?;
            let [at, length] = inside.data(inside.number(start + 6, 1))?.view();
            let [id, use_] = [self.number(start, 2), self.number(start + 2, 2)];
            held.taps.push(vec![id, use_, self.number(start + 4, 2), at, length]);
        }
        inside.nothing_left(place::CONN_BINDER_LEFTOVER)?;
        Ok(taps)
    }

    fn biop(&mut self, held: &mut Held) -> Read<Vec<usize>> {
        let components = self.components(place::BIOP_FIXED, place::BIOP_ORDER, place::BIOP_COMPONENT_COUNT, 2)?;
        let mut profile = self.object_location()?;
        profile.push(self.conn_binder(held)?);
        self.extras(place::BIOP_EXTRA_HEADER, components - 2, held)?;
        profile.push(components - 2);
        self.nothing_left(place::BIOP_LEFTOVER)?;
        Ok(profile)
    }

    /// A LiteOptions profile's first nine numbers.
    fn service_location(&mut self, held: &mut Held) -> Read<Vec<usize>> {
        let mut inside = self.component(place::SERVICE_LOCATION_HEADER, 4, place::SERVICE_LOCATION_TAG, SERVICE_LOCATION)?;
        let length = inside.fixed(place::ADDRESS_LENGTH, 1)?;
        inside.demand(inside.number(length, 1) == ADDRESS, 4, place::ADDRESS_LENGTH_VALUE, length)?;
        let address = inside.fixed(place::ADDRESS, ADDRESS)?;
        let count = inside.fixed(place::NAME_COUNT, 4)?;
        let names = inside.number(count, 4);
        for _ in 0..names {
            let id = inside.counted(place::ID_LENGTH, 4)?;
            let kind = inside.counted(place::KIND_LENGTH, 4)?;
            held.names.push([id, kind].concat());
        }
        let [at, length] = inside.counted(place::CONTEXT_LENGTH, 4)?;
        inside.nothing_left(place::SERVICE_LOCATION_LEFTOVER)?;
        let [carousel, specifier] = [self.number(address + 2, 4), self.number(address + 7, 3)];
        let [stream, network, service] = [10, 12, 14].map(|field| self.number(address + field, 2));
        Ok(vec![2, carousel, specifier, stream, network, service, names, at, length])
    }

    fn lite_options(&mut self, held: &mut Held) -> Read<Vec<usize>> {
        let count = place::LITE_OPTIONS_COMPONENT_COUNT;
        let components = self.components(place::LITE_OPTIONS_FIXED, place::LITE_OPTIONS_ORDER, count, 1)?;
        let mut profile = self.service_location(held)?;
        self.extras(place::LITE_OPTIONS_EXTRA_HEADER, components - 1, held)?;
        profile.push(components - 1);
        self.nothing_left(place::LITE_OPTIONS_LEFTOVER)?;
        Ok(profile)
    }

    fn profile(&mut self, held: &mut Held) -> Read<()> {
        let start = self.fixed(place::PROFILE_HEADER, 8)?;
        let mut inside = self.data(self.number(start + 4, 4))?;
        inside.origin = inside.at;
        let [at, length] = inside.view();
        let profile = match self.number(start, 4) {
            BIOP => inside.biop(held)?,
            LITE_OPTIONS => inside.lite_options(held)?,
            tag => vec![0, tag, at, length],
        };
        held.profiles.push(profile);
        Ok(())
    }

    /// What fills up a type id of that length to a multiple of 4: one field, which has no octets behind such a multiple.
    fn gap(&mut self, type_id: usize) -> Read<()> {
        let start = self.fixed(place::GAP, (4 - type_id % 4) % 4)?;
        let right = self.slice[start..self.at].iter().all(|octet| *octet == 0xFF);
        self.demand(right, 3, place::GAP_VALUE, start)
    }

    fn reference(&mut self, rule: Rule) -> Read<Held> {
        // The two fixed fields are asked for together, before the type id between them.
        self.ask(place::REFERENCE_FIXED, 8)?;
        let type_id = self.fixed(place::REFERENCE_FIXED, 4)?;
        let length = self.number(type_id, 4);
        if rule == Rule::Multiple {
            self.demand(length % 4 == 0, 4, place::TYPE_ID_LENGTH, type_id)?;
        }
        let mut held = Held { type_id: self.data(length)?.view(), ..Held::default() };
        self.gap(length)?;
        let count = self.fixed(place::PROFILE_COUNT, 4)?;
        for _ in 0..self.number(count, 4) {
            self.profile(&mut held)?;
        }
        Ok(held)
    }

    /// Refusal 7 for the first table that is too small; nothing of the slice is to blame.
    fn room(&self, held: &Held) -> Read<()> {
        for (shape, entries) in SHAPES.iter().zip(held.tables()) {
            if entries.len() > shape.size {
                return Err(self.broken(7, shape.place, [entries.len(), shape.size], 0));
            }
        }
        Ok(())
    }
}

/// The slice to be read, which must not be too long.
fn walk(slice: &[u8]) -> Read<Walk<'_>> {
    let walk = Walk { slice, origin: 0, at: 0, end: slice.len() };
    if slice.len() > LONGEST {
        return Err(walk.broken(6, place::DATA, [slice.len(), LONGEST], 0));
    }
    Ok(walk)
}

/// A leading reference under a rule, or the whole slice: consumed octets and the table, or what it is refused with.
pub fn read(rule: Rule, whole: bool, slice: &[u8]) -> Read<(usize, Table)> {
    let mut walk = walk(slice)?;
    let held = walk.reference(rule)?;
    if whole {
        walk.nothing_left(place::REFERENCE_LEFTOVER)?;
    }
    walk.room(&held)?;
    Ok((walk.at, held.flat()))
}

/// How many octets an 8-bit name has, or what its reading is refused with.
pub fn read_name(slice: &[u8]) -> Read<usize> {
    let mut walk = walk(slice)?;
    walk.counted(place::SHORT_ID_LENGTH, 1)?;
    walk.counted(place::SHORT_KIND_LENGTH, 1)?;
    Ok(walk.at)
}
