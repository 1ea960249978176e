//! The flat table of 490 numbers: filled from the Rust's value, checked as document 01 asks, and turned back into the Rust's value.

use crate::refusal::{plain, Refusal};
use dvb_si::carousel::biop::ior::{
    BiopProfileBody, ConnBinder, Ior, LiteComponent, LiteOptionsProfileBody, NameComponent, NsapAddress, ObjectLocation,
    ServiceLocation, TaggedProfile, Tap,
};

/// How many numbers a table has.
pub const NUMBERS: usize = 490;

/// Where the type id's view and the four used counts stand.
pub const TYPE_ID: usize = 0;
pub const USED: [usize; 4] = [2, 3, 4, 5];

/// Sizes, first numbers, widths of an entry and places of the four tables: profiles, taps, names, extras.
pub const SIZES: [usize; 4] = [8, 36, 32, 32];
pub const STARTS: [usize; 4] = [6, 86, 266, 394];
pub const WIDTHS: [usize; 4] = [10, 5, 4, 3];
pub const PLACES: [usize; 4] = [40, 41, 42, 43];
pub const PROFILES: usize = 0;
pub const TAPS: usize = 1;
pub const NAMES: usize = 2;
pub const EXTRAS: usize = 3;

/// The sorts of a profile.
pub const OPAQUE: u32 = 0;
pub const BIOP: u32 = 1;
pub const LITE_OPTIONS: u32 = 2;

#[derive(Clone, PartialEq, Eq)]
pub struct Table(pub [u32; NUMBERS]);

/// Where entry `index` of a table stands.
pub fn entry(table: usize, index: usize) -> usize {
    STARTS[table] + WIDTHS[table] * index
}

/// Where a profile's view and its counts of taps, names and extras stand, counted from the entry.
pub fn profile_view(sort: u32) -> usize {
    match sort {
        BIOP => 5,
        LITE_OPTIONS => 7,
        _ => 2,
    }
}

pub fn profile_count(sort: u32, table: usize) -> Option<usize> {
    match (sort, table) {
        (BIOP, TAPS) => Some(7),
        (BIOP, EXTRAS) => Some(8),
        (LITE_OPTIONS, NAMES) => Some(6),
        (LITE_OPTIONS, EXTRAS) => Some(9),
        _ => None,
    }
}

/// The first of profiles, taps, names, extras that the Rust's value has more of than the tables hold: refusal 7.
fn check_room(ior: &Ior) -> Result<(), Refusal> {
    let mut totals = [ior.profiles.len(), 0, 0, 0];
    for profile in &ior.profiles {
        match profile {
            TaggedProfile::Biop(body) => {
                totals[TAPS] += body.conn_binder.taps.len();
                totals[EXTRAS] += body.extra.len();
            }
            TaggedProfile::LiteOptions(body) => {
                totals[NAMES] += body.service_location.path.len();
                totals[EXTRAS] += body.extra.len();
            }
            _ => {}
        }
    }
    for table in PROFILES..=EXTRAS {
        if totals[table] > SIZES[table] {
            return Err(Refusal { number: 7, place: PLACES[table], first: totals[table], second: SIZES[table] });
        }
    }
    Ok(())
}

/// Puts the Rust's value into a table, entry by entry; views are where its slices lie in the source.
struct Filling<'a> {
    table: Table,
    source: &'a [u8],
}

impl Filling<'_> {
    fn view(&mut self, at: usize, part: &[u8]) {
        let offset = part.as_ptr() as usize - self.source.as_ptr() as usize;
        assert!(offset + part.len() <= self.source.len(), "the Rust's slice lies outside the source");
        self.table.0[at] = offset as u32;
        self.table.0[at + 1] = part.len() as u32;
    }

    fn numbers(&mut self, at: usize, numbers: &[u32]) {
        self.table.0[at..at + numbers.len()].copy_from_slice(numbers);
    }

    /// Where the next unused entry of a table stands; it counts as used from now on.
    fn next(&mut self, table: usize) -> usize {
        let used = self.table.0[USED[table]];
        self.table.0[USED[table]] = used + 1;
        entry(table, used as usize)
    }

    fn biop(&mut self, at: usize, body: &BiopProfileBody) {
        let location = &body.object_location;
        let versions = [location.version_major as u32, location.version_minor as u32];
        self.numbers(at, &[BIOP, location.carousel_id, location.module_id as u32, versions[0], versions[1]]);
        self.view(at + 5, location.object_key);
        self.numbers(at + 7, &[body.conn_binder.taps.len() as u32, body.extra.len() as u32]);
        for tap in &body.conn_binder.taps {
            let at = self.next(TAPS);
            self.numbers(at, &[tap.id as u32, tap.use_ as u32, tap.association_tag as u32]);
            self.view(at + 3, tap.selector);
        }
        self.extras(&body.extra);
    }

    fn lite_options(&mut self, at: usize, body: &LiteOptionsProfileBody) {
        let location = &body.service_location;
        let address = &location.service_domain;
        let [high, middle, low] = address.specifier_data;
        self.numbers(at, &[LITE_OPTIONS, address.carousel_id, u32::from_be_bytes([0, high, middle, low])]);
        self.numbers(
            at + 3,
            &[address.transport_stream_id as u32, address.original_network_id as u32, address.service_id as u32],
        );
        self.numbers(at + 6, &[location.path.len() as u32]);
        self.view(at + 7, location.initial_context);
        self.numbers(at + 9, &[body.extra.len() as u32]);
        for name in &location.path {
            let at = self.next(NAMES);
            self.view(at, name.id);
            self.view(at + 2, name.kind);
        }
        self.extras(&body.extra);
    }

    fn extras(&mut self, extras: &[LiteComponent]) {
        for extra in extras {
            let at = self.next(EXTRAS);
            self.numbers(at, &[extra.tag]);
            self.view(at + 1, extra.data);
        }
    }

    fn profile(&mut self, profile: &TaggedProfile) {
        let at = self.next(PROFILES);
        match profile {
            TaggedProfile::Biop(body) => self.biop(at, body),
            TaggedProfile::LiteOptions(body) => self.lite_options(at, body),
            TaggedProfile::Unknown { tag, data } => {
                self.numbers(at, &[OPAQUE, *tag]);
                self.view(at + 2, data);
            }
            _ => panic!("the Rust gave a sort of profile that no entry is known for"),
        }
    }
}

/// The next entries of each table, for the profiles in their order.
struct Entries<'t, 'a> {
    table: &'t Table,
    source: &'a [u8],
    next: [usize; 4],
}

impl<'a> Entries<'_, 'a> {
    /// Where the next `count` entries of a table stand.
    fn take(&mut self, table: usize, count: u32) -> Vec<usize> {
        let first = self.next[table];
        self.next[table] += count as usize;
        (first..self.next[table]).map(|index| entry(table, index)).collect()
    }

    fn number(&self, at: usize) -> u32 {
        self.table.0[at]
    }

    fn half(&self, at: usize) -> u16 {
        self.number(at) as u16
    }

    fn view(&self, at: usize) -> &'a [u8] {
        let offset = self.number(at) as usize;
        &self.source[offset..offset + self.number(at + 1) as usize]
    }

    fn tap(&self, at: usize) -> Tap<'a> {
        Tap { id: self.half(at), use_: self.half(at + 1), association_tag: self.half(at + 2), selector: self.view(at + 3) }
    }

    fn extras(&mut self, count: u32) -> Vec<LiteComponent<'a>> {
        let places = self.take(EXTRAS, count);
        places.into_iter().map(|at| LiteComponent { tag: self.number(at), data: self.view(at + 1) }).collect()
    }

    fn biop(&mut self, at: usize) -> BiopProfileBody<'a> {
        let places = self.take(TAPS, self.number(at + 7));
        BiopProfileBody {
            object_location: ObjectLocation {
                carousel_id: self.number(at + 1),
                module_id: self.half(at + 2),
                version_major: self.number(at + 3) as u8,
                version_minor: self.number(at + 4) as u8,
                object_key: self.view(at + 5),
            },
            conn_binder: ConnBinder { taps: places.into_iter().map(|at| self.tap(at)).collect() },
            extra: self.extras(self.number(at + 8)),
        }
    }

    fn lite_options(&mut self, at: usize) -> LiteOptionsProfileBody<'a> {
        let places = self.take(NAMES, self.number(at + 6));
        let [_, high, middle, low] = self.number(at + 2).to_be_bytes();
        LiteOptionsProfileBody {
            service_location: ServiceLocation {
                service_domain: NsapAddress {
                    carousel_id: self.number(at + 1),
                    specifier_data: [high, middle, low],
                    transport_stream_id: self.half(at + 3),
                    original_network_id: self.half(at + 4),
                    service_id: self.half(at + 5),
                },
                path: places.into_iter().map(|at| NameComponent { id: self.view(at), kind: self.view(at + 2) }).collect(),
                initial_context: self.view(at + 7),
            },
            extra: self.extras(self.number(at + 9)),
        }
    }

    fn profile(&mut self, at: usize) -> TaggedProfile<'a> {
        match self.number(at) {
            BIOP => TaggedProfile::Biop(self.biop(at)),
            LITE_OPTIONS => TaggedProfile::LiteOptions(self.lite_options(at)),
            _ => TaggedProfile::Unknown { tag: self.number(at + 1), data: self.view(at + 2) },
        }
    }
}

impl Table {
    pub fn empty() -> Table {
        Table([0; NUMBERS])
    }

    /// The table of a value that the Rust read from the source, or refusal 7.
    pub fn of(ior: &Ior, source: &[u8]) -> Result<Table, Refusal> {
        check_room(ior)?;
        let mut filling = Filling { table: Table::empty(), source };
        filling.view(TYPE_ID, ior.type_id);
        ior.profiles.iter().for_each(|profile| filling.profile(profile));
        Ok(filling.table)
    }

    /// The Rust's value. The used counts and the views must have been checked.
    pub fn value<'a>(&self, source: &'a [u8]) -> Ior<'a> {
        let mut entries = Entries { table: self, source, next: [0; 4] };
        let profiles = (0..self.used(PROFILES)).map(|index| entries.profile(entry(PROFILES, index))).collect();
        Ior { type_id: entries.view(TYPE_ID), profiles }
    }

    /// The Rust's value with profiles of the same sorts and nothing in them, for questions that look at sorts alone.
    pub fn bare_value(&self) -> Ior<'static> {
        let empty = Table::empty();
        let bare = |index: usize| {
            let mut entries = Entries { table: &empty, source: &[], next: [0; 4] };
            match self.sort(index) {
                BIOP => TaggedProfile::Biop(entries.biop(entry(PROFILES, 0))),
                LITE_OPTIONS => TaggedProfile::LiteOptions(entries.lite_options(entry(PROFILES, 0))),
                _ => TaggedProfile::Unknown { tag: 0, data: &[] },
            }
        };
        Ior { type_id: &[], profiles: (0..self.used(PROFILES)).map(bare).collect() }
    }

    /// How many entries of a table are looked at: those used, and none past its size.
    pub fn used(&self, table: usize) -> usize {
        (self.0[USED[table]] as usize).min(SIZES[table])
    }

    pub fn sort(&self, index: usize) -> u32 {
        self.0[entry(PROFILES, index)]
    }

    /// Whether each number of a used entry fits its field, and each sort is known.
    pub fn fits(&self) -> bool {
        let fit = |at: usize, most: u32, count: usize| self.0[at..at + count].iter().all(|number| *number <= most);
        let profile = |index: usize| {
            let at = entry(PROFILES, index);
            match self.sort(index) {
                OPAQUE => true,
                BIOP => fit(at + 2, 0xFFFF, 1) && fit(at + 3, 0xFF, 2),
                LITE_OPTIONS => fit(at + 2, 0xFF_FFFF, 1) && fit(at + 3, 0xFFFF, 3),
                _ => false,
            }
        };
        (0..self.used(PROFILES)).all(profile) && (0..self.used(TAPS)).all(|index| fit(entry(TAPS, index), 0xFFFF, 3))
    }

    /// Refusal 8 for the first table whose used count passes its size or is not the sum of the profiles' counts.
    pub fn check_counts(&self) -> Result<(), Refusal> {
        for table in PROFILES..=EXTRAS {
            let used = self.0[USED[table]] as u64;
            if used > SIZES[table] as u64 || (table != PROFILES && used != self.sum(table)) {
                return Err(plain(8, PLACES[table]));
            }
        }
        Ok(())
    }

    /// The profiles' counts for a table, added up without wrapping.
    fn sum(&self, table: usize) -> u64 {
        let count =
            |index: usize| profile_count(self.sort(index), table).map_or(0, |at| self.0[entry(PROFILES, index) + at] as u64);
        (0..self.used(PROFILES)).map(count).sum()
    }

    /// The places of all views in the order in which they are checked, each with its table's place.
    pub fn views(&self) -> Vec<(usize, usize)> {
        let mut views = vec![(TYPE_ID, 0)];
        for table in PROFILES..=EXTRAS {
            for index in 0..self.used(table) {
                let at = entry(table, index);
                match table {
                    PROFILES => views.push((at + profile_view(self.sort(index)), PLACES[table])),
                    TAPS => views.push((at + 3, PLACES[table])),
                    NAMES => views.extend([(at, PLACES[table]), (at + 2, PLACES[table])]),
                    _ => views.push((at + 1, PLACES[table])),
                }
            }
        }
        views
    }

    /// Refusal 9 for the first view that passes the source's end.
    pub fn check_views(&self, source: &[u8]) -> Result<(), Refusal> {
        self.views().into_iter().try_for_each(|(at, place)| check_view(self.0[at], self.0[at + 1], place, source))
    }
}

/// Refusal 9 where offset and length, added without wrapping, pass the source's end.
pub fn check_view(offset: u32, length: u32, place: usize, source: &[u8]) -> Result<(), Refusal> {
    if offset as u64 + length as u64 > source.len() as u64 {
        return Err(Refusal { number: 9, place, first: offset as usize, second: length as usize });
    }
    Ok(())
}
