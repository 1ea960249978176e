//! The profiles of a reference and their entries, as iterators over its table. Profiles are compared, hashed and shown by what they say, never by where it
//! stands.

use crate::{shown, LiteComponent, NameComponent, NsapAddress, ObjectLocation, Reference, Tap};
use core::fmt;
use core::hash::{Hash, Hasher};
use core::iter::FusedIterator;
use core::ops::Range;

const USED: usize = 2;
const PROFILE: (usize, usize) = (6, 10);
const TAP: (usize, usize) = (86, 5);
const NAME: (usize, usize) = (266, 4);
const EXTRA: (usize, usize) = (394, 3);

impl<'a> Reference<'a> {
    /// The numbers of entry i of a region (start, width).
    fn entry(&self, region: (usize, usize), i: usize) -> &[u32] {
        &self.table[region.0 + region.1 * i..][..region.1]
    }
}

/// How many there are, and each of them: what is equal entry by entry has equal hashes.
pub(crate) fn hash_all<H: Hasher>(items: impl ExactSizeIterator<Item: Hash>, state: &mut H) {
    items.len().hash(state);
    items.for_each(|item| item.hash(state));
}

/// One profile.
#[derive(Clone, Copy, Debug, PartialEq, Eq, Hash)]
pub enum TaggedProfile<'r, 'a> {
    /// Tag 49534F06.
    Biop(BiopProfile<'r, 'a>),
    /// Tag 49534F05.
    LiteOptions(LiteOptionsProfile<'r, 'a>),
    /// Any other.
    Opaque {
        /// Its tag.
        tag: u32,
        /// Its octets.
        data: &'a [u8],
    },
}

/// A BIOP profile.
#[derive(Clone, Copy)]
pub struct BiopProfile<'r, 'a> {
    reference: &'r Reference<'a>,
    index: usize,
    first_tap: usize,
    first_extra: usize,
}

impl<'r, 'a> BiopProfile<'r, 'a> {
    fn numbers(&self) -> &'r [u32] {
        self.reference.entry(PROFILE, self.index)
    }

    /// Where the object stands.
    pub fn object_location(&self) -> ObjectLocation<'a> {
        let n = self.numbers();
        ObjectLocation {
            carousel_id: n[1],
            module_id: n[2] as u16,
            version_major: n[3] as u8,
            version_minor: n[4] as u8,
            object_key: shown(self.reference.source, &n[5..7]),
        }
    }

    /// The taps of its ConnBinder.
    pub fn taps(&self) -> Taps<'r, 'a> {
        Taps { reference: self.reference, left: self.first_tap..self.first_tap + self.numbers()[7] as usize }
    }

    /// The components behind the first two.
    pub fn extras(&self) -> Extras<'r, 'a> {
        Extras { reference: self.reference, left: self.first_extra..self.first_extra + self.numbers()[8] as usize }
    }
}

impl PartialEq for BiopProfile<'_, '_> {
    fn eq(&self, other: &Self) -> bool {
        self.object_location() == other.object_location() && self.taps().eq(other.taps()) && self.extras().eq(other.extras())
    }
}

impl Eq for BiopProfile<'_, '_> {}

impl Hash for BiopProfile<'_, '_> {
    fn hash<H: Hasher>(&self, state: &mut H) {
        self.object_location().hash(state);
        hash_all(self.taps(), state);
        hash_all(self.extras(), state);
    }
}

impl fmt::Debug for BiopProfile<'_, '_> {
    fn fmt(&self, f: &mut fmt::Formatter<'_>) -> fmt::Result {
        f.debug_struct("BiopProfile")
            .field("object_location", &self.object_location())
            .field("taps", &self.taps())
            .field("extras", &self.extras())
            .finish()
    }
}

/// A LiteOptions profile.
#[derive(Clone, Copy)]
pub struct LiteOptionsProfile<'r, 'a> {
    reference: &'r Reference<'a>,
    index: usize,
    first_name: usize,
    first_extra: usize,
}

impl<'r, 'a> LiteOptionsProfile<'r, 'a> {
    fn numbers(&self) -> &'r [u32] {
        self.reference.entry(PROFILE, self.index)
    }

    /// The service's address.
    pub fn service_domain(&self) -> NsapAddress {
        let n = self.numbers();
        let [_, a, b, c] = n[2].to_be_bytes();
        NsapAddress {
            carousel_id: n[1],
            specifier_data: [a, b, c],
            transport_stream_id: n[3] as u16,
            original_network_id: n[4] as u16,
            service_id: n[5] as u16,
        }
    }

    /// The names of the path.
    pub fn path(&self) -> Names<'r, 'a> {
        Names { reference: self.reference, left: self.first_name..self.first_name + self.numbers()[6] as usize }
    }

    /// The initial context.
    pub fn initial_context(&self) -> &'a [u8] {
        shown(self.reference.source, &self.numbers()[7..9])
    }

    /// The components behind the first.
    pub fn extras(&self) -> Extras<'r, 'a> {
        Extras { reference: self.reference, left: self.first_extra..self.first_extra + self.numbers()[9] as usize }
    }
}

impl PartialEq for LiteOptionsProfile<'_, '_> {
    fn eq(&self, other: &Self) -> bool {
        self.service_domain() == other.service_domain()
            && self.path().eq(other.path())
            && self.initial_context() == other.initial_context()
            && self.extras().eq(other.extras())
    }
}

impl Eq for LiteOptionsProfile<'_, '_> {}

impl Hash for LiteOptionsProfile<'_, '_> {
    fn hash<H: Hasher>(&self, state: &mut H) {
        self.service_domain().hash(state);
        hash_all(self.path(), state);
        self.initial_context().hash(state);
        hash_all(self.extras(), state);
    }
}

impl fmt::Debug for LiteOptionsProfile<'_, '_> {
    fn fmt(&self, f: &mut fmt::Formatter<'_>) -> fmt::Result {
        f.debug_struct("LiteOptionsProfile")
            .field("service_domain", &self.service_domain())
            .field("path", &self.path())
            .field("initial_context", &self.initial_context())
            .field("extras", &self.extras())
            .finish()
    }
}

/// The profiles of a reference.
#[derive(Clone)]
pub struct Profiles<'r, 'a> {
    reference: &'r Reference<'a>,
    left: Range<usize>,
    taps: usize,
    names: usize,
    extras: usize,
}

impl<'r, 'a> Profiles<'r, 'a> {
    pub(crate) fn new(reference: &'r Reference<'a>) -> Self {
        Profiles { reference, left: 0..reference.table[USED] as usize, taps: 0, names: 0, extras: 0 }
    }
}

impl<'r, 'a> Iterator for Profiles<'r, 'a> {
    type Item = TaggedProfile<'r, 'a>;

    fn next(&mut self) -> Option<Self::Item> {
        let index = self.left.next()?;
        let (reference, first_extra) = (self.reference, self.extras);
        let n = reference.entry(PROFILE, index);
        Some(match n[0] {
            1 => {
                let first_tap = self.taps;
                self.taps += n[7] as usize;
                self.extras += n[8] as usize;
                TaggedProfile::Biop(BiopProfile { reference, index, first_tap, first_extra })
            }
            2 => {
                let first_name = self.names;
                self.names += n[6] as usize;
                self.extras += n[9] as usize;
                TaggedProfile::LiteOptions(LiteOptionsProfile { reference, index, first_name, first_extra })
            }
            _ => TaggedProfile::Opaque { tag: n[1], data: shown(reference.source, &n[2..4]) },
        })
    }

    fn size_hint(&self) -> (usize, Option<usize>) {
        self.left.size_hint()
    }
}

impl ExactSizeIterator for Profiles<'_, '_> {}
impl FusedIterator for Profiles<'_, '_> {}

/// Those that are left.
impl fmt::Debug for Profiles<'_, '_> {
    fn fmt(&self, f: &mut fmt::Formatter<'_>) -> fmt::Result {
        f.debug_list().entries(self.clone()).finish()
    }
}

macro_rules! entries {
    ($(#[$what:meta])* $name:ident, $item:ident, $region:expr, $made:expr) => {
        $(#[$what])*
        #[derive(Clone)]
        pub struct $name<'r, 'a> {
            reference: &'r Reference<'a>,
            left: Range<usize>,
        }

        impl<'r, 'a> Iterator for $name<'r, 'a> {
            type Item = $item<'a>;

            fn next(&mut self) -> Option<Self::Item> {
                let i = self.left.next()?;
                let made: fn(&'a [u8], &[u32]) -> $item<'a> = $made;
                Some(made(self.reference.source, self.reference.entry($region, i)))
            }

            fn size_hint(&self) -> (usize, Option<usize>) {
                self.left.size_hint()
            }
        }

        impl ExactSizeIterator for $name<'_, '_> {}
        impl FusedIterator for $name<'_, '_> {}

        /// Those that are left.
        impl fmt::Debug for $name<'_, '_> {
            fn fmt(&self, f: &mut fmt::Formatter<'_>) -> fmt::Result {
                f.debug_list().entries(self.clone()).finish()
            }
        }
    };
}

entries!(
    /// The taps of a BIOP profile.
    Taps, Tap, TAP,
    |source, n| Tap { id: n[0] as u16, use_: n[1] as u16, association_tag: n[2] as u16, selector: shown(source, &n[3..]) }
);
entries!(
    /// The names of a LiteOptions profile.
    Names, NameComponent, NAME,
    |source, n| NameComponent { id: shown(source, &n[..2]), kind: shown(source, &n[2..]) }
);
entries!(
    /// The extra components of a profile.
    Extras, LiteComponent, EXTRA,
    |source, n| LiteComponent { tag: n[0], data: shown(source, &n[1..]) }
);
