//! Object references (IOP::IOR) of DSM-CC carousels: read, measured and written by a library whose every function is proved.
//!
//! A [`Reference`] borrows the octets it was read from and holds a table of numbers beside them; what it hands out are slices of those octets. Nothing
//! is allocated, and no safe call can panic. Type ids with a gap behind them are read and written by a [`TypeIdRule`].
//!
//! ```
//! use ior::{ObjectKind, Reference, TaggedProfile};
//!
//! let octets = [
//!     0, 0, 0, 4, b's', b'r', b'g', 0, 0, 0, 0, 1, 0x49, 0x53, 0x4F, 0x06, 0, 0, 0, 22, 0, 2, 0x49, 0x53, 0x4F, 0x50, 9, 0, 0, 0, 1, 0, 2, 1, 0,
//!     0, 0x49, 0x53, 0x4F, 0x40, 1, 0,
//! ];
//! let (reference, consumed) = Reference::read(&octets).unwrap();
//! assert_eq!(consumed, 42);
//! assert_eq!(reference.object_kind(), ObjectKind::ServiceGateway);
//! for profile in reference.profiles() {
//!     if let TaggedProfile::Biop(body) = profile {
//!         assert_eq!(body.object_location().module_id, 2);
//!         assert_eq!(body.taps().count(), 0);
//!     }
//! }
//! let mut anew = [0; 42];
//! assert_eq!(reference.write(&mut anew), Ok(42));
//! assert_eq!(anew, octets);
//! ```

#![no_std]
#![deny(missing_docs)]

mod calls;
mod profiles;
mod refusal;

pub use profiles::{BiopProfile, Extras, LiteOptionsProfile, Names, Profiles, TaggedProfile, Taps};
pub use refusal::Refusal;

use calls::{Answer, Table, ANSWER, TABLE};
use core::fmt;
use core::hash::{Hash, Hasher};

/// What an object is, by its type id.
#[derive(Clone, Copy, Debug, PartialEq, Eq, Hash)]
pub enum ObjectKind {
    /// `dir`
    Directory,
    /// `fil`
    File,
    /// `str`
    Stream,
    /// `srg`
    ServiceGateway,
    /// `ste`
    StreamEvent,
    /// Another type id of four octets; zeros for one of another length.
    Unknown([u8; 4]),
}

/// The kind that a type id's octets name.
///
/// ```
/// assert_eq!(ior::object_kind(b"fil\0"), ior::ObjectKind::File);
/// assert_eq!(ior::object_kind(b"file"), ior::ObjectKind::Unknown(*b"file"));
/// ```
pub fn object_kind(type_id: &[u8]) -> ObjectKind {
    let (number, octets) = calls::kind(type_id);
    match number {
        0 => ObjectKind::Directory,
        1 => ObjectKind::File,
        2 => ObjectKind::Stream,
        3 => ObjectKind::ServiceGateway,
        4 => ObjectKind::StreamEvent,
        _ => ObjectKind::Unknown(octets.to_be_bytes()),
    }
}

/// Whether twenty octets are a DVB address: AFI, type, specifier type and the reserved four are the standard ones, and the specifier data is DVB's own
/// organisation number, 00 01 5A. The ten other octets may be any.
///
/// ```
/// let mut address = [0; 20];
/// address[6] = 1;
/// address[16..].fill(0xFF);
/// assert!(!ior::is_dvb_address(&address));
/// address[7..10].copy_from_slice(&[0x00, 0x01, 0x5A]);
/// assert!(ior::is_dvb_address(&address));
/// ```
pub fn is_dvb_address(address: &[u8; 20]) -> bool {
    calls::dvb_address(address)
}

/// A tap of a ConnBinder.
#[derive(Clone, Copy, Debug, PartialEq, Eq, Hash)]
pub struct Tap<'a> {
    /// The tap's id.
    pub id: u16,
    /// Its use.
    pub use_: u16,
    /// Its association tag.
    pub association_tag: u16,
    /// Its selector's octets.
    pub selector: &'a [u8],
}

impl Tap<'_> {
    /// The transaction id and the timeout, which a tap has together or not at all.
    ///
    /// ```
    /// let tap = ior::Tap { id: 0, use_: 0x16, association_tag: 0, selector: &[0, 1, 0x80, 0, 0, 2, 0xFF, 0xFF, 0xFF, 0xFF] };
    /// assert_eq!(tap.numbers(), Some((0x8000_0002, 0xFFFF_FFFF)));
    /// ```
    pub fn numbers(&self) -> Option<(u32, u32)> {
        calls::tap(self.use_, self.selector)
    }

    /// The transaction id alone.
    pub fn transaction_id(&self) -> Option<u32> {
        self.numbers().map(|(transaction, _)| transaction)
    }

    /// The timeout alone.
    pub fn timeout(&self) -> Option<u32> {
        self.numbers().map(|(_, timeout)| timeout)
    }
}

/// Where an object stands in a carousel.
#[derive(Clone, Copy, Debug, PartialEq, Eq, Hash)]
pub struct ObjectLocation<'a> {
    /// The carousel.
    pub carousel_id: u32,
    /// The module.
    pub module_id: u16,
    /// The version's first part.
    pub version_major: u8,
    /// The version's second part.
    pub version_minor: u8,
    /// The object's key.
    pub object_key: &'a [u8],
}

/// The address of a service; its constants are not kept.
#[derive(Clone, Copy, Debug, PartialEq, Eq, Hash)]
pub struct NsapAddress {
    /// The carousel.
    pub carousel_id: u32,
    /// The specifier's data.
    pub specifier_data: [u8; 3],
    /// The transport stream.
    pub transport_stream_id: u16,
    /// The original network.
    pub original_network_id: u16,
    /// The service.
    pub service_id: u16,
}

/// A name's id and kind.
#[derive(Clone, Copy, Debug, PartialEq, Eq, Hash)]
pub struct NameComponent<'a> {
    /// The id.
    pub id: &'a [u8],
    /// The kind.
    pub kind: &'a [u8],
}

/// A component beyond those that each profile has.
#[derive(Clone, Copy, Debug, PartialEq, Eq, Hash)]
pub struct LiteComponent<'a> {
    /// Its tag.
    pub tag: u32,
    /// Its octets.
    pub data: &'a [u8],
}

/// What a type id may be. A reference doesn't keep the rule that it was read by: name it again to measure or write it.
#[derive(Clone, Copy, Debug, PartialEq, Eq, Hash)]
pub enum TypeIdRule {
    /// Its length is a multiple of 4: the rule of the functions that name none.
    Multiple = 1,
    /// Its length may be any, and a gap of 0 to 3 octets FF fills up to the next multiple of 4 before the profile count.
    Gap = 2,
}

/// How an address is written.
#[derive(Clone, Copy, Debug, PartialEq, Eq, Hash)]
#[non_exhaustive]
pub enum AddressWay {
    /// With its constants: the way of [`Reference::write`].
    Constants = 1,
}

/// The octets under a view; a view that lies outside, which no accepted reading gives, shows none.
fn shown<'a>(source: &'a [u8], view: &[u32]) -> &'a [u8] {
    let at = view[0] as usize;
    source.get(at..at.saturating_add(view[1] as usize)).unwrap_or(&[])
}

/// A reference that was read: the source's octets, and a table of what stands where.
///
/// Two references are equal if they say the same: the octets of the type id, and the profiles in their order, each with its numbers and octets. Where
/// those octets stand, and what stands behind the reference, makes no difference.
///
/// ```
/// let (one, _) = ior::Reference::read(&[0, 0, 0, 0, 0, 0, 0, 0, 1]).unwrap();
/// let (other, _) = ior::Reference::read(&[0, 0, 0, 0, 0, 0, 0, 0, 2]).unwrap();
/// assert_eq!(one, other);
/// assert_eq!(format!("{one:?}"), "Reference { type_id: [], object_kind: Unknown([0, 0, 0, 0]), profiles: [] }");
/// ```
#[derive(Clone)]
pub struct Reference<'a> {
    source: &'a [u8],
    table: Table,
}

impl<'a> Reference<'a> {
    /// What a reading makes of `source`, and how many octets it took.
    fn made(source: &'a [u8], reads: impl FnOnce(&mut Table, &mut Answer) -> u32) -> Result<(Self, usize), Refusal> {
        let mut reference = Reference { source, table: [0; TABLE] };
        let mut answer: Answer = [0; ANSWER];
        let result = reads(&mut reference.table, &mut answer);
        Refusal::located(result, &answer).map(|consumed| (reference, consumed))
    }

    /// The reference at the start of `source`, and how many octets it has. Octets behind it, up to 65,535 in all, change
    /// nothing; a reference that is cut short is refused, with 1 or 2.
    pub fn read(source: &'a [u8]) -> Result<(Self, usize), Refusal> {
        Self::made(source, |table, answer| calls::read(source, table, answer))
    }

    /// The same by a rule for its type id.
    ///
    /// ```
    /// use ior::{Reference, TypeIdRule};
    ///
    /// let octets = *b"\x00\x00\x00\x05abcde\xFF\xFF\xFF\x00\x00\x00\x00";
    /// let (reference, consumed) = Reference::read_by(TypeIdRule::Gap, &octets).unwrap();
    /// assert_eq!((reference.type_id(), consumed), (&b"abcde"[..], 16));
    /// let why = Reference::read_by(TypeIdRule::Multiple, &octets).unwrap_err();
    /// assert_eq!(why.to_string(), "out of range: the type id's length, at octet 0 (refusal 4)");
    /// assert_eq!(Reference::read(&octets).unwrap_err(), why);
    /// ```
    pub fn read_by(rule: TypeIdRule, source: &'a [u8]) -> Result<(Self, usize), Refusal> {
        Self::made(source, |table, answer| calls::read_by(rule, source, table, answer))
    }

    /// The reference that `source` is from its start to its end.
    ///
    /// ```
    /// let why = ior::Reference::read_whole(&[0; 9]).unwrap_err();
    /// assert_eq!(why.to_string(), "octets left over: 1 behind the reference's end, at octet 8 (refusal 1)");
    /// ```
    pub fn read_whole(source: &'a [u8]) -> Result<Self, Refusal> {
        Self::made(source, |table, answer| calls::read_whole(source, table, answer)).map(|(reference, _)| reference)
    }

    /// The same by a rule for its type id.
    ///
    /// ```
    /// use ior::{Reference, TypeIdRule};
    ///
    /// let why = Reference::read_whole_by(TypeIdRule::Gap, b"\x00\x00\x00\x05abcde\xFF\xFF").unwrap_err();
    /// assert_eq!(why.to_string(), "cut off: the gap behind the type id, 12 octets needed, 11 there, at octet 9 (refusal 1)");
    /// ```
    pub fn read_whole_by(rule: TypeIdRule, source: &'a [u8]) -> Result<Self, Refusal> {
        Self::made(source, |table, answer| calls::read_whole_by(rule, source, table, answer)).map(|(reference, _)| reference)
    }

    /// The octets of the type id.
    pub fn type_id(&self) -> &'a [u8] {
        shown(self.source, &self.table[..2])
    }

    /// What the object is.
    pub fn object_kind(&self) -> ObjectKind {
        object_kind(self.type_id())
    }

    /// The profiles, in their order.
    pub fn profiles(&self) -> Profiles<'_, 'a> {
        Profiles::new(self)
    }

    /// The first BIOP profile.
    pub fn biop_profile(&self) -> Option<BiopProfile<'_, 'a>> {
        let mut answer: Answer = [0; ANSWER];
        let index = Refusal::checked(calls::first_biop(&self.table, &mut answer), &answer).ok()?;
        match self.profiles().nth(index)? {
            TaggedProfile::Biop(body) => Some(body),
            _ => None,
        }
    }

    /// How many octets [`Reference::write`] writes.
    pub fn length(&self) -> Result<usize, Refusal> {
        let mut answer: Answer = [0; ANSWER];
        let result = calls::length(&self.table, self.source, &mut answer);
        Refusal::checked(result, &answer)
    }

    /// How many octets [`Reference::write_by`] writes, by the same rule.
    pub fn length_by(&self, rule: TypeIdRule) -> Result<usize, Refusal> {
        let mut answer: Answer = [0; ANSWER];
        let result = calls::length_by(rule, &self.table, self.source, &mut answer);
        Refusal::checked(result, &answer)
    }

    /// Writes the reference at the start of `out`, and says how many octets that are. Where it is refused, no octet is changed.
    ///
    /// ```
    /// let (reference, _) = ior::Reference::read(&[0; 8]).unwrap();
    /// let why = reference.write(&mut [0; 7]).unwrap_err();
    /// assert_eq!(why.to_string(), "no room: 8 octets needed, 7 in the output (refusal 5)");
    /// ```
    pub fn write(&self, out: &mut [u8]) -> Result<usize, Refusal> {
        let mut answer: Answer = [0; ANSWER];
        let result = calls::write(&self.table, self.source, out, &mut answer);
        Refusal::checked(result, &answer)
    }

    /// The same by a rule for its type id, and in a way to write addresses.
    ///
    /// ```
    /// use ior::{AddressWay, Reference, TypeIdRule};
    ///
    /// let octets = *b"\x00\x00\x00\x05abcde\xFF\xFF\xFF\x00\x00\x00\x00";
    /// let reference = Reference::read_whole_by(TypeIdRule::Gap, &octets).unwrap();
    /// let mut anew = [0; 16];
    /// assert_eq!(reference.length_by(TypeIdRule::Gap), Ok(16));
    /// assert_eq!(reference.write_by(TypeIdRule::Gap, AddressWay::Constants, &mut anew), Ok(16));
    /// assert_eq!(anew, octets);
    /// ```
    pub fn write_by(&self, rule: TypeIdRule, way: AddressWay, out: &mut [u8]) -> Result<usize, Refusal> {
        let mut answer: Answer = [0; ANSWER];
        let result = calls::write_by(rule, way, &self.table, self.source, out, &mut answer);
        Refusal::checked(result, &answer)
    }
}

impl PartialEq for Reference<'_> {
    fn eq(&self, other: &Self) -> bool {
        self.type_id() == other.type_id() && self.profiles().eq(other.profiles())
    }
}

impl Eq for Reference<'_> {}

impl Hash for Reference<'_> {
    fn hash<H: Hasher>(&self, state: &mut H) {
        self.type_id().hash(state);
        profiles::hash_all(self.profiles(), state);
    }
}

impl fmt::Debug for Reference<'_> {
    fn fmt(&self, f: &mut fmt::Formatter<'_>) -> fmt::Result {
        f.debug_struct("Reference")
            .field("type_id", &self.type_id())
            .field("object_kind", &self.object_kind())
            .field("profiles", &self.profiles())
            .finish()
    }
}

/// A name component with lengths of one octet, as BIOP messages have it. Two are equal if their ids are and their kinds are.
#[derive(Clone, Copy)]
pub struct ShortName<'a> {
    source: &'a [u8],
    views: [u32; 4],
}

impl<'a> ShortName<'a> {
    /// The name at the start of `source`, and how many octets it has.
    ///
    /// ```
    /// let (name, consumed) = ior::ShortName::read(&[2, b'i', b'd', 1, b'k', 7]).unwrap();
    /// assert_eq!((name.parts().id, name.parts().kind, consumed), (&b"id"[..], &b"k"[..], 5));
    /// ```
    pub fn read(source: &'a [u8]) -> Result<(Self, usize), Refusal> {
        let mut views = [0; 4];
        let mut answer: Answer = [0; ANSWER];
        let result = calls::name_read(source, &mut views, &mut answer);
        Refusal::located(result, &answer).map(|consumed| (ShortName { source, views }, consumed))
    }

    /// Its id and its kind.
    pub fn parts(&self) -> NameComponent<'a> {
        NameComponent { id: shown(self.source, &self.views[..2]), kind: shown(self.source, &self.views[2..]) }
    }

    /// Writes the name at the start of `out`, and says how many octets that are. Where it is refused, no octet is changed.
    pub fn write(&self, out: &mut [u8]) -> Result<usize, Refusal> {
        let mut answer: Answer = [0; ANSWER];
        let result = calls::name_write(&self.views, self.source, out, &mut answer);
        Refusal::checked(result, &answer)
    }
}

impl PartialEq for ShortName<'_> {
    fn eq(&self, other: &Self) -> bool {
        self.parts() == other.parts()
    }
}

impl Eq for ShortName<'_> {}

impl Hash for ShortName<'_> {
    fn hash<H: Hasher>(&self, state: &mut H) {
        self.parts().hash(state);
    }
}

impl fmt::Debug for ShortName<'_> {
    fn fmt(&self, f: &mut fmt::Formatter<'_>) -> fmt::Result {
        let NameComponent { id, kind } = self.parts();
        f.debug_struct("ShortName").field("id", &id).field("kind", &kind).finish()
    }
}
