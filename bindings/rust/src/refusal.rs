//! Refusals: a number, a place, two figures and where a reading broke, and how they read in plain words.

use crate::calls::Answer;
use core::fmt;

/// Why a reference was not read or not written: the refusal's number, its place and two figures; of a reading, where it broke, too.
///
/// ```
/// let why = ior::Reference::read(&[0, 0, 0, 8, 0, 0, 0, 0]).unwrap_err();
/// assert_eq!((why.number, why.first, why.second, why.offset()), (2, 8, 4, Some(4)));
/// assert_eq!(why.to_string(), "too long: 8 octets declared, 4 available, at octet 4 (refusal 2)");
/// ```
#[derive(Clone, Copy, Debug, PartialEq, Eq, Hash)]
pub struct Refusal {
    /// 1 to 10.
    pub number: u8,
    /// Where; 0 where no place is named.
    pub place: u8,
    /// The first figure, as octets needed.
    pub first: u64,
    /// The second figure, as octets there.
    pub second: u64,
    offset: Option<usize>,
}

impl Refusal {
    /// The count of an accepted answer, or its refusal.
    pub(crate) fn checked(result: u32, answer: &Answer) -> Result<usize, Refusal> {
        if result == 0 {
            return Ok(answer[4] as usize);
        }
        Err(Refusal { number: result as u8, place: answer[1] as u8, first: answer[2], second: answer[3], offset: None })
    }

    /// The same of a reading, which tells where it broke.
    pub(crate) fn located(result: u32, answer: &Answer) -> Result<usize, Refusal> {
        Refusal::checked(result, answer).map_err(|why| Refusal { offset: (result <= 4).then_some(answer[5] as usize), ..why })
    }

    /// Where in the source a reading broke, refused with 1 to 4: the first octet of what is cut off, left over, too long or wrong. None for 6, 7
    /// and a writing.
    ///
    /// For 3 and 4 nothing behind the field that stands there is to blame: a source that agrees up to its end, and is not shorter, is refused alike.
    pub fn offset(&self) -> Option<usize> {
        self.offset
    }

    /// The name of the place; empty where there is none.
    pub fn place_name(&self) -> &'static str {
        match self.place {
            1 => "the reference's fixed fields",
            2 => "the profile count",
            3 => "a profile's header",
            4 => "the reference's end",
            5 => "a BIOP profile's fixed fields",
            6 => "an ObjectLocation's header",
            7 => "an ObjectLocation's fixed fields",
            8 => "an ObjectLocation's end",
            9 => "a ConnBinder's header",
            10 => "a tap count",
            11 => "a tap's fixed fields",
            12 => "a ConnBinder's end",
            13 => "the header of a BIOP profile's extra component",
            14 => "a BIOP profile's end",
            15 => "a LiteOptions profile's fixed fields",
            16 => "a ServiceLocation's header",
            17 => "an address length",
            18 => "an address",
            19 => "a name count",
            20 => "a name's id length",
            21 => "a name's kind length",
            22 => "a context length",
            23 => "a ServiceLocation's end",
            24 => "the header of a LiteOptions profile's extra component",
            25 => "a LiteOptions profile's end",
            26 => "a short name's id length",
            27 => "a short name's kind length",
            28 => "a BIOP profile's order octet",
            29 => "an ObjectLocation's tag",
            30 => "a ConnBinder's tag",
            31 => "a LiteOptions profile's order octet",
            32 => "a ServiceLocation's tag",
            33 => "the type id's length",
            34 => "a BIOP profile's component count",
            35 => "a LiteOptions profile's component count",
            36 => "an address's length",
            40 => "the table of profiles",
            41 => "the table of taps",
            42 => "the table of names",
            43 => "the table of extras",
            46 | 47 => "the gap behind the type id",
            _ => "",
        }
    }

    fn is_left_over(&self) -> bool {
        matches!(self.place, 4 | 8 | 12 | 14 | 23 | 25)
    }
}

impl fmt::Display for Refusal {
    fn fmt(&self, f: &mut fmt::Formatter<'_>) -> fmt::Result {
        let (place, first, second) = (self.place_name(), self.first, self.second);
        match self.number {
            1 if self.is_left_over() => write!(f, "octets left over: {first} behind {place}")?,
            1 => write!(f, "cut off: {place}, {first} octets needed, {second} there")?,
            2 => write!(f, "too long: {first} octets declared, {second} available")?,
            3 => write!(f, "wrong: {place}")?,
            4 => write!(f, "out of range: {place}")?,
            5 => write!(f, "no room: {first} octets needed, {second} in the output")?,
            6 => write!(f, "source too large: {first} octets, {second} allowed")?,
            7 => write!(f, "too many entries: {place} holds {second}, {first} needed")?,
            8 => write!(f, "counts disagree: {place}")?,
            9 => write!(f, "outside the source: {first} and {second} octets from there")?,
            10 => write!(f, "image too large: {first} octets, {second} allowed")?,
            _ => write!(f, "not asked as it must be")?,
        }
        if let Some(offset) = self.offset {
            write!(f, ", at octet {offset}")?;
        }
        write!(f, " (refusal {})", self.number)
    }
}

impl core::error::Error for Refusal {}
