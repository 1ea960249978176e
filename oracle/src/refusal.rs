//! Document 01's refusals, and the Rust's errors as such: the error's sort gives the number, its label the place.

use dvb_si::error::Error;

#[derive(Clone, Copy, Debug, PartialEq, Eq)]
pub struct Refusal {
    pub number: usize,
    pub place: usize,
    pub first: usize,
    pub second: usize,
}

/// A refusal with no figures.
pub fn plain(number: usize, place: usize) -> Refusal {
    Refusal { number, place, first: 0, second: 0 }
}

/// Labels of fields that are cut off and of octets left over: place 1 is the first.
const CUT_OR_LEFT_OVER: [&str; 27] = [
    "IOP::IOR fixed fields",
    "IOR taggedProfiles_count",
    "TaggedProfile header",
    "IOP::IOR trailing bytes after taggedProfiles",
    "BIOP Profile Body fixed fields",
    "BIOP ObjectLocation component header",
    "BIOP ObjectLocation fixed fields",
    "BIOP ObjectLocation trailing bytes after objectKey_data",
    "BIOP ConnBinder component header",
    "BIOP ConnBinder taps_count",
    "BIOP Tap fixed fields",
    "BIOP ConnBinder trailing bytes after taps",
    "BIOP extra liteComponent header",
    "BIOP Profile Body trailing bytes after liteComponents",
    "LiteOptions Profile Body fixed fields",
    "LiteOptions ServiceLocation component header",
    "ServiceLocation serviceDomain_length",
    "ServiceLocation serviceDomain_data",
    "ServiceLocation nameComponents_count",
    "CosNaming id_length",
    "CosNaming kind_length",
    "ServiceLocation initialContext_length",
    "LiteOptions ServiceLocation trailing bytes",
    "LiteOptions extra component header",
    "LiteOptions Profile Body trailing bytes after liteComponents",
    "BIOP NameComponent id_length (8-bit)",
    "BIOP NameComponent kind_length (8-bit)",
];

/// Labels of values that must be one constant: place 28 is the first.
const WRONG_VALUE: [&str; 5] = [
    "profile_data_byte_order",
    "componentId_tag[0]",
    "componentId_tag[1]",
    "profile_data_byte_order (LiteOptions)",
    "componentId_tag[0] (LiteOptions)",
];

/// Labels of values out of range: place 33 is the first.
const OUT_OF_RANGE: [&str; 4] =
    ["IOR.type_id_length", "liteComponents_count", "component_count (LiteOptions)", "serviceDomain_length"];

fn place(labels: &[&str], first: usize, label: &str) -> usize {
    match labels.iter().position(|known| *known == label) {
        Some(index) => first + index,
        None => panic!("the Rust gave a label that no place is known for: {label}"),
    }
}

impl From<Error> for Refusal {
    fn from(error: Error) -> Refusal {
        match error {
            Error::BufferTooShort { need, have, what } => {
                Refusal { number: 1, place: place(&CUT_OR_LEFT_OVER, 1, what), first: need, second: have }
            }
            Error::SectionLengthOverflow { declared, available } => {
                Refusal { number: 2, place: 0, first: declared, second: available }
            }
            Error::ReservedBitsViolation { field, .. } => plain(3, place(&WRONG_VALUE, 28, field)),
            Error::ValueOutOfRange { field, .. } => plain(4, place(&OUT_OF_RANGE, 33, field)),
            Error::OutputBufferTooSmall { need, have } => Refusal { number: 5, place: 0, first: need, second: have },
            other => panic!("the Rust gave an error that no refusal is known for: {other:?}"),
        }
    }
}
