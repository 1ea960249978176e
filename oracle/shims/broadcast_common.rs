//! Stands in for the crate `broadcast_common`, which is not to be had: two traits, and lengths that must fit a field.

pub trait Parse<'a>: Sized {
    type Error;
    fn parse(bytes: &'a [u8]) -> Result<Self, Self::Error>;
}

pub trait Serialize {
    type Error;
    fn serialized_len(&self) -> usize;
    fn serialize_into(&self, buf: &mut [u8]) -> Result<usize, Self::Error>;
}

pub mod len {
    /// A length that does not fit its field.
    #[derive(Debug, PartialEq, Eq)]
    pub struct FieldOverflow {
        pub length: usize,
        pub field: &'static str,
    }

    pub fn fit_u8(length: usize, field: &'static str) -> Result<u8, FieldOverflow> {
        u8::try_from(length).map_err(|_| FieldOverflow { length, field })
    }

    pub fn fit_u32(length: usize, field: &'static str) -> Result<u32, FieldOverflow> {
        u32::try_from(length).map_err(|_| FieldOverflow { length, field })
    }
}
