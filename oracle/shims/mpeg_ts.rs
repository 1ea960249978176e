//! Stands in for the crate `mpeg_ts`: only its error type is named, and nothing here ever makes one.

#[non_exhaustive]
pub enum Error {
    BufferTooShort { need: usize, have: usize, what: &'static str },
    CrcMismatch { computed: u32, expected: u32 },
    InvalidSyncByte { found: u8 },
    OutputBufferTooSmall { need: usize, have: usize },
    SectionLengthOverflow { declared: usize, available: usize },
}
