//! Stands in for the parent module of the references, which is not to be had: its constants, and `span` as document 01 takes it.

use crate::error::{Error, Result};
use core::ops::Range;

pub mod ior;

pub const TAG_BIOP: u32 = 0x4953_4F06;
pub const TAG_LITE_OPTIONS: u32 = 0x4953_4F05;
pub const TAG_OBJECT_LOCATION: u32 = 0x4953_4F50;
pub const TAG_CONN_BINDER: u32 = 0x4953_4F40;
pub const TAG_SERVICE_LOCATION: u32 = 0x4953_4F46;
pub const BYTE_ORDER_BIG_ENDIAN: u8 = 0x00;
pub const BIOP_DELIVERY_PARA_USE: u16 = 0x0016;

/// The range of `length` octets from `start` on, or refusal 2 where it passes `end`.
pub(crate) fn span(start: usize, length: u32, end: usize) -> Result<Range<usize>> {
    let declared = length as usize;
    let available = end - start;
    if declared > available {
        return Err(Error::SectionLengthOverflow { declared, available });
    }
    Ok(start..start + declared)
}
