//! The only unsafe code: the library's functions, called with slices. Each takes a pointer and a length for every array, keeps neither, reads and
//! writes nothing else, and is proved to stay inside them.

use crate::{AddressWay, TypeIdRule};

pub const TABLE: usize = 490;
pub const ANSWER: usize = 6;

mod c {
    extern "C" {
        pub fn ior_read(s: *const u8, n: usize, table: *mut u32, tables: usize, answer: *mut u64, answers: usize) -> u32;
        pub fn ior_read_whole(s: *const u8, n: usize, table: *mut u32, tables: usize, answer: *mut u64, answers: usize) -> u32;
        pub fn ior_length(table: *const u32, tables: usize, s: *const u8, n: usize, answer: *mut u64, answers: usize) -> u32;
        pub fn ior_write(
            table: *const u32,
            tables: usize,
            s: *const u8,
            n: usize,
            out: *mut u8,
            room: usize,
            answer: *mut u64,
            answers: usize,
        ) -> u32;
        pub fn ior_read_by(
            rule: u32,
            s: *const u8,
            n: usize,
            table: *mut u32,
            tables: usize,
            answer: *mut u64,
            answers: usize,
        ) -> u32;
        pub fn ior_read_whole_by(
            rule: u32,
            s: *const u8,
            n: usize,
            table: *mut u32,
            tables: usize,
            answer: *mut u64,
            answers: usize,
        ) -> u32;
        pub fn ior_length_by(
            rule: u32,
            table: *const u32,
            tables: usize,
            s: *const u8,
            n: usize,
            answer: *mut u64,
            answers: usize,
        ) -> u32;
        pub fn ior_write_by(
            rule: u32,
            way: u32,
            table: *const u32,
            tables: usize,
            s: *const u8,
            n: usize,
            out: *mut u8,
            room: usize,
            answer: *mut u64,
            answers: usize,
        ) -> u32;
        pub fn ior_kind(type_id: *const u8, n: usize, kind: *mut u32, kinds: usize) -> u32;
        pub fn ior_tap(uses: u32, selector: *const u8, n: usize, pair: *mut u32, pairs: usize) -> u32;
        pub fn ior_first_biop(table: *const u32, tables: usize, answer: *mut u64, answers: usize) -> u32;
        pub fn ior_dvb_address(address: *const u8, n: usize) -> u32;
        pub fn ior_name_read(s: *const u8, n: usize, name: *mut u32, names: usize, answer: *mut u64, answers: usize) -> u32;
        pub fn ior_name_write(
            name: *const u32,
            names: usize,
            s: *const u8,
            n: usize,
            out: *mut u8,
            room: usize,
            answer: *mut u64,
            answers: usize,
        ) -> u32;
    }
}

pub type Table = [u32; TABLE];
pub type Answer = [u64; ANSWER];

pub fn read(s: &[u8], table: &mut Table, answer: &mut Answer) -> u32 {
    unsafe { c::ior_read(s.as_ptr(), s.len(), table.as_mut_ptr(), TABLE, answer.as_mut_ptr(), ANSWER) }
}

pub fn read_whole(s: &[u8], table: &mut Table, answer: &mut Answer) -> u32 {
    unsafe { c::ior_read_whole(s.as_ptr(), s.len(), table.as_mut_ptr(), TABLE, answer.as_mut_ptr(), ANSWER) }
}

pub fn length(table: &Table, s: &[u8], answer: &mut Answer) -> u32 {
    unsafe { c::ior_length(table.as_ptr(), TABLE, s.as_ptr(), s.len(), answer.as_mut_ptr(), ANSWER) }
}

pub fn write(table: &Table, s: &[u8], out: &mut [u8], answer: &mut Answer) -> u32 {
    unsafe {
        c::ior_write(table.as_ptr(), TABLE, s.as_ptr(), s.len(), out.as_mut_ptr(), out.len(), answer.as_mut_ptr(), ANSWER)
    }
}

pub fn read_by(rule: TypeIdRule, s: &[u8], table: &mut Table, answer: &mut Answer) -> u32 {
    unsafe { c::ior_read_by(rule as u32, s.as_ptr(), s.len(), table.as_mut_ptr(), TABLE, answer.as_mut_ptr(), ANSWER) }
}

pub fn read_whole_by(rule: TypeIdRule, s: &[u8], table: &mut Table, answer: &mut Answer) -> u32 {
    unsafe { c::ior_read_whole_by(rule as u32, s.as_ptr(), s.len(), table.as_mut_ptr(), TABLE, answer.as_mut_ptr(), ANSWER) }
}

pub fn length_by(rule: TypeIdRule, table: &Table, s: &[u8], answer: &mut Answer) -> u32 {
    unsafe { c::ior_length_by(rule as u32, table.as_ptr(), TABLE, s.as_ptr(), s.len(), answer.as_mut_ptr(), ANSWER) }
}

pub fn write_by(rule: TypeIdRule, way: AddressWay, table: &Table, s: &[u8], out: &mut [u8], answer: &mut Answer) -> u32 {
    let (rule, way) = (rule as u32, way as u32);
    let (source, n, output, room) = (s.as_ptr(), s.len(), out.as_mut_ptr(), out.len());
    unsafe { c::ior_write_by(rule, way, table.as_ptr(), TABLE, source, n, output, room, answer.as_mut_ptr(), ANSWER) }
}

pub fn kind(type_id: &[u8]) -> (u32, u32) {
    let mut kind = 0;
    let result = unsafe { c::ior_kind(type_id.as_ptr(), type_id.len(), &mut kind, 1) };
    (result, kind)
}

pub fn tap(uses: u16, selector: &[u8]) -> Option<(u32, u32)> {
    let mut pair = [0; 2];
    let result = unsafe { c::ior_tap(u32::from(uses), selector.as_ptr(), selector.len(), pair.as_mut_ptr(), 2) };
    (result == 1).then_some((pair[0], pair[1]))
}

pub fn first_biop(table: &Table, answer: &mut Answer) -> u32 {
    unsafe { c::ior_first_biop(table.as_ptr(), TABLE, answer.as_mut_ptr(), ANSWER) }
}

pub fn dvb_address(address: &[u8; 20]) -> bool {
    unsafe { c::ior_dvb_address(address.as_ptr(), address.len()) == 1 }
}

pub fn name_read(s: &[u8], name: &mut [u32; 4], answer: &mut Answer) -> u32 {
    unsafe { c::ior_name_read(s.as_ptr(), s.len(), name.as_mut_ptr(), 4, answer.as_mut_ptr(), ANSWER) }
}

pub fn name_write(name: &[u32; 4], s: &[u8], out: &mut [u8], answer: &mut Answer) -> u32 {
    unsafe {
        c::ior_name_write(name.as_ptr(), 4, s.as_ptr(), s.len(), out.as_mut_ptr(), out.len(), answer.as_mut_ptr(), ANSWER)
    }
}
