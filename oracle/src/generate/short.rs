//! The short questions: kinds, taps, 8-bit names and addresses.

use super::random::Random;
use super::tables::room;
use crate::answers::LIMIT;
use crate::request::{Request, MOST};

pub const KINDS: [&[u8; 4]; 5] = [b"dir\0", b"fil\0", b"str\0", b"srg\0", b"ste\0"];
pub const ADDRESS: [u8; 20] = [0, 0, 0, 0, 0, 9, 1, 0, 1, 0x5A, 0, 3, 0, 4, 0, 5, 0xFF, 0xFF, 0xFF, 0xFF];

pub fn kind(random: &mut Random) -> Request {
    let mut source = random.pick(&KINDS).to_vec();
    match random.below(6) {
        0..=2 => {}
        3 => {
            let at = random.below(4);
            source[at] ^= random.pick(&[1, 0x20, 0x80]);
        }
        4 => {
            let length = random.between(0, 9);
            source.resize(length, 0);
        }
        _ => source = random.octets(4),
    }
    Request::Kind { source }
}

pub fn tap(random: &mut Random) -> Request {
    let use_ = random.pick(&[0x0016, 0x0016, 0x0016, 0x0017, 0x1600, 0x0116, 0x0000, 0xFFFF]);
    let length = random.pick(&[10, 10, 10, 9, 11, 0, 1, 6, 14, 255, 256]);
    Request::Tap { use_, selector: random.octets(length) }
}

/// Lengths that are often right, often one off, and now and then the largest.
fn short_length(random: &mut Random) -> usize {
    match random.below(20) {
        0 => random.between(250, 255),
        _ => random.between(0, 8),
    }
}

/// Octets to read an 8-bit name from.
pub fn name(random: &mut Random) -> Vec<u8> {
    if random.one_in(200) {
        let size = random.pick(&[LIMIT, LIMIT + 1, MOST]);
        return random.octets(size);
    }
    let mut source = Vec::new();
    for _ in 0..2 {
        let length = short_length(random);
        let declared = if random.one_in(5) { random.lie(length as u64) } else { length as u64 };
        source.push(declared as u8);
        source.extend(random.octets(length));
    }
    match random.below(4) {
        0 => source.truncate(random.between(0, source.len())),
        1 => source.push(random.number() as u8),
        _ => {}
    }
    source
}

/// A view of a source of `size` octets, now and then one that passes its end.
fn view(random: &mut Random, size: usize) -> (u32, u32) {
    let length = random.between(0, size);
    let offset = random.between(0, size - length) as u32;
    match random.below(16) {
        0 => ((size - length) as u32 + 1, length as u32),
        1 => (0xFFFF_FFFF, random.pick(&[0, 1, 2])),
        2 => (offset, random.lie(length as u64) as u32),
        3 => (size as u32 + random.pick(&[0, 1]), 0),
        _ => (offset, length as u32),
    }
}

pub fn write_name(random: &mut Random) -> Request {
    let size = match random.below(400) {
        0 | 1 => random.pick(&[LIMIT, LIMIT + 1, MOST]),
        2..=33 => random.between(254, 270),
        _ => random.between(0, 20),
    };
    let source = random.octets(size);
    let mut views = [view(random, size), view(random, size)];
    if (254..LIMIT).contains(&size) {
        let index = random.below(2);
        views[index] = (0, random.pick(&[254, 255, 256]).min(size as u32));
    }
    let [id, kind] = views;
    let needed = 2 + id.1 as u64 + kind.1 as u64;
    let room = room(random, (needed <= MOST as u64).then_some(needed as usize));
    Request::WriteName { id, kind, room, source }
}

/// The ten octets that matter are those of a DVB address, but for one of the twenty that is changed, or other specifier data.
pub fn address(random: &mut Random) -> Request {
    let mut octets = ADDRESS;
    if random.one_in(2) {
        octets = random.octets(20).try_into().expect("twenty octets");
        for at in [0, 1, 6, 7, 8, 9, 16, 17, 18, 19] {
            octets[at] = ADDRESS[at];
        }
    }
    if random.one_in(2) {
        let at = random.below(20);
        octets[at] ^= random.pick(&[1, 0x80, 0xFF]);
    } else if random.one_in(4) {
        let specifier = random.pick(&[[0x01, 0x5A, 0x00], [0x5A, 0x01, 0x00], [0x00, 0x5A, 0x01], [0; 3], [0xFF; 3]]);
        octets[7..10].copy_from_slice(&specifier);
    }
    Request::Address { octets }
}
