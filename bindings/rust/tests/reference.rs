//! References on both sides of a line, entries as slices of the caller's octets, and damaged and random octets.

use ior::{is_dvb_address, object_kind, AddressWay, ObjectKind, Reference, Refusal, ShortName, TaggedProfile, TypeIdRule};
use std::hash::{DefaultHasher, Hash, Hasher};

const J: [u8; 42] = [
    0, 0, 0, 4, 0x73, 0x72, 0x67, 0, 0, 0, 0, 1, 0x49, 0x53, 0x4F, 0x06, 0, 0, 0, 0x16, 0, 2, 0x49, 0x53, 0x4F, 0x50, 9, 0, 0,
    0, 1, 0, 2, 1, 0, 0, 0x49, 0x53, 0x4F, 0x40, 1, 0,
];

fn refused(octets: &[u8]) -> (u8, u8, u64, u64) {
    let why = Reference::read(octets).expect_err("refused");
    (why.number, why.place, why.first, why.second)
}

fn number(octets: &mut Vec<u8>, n: usize) {
    octets.extend((n as u32).to_be_bytes());
}

/// A BIOP profile with two taps and an extra, a LiteOptions profile with two names and an extra, and an opaque one.
fn rich() -> Vec<u8> {
    let mut biop = vec![0, 3, 0x49, 0x53, 0x4F, 0x50, 11, 0, 0, 0, 7, 0, 9, 1, 0, 2, 0xAA, 0xBB];
    let taps =
        [&[0, 1, 0, 0x16, 0, 5, 10, 0, 1, 0x80, 0, 0, 2, 0xFF, 0xFF, 0xFF, 0xFF][..], &[0, 2, 0, 0x17, 0, 6, 0]].concat();
    biop.extend([0x49, 0x53, 0x4F, 0x40, 1 + taps.len() as u8, 2]);
    biop.extend(taps);
    biop.extend([1, 2, 3, 4, 3, 9, 8, 7]);

    let mut service = vec![20, 0, 0, 0, 0, 0, 8, 1, 1, 2, 3, 0, 4, 0, 5, 0, 6, 0xFF, 0xFF, 0xFF, 0xFF];
    number(&mut service, 2);
    for (id, kind) in [("one", "fil"), ("", "dir")] {
        number(&mut service, id.len());
        service.extend(id.bytes());
        number(&mut service, kind.len());
        service.extend(kind.bytes());
    }
    number(&mut service, 5);
    service.extend(b"there");
    let mut lite = vec![0, 2, 0x49, 0x53, 0x4F, 0x46];
    number(&mut lite, service.len());
    lite.extend(service);
    lite.extend([5, 6, 7, 8, 0]);

    let mut all = b"\0\0\0\x04fil\0".to_vec();
    number(&mut all, 3);
    for (tag, data) in [(0x49534F06, &biop[..]), (0x49534F05, &lite), (0xDEADBEEF, b"any")] {
        number(&mut all, tag);
        number(&mut all, data.len());
        all.extend(data);
    }
    all
}

#[test]
fn worked_references() {
    assert_eq!(refused(&[]), (1, 1, 8, 0));
    assert_eq!(Reference::read(&[0; 8]).unwrap().1, 8);
    assert_eq!(refused(&[0, 0, 0, 3, 0, 0, 0, 0]), (4, 33, 0, 0));
    assert_eq!(refused(&[0, 0, 0, 4, 0x73, 0x72, 0x67, 0]), (1, 2, 12, 8));
    assert_eq!(refused(&[0, 0, 0, 8, 0, 0, 0, 0]), (2, 0, 8, 4));
    assert_eq!(refused(&[0, 0, 0, 0, 0, 0, 0, 1]), (1, 3, 16, 8));
    let (reference, consumed) = Reference::read(&J).unwrap();
    assert_eq!((consumed, reference.object_kind()), (42, ObjectKind::ServiceGateway));
    let mut count = J;
    count[21] = 1;
    assert_eq!(refused(&count), (4, 34, 0, 0));
    count[20] = 1;
    assert_eq!(refused(&count), (3, 28, 0, 0));
    let mut short = J;
    short[26] = 8;
    assert_eq!(refused(&short), (1, 7, 16, 15));
}

#[test]
fn entries_are_slices_of_the_source() {
    let octets = rich();
    let reference = Reference::read_whole(&octets).unwrap();
    assert_eq!(reference.type_id(), b"fil\0");
    assert_eq!(reference.profiles().len(), 3);
    let body = reference.biop_profile().unwrap();
    let location = body.object_location();
    assert_eq!((location.carousel_id, location.module_id, location.version_major, location.version_minor), (7, 9, 1, 0));
    assert_eq!(location.object_key, [0xAA, 0xBB]);
    let taps: Vec<_> = body.taps().collect();
    assert_eq!((taps[0].id, taps[0].use_, taps[0].association_tag), (1, 0x16, 5));
    assert_eq!((taps[0].transaction_id(), taps[0].timeout()), (Some(0x8000_0002), Some(0xFFFF_FFFF)));
    assert_eq!((taps[1].numbers(), taps[1].selector), (None, &[][..]));
    let within = octets.as_ptr_range();
    assert!(within.contains(&taps[0].selector.as_ptr()));
    assert_eq!(body.extras().map(|e| (e.tag, e.data.to_vec())).collect::<Vec<_>>(), [(0x01020304, vec![9, 8, 7])]);

    let mut profiles = reference.profiles().skip(1);
    let Some(TaggedProfile::LiteOptions(lite)) = profiles.next() else { panic!("LiteOptions") };
    let address = lite.service_domain();
    assert_eq!((address.carousel_id, address.specifier_data), (8, [1, 2, 3]));
    assert_eq!((address.transport_stream_id, address.original_network_id, address.service_id), (4, 5, 6));
    let names: Vec<_> = lite.path().map(|n| (n.id, n.kind)).collect();
    assert_eq!(names, [(&b"one"[..], &b"fil"[..]), (b"", b"dir")]);
    assert_eq!(lite.initial_context(), b"there");
    assert_eq!(lite.extras().map(|e| (e.tag, e.data)).collect::<Vec<_>>(), [(0x05060708, &[][..])]);
    assert!(matches!(profiles.next(), Some(TaggedProfile::Opaque { tag: 0xDEADBEEF, data: b"any" })));
    assert!(profiles.next().is_none());
}

#[test]
fn what_is_written_is_what_was_read() {
    for octets in [rich(), J.to_vec(), vec![0; 8]] {
        let reference = Reference::read_whole(&octets).unwrap();
        assert_eq!(reference.length(), Ok(octets.len()));
        let mut out = vec![0xA5; octets.len() + 3];
        assert_eq!(reference.write(&mut out), Ok(octets.len()));
        assert_eq!(out[..octets.len()], octets);
        assert_eq!(out[octets.len()..], [0xA5; 3]);
        let mut little = vec![0xA5; octets.len() - 1];
        let why = reference.write(&mut little).unwrap_err();
        assert_eq!((why.number, why.place, why.first, why.second), (5, 0, octets.len() as u64, octets.len() as u64 - 1));
        assert_eq!(why.offset(), None, "a writing breaks nowhere in its source");
        assert!(little.iter().all(|octet| *octet == 0xA5));
    }
}

fn read(octets: &[u8]) -> Reference<'_> {
    Reference::read(octets).expect("accepted").0
}

fn hash(of: impl Hash) -> u64 {
    let mut state = DefaultHasher::new();
    of.hash(&mut state);
    state.finish()
}

#[test]
fn equal_is_what_says_the_same() {
    for whole in [rich(), J.to_vec(), vec![0; 8]] {
        let (one, other) = ([&whole[..], &[1]].concat(), [&whole[..], &[2]].concat());
        assert_eq!(read(&one), read(&other), "octets behind the reference");
        assert_eq!(hash(read(&one)), hash(read(&other)));
        let twice = [&whole[..], &whole].concat();
        assert_eq!(read(&twice), read(&twice[whole.len()..]), "the same octets elsewhere");
        assert_eq!(read(&twice), Reference::read_whole(&whole).unwrap());
    }
}

/// The seven constants of an address are not kept; every other octet of a reference that may change without a refusal changes what it says.
#[test]
fn each_octet_tells() {
    let whole = rich();
    let address = whole.windows(5).position(|five| five == [20, 0, 0, 0, 0]).unwrap() + 1;
    let constants = [0, 1, 6, 16, 17, 18, 19].map(|i| address + i);
    let mut unequal = 0;
    for at in 0..whole.len() {
        let mut changed = whole.clone();
        changed[at] ^= 0x40;
        let Ok((reference, _)) = Reference::read(&changed) else { continue };
        assert_eq!(reference == read(&whole), constants.contains(&at), "octet {at}");
        unequal += (reference != read(&whole)) as usize;
    }
    assert!(unequal > 60);
}

#[test]
fn other_profiles_differ() {
    let whole = rich();
    let opaque = whole.len() - 11;
    let mut fewer = whole[..opaque].to_vec();
    fewer[11] = 2;
    assert_ne!(read(&fewer), read(&whole), "a profile less");
    let swapped = |first: &[u8], second: &[u8]| [&[0, 0, 0, 0, 0, 0, 0, 2][..], first, second].concat();
    let (this, that) = ([0, 0, 0, 9, 0, 0, 0, 1, 5], [0, 0, 0, 9, 0, 0, 0, 1, 6]);
    assert_ne!(read(&swapped(&this, &that)), read(&swapped(&that, &this)), "another order");
    assert_eq!(read(&swapped(&this, &this)).profiles().next(), read(&swapped(&this, &that)).profiles().next());
    // J with a key of one octet.
    let key = |octet| [&J[..19], &[0x17], &J[20..26], &[10], &J[27..35], &[1, octet], &J[36..]].concat();
    assert_ne!(read(&key(0xAA)), read(&key(0xAB)), "another key");
    assert_ne!(read(&key(0xAA)), read(&J), "no key");
    // J with an extra component of one octet.
    let extra = |octet| [&J[..19], &[0x1C, 0, 3], &J[22..], &[1, 2, 3, 4, 1, octet]].concat();
    assert_ne!(read(&extra(5)), read(&extra(6)), "another extra");
    assert_ne!(read(&extra(5)), read(&J), "no extra");
    assert_eq!(read(&key(0xAA)).biop_profile(), read(&[&key(0xAA)[..], &[9]].concat()).biop_profile());
}

#[test]
fn what_is_shown_is_what_it_says() {
    let octets = rich();
    let shown = format!("{:02x?}", read(&octets));
    for part in [
        "Reference { type_id: [66, 69, 6c, 00], object_kind: File, profiles: [Biop(BiopProfile { object_location: ObjectLocation {",
        "object_key: [aa, bb] }, taps: [Tap { id: 01, use_: 16, association_tag: 05, selector: [00, 01, 80, 00, 00, 02, ff, ff, ff, ff] }, Tap {",
        "extras: [LiteComponent { tag: 1020304, data: [09, 08, 07] }] }), LiteOptions(LiteOptionsProfile { service_domain: NsapAddress {",
        "path: [NameComponent { id: [6f, 6e, 65], kind: [66, 69, 6c] }, NameComponent { id: [], kind: [64, 69, 72] }], initial_context: [",
        "Opaque { tag: deadbeef, data: [61, 6e, 79] }] }",
    ] {
        assert!(shown.contains(part), "{part}\nnot in\n{shown}");
    }
    let reference = read(&octets);
    let mut profiles = reference.profiles();
    profiles.nth(1);
    assert_eq!(format!("{profiles:x?}"), "[Opaque { tag: deadbeef, data: [61, 6e, 79] }]");
    assert_eq!(format!("{:?}", ShortName::read(&[1, 7, 0, 9]).unwrap().0), "ShortName { id: [7], kind: [] }");
}

#[test]
fn large_sources() {
    assert_eq!(refused(&vec![0; 65_536]), (6, 0, 65_536, 65_535));
    let mut nine = vec![0; 80];
    nine[7] = 9;
    assert_eq!(refused(&nine), (7, 40, 9, 8));
}

#[test]
fn short_names() {
    let octets = [3, b'a', b'b', b'c', 0];
    let (name, consumed) = ShortName::read(&octets).unwrap();
    assert_eq!((consumed, name.parts().id, name.parts().kind), (5, &b"abc"[..], &b""[..]));
    let mut out = [0; 6];
    assert_eq!(name.write(&mut out), Ok(5));
    assert_eq!(out, [3, b'a', b'b', b'c', 0, 0]);
    let equal = |one: &[u8], other: &[u8]| {
        let (one, other) = (ShortName::read(one).unwrap().0, ShortName::read(other).unwrap().0);
        assert!(one != other || hash(one) == hash(other));
        one == other
    };
    assert!(equal(&[1, 7, 1, 8, 1], &[1, 7, 1, 8, 2]));
    assert!(!equal(&[1, 7, 1, 8], &[1, 8, 1, 7]));
    assert!(!equal(&[2, 7, 8, 0], &[1, 7, 1, 8]));
    assert_eq!(
        ShortName::read(&[2, 1]).unwrap_err().to_string(),
        "too long: 2 octets declared, 1 available, at octet 1 (refusal 2)"
    );
    assert_eq!(
        ShortName::read(&[]).unwrap_err().to_string(),
        "cut off: a short name's id length, 1 octets needed, 0 there, at octet 0 (refusal 1)"
    );
}

/// J with one octet changed: number, place, where it broke, and what is said of it.
#[test]
fn where_it_broke() {
    for (at, octet, number, place, offset, said) in [
        (3, 5, 4, 33, 0, "out of range: the type id's length, at octet 0 (refusal 4)"),
        (20, 1, 3, 28, 20, "wrong: a BIOP profile's order octet, at octet 20 (refusal 3)"),
        (21, 1, 4, 34, 21, "out of range: a BIOP profile's component count, at octet 21 (refusal 4)"),
        (26, 8, 1, 7, 27, "cut off: an ObjectLocation's fixed fields, 16 octets needed, 15 there, at octet 27 (refusal 1)"),
        (39, 0x41, 3, 30, 36, "wrong: a ConnBinder's tag, at octet 36 (refusal 3)"),
        (40, 2, 2, 0, 41, "too long: 2 octets declared, 1 available, at octet 41 (refusal 2)"),
    ] {
        let mut octets = J.to_vec();
        octets[at] = octet;
        let why = Reference::read_whole(&octets).unwrap_err();
        assert_eq!((why.number, why.place, why.offset()), (number, place, Some(offset)));
        assert_eq!(why.to_string(), said);
        assert_eq!(Reference::read(&octets).unwrap_err(), why);
        if number >= 3 {
            let field = offset + if matches!(place, 30 | 33) { 4 } else { 1 };
            octets[field..].fill(0xA5);
            assert_eq!(Reference::read_whole(&octets).unwrap_err(), why, "nothing behind the field is to blame");
        }
    }
    let why = Reference::read(&vec![0; 65_536]).unwrap_err();
    assert_eq!((why.number, why.offset()), (6, None));
}

/// A type id of five octets, its gap at 9 to 11, and no profile.
const GAP: [u8; 16] = *b"\x00\x00\x00\x05abcde\xFF\xFF\xFF\x00\x00\x00\x00";

/// What both readings by a rule refuse octets with, and where they broke.
fn refused_by(rule: TypeIdRule, octets: &[u8]) -> (Refusal, Option<usize>) {
    let why = Reference::read_by(rule, octets).expect_err("refused");
    assert_eq!(Reference::read_whole_by(rule, octets).expect_err("refused"), why);
    (why, why.offset())
}

#[test]
fn type_ids_with_a_gap() {
    let (reference, consumed) = Reference::read_by(TypeIdRule::Gap, &GAP).unwrap();
    assert_eq!((reference.type_id(), reference.profiles().len(), consumed), (&b"abcde"[..], 0, 16));
    assert_eq!(Reference::read_whole_by(TypeIdRule::Gap, &GAP).unwrap(), reference);
    let (why, offset) = refused_by(TypeIdRule::Multiple, &GAP);
    assert_eq!((why.number, why.place, offset), (4, 33, Some(0)));
    assert_eq!(Reference::read(&GAP).unwrap_err(), why);
    assert_eq!(Reference::read_whole(&GAP).unwrap_err(), why);
    for at in 9..12 {
        let mut wrong = GAP;
        wrong[at] = 0;
        let (why, offset) = refused_by(TypeIdRule::Gap, &wrong);
        assert_eq!((why.number, why.place, why.first, why.second, offset), (3, 46, 0, 0, Some(9)));
        assert_eq!(why.to_string(), "wrong: the gap behind the type id, at octet 9 (refusal 3)");
        wrong[12..].fill(0xA5);
        assert_eq!(refused_by(TypeIdRule::Gap, &wrong).0, why, "nothing behind the gap is to blame");
        let (why, offset) = refused_by(TypeIdRule::Gap, &GAP[..at]);
        assert_eq!((why.number, why.place, why.first, why.second, offset), (1, 47, 12, at as u64, Some(9)));
    }
    let behind = [&GAP[..], &[0xFF]].concat();
    assert_eq!(Reference::read_by(TypeIdRule::Gap, &behind).unwrap(), (reference, 16));
    let why = Reference::read_whole_by(TypeIdRule::Gap, &behind).unwrap_err();
    assert_eq!((why.number, why.place, why.first, why.offset()), (1, 4, 1, Some(16)));
}

#[test]
fn a_gap_is_measured_and_written() {
    let reference = Reference::read_whole_by(TypeIdRule::Gap, &GAP).unwrap();
    let written = |rule, out: &mut [u8]| reference.write_by(rule, AddressWay::Constants, out);
    let mut out = [0xA5; 17];
    assert_eq!((reference.length_by(TypeIdRule::Gap), reference.length_by(TypeIdRule::Multiple)), (Ok(16), Ok(13)));
    let why = written(TypeIdRule::Multiple, &mut out).unwrap_err();
    assert_eq!((why.number, why.place, why.offset()), (4, 33, None));
    assert_eq!((reference.length(), reference.write(&mut out)), (Ok(13), Err(why)));
    let why = written(TypeIdRule::Gap, &mut out[..15]).unwrap_err();
    assert_eq!((why.number, why.place, why.first, why.second), (5, 0, 16, 15));
    assert_eq!(out, [0xA5; 17], "a refusal changes nothing");
    assert_eq!(written(TypeIdRule::Gap, &mut out), Ok(16));
    assert_eq!((&out[..16], out[16]), (&GAP[..], 0xA5));
}

/// `rich` with another type id, of fewer than 256 octets, and its gap.
fn rich_with(type_id: &[u8]) -> Vec<u8> {
    let mut octets = [&[0, 0, 0, type_id.len() as u8], type_id].concat();
    octets.resize(octets.len().next_multiple_of(4), 0xFF);
    octets.extend(&rich()[8..]);
    octets
}

#[test]
fn every_gap() {
    for length in 0..10 {
        let type_id = &b"abcdefghi"[..length];
        let octets = rich_with(type_id);
        let reference = Reference::read_whole_by(TypeIdRule::Gap, &octets).unwrap();
        assert_eq!(reference.type_id(), type_id);
        assert!(reference.profiles().eq(read(&rich()).profiles()));
        let mut anew = vec![0; octets.len()];
        assert_eq!(reference.length_by(TypeIdRule::Gap), Ok(octets.len()));
        assert_eq!(reference.write_by(TypeIdRule::Gap, AddressWay::Constants, &mut anew), Ok(octets.len()));
        assert_eq!(anew, octets);
        assert_eq!(Reference::read_whole(&octets).is_ok(), length % 4 == 0);
    }
}

#[test]
fn cut_short() {
    for (rule, octets) in [(TypeIdRule::Multiple, rich()), (TypeIdRule::Gap, rich()), (TypeIdRule::Gap, rich_with(b"abcde"))] {
        for length in 0..octets.len() {
            let (why, _) = refused_by(rule, &octets[..length]);
            assert!(matches!(why.number, 1 | 2), "{length} octets: {why}");
        }
        let (reference, consumed) = Reference::read_by(rule, &octets).unwrap();
        let behind = [&octets[..], b"whatever stood there before"].concat();
        assert_eq!(Reference::read_by(rule, &behind).unwrap(), (reference, consumed));
    }
}

/// The rule that is a multiple of 4 and the way with constants are what the functions without them do.
fn same_without(octets: &[u8]) {
    let (rule, way) = (TypeIdRule::Multiple, AddressWay::Constants);
    assert_eq!(Reference::read_by(rule, octets), Reference::read(octets));
    assert_eq!(Reference::read_whole_by(rule, octets), Reference::read_whole(octets));
    let Ok((reference, consumed)) = Reference::read(octets) else { return };
    let (mut out, mut other) = (vec![0xA5; consumed + 1], vec![0xA5; consumed + 1]);
    assert_eq!(reference.length_by(rule), reference.length());
    assert_eq!(reference.write_by(rule, way, &mut out), reference.write(&mut other));
    assert_eq!(out, other);
}

#[test]
fn questions() {
    assert_eq!(object_kind(b"dir\0"), ObjectKind::Directory);
    assert_eq!(object_kind(b"str\0"), ObjectKind::Stream);
    assert_eq!(object_kind(b"ste\0"), ObjectKind::StreamEvent);
    assert_eq!(object_kind(b"none"), ObjectKind::Unknown(*b"none"));
    assert_eq!(object_kind(b"dir"), ObjectKind::Unknown([0; 4]));
}

/// Each of the twenty octets changed to each other value: ten of them decide, and the other ten don't matter.
#[test]
fn dvb_addresses() {
    let address = [0, 0, 0, 0, 0, 9, 1, 0x00, 0x01, 0x5A, 0, 3, 0, 4, 0, 5, 0xFF, 0xFF, 0xFF, 0xFF];
    assert!(is_dvb_address(&address));
    for at in 0..20 {
        let matters = [0, 1, 6, 7, 8, 9, 16, 17, 18, 19].contains(&at);
        for change in 1..=255 {
            let mut changed = address;
            changed[at] ^= change;
            assert_eq!(is_dvb_address(&changed), !matters, "octet {at} is {}", changed[at]);
        }
    }
    for specifier in [[0x01, 0x5A, 0x00], [0x5A, 0x01, 0x00], [0; 3], [0xFF; 3]] {
        let mut changed = address;
        changed[7..10].copy_from_slice(&specifier);
        assert!(!is_dvb_address(&changed));
    }
}

/// Everything that can be asked of a reference, so that no octets make a safe call panic or read outside.
fn ask_all(octets: &[u8]) {
    same_without(octets);
    for rule in [TypeIdRule::Multiple, TypeIdRule::Gap] {
        ask_by(rule, octets);
    }
}

fn ask_by(rule: TypeIdRule, octets: &[u8]) {
    let Ok((reference, consumed)) = Reference::read_by(rule, octets) else { return };
    let mut sum = reference.type_id().iter().map(|o| *o as usize).sum::<usize>();
    for profile in reference.profiles() {
        match profile {
            TaggedProfile::Biop(body) => {
                sum += body.object_location().object_key.len();
                sum += body.taps().map(|t| t.selector.len() + t.numbers().is_some() as usize).sum::<usize>();
                sum += body.extras().map(|e| e.data.len()).sum::<usize>();
            }
            TaggedProfile::LiteOptions(body) => {
                sum += body.path().map(|n| n.id.len() + n.kind.len()).sum::<usize>();
                sum += body.initial_context().len() + body.extras().map(|e| e.data.len()).sum::<usize>();
            }
            TaggedProfile::Opaque { data, .. } => sum += data.len(),
        }
    }
    assert!(sum <= 255 * (octets.len() + 36));
    assert_eq!(reference.length_by(rule), Ok(consumed));
    let mut out = vec![0; consumed];
    assert_eq!(reference.write_by(rule, AddressWay::Constants, &mut out), Ok(consumed));
    assert_eq!(Reference::read_whole_by(rule, &out), Ok(reference));
}

#[test]
fn damaged_and_random_octets() {
    let mut state = 1u64;
    let mut octet = move || {
        state = state.wrapping_mul(6364136223846793005).wrapping_add(1442695040888963407);
        (state >> 56) as u8
    };
    for whole in [rich(), rich_with(b"a"), rich_with(b"abcdef")] {
        for end in 0..whole.len() {
            ask_all(&whole[..end]);
            for value in [0, 1, 2, 0x14, 0x7F, 0x80, 0xFF, octet()] {
                let mut damaged = whole.clone();
                damaged[end] = value;
                ask_all(&damaged);
            }
        }
    }
    for _ in 0..20_000 {
        let mut octets: Vec<u8> = (0..octet()).map(|_| octet() & octet()).collect();
        octets.splice(0..octets.len().min(4), [0, 0, 0, octet() & 4]);
        ask_all(&octets);
    }
}
