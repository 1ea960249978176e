//! Document 01's worked references, each with the line that must come: what the self-check runs.

use crate::answers::answer;
use crate::gap_cases::GAP;
use crate::listing::list;
use crate::readable::{describe, octets, request};
use crate::request::{take, Request};
use crate::where_cases::WHERE;

/// A case's name, what is asked, and the line that must come. Questions are readable requests, or `list` or `list-where` and a
/// cache, with names for some octets.
pub type Case = (&'static str, &'static str, &'static str);

/// J is document 01's reference; K the front of one whose second profile follows; L an ObjectLocation without a key and the tag of
/// a ConnBinder; N an address; G what K is, with a gap behind its type id.
const NAMED: [(&str, &str); 5] = [
    ("J", "00000004_73726700_00000001_49534F06_00000016_0002_49534F50_09_00000001_0002_01_00_00_49534F40_01_00"),
    ("K", "00000004_73726700_00000002_00000007_00000003_AABBCC"),
    ("L", "49534F50_09_00000001_0002_01_00_00_49534F40"),
    ("N", "0000_00000009_01_00015A_0003_0004_0005_FFFFFFFF"),
    ("G", "00000005_6162636465_FFFFFF_00000002_00000007_00000003_AABBCC"),
];

const CASES: &[Case] = &[
    ("P1", "leading src=-", "1 1 8 0 0"),
    ("P1 whole", "whole src=-", "1 1 8 0 0"),
    ("P2", "leading src=00*8", "0 0 0 0 8 0:4"),
    ("P2 whole", "whole src=00*8", "0 0 0 0 8 0:4"),
    ("P3", "leading src=00000003_00000000", "4 33 0 0 0"),
    ("P4", "leading src=00000004_73726700", "1 2 12 8 0"),
    ("P5", "leading src=00000008_00000000", "2 0 8 4 0"),
    ("P6", "leading src=00000000_00000001", "1 3 16 8 0"),
    ("P7", "leading src=J", "0 0 0 0 42 0:4 1:4 2:1 6:1 7:1 8:2 9:1 11:36"),
    ("P7 whole", "whole src=J", "0 0 0 0 42 0:4 1:4 2:1 6:1 7:1 8:2 9:1 11:36"),
    ("P7 kind", "kind src=73726700", "srg"),
    ("P7 with an octet behind it", "leading src=J_FF", "0 0 0 0 42 0:4 1:4 2:1 6:1 7:1 8:2 9:1 11:36"),
    ("P7 with an octet behind it, whole", "whole src=J_FF", "1 4 1 0 0"),
    (
        "P8",
        "leading src=00000004_73726700_00000001_49534F06_00000016_0001_49534F50_09_00000001_0002_01_00_00_49534F40_01_00",
        "4 34 0 0 0",
    ),
    (
        "P8 with order octet 01",
        "leading src=00000004_73726700_00000001_49534F06_00000016_0101_49534F50_09_00000001_0002_01_00_00_49534F40_01_00",
        "3 28 0 0 0",
    ),
    (
        "P9",
        "leading src=00000004_73726700_00000001_49534F06_00000016_0002_49534F50_08_00000001_0002_01_00_00_49534F40_01_00",
        "1 7 16 15 0",
    ),
    (
        "P10",
        "leading src=00000004_73726700_00000001_49534F06_00000017_0002_49534F50_09_00000001_0002_01_00_00_49534F40_02_00_00",
        "1 12 1 0 0",
    ),
    ("P11", "tap use=0016 src=0001_80000002_FFFFFFFF", "2147483650 4294967295"),
    ("P11, first nine octets", "tap use=0016 src=0001_80000002_FFFFFF", "none none"),
    ("P11, use 0017", "tap use=0017 src=0001_80000002_FFFFFFFF", "none none"),
    (
        "LiteOptions body of 39 octets",
        "whole src=00000000_00000001_49534F05_00000027_0001_49534F46_0000001D_14_0000_00000009_01_00015A_0003_0004_0005_FFFFFFFF_00000000_00000000",
        "0 0 0 0 55 0:4 2:1 6:2 7:9 8:346 9:3 10:4 11:5 13:55",
    ),
    (
        "the same with name count FFFFFFFF",
        "whole src=00000000_00000001_49534F05_00000027_0001_49534F46_0000001D_14_0000_00000009_01_00015A_0003_0004_0005_FFFFFFFF_FFFFFFFF_00000000",
        "1 21 43 39 0",
    ),
    ("36 taps with empty selectors, length", "length table=2:1,3:36,6:1,13:36 src=-", "0 0 0 0 290"),
    (
        "36 taps with empty selectors, written",
        "write table=2:1,3:36,6:1,13:36 out=291 src=-",
        "0 0 0 0 290 0000000000000001_49534f06_0000011200_02_49534f50_09_000000000000000000_49534f40_fd_24_00*252_a5",
    ),
    (
        "36 taps read back",
        "whole src=0000000000000001_49534f06_0000011200_02_49534f50_09_000000000000000000_49534f40_fd_24_00000000000000*36",
        "0 0 0 0 290 0:4 2:1 3:36 6:1 11:32 13:36 TAPS",
    ),
    (
        "one selector of 2 octets",
        "write table=2:1,3:36,6:1,13:36,90:2 out=292 src=BBCC",
        "0 0 0 0 292 0000000000000001_49534f06_0000011400_02_49534f50_09_000000000000000000_49534f40_ff_24_000000000000_02_bbcc_00*245",
    ),
    ("one selector of 3 octets", "write table=2:1,3:36,6:1,13:36,90:3 out=300 src=BBCCDD", "2 0 256 255 0 a5*300"),
    (
        "key of 246 octets",
        "write table=2:1,6:1,12:246 out=284 src=77*246",
        "0 0 0 0 284 0000000000000001_49534f06_0000010c00_02_49534f50_ff_0000000000000000f6_77*246_49534f40_01_00",
    ),
    ("key of 247 octets", "write table=2:1,6:1,12:247 out=285 src=77*247", "2 0 256 255 0 a5*285"),
    (
        "two BIOP profiles with 37 taps",
        "whole src=0000000000000002_49534f06_000000940002_49534f50_09_000000000000000000_49534f40_7f_12_00000000000000*18_49534f06_0000009B0002_49534f50_09_000000000000000000_49534f40_86_13_00000000000000*19",
        "7 41 37 36 0",
    ),
    ("nine empty opaque profiles", "leading src=00000000_00000009_0000000700000000*9", "7 40 9 8 0"),
    ("the same octets with count 10", "leading src=00000000_0000000A_0000000700000000*9", "1 3 88 80 0"),
    (
        "cache listing",
        "list 4F52_002A_J_4F52_0008_00000003_00000000",
        "record bytes kind profiles refusal\n1 42 srg 1 0\n2 8 - - 4\nend 2\n",
    ),
    ("empty cache", "list -", "record bytes kind profiles refusal\nend 0\n"),
    ("remainder under four octets", "list 4F52_0000_4F", "record bytes kind profiles refusal\n1 0 - - 1\nbroken at 4\n"),
    ("wrong mark", "list 4F53_0000", "record bytes kind profiles refusal\nbroken at 0\n"),
    ("source of 65,536 octets", "leading src=00*65536", "6 0 65536 65535 0"),
    ("source of 65,535 octets", "leading src=00*65535", "0 0 0 0 8 0:4"),
    ("view that wraps at 32 bits", "write table=0:4294967295,1:2 out=2 src=0000", "9 0 4294967295 2 0 a5a5"),
    ("empty view behind the source", "length table=0:3 src=0000", "9 0 3 0 0"),
    ("empty view at the source's end", "length table=0:2 src=0000", "0 0 0 0 8"),
    ("sums that wrap at 32 bits", "length table=2:2,6:1,13:4294967295,16:1,23:1 src=-", "8 41 0 0 0"),
    ("output too small by one", "write table=1:4 out=11 src=64697200", "5 0 12 11 0 a5*11"),
    ("type id of 5 octets", "write table=1:5 out=13 src=00*5", "4 33 0 0 0 a5*13"),
    ("image over 65,535", "length table=2:1,9:65520 src=00*65520", "10 0 65536 65535 0"),
    ("8-bit name", "read-name src=02_6162_01_63_FF", "0 0 0 0 5 1 2 4 1"),
    ("8-bit name written", "write-name id=0+2 kind=2+1 out=6 src=616263", "0 0 0 0 5 0261620163a5"),
    ("8-bit id of 256", "write-name id=0+256 kind=0+300 out=600 src=00*300", "2 0 256 255 0 a5*600"),
    ("8-bit kind of 256", "write-name id=0+255 kind=0+256 out=600 src=00*300", "2 0 256 255 0 a5*600"),
    ("first BIOP profile", "first table=2:3,6:2,26:1", "0 0 0 0 2"),
    ("no BIOP profile", "first table=2:2,6:2,26:1", "0 0 0 0 none"),
    ("first BIOP profile, nine used", "first table=2:9,6:1", "8 40 0 0 none"),
    ("unknown kind", "kind src=73726701", "73726701"),
    ("kind of five octets", "kind src=7372670000", "00000000"),
    ("DVB address", "address src=0000_00000009_01_00015A_0003_0004_0005_FFFFFFFF", "yes"),
    ("another reserved field", "address src=0000_00000009_01_00015A_0003_0004_0005_FFFFFFFE", "no"),
    ("another organisation", "address src=0000_00000009_01_00015B_0003_0004_0005_FFFFFFFF", "no"),
    ("no organisation", "address src=0000_00000009_01_000000_0003_0004_0005_FFFFFFFF", "no"),
    ("DVB's number with its octets shifted", "address src=0000_00000009_01_015A00_0003_0004_0005_FFFFFFFF", "no"),
    ("the ten octets that don't matter", "address src=0000_FEDCBA98_01_00015A_7654_3210_0000_FFFFFFFF", "yes"),
];

/// The expected line in full: octets repeated, groups joined, and the 36 empty selectors of 7 octets each from offset 45 on.
fn expectation(text: &str) -> String {
    let selectors: Vec<String> = (0..36).map(|tap| format!("{}:{}", 89 + 5 * tap, 45 + 7 * tap)).collect();
    let words = text.split(' ').map(|word| match word {
        "TAPS" => selectors.join(" "),
        _ if word.contains('*') || word.contains('_') => octets(word).iter().map(|octet| format!("{octet:02x}")).collect(),
        _ => word.to_string(),
    });
    words.collect::<Vec<String>>().join(" ")
}

/// The line that comes: the request goes through its octets, as it does on the way from a file.
fn outcome(question: &str) -> String {
    let question = NAMED.iter().fold(question.to_string(), |text, (name, octets)| text.replace(name, octets));
    for (sort, tells_where) in [("list ", false), ("list-where ", true)] {
        if let Some(cache) = question.strip_prefix(sort) {
            return list(&octets(cache), tells_where);
        }
    }
    let mut sent = Vec::new();
    request(&question).put(&mut sent);
    let Ok((taken, _)) = take(&sent) else { return "bad request".to_string() };
    assert_readable(&taken);
    let mut line = Vec::new();
    answer(&taken, &mut line);
    String::from_utf8_lossy(&line).into_owned()
}

/// A request's description describes that request and no other.
fn assert_readable(taken: &Request) {
    assert!(request(&describe(taken)) == *taken, "a description does not give its request back");
}

/// The same expectation with its last sign changed, so that the case must fail.
fn mutated(expected: &str) -> String {
    let mut changed = expected.to_string();
    let last = changed.pop();
    changed.push(if last == Some('0') { '1' } else { '0' });
    changed
}

fn all() -> impl Iterator<Item = &'static Case> {
    CASES.iter().chain(WHERE).chain(GAP)
}

/// Runs all cases, with the expectation of case number `mutate` changed; the names of those that fail, with what came.
pub fn failures(mutate: Option<usize>) -> Vec<String> {
    let mut failed = Vec::new();
    for (index, (name, question, expected)) in all().enumerate() {
        let expected = expectation(expected);
        let expected = if mutate == Some(index) { mutated(&expected) } else { expected };
        let got = outcome(question);
        if got != expected {
            failed.push(format!("case {index}, {name}: expected {expected:?}, got {got:?}"));
        }
    }
    failed
}

pub fn count() -> usize {
    all().count()
}
