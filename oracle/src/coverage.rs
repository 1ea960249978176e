//! Counts which answers were met, and says which of those that must be met were not.

use crate::answers::Answered;
use crate::place;
use crate::request::{Request, Rule};
use std::collections::BTreeMap;
use std::fmt::Write;

/// An op and the rule that it is asked under, 0 for none.
type Asked = (usize, usize);

/// What was asked, refusal number (0 for accepted) and place.
type Met = (Asked, usize, usize);

/// The rule (0 for none), refusal number and place of a reading that tells where it broke, far from the slice's start.
type Far = (usize, usize, usize);

/// What stands for no rule, and the two rules.
const NO_RULE: usize = 0;
const MULTIPLE: usize = Rule::Multiple as usize;
const GAP: usize = Rule::Gap as usize;

#[derive(Default)]
pub struct Coverage {
    requests: usize,
    met: BTreeMap<Met, usize>,
    far: BTreeMap<Far, usize>,
    dirty: usize,
    fewest_changed: Option<usize>,
}

/// Refusals by number and place, in answer to one question.
fn given(asked: Asked, refusals: &[(usize, usize)]) -> Vec<Met> {
    refusals.iter().map(|(number, place)| (asked, *number, *place)).collect()
}

/// What profile data can be refused with.
fn inside() -> Vec<(usize, usize)> {
    let cut = (5..=25).map(|place| (1, place));
    let wrong = (28..=32).map(|place| (3, place));
    let range = (34..=36).map(|place| (4, place));
    [(2, 0)].into_iter().chain(cut).chain(wrong).chain(range).collect()
}

/// What reading a reference can give: leftover behind it only for the whole slice, the type id's length or its gap by the rule.
fn reading(asked: Asked) -> Vec<Met> {
    let (op, rule) = asked;
    let mut refusals = inside();
    refusals.extend([(0, 0), (6, 0), (1, 1), (1, 2), (1, 3), (7, 40), (7, 41), (7, 42), (7, 43)]);
    if [2, 12, 15].contains(&op) {
        refusals.push((1, place::REFERENCE_LEFTOVER));
    }
    if rule == GAP {
        refusals.extend([(1, place::GAP), (3, place::GAP_VALUE)]);
    } else {
        refusals.push((4, place::TYPE_ID_LENGTH));
    }
    given(asked, &refusals)
}

fn measuring(asked: Asked) -> Vec<Met> {
    let counts = (40..=43).map(|place| (8, place));
    let views = [0, 40, 41, 42, 43].map(|place| (9, place));
    let refusals: Vec<_> = counts.chain(views).chain([(0, 0), (6, 0), (10, 0)]).collect();
    given(asked, &refusals)
}

fn writing(asked: Asked) -> Vec<Met> {
    let (_, rule) = asked;
    let mut all = measuring(asked);
    all.extend(given(asked, &[(2, 0), (5, 0)]));
    if rule != GAP {
        all.extend(given(asked, &[(4, place::TYPE_ID_LENGTH)]));
    }
    all
}

/// All that can be met, and therefore must be.
fn expected() -> Vec<Met> {
    let naming = [(0, 0), (1, 26), (1, 27), (2, 0), (6, 0)];
    let named = [(0, 0), (2, 0), (5, 0), (6, 0), (9, 0)];
    let mut all = Vec::new();
    for op in [1, 2, 11, 12] {
        all.extend(reading((op, NO_RULE)));
    }
    all.extend([measuring((3, NO_RULE)), writing((4, NO_RULE))].concat());
    for (op, refusals) in [(7, naming), (13, naming), (8, named)] {
        all.extend(given((op, NO_RULE), &refusals));
    }
    for op in [5, 6, 9, 10] {
        all.push(((op, NO_RULE), 0, 0));
    }
    all.push(((9, NO_RULE), 8, 40));
    for rule in [MULTIPLE, GAP] {
        all.extend([reading((14, rule)), reading((15, rule)), measuring((16, rule)), writing((17, rule))].concat());
    }
    all
}

/// All that must be met far from the slice's start.
fn expected_far() -> Vec<Far> {
    let all = |rule| inside().into_iter().map(move |(number, place)| (rule, number, place));
    [NO_RULE, MULTIPLE, GAP].into_iter().flat_map(all).collect()
}

fn rule(request: &Request) -> usize {
    request.rule().map_or(NO_RULE, |rule| rule as usize)
}

/// Whether the reading broke in the data of a profile that has another one before it, and a type id that isn't empty, under rule 2
/// with a gap: an offset that leaves out any of them is wrong there, and may be right elsewhere.
fn is_far(request: &Request, answered: &Answered) -> bool {
    let (Request::Where { source, .. } | Request::ReadBy { source, .. }) = request else { return false };
    if answered.origin == 0 {
        return false;
    }
    let type_id = u32::from_be_bytes([source[0], source[1], source[2], source[3]]) as usize;
    let first_data = 16 + type_id.next_multiple_of(4);
    let has_front = if rule(request) == GAP { type_id % 4 > 0 } else { type_id > 0 };
    has_front && answered.origin > first_data
}

/// The rule in words, as they follow what was asked.
fn under(rule: usize) -> String {
    match rule {
        NO_RULE => String::new(),
        _ => format!(" under rule {rule}"),
    }
}

/// Counts one more; whether it is the first.
fn met_first(times: &mut usize) -> bool {
    *times += 1;
    *times == 1
}

impl Coverage {
    /// Counts an answer; whether it is the first of its sort.
    pub fn count(&mut self, request: &Request, answered: &Answered) -> bool {
        let (number, place) = answered.refusal.map_or((0, 0), |refusal| (refusal.number, refusal.place));
        self.requests += 1;
        let asked = (request.op(), rule(request));
        let mut first = met_first(self.met.entry((asked, number, place)).or_default());
        if is_far(request, answered) {
            first |= met_first(self.far.entry((rule(request), number, place)).or_default());
        }
        if !answered.dirty.is_empty() {
            let changed = answered.changed();
            self.dirty += 1;
            self.fewest_changed = Some(self.fewest_changed.map_or(changed, |least| least.min(changed)));
        }
        first
    }

    /// What must be met and was not, and what was met and can't be.
    pub fn faults(&self) -> Vec<String> {
        let expected = expected();
        let shown = |what: &str, ((op, rule), number, place): &Met| {
            format!("{what}: op {op}{}, number {number}, place {place}", under(*rule))
        };
        let missing = expected.iter().filter(|met| !self.met.contains_key(met)).map(|met| shown("not met", met));
        let strange = self.met.keys().filter(|met| !expected.contains(met)).map(|met| shown("met, and not expected", met));
        let near = expected_far().into_iter().filter(|far| !self.far.contains_key(far));
        let near = near
            .map(|(rule, number, place)| format!("not met in a later profile{}: number {number}, place {place}", under(rule)));
        missing.chain(strange).chain(near).collect()
    }

    fn total(&self, keep: impl Fn(&Met) -> bool) -> usize {
        self.met.iter().filter(|(met, _)| keep(met)).map(|(_, times)| times).sum()
    }

    /// Requests of each op, refusals by number, and refusals by place.
    pub fn report(&self) -> String {
        let mut text = format!("requests {}\n", self.requests);
        let mut row = |name: &str, numbers: Vec<usize>, times: &dyn Fn(usize) -> usize| {
            let shown: Vec<String> = numbers.into_iter().map(|number| format!("{number}:{}", times(number))).collect();
            let _ = writeln!(text, "{name} {}", shown.join(" "));
        };
        row("by op", (1..=17).collect(), &|op| self.total(|met| met.0 .0 == op));
        row("by rule (0 none)", vec![NO_RULE, MULTIPLE, GAP], &|rule| self.total(|met| met.0 .1 == rule));
        row("by refusal (0 accepted)", (0..=10).collect(), &|number| self.total(|met| met.1 == number));
        let places = (0..=36).chain(40..=43).chain(46..=47);
        row("by place (0 none)", places.collect(), &|place| self.total(|met| met.1 != 0 && met.2 == place));
        for (rule, ops) in [(NO_RULE, "11, 12"), (MULTIPLE, "14, 15"), (GAP, "14, 15")] {
            let name = format!("ops {ops}{} in a later profile, by place", under(rule));
            row(&name, inside().iter().map(|far| far.1).collect(), &|place| {
                self.far.iter().filter(|(far, _)| (far.0, far.2) == (rule, place)).map(|(_, times)| times).sum()
            });
        }
        if let Some(fewest) = self.fewest_changed {
            let _ = writeln!(
                text,
                "refused writings in which the Rust had changed the output: {}, fewest octets {fewest}",
                self.dirty
            );
        }
        text
    }
}
