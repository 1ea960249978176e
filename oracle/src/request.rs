//! Requests as octets: what each op is followed by, taken from the front of an input and put behind an output.

use crate::table::{Table, NUMBERS};

/// The most octets of a source and of an output.
pub const MOST: usize = 70_000;

/// What a slice is read as.
#[derive(Clone, Copy, Debug, PartialEq, Eq)]
pub enum Reading {
    Leading,
    Whole,
    Name,
}

/// What type ids a reference may have: those of a multiple of 4 octets, or any, with a gap behind them. As octets 1 and 2.
#[derive(Clone, Copy, Debug, PartialEq, Eq)]
pub enum Rule {
    Multiple = 1,
    Gap = 2,
}

impl Rule {
    pub fn of(octet: u8) -> Option<Rule> {
        [Rule::Multiple, Rule::Gap].into_iter().find(|rule| *rule as u8 == octet)
    }
}

/// How addresses are written: with document 01's constants. As octet 1.
#[derive(Clone, Copy, Debug, PartialEq, Eq)]
pub enum Way {
    Constants = 1,
}

impl Way {
    pub fn of(octet: u8) -> Option<Way> {
        [Way::Constants].into_iter().find(|way| *way as u8 == octet)
    }
}

/// What is asked; `Where` is a reading whose line tells where it broke, and `..By` is asked under a rule for type ids.
#[derive(Clone, PartialEq, Eq)]
pub enum Request {
    Read { whole: bool, source: Vec<u8> },
    Length { table: Table, source: Vec<u8> },
    Write { table: Table, room: usize, source: Vec<u8> },
    Kind { source: Vec<u8> },
    Tap { use_: u16, selector: Vec<u8> },
    ReadName { source: Vec<u8> },
    WriteName { id: (u32, u32), kind: (u32, u32), room: usize, source: Vec<u8> },
    First { table: Table },
    Address { octets: [u8; 20] },
    Where { reading: Reading, source: Vec<u8> },
    ReadBy { rule: Rule, whole: bool, source: Vec<u8> },
    LengthBy { rule: Rule, table: Table, source: Vec<u8> },
    WriteBy { rule: Rule, way: Way, table: Table, room: usize, source: Vec<u8> },
}

/// Why no request could be taken.
pub enum Stop {
    /// The input ends inside the request.
    Cut,
    /// Another op, rule or way, a length above the most, a number wider than its field, or an unknown sort.
    Bad,
}

struct Input<'a> {
    rest: &'a [u8],
}

impl<'a> Input<'a> {
    fn octets(&mut self, count: usize) -> Result<&'a [u8], Stop> {
        let (octets, rest) = self.rest.split_at_checked(count).ok_or(Stop::Cut)?;
        self.rest = rest;
        Ok(octets)
    }

    fn octet(&mut self) -> Result<u8, Stop> {
        Ok(self.octets(1)?[0])
    }

    fn rule(&mut self) -> Result<Rule, Stop> {
        Rule::of(self.octet()?).ok_or(Stop::Bad)
    }

    fn way(&mut self) -> Result<Way, Stop> {
        Way::of(self.octet()?).ok_or(Stop::Bad)
    }

    fn number(&mut self) -> Result<u32, Stop> {
        Ok(u32::from_be_bytes(self.octets(4)?.try_into().expect("four octets")))
    }

    fn size(&mut self) -> Result<usize, Stop> {
        let size = self.number()? as usize;
        if size > MOST {
            Err(Stop::Bad)
        } else {
            Ok(size)
        }
    }

    fn source(&mut self) -> Result<Vec<u8>, Stop> {
        let size = self.size()?;
        Ok(self.octets(size)?.to_vec())
    }

    fn view(&mut self) -> Result<(u32, u32), Stop> {
        Ok((self.number()?, self.number()?))
    }

    fn table(&mut self) -> Result<Table, Stop> {
        let octets = self.octets(4 * NUMBERS)?;
        let mut table = Table::empty();
        for (number, four) in table.0.iter_mut().zip(octets.chunks_exact(4)) {
            *number = u32::from_be_bytes(four.try_into().expect("four octets"));
        }
        if table.fits() {
            Ok(table)
        } else {
            Err(Stop::Bad)
        }
    }

    fn request(&mut self) -> Result<Request, Stop> {
        Ok(match self.octet()? {
            1 => Request::Read { whole: false, source: self.source()? },
            2 => Request::Read { whole: true, source: self.source()? },
            3 => Request::Length { table: self.table()?, source: self.source()? },
            4 => Request::Write { table: self.table()?, room: self.size()?, source: self.source()? },
            5 => Request::Kind { source: self.source()? },
            6 => {
                let use_ = u16::from_be_bytes(self.octets(2)?.try_into().expect("two octets"));
                Request::Tap { use_, selector: self.source()? }
            }
            7 => Request::ReadName { source: self.source()? },
            8 => Request::WriteName { id: self.view()?, kind: self.view()?, room: self.size()?, source: self.source()? },
            9 => Request::First { table: self.table()? },
            10 => Request::Address { octets: self.octets(20)?.try_into().expect("twenty octets") },
            11 => Request::Where { reading: Reading::Leading, source: self.source()? },
            12 => Request::Where { reading: Reading::Whole, source: self.source()? },
            13 => Request::Where { reading: Reading::Name, source: self.source()? },
            14 => Request::ReadBy { rule: self.rule()?, whole: false, source: self.source()? },
            15 => Request::ReadBy { rule: self.rule()?, whole: true, source: self.source()? },
            16 => Request::LengthBy { rule: self.rule()?, table: self.table()?, source: self.source()? },
            17 => {
                let (rule, way) = (self.rule()?, self.way()?);
                Request::WriteBy { rule, way, table: self.table()?, room: self.size()?, source: self.source()? }
            }
            _ => return Err(Stop::Bad),
        })
    }
}

/// The request at the front of a non-empty input, and how many octets it has.
pub fn take(input: &[u8]) -> Result<(Request, usize), Stop> {
    let mut left = Input { rest: input };
    let request = left.request()?;
    Ok((request, input.len() - left.rest.len()))
}

fn put_number(out: &mut Vec<u8>, number: usize) {
    out.extend_from_slice(&(number as u32).to_be_bytes());
}

fn put_source(out: &mut Vec<u8>, source: &[u8]) {
    put_number(out, source.len());
    out.extend_from_slice(source);
}

fn put_table(out: &mut Vec<u8>, table: &Table) {
    table.0.iter().for_each(|number| out.extend_from_slice(&number.to_be_bytes()));
}

impl Request {
    pub fn op(&self) -> usize {
        match self {
            Request::Read { whole: false, .. } => 1,
            Request::Read { whole: true, .. } => 2,
            Request::Length { .. } => 3,
            Request::Write { .. } => 4,
            Request::Kind { .. } => 5,
            Request::Tap { .. } => 6,
            Request::ReadName { .. } => 7,
            Request::WriteName { .. } => 8,
            Request::First { .. } => 9,
            Request::Address { .. } => 10,
            Request::Where { reading: Reading::Leading, .. } => 11,
            Request::Where { reading: Reading::Whole, .. } => 12,
            Request::Where { reading: Reading::Name, .. } => 13,
            Request::ReadBy { whole: false, .. } => 14,
            Request::ReadBy { whole: true, .. } => 15,
            Request::LengthBy { .. } => 16,
            Request::WriteBy { .. } => 17,
        }
    }

    /// The rule that it names, if it does.
    pub fn rule(&self) -> Option<Rule> {
        match self {
            Request::ReadBy { rule, .. } | Request::LengthBy { rule, .. } | Request::WriteBy { rule, .. } => Some(*rule),
            _ => None,
        }
    }

    /// The way to write that it names, if it does.
    fn way(&self) -> Option<Way> {
        match self {
            Request::WriteBy { way, .. } => Some(*way),
            _ => None,
        }
    }

    /// Puts the request's octets behind `out`.
    pub fn put(&self, out: &mut Vec<u8>) {
        out.push(self.op() as u8);
        out.extend(self.rule().map(|rule| rule as u8));
        out.extend(self.way().map(|way| way as u8));
        match self {
            Request::Read { source, .. }
            | Request::Kind { source }
            | Request::ReadName { source }
            | Request::Where { source, .. }
            | Request::ReadBy { source, .. } => put_source(out, source),
            Request::Length { table, source } | Request::LengthBy { table, source, .. } => {
                put_table(out, table);
                put_source(out, source);
            }
            Request::Write { table, room, source } | Request::WriteBy { table, room, source, .. } => {
                put_table(out, table);
                put_number(out, *room);
                put_source(out, source);
            }
            Request::Tap { use_, selector } => {
                out.extend_from_slice(&use_.to_be_bytes());
                put_source(out, selector);
            }
            Request::WriteName { id, kind, room, source } => {
                for number in [id.0, id.1, kind.0, kind.1] {
                    put_number(out, number as usize);
                }
                put_number(out, *room);
                put_source(out, source);
            }
            Request::First { table } => put_table(out, table),
            Request::Address { octets } => out.extend_from_slice(octets),
        }
    }
}
