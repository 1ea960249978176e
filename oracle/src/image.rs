//! A second opinion on lengths and writings, written from documents 01 and 02 and not from the Rust. The image is put together
//! field after field, straight from a table's numbers, before anything is asked of its length.

use crate::model::{ADDRESS, BIOP, CONN_BINDER, LITE_OPTIONS, LONGEST, OBJECT_LOCATION, SERVICE_LOCATION};
use crate::place;
use crate::refusal::{plain, Refusal};
use crate::request::Rule;
use crate::table::Table;

/// An image in the making, from a table whose counts and views have been checked.
struct Image<'a> {
    table: &'a Table,
    source: &'a [u8],
    octets: Vec<u8>,
    /// Where the next tap, name and extra stand in the table.
    taps: usize,
    names: usize,
    extras: usize,
    /// The first length that its field can't hold, and the most that it holds.
    too_long: Option<[usize; 2]>,
}

impl<'a> Image<'a> {
    fn number(&self, at: usize) -> usize {
        self.table.0[at] as usize
    }

    /// A big-endian number in so many octets.
    fn put(&mut self, width: usize, number: usize) {
        (0..width).rev().for_each(|place| self.octets.push((number >> (8 * place)) as u8));
    }

    /// Numbers of the table, one after another, in so many octets each.
    fn fields(&mut self, widths: &[usize], at: usize) {
        widths.iter().enumerate().for_each(|(index, width)| self.put(*width, self.number(at + index)));
    }

    /// The octets under a view.
    fn view(&mut self, at: usize) {
        let [offset, length] = [self.number(at), self.number(at + 1)];
        self.octets.extend_from_slice(&self.source[offset..offset + length]);
    }

    /// The octets under a view behind their length of so many octets.
    fn counted(&mut self, width: usize, at: usize) {
        self.put(width, self.number(at + 1));
        self.view(at);
    }

    /// A tag, a length of so many octets, and contents that should have no more octets than it can say.
    fn tagged(&mut self, tag: usize, width: usize, contents: impl FnOnce(&mut Self)) {
        self.put(4, tag);
        let before = std::mem::take(&mut self.octets);
        contents(self);
        let inside = std::mem::replace(&mut self.octets, before);
        let most = (1 << (8 * width)) - 1;
        if inside.len() > most {
            self.too_long.get_or_insert([inside.len(), most]);
        }
        self.put(width, inside.len());
        self.octets.extend(inside);
    }

    fn extras(&mut self, count: usize) {
        for _ in 0..count {
            let at = self.extras;
            self.tagged(self.number(at), 1, |image| image.view(at + 1));
            self.extras += 3;
        }
    }

    fn tap(&mut self) {
        self.fields(&[2, 2, 2], self.taps);
        self.counted(1, self.taps + 3);
        self.taps += 5;
    }

    fn biop(&mut self, at: usize) {
        let [taps, extras] = [self.number(at + 7), self.number(at + 8)];
        self.put(1, 0);
        self.put(1, 2 + extras);
        self.tagged(OBJECT_LOCATION, 1, |image| {
            image.fields(&[4, 2, 1, 1], at + 1);
            image.counted(1, at + 5);
        });
        self.tagged(CONN_BINDER, 1, |image| {
            image.put(1, taps);
            (0..taps).for_each(|_| image.tap());
        });
        self.extras(extras);
    }

    fn name(&mut self) {
        self.counted(4, self.names);
        self.counted(4, self.names + 2);
        self.names += 4;
    }

    /// The address with its seven constant octets.
    fn address(&mut self, at: usize) {
        self.put(1, ADDRESS);
        self.put(2, 0);
        self.fields(&[4], at + 1);
        self.put(1, 1);
        self.fields(&[3, 2, 2, 2], at + 2);
        self.put(4, 0xFFFF_FFFF);
    }

    fn lite_options(&mut self, at: usize) {
        let [names, extras] = [self.number(at + 6), self.number(at + 9)];
        self.put(1, 0);
        self.put(1, 1 + extras);
        self.tagged(SERVICE_LOCATION, 4, |image| {
            image.address(at);
            image.put(4, names);
            (0..names).for_each(|_| image.name());
            image.counted(4, at + 7);
        });
        self.extras(extras);
    }

    fn profile(&mut self, at: usize) {
        match self.number(at) {
            1 => self.tagged(BIOP, 4, |image| image.biop(at)),
            2 => self.tagged(LITE_OPTIONS, 4, |image| image.lite_options(at)),
            _ => self.tagged(self.number(at + 1), 4, |image| image.view(at + 2)),
        }
    }

    fn reference(&mut self, rule: Rule) {
        self.counted(4, 0);
        if rule == Rule::Gap {
            // The length field before the type id has four octets: all up to the gap's end are a multiple of 4, too.
            self.octets.resize(self.octets.len().next_multiple_of(4), 0xFF);
        }
        let profiles = self.number(2);
        self.put(4, profiles);
        (0..profiles).for_each(|index| self.profile(6 + 10 * index));
    }
}

/// The image under a rule, or refusal 10.
fn image<'a>(rule: Rule, table: &'a Table, source: &'a [u8]) -> Result<Image<'a>, Refusal> {
    let (octets, [taps, names, extras]) = (Vec::new(), [86, 266, 394]);
    let mut image = Image { table, source, octets, taps, names, extras, too_long: None };
    image.reference(rule);
    let length = image.octets.len();
    if length > LONGEST {
        return Err(Refusal { number: 10, place: place::DATA, first: length, second: LONGEST });
    }
    Ok(image)
}

pub fn length(rule: Rule, table: &Table, source: &[u8]) -> Result<usize, Refusal> {
    Ok(image(rule, table, source)?.octets.len())
}

/// What is written into an output of so many octets.
pub fn write(rule: Rule, table: &Table, source: &[u8], room: usize) -> Result<Vec<u8>, Refusal> {
    let image = image(rule, table, source)?;
    let length = image.octets.len();
    if length > room {
        return Err(Refusal { number: 5, place: place::DATA, first: length, second: room });
    }
    if rule == Rule::Multiple && image.number(1) % 4 > 0 {
        return Err(plain(4, place::TYPE_ID_LENGTH));
    }
    match image.too_long {
        Some([first, second]) => Err(Refusal { number: 2, place: place::DATA, first, second }),
        None => Ok(image.octets),
    }
}
