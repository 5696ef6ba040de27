//! A schema as bytes of an exchange file, and a file read back (02, Q-3). One schema has one file. Which file is well
//! formed is decided by its parts, and how much of another one is a start of some well-formed file by a search over all
//! that may follow.
#![forbid(unsafe_code)]

use crate::base::{is_good, is_used, name_in};
use crate::schema::{Application, End, Modes, Name, Presence, Schema, Sds, Side, Type};
use std::collections::{BTreeMap, BTreeSet};

/// The sections in their order, what an entry of each is called for short, its width, and how many a base has room for.
pub const SECTIONS: [&str; 6] = ["SDSs", "types", "parents", "presences", "applications", "ends"];
pub const WIDTHS: [usize; 6] = [1 + Schema::NAME, 4, 2, 2 + Schema::NAME + 2, 3, 4];
pub const ROOM: [usize; 6] = [
    Schema::SDSS,
    Schema::TYPES,
    Schema::TYPES * Schema::PARENTS,
    Schema::PRESENCES,
    Schema::APPLICATIONS,
    Schema::ENDS,
];

// Their places.
pub const SDS: usize = 0;
pub const TYPE: usize = 1;
pub const PARENT: usize = 2;
pub const PRESENCE: usize = 3;
pub const APPLICATION: usize = 4;
pub const END: usize = 5;

/// The bytes of a count.
pub const COUNT: usize = 2;

/// What `cf_file_most` tells: every section at its limit, 4 parents a type.
pub const MOST: usize = 14_876;

/// The length of the longest file that there is: type 0 has no parents, three types have too few above them for 4, and
/// applications and ends need an attribute type and a link type.
pub const LONGEST: usize = 14_840;

/// The entries of each section.
pub type Entries = [Vec<Vec<u8>>; SECTIONS.len()];

/// What a schema is written as. A set has its entries rising, as strings of bytes.
pub fn entries(s: &Schema) -> Entries {
    let mut sections: [BTreeSet<Vec<u8>>; SECTIONS.len()] = Default::default();
    let [sdss, types, parents, presences, applications, ends] = &mut sections;
    let bytes = |numbers: &[usize]| numbers.iter().map(|&number| number as u8).collect::<Vec<u8>>();
    for (&number, ty) in &s.types {
        let [kind, field, reverse] = match ty {
            Type::Object { .. } => [1, 0, 0],
            Type::Attribute { value_kind } => [2, *value_kind, 0],
            Type::Link { category, reverse } => [3, *category, reverse.unwrap_or(0)],
        };
        types.insert(bytes(&[number, kind, field, reverse]));
        parents.extend(s.parents(number).into_iter().map(|parent| bytes(&[number, parent])));
    }
    for (&number, sds) in &s.sdss {
        sdss.insert([bytes(&[number]), padded(&sds.name)].concat());
        let nameless = sds.nameless.iter().map(|(&ty, &modes)| (&[][..], ty, modes));
        let named = sds.named.iter().map(|(name, present)| (&**name, present.ty, present.modes));
        for (name, ty, Modes { usage, definition }) in nameless.chain(named) {
            presences.insert([bytes(&[number, ty]), padded(name), bytes(&[usage, definition])].concat());
        }
        applications.extend(sds.applications.iter().map(|a| bytes(&[number, a.to, a.attribute])));
        ends.extend(sds.ends.iter().map(|end| bytes(&[number, end.link, end.side as usize, end.object])));
    }
    sections.map(|section| section.into_iter().collect())
}

/// A name with zeros behind it.
pub fn padded(name: &[u8]) -> Vec<u8> {
    let mut field = name.to_vec();
    field.resize(Schema::NAME, 0);
    field
}

/// Each section after its count, low byte first.
pub fn in_bytes(entries: &Entries) -> Vec<u8> {
    let mut file = Vec::new();
    for section in entries {
        let count = u16::try_from(section.len()).expect("a count has two bytes");
        file.extend(count.to_le_bytes());
        file.extend(section.concat());
    }
    file
}

pub fn to_file(s: &Schema) -> Vec<u8> {
    in_bytes(&entries(s))
}

/// Why a file is not read.
#[derive(Clone, Copy, Debug, PartialEq, Eq)]
pub enum Fault {
    /// 20: it is not well formed; the length of the longest start that it shares with some file that is.
    Malformed { start: usize },
    /// 21: it is, but no good schema is written so.
    NotWritten,
}

/// The schema that is written as the file.
pub fn read(file: &[u8]) -> Result<Schema, Fault> {
    let Some(sections) = FILE.parted(file) else {
        let start = FILE.longest_start(file).expect("it is not well formed");
        return Err(Fault::Malformed { start });
    };
    let sections: [Vec<&[u8]>; SECTIONS.len()] = sections.try_into().expect("there are as many");
    schema_of(&sections).ok_or(Fault::NotWritten)
}

/// The good schema that has these entries, each of its section's width and none twice.
fn schema_of(sections: &[Vec<&[u8]>; SECTIONS.len()]) -> Option<Schema> {
    if sections.iter().zip(ROOM).any(|(section, room)| section.len() > room) {
        return None;
    }
    let [sdss, types, parents, presences, applications, ends] = sections;
    let mut s = Schema { sdss: BTreeMap::new(), types: BTreeMap::new() };
    for entry in sdss {
        let number = below(entry[0], Schema::SDSS)?;
        not_twice(s.sdss.insert(number, Sds::new(name_in(&entry[1..])?)))?;
    }
    for entry in types {
        not_twice(s.types.insert(below(entry[0], Schema::TYPES)?, type_in(entry)?))?;
    }
    for entry in parents {
        match s.types.get_mut(&entry[0].into())? {
            Type::Object { parents } => parents.insert(entry[1].into()),
            _ => return None,
        };
    }
    let has_too_many = |ty: &Type| matches!(ty, Type::Object { parents } if parents.len() > Schema::PARENTS);
    if s.types.values().any(has_too_many) {
        return None;
    }
    for entry in presences {
        let here = s.sdss.get_mut(&entry[0].into())?;
        let (ty, field) = (usize::from(entry[1]), &entry[2..][..Schema::NAME]);
        let modes = Modes { usage: entry[18].into(), definition: entry[19].into() };
        match is_used(field) {
            true => not_twice(here.named.insert(Name::new(name_in(field)?), Presence { ty, modes }))?,
            false => not_twice(here.nameless.insert(ty, modes))?,
        }
    }
    for entry in applications {
        let application = Application { to: entry[1].into(), attribute: entry[2].into() };
        s.sdss.get_mut(&entry[0].into())?.applications.insert(application);
    }
    for entry in ends {
        let side = match entry[2] {
            0 => Side::Origin,
            1 => Side::Destination,
            _ => return None,
        };
        let end = End { link: entry[1].into(), side, object: entry[3].into() };
        s.sdss.get_mut(&entry[0].into())?.ends.insert(end);
    }
    is_good(&s).then_some(s)
}

fn below(number: u8, limit: usize) -> Option<usize> {
    Some(usize::from(number)).filter(|&number| number < limit)
}

/// Nothing stood where it was put.
fn not_twice<T>(there: Option<T>) -> Option<()> {
    there.is_none().then_some(())
}

/// Without parents, which have a section of their own.
fn type_in(entry: &[u8]) -> Option<Type> {
    match entry[1..] {
        [1, 0, 0] => Some(Type::Object { parents: BTreeSet::new() }),
        [2, value_kind, 0] => Some(Type::Attribute { value_kind: value_kind.into() }),
        [3, category, reverse] => {
            let reverse = (reverse != 0).then_some(reverse.into());
            Some(Type::Link { category: category.into(), reverse })
        }
        _ => None,
    }
}

/// How files are made up: a section for each width, its count in two digits, low one first, and so many entries, strictly
/// rising. A byte is one of 256 digits; with fewer, in tests, all files can be gone through.
pub struct Form<'a> {
    pub digits: u128,
    pub widths: &'a [usize],
}

pub const FILE: Form = Form { digits: 256, widths: &WIDTHS };

/// A string of digits as a number: what its last digits make, and what those before make.
#[derive(Clone, Copy, PartialEq, Eq, PartialOrd, Ord)]
struct Number {
    high: u128,
    low: u128,
}

/// So many digits make `low`: 256 to the tenth is far from the greatest `u128`, and no entry has more than twenty.
const LOW: usize = 10;

impl Form<'_> {
    /// The entries of each section, if the bytes are well formed.
    pub fn parted<'a>(&self, bytes: &'a [u8]) -> Option<Vec<Vec<&'a [u8]>>> {
        let (mut sections, mut rest) = (Vec::new(), bytes);
        for &width in self.widths {
            let (count, behind) = rest.split_at_checked(COUNT)?;
            let (section, behind) = behind.split_at_checked(self.count(count) * width)?;
            let entries: Vec<&[u8]> = section.chunks_exact(width).collect();
            if !entries.windows(2).all(|pair| pair[0] < pair[1]) {
                return None;
            }
            sections.push(entries);
            rest = behind;
        }
        rest.is_empty().then_some(sections)
    }

    /// The count that digits tell, low one first.
    fn count(&self, told: &[u8]) -> usize {
        told.iter().rev().fold(0, |count, &digit| count * self.digits as usize + usize::from(digit))
    }

    /// The length of the longest start that the bytes share with some well-formed file; none where they are one.
    ///
    /// What begins with a start of no file is none either. So the bytes are gone through once, up to the first one after
    /// which nothing can follow any more. Sections are apart: whatever stands in one, the next can be empty.
    pub fn longest_start(&self, bytes: &[u8]) -> Option<usize> {
        let mut at = 0;
        for &width in self.widths {
            let told = &bytes[at..bytes.len().min(at + COUNT)];
            if let Some(wrong) = (1..=told.len()).find(|&length| !self.can_be_count(width, &told[..length])) {
                return Some(at + wrong - 1);
            }
            if told.len() < COUNT {
                return Some(bytes.len());
            }
            at += COUNT;
            let mut before = None;
            for to_come in (0..self.count(told)).rev() {
                let entry = &bytes[at..bytes.len().min(at + width)];
                if !self.can_be_entry(width, before, entry, to_come) {
                    let is_wrong = |length: &usize| !self.can_be_entry(width, before, &entry[..*length], to_come);
                    return (1..=entry.len()).find(is_wrong).map(|wrong| at + wrong - 1);
                }
                if entry.len() < width {
                    return Some(bytes.len());
                }
                at += width;
                before = Some(self.number(width, entry, 0));
            }
        }
        (at < bytes.len()).then_some(at)
    }

    /// Whether some count begins so of which there are as many strings of the width: the least is tried.
    fn can_be_count(&self, width: usize, beginning: &[u8]) -> bool {
        let all = self.above(width, self.number(width, &[], 0)).saturating_add(1);
        self.count(beginning) as u128 <= all
    }

    /// Whether some entry begins so, stands above the one before and leaves above itself as many strings of its width as
    /// are to come. The least of those that stand above leaves the most.
    fn can_be_entry(&self, width: usize, before: Option<Number>, beginning: &[u8], to_come: usize) -> bool {
        let least = self.number(width, beginning, 0);
        let greatest = match beginning.len() < width {
            true => self.number(width, beginning, self.digits as u8 - 1),
            false => least,
        };
        let tried = before.map_or(least, |before| least.max(self.next(before)));
        tried <= greatest && self.above(width, tried) >= to_come as u128
    }

    /// The string that begins so, with one digit behind that up to the width.
    fn number(&self, width: usize, beginning: &[u8], behind: u8) -> Number {
        let string = beginning.iter().copied().chain(std::iter::repeat(behind)).take(width);
        let mut number = Number { high: 0, low: 0 };
        for (place, digit) in string.enumerate() {
            let half = if place + LOW < width { &mut number.high } else { &mut number.low };
            *half = *half * self.digits + u128::from(digit);
        }
        number
    }

    /// The string right above, if there were no end to them.
    fn next(&self, Number { high, low }: Number) -> Number {
        match low + 1 < self.digits.pow(LOW as u32) {
            true => Number { high, low: low + 1 },
            false => Number { high: high + 1, low: 0 },
        }
    }

    /// How many strings of the width stand above; more than can be counted are as many as can be.
    fn above(&self, width: usize, from: Number) -> u128 {
        let strings = |digits: usize| self.digits.pow(digits as u32);
        let high = strings(width.saturating_sub(LOW)) - 1 - from.high;
        let low = strings(width.min(LOW)) - 1 - from.low;
        high.saturating_mul(strings(LOW)).saturating_add(low)
    }
}
