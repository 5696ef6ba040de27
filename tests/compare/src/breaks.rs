//! Each rule of soundness that a well-formed file can break, and each limit, broken alone (02, Q-3): such a file is answered
//! 21. What a schema can hold and a base cannot is spoiled in `spoil.rs`; here are entries, which can say more.
#![forbid(unsafe_code)]

use crate::base::name_in;
use crate::file::{in_bytes, padded, Entries, APPLICATION, END, PARENT, PRESENCE, ROOM, SDS, TYPE};
use crate::random::{Random, MALFORMED};
use crate::schema::{Modes, Schema, Sds, DESIGNATION};
use std::collections::BTreeSet;
use std::ops::Range;

/// In the entry of a presence, behind SDS and type.
const NAME: Range<usize> = 2..2 + Schema::NAME;
const USAGE: usize = 2 + Schema::NAME;
const DEFINITION: usize = USAGE + 1;

/// The entries of a good schema, to be broken in one way: the file stays well formed.
pub struct Broken<'a> {
    pub random: &'a mut Random,
    pub s: &'a Schema,
    pub entries: Entries,
    /// Names that were given, none of which the schema has.
    pub named: usize,
}

/// None where there is nothing to break so.
pub type Break = fn(&mut Broken) -> Option<()>;

fn is_designation(s: &Schema, ty: usize) -> bool {
    s.is_link(ty) && s.reverse(ty).is_none()
}

/// The entry of a presence.
fn presence(sds: u8, ty: u8, name: &[u8], modes: [u8; 2]) -> Vec<u8> {
    [&[sds, ty][..], &padded(name), &modes].concat()
}

const ALL: [u8; 2] = [Modes::FIVE as u8; 2];

impl Broken<'_> {
    fn put(&mut self, section: usize, entry: Vec<u8>) {
        self.entries[section].push(entry);
    }

    fn take(&mut self, section: usize, is_gone: impl Fn(&[u8]) -> bool) {
        self.entries[section].retain(|entry| !is_gone(entry));
    }

    /// An entry to be changed.
    fn entry(&mut self, section: usize, is_wanted: impl Fn(&[u8]) -> bool) -> Option<(&mut Random, &mut Vec<u8>)> {
        let wanted: Vec<usize> =
            (0..self.entries[section].len()).filter(|&at| is_wanted(&self.entries[section][at])).collect();
        let at = self.random.pick(&wanted)?;
        Some((self.random, &mut self.entries[section][at]))
    }

    fn has_room(&self, section: usize, more: usize) -> Option<()> {
        (self.entries[section].len() + more <= ROOM[section]).then_some(())
    }

    /// A name that nothing has.
    fn new_name(&mut self) -> Vec<u8> {
        self.named += 1;
        format!("new_name_{}", self.named).into_bytes()
    }

    fn number_from(&mut self, first: usize) -> u8 {
        (first + self.random.below(256 - first)) as u8
    }

    /// An SDS other than SDS 0.
    fn sds(&mut self) -> Option<u8> {
        self.sds_where(|_| true)
    }

    fn sds_where(&mut self, is_wanted: impl Fn(&Sds) -> bool) -> Option<u8> {
        let wanted = self.s.sdss.range(1..).filter(|(_, here)| is_wanted(here)).map(|(&sds, _)| sds as u8);
        self.random.pick(&wanted.collect::<Vec<u8>>())
    }

    fn unused_sds(&mut self) -> Option<u8> {
        let unused = (0..Schema::SDSS).filter(|sds| !self.s.sdss.contains_key(sds)).map(|sds| sds as u8);
        self.random.pick(&unused.collect::<Vec<u8>>())
    }

    /// Numbers of no type.
    fn unused(&mut self, count: usize) -> Option<Vec<u8>> {
        let is_unused = |ty: &u8| self.entries[TYPE].iter().all(|entry| entry[0] != *ty);
        let unused: Vec<u8> = (0..Schema::TYPES as u8).filter(is_unused).collect();
        let mut unused = self.random.shuffled(unused);
        unused.truncate(count);
        (unused.len() == count).then_some(unused)
    }

    fn ty(&mut self, is_wanted: impl Fn(&Schema, usize) -> bool) -> Option<u8> {
        let wanted = self.s.types.keys().filter(|ty| is_wanted(self.s, **ty)).map(|&ty| ty as u8);
        self.random.pick(&wanted.collect::<Vec<u8>>())
    }

    /// An SDS other than SDS 0 and a type in it.
    fn present(&mut self, is_wanted: impl Fn(&Schema, usize) -> bool) -> Option<(u8, u8)> {
        let all = self.s.sdss.range(1..).flat_map(|(&sds, here)| here.types().map(move |ty| (sds, ty)));
        let wanted = all.filter(|&(_, ty)| is_wanted(self.s, ty)).map(|(sds, ty)| (sds as u8, ty as u8));
        self.random.pick(&wanted.collect::<Vec<_>>())
    }

    /// An SDS other than SDS 0, a type that it lacks and one that it has.
    fn lacking(
        &mut self,
        is_wanted: impl Fn(&Schema, usize) -> bool,
        is_there: impl Fn(&Schema, usize) -> bool,
    ) -> Option<[u8; 3]> {
        let s = self.s;
        let mut all = Vec::new();
        for (&sds, here) in s.sdss.range(1..) {
            for lacked in s.types.keys().copied().filter(|&ty| !here.holds(ty) && is_wanted(s, ty)) {
                let there = here.types().filter(|&ty| is_there(s, ty));
                all.extend(there.map(|ty| [sds, lacked, ty].map(|number| number as u8)));
            }
        }
        self.random.pick(&all)
    }

    /// A paired link type in an SDS and an object type there, that is no end of it or of its reverse.
    fn unjoined(&mut self) -> Option<[u8; 3]> {
        let s = self.s;
        let mut all = Vec::new();
        for (&sds, here) in s.sdss.range(1..) {
            for (link, reverse) in here.types().filter_map(|ty| Some((ty, s.reverse(ty)?))) {
                let is_end =
                    |ty: usize| here.ends.iter().any(|end| end.object == ty && [link, reverse].contains(&end.link));
                let objects = here.types().filter(|&ty| s.is_object(ty) && !is_end(ty));
                all.extend(objects.map(|object| [sds, link, object].map(|number| number as u8)));
            }
        }
        self.random.pick(&all)
    }

    /// A link type of a pair, and its reverse.
    fn pair(&mut self) -> Option<(u8, u8)> {
        let ty = self.ty(|s, ty| s.reverse(ty).is_some())?;
        Some((ty, self.s.reverse(ty.into())? as u8))
    }

    /// Puts a type down, and a presence of it in the SDS.
    fn add_type(&mut self, sds: u8, entry: [u8; 4]) -> Option<()> {
        self.has_room(TYPE, 1)?;
        self.has_room(PRESENCE, 1)?;
        let name = self.new_name();
        self.put(TYPE, entry.to_vec());
        self.put(PRESENCE, presence(sds, entry[0], &name, ALL));
        Some(())
    }

    /// A new type with these fields behind its number.
    fn new_type(&mut self, fields: [u8; 3]) -> Option<u8> {
        let (sds, ty) = (self.sds()?, self.unused(1)?[0]);
        self.add_type(sds, [ty, fields[0], fields[1], fields[2]])?;
        Some(ty)
    }

    /// An SDS that holds type 0, and so many new object types in it, which have no parents yet.
    fn new_objects(&mut self, count: usize) -> Option<(u8, Vec<u8>)> {
        let (sds, types) = (self.sds_where(|here| here.holds(0))?, self.unused(count)?);
        for &ty in &types {
            self.add_type(sds, [ty, 1, 0, 0])?;
        }
        Some((sds, types))
    }

    fn parent(&mut self, child: u8, parent: u8) {
        self.put(PARENT, vec![child, parent]);
    }

    /// A new object type below type 0.
    fn new_object(&mut self) -> Option<(u8, u8)> {
        let (sds, types) = self.new_objects(1)?;
        self.parent(types[0], 0);
        Some((sds, types[0]))
    }

    /// So many new object types, each the parent of the one before, and the first of the last.
    fn ring(&mut self, count: usize) -> Option<()> {
        let (_, types) = self.new_objects(count)?;
        for at in 0..count {
            self.parent(types[at], types[(at + 1) % count]);
        }
        // At times one has type 0 for a parent too.
        if self.random.one_in(2) {
            self.parent(types[0], 0);
        }
        Some(())
    }

    /// A new link type in each SDS that holds the other, with its modes.
    fn new_link_beside(&mut self, other: u8, category: u8) -> Option<u8> {
        let ty = self.unused(1)?[0];
        self.has_room(TYPE, 1)?;
        self.put(TYPE, vec![ty, 3, category, other]);
        for (&sds, here) in &self.s.sdss {
            if let Some(modes) = here.modes_of(other.into()) {
                self.has_room(PRESENCE, 1)?;
                let name = self.new_name();
                self.put(PRESENCE, presence(sds as u8, ty, &name, [modes.usage as u8, modes.definition as u8]));
            }
        }
        Some(ty)
    }

    /// Gives a presence other than that in SDS 0 another field.
    fn with_modes(&mut self, is_paired: bool, field: usize, modes: u8) -> Option<()> {
        let s = self.s;
        let is_wanted = |entry: &[u8]| entry[0] != 0 && s.reverse(entry[1].into()).is_some() == is_paired;
        let (_, entry) = self.entry(PRESENCE, is_wanted)?;
        entry[field] = modes;
        Some(())
    }

    /// A pair with another set of modes in one of the two.
    fn with_other_modes(&mut self, field: usize) -> Option<()> {
        let s = self.s;
        let (random, entry) = self.entry(PRESENCE, |entry| s.reverse(entry[1].into()).is_some())?;
        entry[field] ^= 1 + random.below(Modes::FIVE) as u8;
        Some(())
    }

    /// An end of a designation type in an SDS that holds that and the object type; changed by the caller.
    fn new_end(&mut self) -> Option<[u8; 4]> {
        self.has_room(END, 1)?;
        let (sds, link) = self.present(is_designation)?;
        let here = &self.s.sdss[&sds.into()];
        let objects: Vec<u8> = here.types().filter(|&ty| self.s.is_object(ty)).map(|ty| ty as u8).collect();
        Some([sds, link, self.random.below(2) as u8, self.random.pick(&objects)?])
    }

    /// An application of an attribute type in an SDS that holds that and the other; changed by the caller.
    fn new_application(&mut self) -> Option<[u8; 3]> {
        self.has_room(APPLICATION, 1)?;
        let (sds, attribute) = self.present(Schema::is_attribute)?;
        let here = &self.s.sdss[&sds.into()];
        let types: Vec<u8> = here.types().filter(|&ty| !self.s.is_attribute(ty)).map(|ty| ty as u8).collect();
        Some([sds, self.random.pick(&types)?, attribute])
    }

    /// A type of the kind in the SDS.
    fn in_sds(&mut self, sds: u8, is_wanted: impl Fn(&Schema, usize) -> bool) -> Option<u8> {
        let types = self.s.sdss[&sds.into()].types().filter(|&ty| is_wanted(self.s, ty)).map(|ty| ty as u8);
        self.random.pick(&types.collect::<Vec<u8>>())
    }

    /// Attribute types with a presence each, until so many numbers are used, and SDSs for them.
    fn fill_types(&mut self) -> Option<()> {
        while let Some(ty) = self.unused(1) {
            let sds = self.sds()?;
            self.add_type(sds, [ty[0], 2, 0, 0])?;
        }
        Some(())
    }

    /// Presences of attribute types, until there are so many.
    fn fill_presences(&mut self, count: usize) -> Option<()> {
        self.fill_types()?;
        let attributes: Vec<u8> = self.entries[TYPE].iter().filter(|entry| entry[1] == 2).map(|e| e[0]).collect();
        let sdss: Vec<u8> = self.entries[SDS].iter().map(|entry| entry[0]).filter(|&sds| sds != 0).collect();
        let all = sdss.iter().flat_map(|&sds| attributes.iter().map(move |&ty| [sds, ty]));
        let there: BTreeSet<[u8; 2]> = self.entries[PRESENCE].iter().map(|entry| [entry[0], entry[1]]).collect();
        let lacking: Vec<[u8; 2]> = all.filter(|place| !there.contains(place)).collect();
        let mut lacking = self.random.shuffled(lacking).into_iter();
        while self.entries[PRESENCE].len() < count {
            let [sds, ty] = lacking.next()?;
            let name = self.new_name();
            self.put(PRESENCE, presence(sds, ty, &name, ALL));
        }
        Some(())
    }

    /// Every application that can be, until there are so many.
    fn fill_applications(&mut self, count: usize) -> Option<()> {
        let s = self.s;
        let mut all = Vec::new();
        for (&sds, here) in &s.sdss {
            for attribute in here.types().filter(|&ty| s.is_attribute(ty)) {
                let to = here.types().filter(|&ty| !s.is_attribute(ty));
                all.extend(to.map(|to| vec![sds as u8, to as u8, attribute as u8]));
            }
        }
        let mut all = self.random.shuffled(all).into_iter();
        while self.entries[APPLICATION].len() < count {
            let entry = all.next()?;
            if !self.entries[APPLICATION].contains(&entry) {
                self.put(APPLICATION, entry);
            }
        }
        Some(())
    }

    /// Every end of a designation type that can be, until there are so many.
    fn fill_ends(&mut self, count: usize) -> Option<()> {
        let s = self.s;
        let mut all = Vec::new();
        for (&sds, here) in &s.sdss {
            for link in here.types().filter(|&ty| is_designation(s, ty)) {
                for object in here.types().filter(|&ty| s.is_object(ty)) {
                    all.extend([0, 1].map(|side| vec![sds as u8, link as u8, side, object as u8]));
                }
            }
        }
        let mut all = self.random.shuffled(all).into_iter();
        while self.entries[END].len() < count {
            let entry = all.next()?;
            if !self.entries[END].contains(&entry) {
                self.put(END, entry);
            }
        }
        Some(())
    }

    /// The file, if its entries can be set in order.
    pub fn file(mut self) -> Option<Vec<u8>> {
        self.entries.iter_mut().for_each(|section| section.sort());
        let is_rising = |section: &Vec<Vec<u8>>| section.windows(2).all(|pair| pair[0] < pair[1]);
        self.entries.iter().all(is_rising).then(|| in_bytes(&self.entries))
    }
}

/// A field that holds no name, though it isn't blank.
fn malformed_field(random: &mut Random) -> Vec<u8> {
    loop {
        let name = random.pick(&MALFORMED).expect("there are some");
        let field = padded(name);
        if name.len() <= Schema::NAME && field[0] != 0 && name_in(&field).is_none() {
            return field;
        }
    }
}

/// Puts a byte behind a zero behind the name; none where there is no room.
fn byte_behind(random: &mut Random, field: &mut [u8]) -> Option<()> {
    let zero = field.iter().position(|&byte| byte == 0).filter(|&zero| zero + 1 < field.len())?;
    field[zero + 1 + random.below(field.len() - zero - 1)] =
        if random.one_in(2) { b'a' } else { 1 + random.byte() % 255 };
    Some(())
}

fn has_padding(field: &[u8]) -> bool {
    field[Schema::NAME - 2] == 0 && field[0] != 0
}

/// Each breaks one rule.
pub const BROKEN: [(&str, Break); 124] = [
    // SDSs
    ("an SDS's name malformed", |b| {
        let (random, entry) = b.entry(SDS, |entry| entry[0] != 0)?;
        entry[1..].copy_from_slice(&malformed_field(random));
        Some(())
    }),
    ("an SDS without a name", |b| {
        let (_, entry) = b.entry(SDS, |entry| entry[0] != 0)?;
        entry[1..].fill(0);
        Some(())
    }),
    ("a byte behind an SDS's zeros", |b| {
        let (random, entry) = b.entry(SDS, |entry| has_padding(&entry[1..]))?;
        byte_behind(random, &mut entry[1..])
    }),
    ("two SDSs of one name", |b| {
        let number = b.unused_sds()?;
        let (_, entry) = b.entry(SDS, |_| true)?;
        let again = [&[number], &entry[1..]].concat();
        b.put(SDS, again);
        Some(())
    }),
    ("two SDSs in two spellings", |b| {
        let number = b.unused_sds()?;
        let name = b.entry(SDS, |_| true).map(|(random, entry)| random.respelt(&entry[1..]))?;
        b.put(SDS, [&[number], &name[..]].concat());
        Some(())
    }),
    ("two entries of an SDS", |b| {
        b.has_room(SDS, 1)?;
        let (number, name) = (b.entry(SDS, |_| true)?.1[0], b.new_name());
        b.put(SDS, [&[number], &padded(&name)[..]].concat());
        Some(())
    }),
    ("SDS 16", |b| {
        b.has_room(SDS, 1)?;
        let name = b.new_name();
        b.put(SDS, [&[16], &padded(&name)[..]].concat());
        Some(())
    }),
    ("an SDS over 16", |b| {
        b.has_room(SDS, 1)?;
        let (number, name) = (b.number_from(17), b.new_name());
        b.put(SDS, [&[number], &padded(&name)[..]].concat());
        Some(())
    }),
    ("17 SDSs", |b| {
        for number in 0..=Schema::SDSS {
            if !b.s.sdss.contains_key(&number) {
                let name = b.new_name();
                b.put(SDS, [&[number as u8], &padded(&name)[..]].concat());
            }
        }
        Some(())
    }),
    ("17 SDSs, two of one number", |b| {
        for number in 0..Schema::SDSS {
            if !b.s.sdss.contains_key(&number) {
                let name = b.new_name();
                b.put(SDS, [&[number as u8], &padded(&name)[..]].concat());
            }
        }
        let (number, name) = (b.entry(SDS, |_| true)?.1[0], b.new_name());
        b.put(SDS, [&[number], &padded(&name)[..]].concat());
        Some(())
    }),
    ("no SDS 0", |b| {
        b.sds_where(|here| here.holds(0))?;
        b.take(SDS, |entry| entry[0] == 0);
        b.take(PRESENCE, |entry| entry[0] == 0);
        Some(())
    }),
    ("SDS 0 of another name", |b| {
        let name = b.new_name();
        b.entry(SDS, |entry| entry[0] == 0)?.1[1..].copy_from_slice(&padded(&name));
        Some(())
    }),
    ("SDS 0 respelt", |b| {
        let (random, entry) = b.entry(SDS, |entry| entry[0] == 0)?;
        let name = random.respelt(&entry[1..]);
        entry[1..].copy_from_slice(&name);
        Some(())
    }),
    ("an SDS missing", |b| {
        let sds = b.sds_where(|here| !here.is_empty() && here.applications.is_empty() && here.ends.is_empty())?;
        b.take(SDS, |entry| entry[0] == sds);
        Some(())
    }),
    // types
    ("kind 0", |b| b.new_type([0, 0, 0]).map(|_| ())),
    ("kind 4", |b| b.new_type([4, 0, 0]).map(|_| ())),
    ("kind over 4", |b| {
        let kind = b.number_from(5);
        b.new_type([kind, 0, 0]).map(|_| ())
    }),
    ("value kind 6", |b| b.new_type([2, 6, 0]).map(|_| ())),
    ("value kind over 6", |b| {
        let value_kind = b.number_from(7);
        b.new_type([2, value_kind, 0]).map(|_| ())
    }),
    ("category 5", |b| b.new_type([3, 5, 0]).map(|_| ())),
    ("category over 5", |b| {
        let category = b.number_from(6);
        b.new_type([3, category, 0]).map(|_| ())
    }),
    ("category 5 or more in a pair", |b| {
        let (ty, _) = b.pair()?;
        let category = b.number_from(5);
        b.entry(TYPE, |entry| entry[0] == ty)?.1[2] = category;
        Some(())
    }),
    ("a designation type with a reverse", |b| {
        let (ty, _) = b.pair()?;
        b.entry(TYPE, |entry| entry[0] == ty)?.1[2] = DESIGNATION as u8;
        Some(())
    }),
    ("two designation types, each other's reverse", |b| {
        let (ty, reverse) = b.pair()?;
        for one in [ty, reverse] {
            b.entry(TYPE, |entry| entry[0] == one)?.1[2] = DESIGNATION as u8;
        }
        Some(())
    }),
    ("a value kind on an object type", |b| {
        let (_, ty) = b.new_object()?;
        let field = b.number_from(1);
        b.entry(TYPE, |entry| entry[0] == ty)?.1[2] = field;
        Some(())
    }),
    ("a reverse on an object type", |b| {
        let (_, ty) = b.new_object()?;
        let field = b.number_from(1);
        b.entry(TYPE, |entry| entry[0] == ty)?.1[3] = field;
        Some(())
    }),
    ("a reverse on an attribute type", |b| {
        let reverse = b.number_from(1);
        b.new_type([2, 0, reverse]).map(|_| ())
    }),
    ("a reverse on a designation type", |b| {
        let link = b.ty(Schema::is_link)?;
        b.new_type([3, DESIGNATION as u8, link]).map(|_| ())
    }),
    ("two entries of an attribute type", |b| {
        b.has_room(TYPE, 1)?;
        let (_, entry) = b.entry(TYPE, |entry| entry[1] == 2)?;
        let again = vec![entry[0], 2, (entry[2] + 1) % 6, 0];
        b.put(TYPE, again);
        Some(())
    }),
    ("two entries of a type, of two kinds", |b| {
        b.has_room(TYPE, 1)?;
        let (_, entry) = b.entry(TYPE, |entry| entry[0] != 0)?;
        let again = vec![entry[0], if entry[1] == 2 { 3 } else { 2 }, if entry[1] == 2 { 4 } else { 0 }, 0];
        b.put(TYPE, again);
        Some(())
    }),
    ("type 128", |b| {
        let sds = b.sds()?;
        b.add_type(sds, [128, 2, 0, 0])
    }),
    ("a type over 128", |b| {
        let (sds, ty) = (b.sds()?, b.number_from(129));
        b.add_type(sds, [ty, 2, 0, 0])
    }),
    ("129 types", |b| {
        b.fill_types()?;
        b.has_room(PRESENCE, 1)?;
        let (sds, name) = (b.sds()?, b.new_name());
        b.put(TYPE, vec![128, 2, 0, 0]);
        b.put(PRESENCE, presence(sds, 128, &name, ALL));
        Some(())
    }),
    ("129 types, two of one number", |b| {
        b.fill_types()?;
        let (_, entry) = b.entry(TYPE, |entry| entry[1] == 2)?;
        let again = vec![entry[0], 2, (entry[2] + 1) % 6, 0];
        b.put(TYPE, again);
        Some(())
    }),
    ("a type present nowhere", |b| {
        b.has_room(TYPE, 1)?;
        let ty = b.unused(1)?[0];
        b.put(TYPE, vec![ty, 2, 0, 0]);
        Some(())
    }),
    ("type 0 missing", |b| {
        b.take(TYPE, |entry| entry[0] == 0);
        Some(())
    }),
    ("type 0 of another kind", |b| {
        let kind = 2 + b.random.below(2) as u8;
        *b.entry(TYPE, |entry| entry[0] == 0)?.1 = vec![0, kind, if kind == 3 { 4 } else { 0 }, 0];
        Some(())
    }),
    ("both implicit", |b| {
        let (ty, reverse) = b.pair()?;
        for one in [ty, reverse] {
            b.entry(TYPE, |entry| entry[0] == one)?.1[2] = 3;
        }
        Some(())
    }),
    ("a reverse not in turn", |b| {
        let (ty, _) = b.pair()?;
        b.new_link_beside(ty, 0).map(|_| ())
    }),
    ("a reverse that is a designation type", |b| {
        let ty = b.ty(is_designation)?;
        b.new_link_beside(ty, 1).map(|_| ())
    }),
    ("a reverse that is an attribute type", |b| {
        let ty = b.ty(Schema::is_attribute)?;
        b.new_link_beside(ty, 2).map(|_| ())
    }),
    ("a reverse that is an object type", |b| {
        let ty = b.ty(|s, ty| ty != 0 && s.is_object(ty))?;
        b.new_link_beside(ty, 0).map(|_| ())
    }),
    ("its own reverse", |b| {
        let (ty, sds, category) = (b.unused(1)?[0], b.sds()?, b.random.below(4) as u8);
        b.add_type(sds, [ty, 3, category, ty])
    }),
    ("an absent reverse", |b| {
        let (types, sds, category) = (b.unused(2)?, b.sds()?, b.random.below(4) as u8);
        b.add_type(sds, [types[0], 3, category, types[1]])
    }),
    ("a reverse of 128 or more", |b| {
        let reverse = b.number_from(128);
        b.new_type([3, 0, reverse]).map(|_| ())
    }),
    ("no reverse", |b| {
        let category = b.random.below(4) as u8;
        b.new_type([3, category, 0]).map(|_| ())
    }),
    // parents
    ("no parents", |b| b.new_objects(1).map(|_| ())),
    ("parents of type 0", |b| {
        let ty = b.ty(|s, ty| ty != 0 && s.is_object(ty))?;
        b.parent(0, ty);
        Some(())
    }),
    ("type 0 its own parent", |b| {
        b.parent(0, 0);
        Some(())
    }),
    ("5 parents", |b| {
        let (_, types) = b.new_objects(6)?;
        types[..5].iter().for_each(|&parent| b.parent(parent, 0));
        types[..5].iter().for_each(|&parent| b.parent(types[5], parent));
        Some(())
    }),
    ("more than 5 parents", |b| {
        let count = 6 + b.random.below(12);
        let (_, types) = b.new_objects(count + 1)?;
        types[..count].iter().for_each(|&parent| b.parent(parent, 0));
        types[..count].iter().for_each(|&parent| b.parent(types[count], parent));
        Some(())
    }),
    ("its own parent", |b| b.ring(1)),
    ("a cycle of 2", |b| b.ring(2)),
    ("a cycle of 3", |b| b.ring(3)),
    ("a cycle of 4 or more", |b| {
        let count = 4 + b.random.below(40);
        b.ring(count)
    }),
    ("a parent that is an attribute type", |b| {
        let (sds, ty) = b.new_object()?;
        let parent = b.in_sds(sds, Schema::is_attribute)?;
        b.parent(ty, parent);
        Some(())
    }),
    ("a parent that is a link type", |b| {
        let (sds, ty) = b.new_object()?;
        let parent = b.in_sds(sds, Schema::is_link)?;
        b.parent(ty, parent);
        Some(())
    }),
    ("an absent parent", |b| {
        let (_, ty) = b.new_object()?;
        let parent = b.unused(1)?[0];
        b.parent(ty, parent);
        Some(())
    }),
    ("a parent of 128 or more", |b| {
        let (_, ty) = b.new_object()?;
        let parent = b.number_from(128);
        b.parent(ty, parent);
        Some(())
    }),
    ("parents of an attribute type", |b| {
        let ty = b.ty(Schema::is_attribute)?;
        b.parent(ty, 0);
        Some(())
    }),
    ("parents of a link type", |b| {
        let ty = b.ty(Schema::is_link)?;
        b.parent(ty, 0);
        Some(())
    }),
    ("parents of an absent type", |b| {
        let ty = b.unused(1)?[0];
        b.parent(ty, 0);
        Some(())
    }),
    ("parents of 128 or more", |b| {
        let ty = b.number_from(128);
        b.parent(ty, 0);
        Some(())
    }),
    ("a parent missing in the SDS", |b| {
        let (sds, types) = b.new_objects(2)?;
        b.parent(types[0], 0);
        b.parent(types[1], types[0]);
        b.has_room(PRESENCE, 1)?;
        let others = b.s.sdss.range(1..).map(|(&sds, _)| sds as u8).filter(|&other| other != sds);
        let (other, name) = (b.random.pick(&others.collect::<Vec<u8>>())?, b.new_name());
        b.put(PRESENCE, presence(other, types[1], &name, ALL));
        Some(())
    }),
    ("a nameless type, its parent missing", |b| {
        let (sds, types) = b.new_objects(2)?;
        b.parent(types[0], 0);
        b.parent(types[1], types[0]);
        b.has_room(PRESENCE, 1)?;
        let others = b.s.sdss.range(1..).map(|(&sds, _)| sds as u8).filter(|&other| other != sds);
        let other = b.random.pick(&others.collect::<Vec<u8>>())?;
        b.put(PRESENCE, presence(other, types[1], b"", ALL));
        Some(())
    }),
    // presences
    ("a presence of an absent type", |b| {
        b.has_room(PRESENCE, 1)?;
        let (sds, ty, name) = (b.sds()?, b.unused(1)?[0], b.new_name());
        b.put(PRESENCE, presence(sds, ty, &name, ALL));
        Some(())
    }),
    ("a nameless presence of an absent type", |b| {
        b.has_room(PRESENCE, 1)?;
        let (sds, ty) = (b.sds()?, b.unused(1)?[0]);
        b.put(PRESENCE, presence(sds, ty, b"", ALL));
        Some(())
    }),
    ("a presence of 128 or more", |b| {
        b.has_room(PRESENCE, 1)?;
        let (sds, ty, name) = (b.sds()?, b.number_from(128), b.new_name());
        b.put(PRESENCE, presence(sds, ty, &name, ALL));
        Some(())
    }),
    ("a presence in an absent SDS", |b| {
        b.has_room(PRESENCE, 1)?;
        let (sds, ty, name) = (b.unused_sds()?, b.ty(Schema::is_attribute)?, b.new_name());
        b.put(PRESENCE, presence(sds, ty, &name, ALL));
        Some(())
    }),
    ("a presence in SDS 16 or more", |b| {
        b.has_room(PRESENCE, 1)?;
        let (sds, ty, name) = (b.number_from(16), b.ty(Schema::is_attribute)?, b.new_name());
        b.put(PRESENCE, presence(sds, ty, &name, ALL));
        Some(())
    }),
    ("a name malformed", |b| {
        let (random, entry) = b.entry(PRESENCE, |entry| entry[0] != 0)?;
        entry[NAME].copy_from_slice(&malformed_field(random));
        Some(())
    }),
    ("a byte behind a name's zeros", |b| {
        let (random, entry) = b.entry(PRESENCE, |entry| entry[0] != 0 && has_padding(&entry[NAME]))?;
        byte_behind(random, &mut entry[NAME])
    }),
    ("a byte in a blank name", |b| {
        let s = b.s;
        let (random, entry) = b.entry(PRESENCE, |entry| entry[0] != 0 && s.is_object(entry[1].into()))?;
        entry[NAME].fill(0);
        entry[NAME.start + 1 + random.below(Schema::NAME - 1)] = b'a';
        Some(())
    }),
    ("two names the same", |b| {
        let sds = b.sds_where(|here| here.named.len() > 1)?;
        let name = b.entry(PRESENCE, |entry| entry[0] == sds && entry[2] != 0)?.1[NAME].to_vec();
        b.entry(PRESENCE, |entry| entry[0] == sds && entry[2] != 0 && entry[NAME] != name[..])?.1[NAME]
            .copy_from_slice(&name);
        Some(())
    }),
    ("two spellings of a name", |b| {
        let sds = b.sds_where(|here| here.named.len() > 1)?;
        let name = b.entry(PRESENCE, |entry| entry[0] == sds && entry[2] != 0)?.1[NAME].to_vec();
        let respelt = b.random.respelt(&name);
        b.entry(PRESENCE, |entry| entry[0] == sds && entry[2] != 0 && entry[NAME] != name[..])?.1[NAME]
            .copy_from_slice(&respelt);
        Some(())
    }),
    ("a type twice, by two names", |b| {
        b.has_room(PRESENCE, 1)?;
        let name = b.new_name();
        let (_, entry) = b.entry(PRESENCE, |entry| entry[0] != 0 && entry[2] != 0)?;
        let mut again = entry.clone();
        again[NAME].copy_from_slice(&padded(&name));
        b.put(PRESENCE, again);
        Some(())
    }),
    ("a type twice, nameless and named", |b| {
        b.has_room(PRESENCE, 1)?;
        let s = b.s;
        let (_, entry) =
            b.entry(PRESENCE, |entry| entry[0] != 0 && entry[2] != 0 && s.is_object(entry[1].into()))?;
        let mut again = entry.clone();
        again[NAME].fill(0);
        b.put(PRESENCE, again);
        Some(())
    }),
    ("a type twice, by its modes", |b| {
        b.has_room(PRESENCE, 1)?;
        let (random, entry) = b.entry(PRESENCE, |entry| entry[0] != 0 && entry[2] != 0)?;
        let mut again = entry.clone();
        again[USAGE + random.below(2)] ^= 1 + random.below(Modes::FIVE) as u8;
        b.put(PRESENCE, again);
        Some(())
    }),
    ("a nameless type twice, by its modes", |b| {
        b.has_room(PRESENCE, 1)?;
        let (random, entry) = b.entry(PRESENCE, |entry| entry[2] == 0)?;
        let mut again = entry.clone();
        again[USAGE + random.below(2)] ^= 1 + random.below(Modes::FIVE) as u8;
        b.put(PRESENCE, again);
        Some(())
    }),
    ("usage 32", |b| b.with_modes(false, USAGE, 32)),
    ("usage over 32", |b| {
        let modes = b.number_from(33);
        b.with_modes(false, USAGE, modes)
    }),
    ("definition 32", |b| b.with_modes(false, DEFINITION, 32)),
    ("definition over 32", |b| {
        let modes = b.number_from(33);
        b.with_modes(false, DEFINITION, modes)
    }),
    ("usage of a pair over 31", |b| {
        let ((ty, reverse), modes) = (b.pair()?, b.number_from(32));
        let pair = b.entries[PRESENCE].iter_mut().filter(|entry| [ty, reverse].contains(&entry[1]));
        pair.for_each(|entry| entry[USAGE] = modes);
        Some(())
    }),
    ("a pair of two usages", |b| b.with_other_modes(USAGE)),
    ("a pair of two definitions", |b| b.with_other_modes(DEFINITION)),
    ("a nameless attribute type", |b| {
        let s = b.s;
        b.entry(PRESENCE, |entry| s.is_attribute(entry[1].into()))?.1[NAME].fill(0);
        Some(())
    }),
    ("a nameless designation type", |b| {
        let s = b.s;
        b.entry(PRESENCE, |entry| is_designation(s, entry[1].into()))?.1[NAME].fill(0);
        Some(())
    }),
    ("a nameless link type of a pair", |b| {
        let s = b.s;
        b.entry(PRESENCE, |entry| s.reverse(entry[1].into()).is_some())?.1[NAME].fill(0);
        Some(())
    }),
    ("a nameless pair", |b| {
        let (sds, ty) = b.present(|s, ty| s.reverse(ty).is_some())?;
        let reverse = b.s.reverse(ty.into())? as u8;
        for one in [ty, reverse] {
            b.entry(PRESENCE, |entry| entry[..2] == [sds, one])?.1[NAME].fill(0);
        }
        Some(())
    }),
    ("a reverse missing in the SDS", |b| {
        let (sds, types) = (b.sds()?, b.unused(2)?);
        b.add_type(sds, [types[0], 3, 0, types[1]])?;
        b.add_type(sds, [types[1], 3, 1, types[0]])?;
        let others = b.s.sdss.range(1..).map(|(&sds, _)| sds as u8).filter(|&other| other != sds);
        let (other, name) = (b.random.pick(&others.collect::<Vec<u8>>())?, b.new_name());
        b.has_room(PRESENCE, 1)?;
        let ty = types[b.random.below(2)];
        b.put(PRESENCE, presence(other, ty, &name, ALL));
        Some(())
    }),
    ("SDS 0 with another type", |b| {
        b.has_room(PRESENCE, 1)?;
        let (ty, name) = (b.ty(|s, ty| ty != 0 && s.reverse(ty).is_none())?, b.new_name());
        b.put(PRESENCE, presence(0, ty, &name, ALL));
        Some(())
    }),
    ("SDS 0 with a nameless type", |b| {
        b.has_room(PRESENCE, 1)?;
        let ty = b.ty(|s, ty| s.parents(ty) == [0].into())?;
        b.put(PRESENCE, presence(0, ty, b"", ALL));
        Some(())
    }),
    ("type 0 nameless in SDS 0", |b| {
        b.entry(PRESENCE, |entry| entry[0] == 0)?.1[NAME].fill(0);
        Some(())
    }),
    ("type 0 of another name in SDS 0", |b| {
        let name = b.new_name();
        b.entry(PRESENCE, |entry| entry[0] == 0)?.1[NAME].copy_from_slice(&padded(&name));
        Some(())
    }),
    ("type 0 respelt in SDS 0", |b| {
        let (random, entry) = b.entry(PRESENCE, |entry| entry[0] == 0)?;
        let name = random.respelt(&entry[NAME]);
        entry[NAME].copy_from_slice(&name);
        Some(())
    }),
    ("type 0 of fewer modes in SDS 0", |b| {
        let (random, entry) = b.entry(PRESENCE, |entry| entry[0] == 0)?;
        entry[USAGE + random.below(2)] = random.below(Modes::FIVE) as u8;
        Some(())
    }),
    ("SDS 0 without type 0", |b| {
        b.sds_where(|here| here.holds(0))?;
        b.take(PRESENCE, |entry| entry[0] == 0);
        Some(())
    }),
    ("513 presences", |b| b.fill_presences(Schema::PRESENCES + 1)),
    // applications
    ("an application in SDS 0", |b| {
        let entry = b.new_application()?;
        b.put(APPLICATION, vec![0, 0, entry[2]]);
        Some(())
    }),
    ("an application in an absent SDS", |b| {
        let (entry, sds) = (b.new_application()?, b.unused_sds()?);
        b.put(APPLICATION, vec![sds, entry[1], entry[2]]);
        Some(())
    }),
    ("an application to an absent type", |b| {
        let (entry, ty) = (b.new_application()?, b.unused(1)?[0]);
        b.put(APPLICATION, vec![entry[0], ty, entry[2]]);
        Some(())
    }),
    ("an application of an absent type", |b| {
        let (entry, ty) = (b.new_application()?, b.unused(1)?[0]);
        b.put(APPLICATION, vec![entry[0], entry[1], ty]);
        Some(())
    }),
    ("an application to a type of another SDS", |b| {
        b.has_room(APPLICATION, 1)?;
        let [sds, to, attribute] = b.lacking(|s, ty| !s.is_attribute(ty), Schema::is_attribute)?;
        b.put(APPLICATION, vec![sds, to, attribute]);
        Some(())
    }),
    ("an application of a type of another SDS", |b| {
        b.has_room(APPLICATION, 1)?;
        let [sds, attribute, to] = b.lacking(Schema::is_attribute, |s, ty| !s.is_attribute(ty))?;
        b.put(APPLICATION, vec![sds, to, attribute]);
        Some(())
    }),
    ("an application to an attribute type", |b| {
        let entry = b.new_application()?;
        let to = b.in_sds(entry[0], Schema::is_attribute)?;
        b.put(APPLICATION, vec![entry[0], to, entry[2]]);
        Some(())
    }),
    ("an application of an object type", |b| {
        let entry = b.new_application()?;
        let attribute = b.in_sds(entry[0], Schema::is_object)?;
        b.put(APPLICATION, vec![entry[0], entry[1], attribute]);
        Some(())
    }),
    ("an application of a link type", |b| {
        let entry = b.new_application()?;
        let attribute = b.in_sds(entry[0], Schema::is_link)?;
        b.put(APPLICATION, vec![entry[0], entry[1], attribute]);
        Some(())
    }),
    ("257 applications", |b| b.fill_applications(Schema::APPLICATIONS + 1)),
    // ends
    ("an end in SDS 0", |b| {
        let entry = b.new_end()?;
        b.put(END, vec![0, entry[1], entry[2], 0]);
        Some(())
    }),
    ("an end in an absent SDS", |b| {
        let (entry, sds) = (b.new_end()?, b.unused_sds()?);
        b.put(END, vec![sds, entry[1], entry[2], entry[3]]);
        Some(())
    }),
    ("an end of an absent type", |b| {
        let (entry, ty) = (b.new_end()?, b.unused(1)?[0]);
        b.put(END, vec![entry[0], ty, entry[2], entry[3]]);
        Some(())
    }),
    ("an end of a type of another SDS", |b| {
        b.has_room(END, 1)?;
        let [sds, link, object] = b.lacking(is_designation, Schema::is_object)?;
        let side = b.random.below(2) as u8;
        b.put(END, vec![sds, link, side, object]);
        Some(())
    }),
    ("an end of an object type", |b| {
        let entry = b.new_end()?;
        let link = b.in_sds(entry[0], Schema::is_object)?;
        b.put(END, vec![entry[0], link, entry[2], entry[3]]);
        Some(())
    }),
    ("an end of an attribute type", |b| {
        let entry = b.new_end()?;
        let link = b.in_sds(entry[0], Schema::is_attribute)?;
        b.put(END, vec![entry[0], link, entry[2], entry[3]]);
        Some(())
    }),
    ("an absent type for an end", |b| {
        let (entry, ty) = (b.new_end()?, b.unused(1)?[0]);
        b.put(END, vec![entry[0], entry[1], entry[2], ty]);
        Some(())
    }),
    ("an object type of another SDS for an end", |b| {
        b.has_room(END, 1)?;
        let [sds, object, link] = b.lacking(Schema::is_object, is_designation)?;
        let side = b.random.below(2) as u8;
        b.put(END, vec![sds, link, side, object]);
        Some(())
    }),
    ("an attribute type for an end", |b| {
        let entry = b.new_end()?;
        let object = b.in_sds(entry[0], Schema::is_attribute)?;
        b.put(END, vec![entry[0], entry[1], entry[2], object]);
        Some(())
    }),
    ("a link type for an end", |b| {
        let entry = b.new_end()?;
        let object = b.in_sds(entry[0], Schema::is_link)?;
        b.put(END, vec![entry[0], entry[1], entry[2], object]);
        Some(())
    }),
    ("side 2", |b| {
        let entry = b.new_end()?;
        b.put(END, vec![entry[0], entry[1], 2, entry[3]]);
        Some(())
    }),
    ("a side over 2", |b| {
        let (entry, side) = (b.new_end()?, b.number_from(3));
        b.put(END, vec![entry[0], entry[1], side, entry[3]]);
        Some(())
    }),
    ("a mirror missing", |b| {
        b.has_room(END, 1)?;
        let ([sds, link, object], side) = (b.unjoined()?, b.random.below(2) as u8);
        b.put(END, vec![sds, link, side, object]);
        Some(())
    }),
    ("an end on the same side of the reverse", |b| {
        b.has_room(END, 2)?;
        let ([sds, link, object], side) = (b.unjoined()?, b.random.below(2) as u8);
        let reverse = b.s.reverse(link.into())? as u8;
        b.put(END, vec![sds, link, side, object]);
        b.put(END, vec![sds, reverse, side, object]);
        Some(())
    }),
    ("513 ends", |b| b.fill_ends(Schema::ENDS + 1)),
];
