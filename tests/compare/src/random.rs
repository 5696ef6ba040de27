//! Random calls that know the present schema: most are done, and each refusal of each call comes up again and again.
#![forbid(unsafe_code)]

use crate::calls::{Call, Text, CALLS};
use crate::file::{to_file, MOST};
use crate::files::{self, Written};
use crate::schema::{is_same, Modes, Name, Presence, Schema, Sds, Side, DESIGNATION, LAST_VALUE_KIND};

/// A small deterministic generator (splitmix64).
pub struct Random(u64);

impl Random {
    pub fn new(seed: u64) -> Random {
        Random(seed)
    }

    pub fn word(&mut self) -> u64 {
        self.0 = self.0.wrapping_add(0x9e37_79b9_7f4a_7c15);
        let mut word = self.0;
        word = (word ^ (word >> 30)).wrapping_mul(0xbf58_476d_1ce4_e5b9);
        word = (word ^ (word >> 27)).wrapping_mul(0x94d0_49bb_1331_11eb);
        word ^ (word >> 31)
    }

    pub fn below(&mut self, limit: usize) -> usize {
        (self.word() % limit as u64) as usize
    }

    pub fn one_in(&mut self, times: usize) -> bool {
        self.below(times) == 0
    }

    pub fn pick<T: Clone>(&mut self, items: &[T]) -> Option<T> {
        match items.len() {
            0 => None,
            length => Some(items[self.below(length)].clone()),
        }
    }

    pub fn byte(&mut self) -> u8 {
        self.word() as u8
    }

    pub fn bytes(&mut self, length: usize) -> Vec<u8> {
        (0..length).map(|_| self.byte()).collect()
    }

    /// The name in another spelling: the case of one letter is another, if may be of A or Z, or of all or some of them.
    pub fn respelt(&mut self, name: &[u8]) -> Vec<u8> {
        let letters: Vec<usize> = (0..name.len()).filter(|&at| name[at].is_ascii_alphabetic()).collect();
        let (Some(&first), Some(&last)) = (letters.first(), letters.last()) else { return name.to_vec() };
        let outermost: Vec<usize> = letters.iter().copied().filter(|&at| b"AZaz".contains(&name[at])).collect();
        let turned = match (self.below(6), self.pick(&outermost)) {
            (0, _) => vec![first],
            (1, _) => vec![last],
            (2, Some(at)) => vec![at],
            (3, _) => letters,
            _ => {
                let count = 1 + self.below(letters.len());
                self.shuffled(letters).into_iter().take(count).collect()
            }
        };
        let mut respelt = name.to_vec();
        turned.into_iter().for_each(|at| respelt[at] ^= CASE);
        respelt
    }

    /// The name in any spelling.
    pub fn spelt(&mut self, name: &[u8]) -> Vec<u8> {
        match self.below(4) {
            0 => name.to_ascii_lowercase(),
            1 => name.to_ascii_uppercase(),
            _ => {
                let mut turned = |byte: u8| byte.is_ascii_alphabetic() && self.one_in(2);
                name.iter().map(|&byte| if turned(byte) { byte ^ CASE } else { byte }).collect()
            }
        }
    }

    /// A name that is nearly the same: one byte is another, at times one beside the letters, or one that the bit of the
    /// case alone tells from what was there, though that is no letter.
    pub fn missed(&mut self, name: &[u8]) -> Vec<u8> {
        let mut missed = name.to_vec();
        if !missed.is_empty() {
            let byte = &mut missed[self.below(name.len())];
            *byte = match self.below(3) {
                0 => BESIDE_LETTERS[self.below(BESIDE_LETTERS.len())],
                1 if !byte.is_ascii_alphabetic() => *byte ^ CASE,
                _ => b"_09azAZ"[self.below(7)],
            };
        }
        missed
    }

    /// A number at an edge, or one that is not n though its low bytes are.
    pub fn odd_number(&mut self, limit: usize) -> usize {
        let number = self.below(limit);
        match self.below(9) {
            0 => 0,
            1 => limit - 1,
            2 => limit,
            3 => 255,
            4 => 256 + number,
            5 => (1 << 32) + number,
            6 => usize::MAX,
            _ => number,
        }
    }

    pub fn shuffled<T>(&mut self, mut items: Vec<T>) -> Vec<T> {
        for at in (1..items.len()).rev() {
            items.swap(at, self.below(at + 1));
        }
        items
    }
}

/// The bit that tells a letter's case.
pub const CASE: u8 = b'a' ^ b'A';

/// The bytes right before A and a, and right behind Z and z.
pub const BESIDE_LETTERS: [u8; 4] = *b"@[`{";

/// Where the calls lead: a small schema; one that grows as it comes; a long chain of parents, in no order of numbers;
/// or a full table with at most two places free.
#[derive(Clone, Copy, Debug, PartialEq, Eq)]
pub enum Mode {
    Small,
    Growing,
    Deep,
    FullSdss,
    FullTypes,
    FullPresences,
    FullApplications,
    FullEnds,
}

impl Mode {
    pub const ALL: [Mode; 8] = [
        Mode::Small,
        Mode::Growing,
        Mode::Deep,
        Mode::FullSdss,
        Mode::FullTypes,
        Mode::FullPresences,
        Mode::FullApplications,
        Mode::FullEnds,
    ];
}

/// Names that differ in the last byte, in length or in case only, and in the first byte or the last of 16; names that
/// stand otherwise by their bytes than with their letters brought to one case.
const NAMES: [&[u8]; 24] = [
    b"a",
    b"A",
    b"z",
    b"Z",
    b"a0",
    b"a9",
    b"a_",
    b"A_",
    b"aa",
    b"aA",
    b"Ab",
    b"aB",
    b"aZ",
    b"Z_z",
    b"object",
    b"system",
    b"abcdefghijklmno",
    b"abcdefghijklmnop",
    b"Abcdefghijklmnop",
    b"abcdefghijklmnoP",
    b"abcdefghijklmnoq",
    b"zbcdefghijklmnoZ",
    b"ABCDEFGHIJKLMNO0",
    b"x______________9",
];

/// Blank, too long, beginning with no letter, with a neighbour of the letters, digits and underscore, with a byte 0, with
/// a digit or an underscore but for the bit of the case.
pub const MALFORMED: [&[u8]; 32] = [
    b"",
    b"abcdefghijklmnopq",
    b"abcdefghijklmnop\0",
    b"abcdefghijklmnopqrstuvwxyzabcdefghijklmnopqrstuvwxyz",
    b"0",
    b"9a",
    b"_a",
    b" a",
    b"a ",
    b"a b",
    b"a-b",
    b"@a",
    b"[a",
    b"`a",
    b"{a",
    b"a/",
    b"a:",
    b"a@",
    b"a[",
    b"a^",
    b"a`",
    b"a{",
    b"\0",
    b"a\0",
    b"a\0b",
    b"a\xc1",
    b"A[",
    b"Z{",
    b"a\x10",
    b"a\x7f",
    b"abcdefghijklmno[",
    b"@bcdefghijklmnop",
];

type IsWanted = fn(&Schema, usize) -> bool;

fn any_type(_: &Schema, _: usize) -> bool {
    true
}

fn is_object_or_link(schema: &Schema, ty: usize) -> bool {
    !schema.is_attribute(ty)
}

/// Draws one call after the other.
pub struct Caller {
    pub random: Random,
    pub mode: Mode,
    /// The files that were written last.
    files: Vec<Vec<u8>>,
}

/// So many files are kept.
const FILES: usize = 4;

impl Caller {
    pub fn new(seed: u64) -> Caller {
        Caller { random: Random::new(seed), mode: Mode::Small, files: Vec::new() }
    }

    /// The next call: mostly one that leads where the mode says, as long as that is not reached.
    pub fn call(&mut self, schema: &Schema) -> Call {
        let leads_on = match self.mode {
            Mode::Small => schema.types.len() > 12 + self.random.below(12),
            Mode::Growing => false,
            Mode::Deep => true,
            _ => free_places(self.mode, schema) > self.random.below(3),
        };
        if !leads_on || self.random.one_in(8) {
            return self.any_call(schema);
        }
        match self.mode {
            Mode::Small => self.taking_away(schema),
            Mode::Deep => self.deepening(schema),
            _ => self.filling(schema),
        }
    }

    /// The length of the output that is lent: about the length that the call needs, on both sides of it.
    pub fn output(&mut self, schema: &Schema, call: &Call) -> usize {
        let unlimited = usize::MAX;
        let reply = match call {
            Call::ScanObject { schema: list, ty, code } => schema.scan_object(list, *ty, *code, unlimited),
            Call::ScanLink { schema: list, ty, code } => schema.scan_link(list, *ty, *code, unlimited),
            Call::Profile { schema: list, ty } => schema.profile(list, *ty, unlimited),
            Call::WriteFile => return self.room(to_file(schema).len()),
            _ => return self.random.below(8),
        };
        let exact = 2 * reply.list.len();
        match self.random.below(10) {
            0 => 0,
            1 => exact.saturating_sub(2),
            2 => exact.saturating_sub(1),
            3 => exact + 1,
            4 | 5 => exact + self.random.below(40),
            _ => exact,
        }
    }

    /// Room for a file of the length, or too little.
    pub fn room(&mut self, exact: usize) -> usize {
        match self.random.below(12) {
            0 => 0,
            1 => self.random.below(exact),
            2 | 3 => exact - 1,
            4 => exact + 1,
            5 | 6 => exact + self.random.below(40),
            7 => MOST,
            _ => exact,
        }
    }

    /// A file was written.
    pub fn keep_file(&mut self, file: &[u8]) {
        if self.files.len() == FILES {
            self.files.remove(0);
        }
        self.files.push(file.to_vec());
    }

    fn any_call(&mut self, schema: &Schema) -> Call {
        let sds = self.sds(schema);
        if schema.sdss.get(&sds).is_some_and(Sds::is_empty) && self.random.one_in(2) {
            return import_object(sds);
        }
        self.any_of(schema, &std::array::from_fn::<usize, { CALLS.len() }, _>(|kind| kind))
    }

    /// A call of one of the kinds, which are places in `CALLS`. Seldom those that would undo what a mode leads to, or
    /// that can hardly be done.
    pub fn any_of(&mut self, schema: &Schema, kinds: &[usize]) -> Call {
        let has_enough_sdss = self.mode != Mode::FullSdss && schema.sdss.len() > 4;
        let has_empty_sds = has_empty_sds(schema);
        loop {
            let kind = self.random.pick(kinds).expect("there is a kind");
            let times = match kind {
                0 => 300,
                1 if has_enough_sdss => 8,
                2 if !has_empty_sds => 4,
                19 => 6,
                _ => 1,
            };
            if self.random.one_in(times) {
                return self.of_kind(schema, kind);
            }
        }
    }

    fn of_kind(&mut self, schema: &Schema, kind: usize) -> Call {
        let sds = self.sds(schema);
        match kind {
            0 => Call::Fresh,
            1 => self.new_sds(schema),
            2 => self.remove_sds(schema),
            3 => self.new_object(schema, sds),
            4 => self.new_attribute(schema, sds),
            5 => self.new_designation(schema, sds),
            6 => self.new_pair(schema, sds),
            7 => self.import(schema, sds),
            8 => self.apply(schema, sds),
            9 => self.unapply(schema, sds),
            10 => self.apply_link(schema, sds),
            11 => self.unapply_link(schema, sds),
            12 => self.add_destination(schema, sds),
            13 => self.remove_destination(schema, sds),
            14 => self.remove_type(schema, sds),
            15 => self.remove_number(schema, sds),
            16 => self.rename(schema, sds),
            17 => self.rename_number(schema, sds),
            18 => self.set_modes(schema, sds),
            19 => self.read_file(schema),
            20 => self.scan_object(schema),
            21 => self.scan_link(schema),
            22 => self.profile(schema),
            23 => self.find(schema),
            24 => self.depth(schema),
            25 => self.name(schema),
            26 => self.descendant_set(schema),
            27 => self.modes(schema),
            _ => Call::WriteFile,
        }
    }

    fn taking_away(&mut self, schema: &Schema) -> Call {
        let sds = self.sds(schema);
        match self.random.below(7) {
            0 => self.unapply(schema, sds),
            1 => self.unapply_link(schema, sds),
            2 => self.remove_destination(schema, sds),
            3 if has_empty_sds(schema) => self.remove_sds(schema),
            4 => self.remove_number(schema, sds),
            _ => self.remove_type(schema, sds),
        }
    }

    /// A call on the way to a long chain of parents: when the type numbers are all used, an attribute type makes room
    /// for an object type, which so gets any number.
    fn deepening(&mut self, schema: &Schema) -> Call {
        let Some((&sds, here)) = schema.sdss.range(1..).next() else {
            return self.new_sds(schema);
        };
        if !here.holds(0) {
            return import_object(sds);
        }
        let name = Text(self.made_name(|name| here.find(name).is_none()));
        if schema.types.len() < Schema::TYPES - 8 {
            return Call::NewAttribute { sds, name, value_kind: 0 };
        }
        let named = |is_wanted: IsWanted| -> Vec<(&Name, usize)> {
            here.named
                .iter()
                .map(|(name, present)| (name, present.ty))
                .filter(|&(_, ty)| is_wanted(schema, ty))
                .collect()
        };
        if schema.types.len() == Schema::TYPES {
            let is_applied = |ty| here.applications.iter().any(|application| application.attribute == ty);
            let mut removable = named(Schema::is_attribute);
            removable.retain(|&(_, ty)| !is_applied(ty));
            return match self.random.pick(&removable) {
                Some((attribute, _)) => Call::RemoveType { sds, name: attribute.into() },
                None => self.any_call(schema),
            };
        }
        let leaves = named(|schema, ty| schema.is_object(ty) && schema.children(ty).is_empty());
        let lowest = leaves.into_iter().max_by_key(|&(_, ty)| schema.ancestors(ty).len());
        let mut parents = lowest.map_or(Vec::new(), |(name, _)| self.random.spelt(name));
        if self.random.one_in(2) {
            parents = [parents, self.parents(schema, sds).0].join(&b' ');
        }
        Call::NewObject { sds, name, parents: Text(parents) }
    }

    /// A call that fills the table of the mode, or makes what is needed for that first.
    fn filling(&mut self, schema: &Schema) -> Call {
        let enough_sdss = if self.mode == Mode::FullPresences { 12 } else { 4 };
        if self.mode == Mode::FullSdss || schema.sdss.len() < enough_sdss {
            return self.new_sds(schema);
        }
        let sds = self.changeable_sds(schema);
        let here = &schema.sdss[&sds];
        if !here.holds(0) {
            return import_object(sds);
        }
        let has_types_left = schema.types.len() < Schema::TYPES;
        // Those that can be meant by name.
        let lacks =
            |is_wanted: IsWanted| here.named.values().filter(|present| is_wanted(schema, present.ty)).count() < 12;
        match self.mode {
            Mode::FullPresences if schema.types.len() > 50 => self.import(schema, sds),
            Mode::FullApplications if has_types_left && lacks(Schema::is_attribute) => {
                self.new_attribute(schema, sds)
            }
            Mode::FullApplications if !(has_types_left && lacks(is_object_or_link)) => self.apply(schema, sds),
            Mode::FullEnds if has_types_left && lacks(Schema::is_link) => self.new_link(schema, sds),
            Mode::FullEnds if !(has_types_left && lacks(Schema::is_object)) => match self.random.below(2) {
                0 => self.apply_link(schema, sds),
                _ => self.add_destination(schema, sds),
            },
            _ => self.new_type(schema, sds),
        }
    }

    fn new_type(&mut self, schema: &Schema, sds: usize) -> Call {
        match self.random.below(4) {
            0 => self.new_attribute(schema, sds),
            1 => self.new_link(schema, sds),
            _ => self.new_object(schema, sds),
        }
    }

    fn new_link(&mut self, schema: &Schema, sds: usize) -> Call {
        match self.random.below(3) {
            0 => self.new_designation(schema, sds),
            _ => self.new_pair(schema, sds),
        }
    }
}

/// One method for each call: inputs that are mostly right.
impl Caller {
    fn new_sds(&mut self, schema: &Schema) -> Call {
        let borne: Vec<&Name> = schema.sdss.values().map(|sds| &sds.name).collect();
        let name = match self.random.below(8) {
            0 => self.malformed(),
            1 => {
                let name = self.random.pick(&borne).expect("there is SDS 0");
                self.given(name)
            }
            _ => self.made_name(|name| !borne.iter().any(|borne| is_same(borne, name))),
        };
        Call::NewSds { name: Text(name) }
    }

    fn remove_sds(&mut self, schema: &Schema) -> Call {
        let empty: Vec<usize> = schema.sdss.iter().filter(|(_, s)| s.is_empty()).map(|(&n, _)| n).collect();
        match self.random.pick(&empty) {
            Some(sds) if self.random.one_in(2) => Call::RemoveSds { sds },
            _ => Call::RemoveSds { sds: self.sds(schema) },
        }
    }

    fn new_object(&mut self, schema: &Schema, sds: usize) -> Call {
        Call::NewObject { sds, name: self.new_name(schema, sds), parents: self.parents(schema, sds) }
    }

    fn new_attribute(&mut self, schema: &Schema, sds: usize) -> Call {
        let value_kind = self.code(LAST_VALUE_KIND + 1);
        Call::NewAttribute { sds, name: self.new_name(schema, sds), value_kind }
    }

    fn new_designation(&mut self, schema: &Schema, sds: usize) -> Call {
        Call::NewDesignation { sds, name: self.new_name(schema, sds) }
    }

    fn new_pair(&mut self, schema: &Schema, sds: usize) -> Call {
        let name = self.new_name(schema, sds);
        let reverse_name = if self.random.one_in(12) { self.again(&name) } else { self.new_name(schema, sds) };
        let (category, reverse_category) = (self.code(DESIGNATION), self.code(DESIGNATION));
        Call::NewPair { sds, name, reverse_name, category, reverse_category }
    }

    fn import(&mut self, schema: &Schema, target: usize) -> Call {
        let used: Vec<usize> = schema.sdss.keys().copied().collect();
        let source = match self.random.pick(&used) {
            Some(source) if !self.random.one_in(12) => source,
            _ => self.random.odd_number(Schema::SDSS),
        };
        let importable = importable(schema, target, source);
        let name = match self.random.pick(&importable) {
            Some(name) if !self.random.one_in(4) => Text(self.given(name)),
            _ => self.borne_name(schema, source, any_type),
        };
        let ty = schema.sdss.get(&source).and_then(|sds| sds.find(&name.0));
        let has_reverse = ty.is_some_and(|ty| schema.reverse(ty).is_some());
        let is_blank = self.random.one_in(2);
        let new_name = self.import_name(schema, target, is_blank);
        let is_blank = if has_reverse { self.random.one_in(2) } else { !self.random.one_in(8) };
        let new_reverse_name = match self.random.below(12) {
            0 if has_reverse => self.again(&new_name),
            _ => self.import_name(schema, target, is_blank),
        };
        Call::Import { target, source, name, new_name, new_reverse_name }
    }

    fn apply(&mut self, schema: &Schema, sds: usize) -> Call {
        let (attribute, to) = self.application(schema, sds);
        Call::Apply { sds, attribute, to }
    }

    fn unapply(&mut self, schema: &Schema, sds: usize) -> Call {
        let (attribute, to) = self.application_there(schema, sds);
        Call::Unapply { sds, attribute, to }
    }

    fn apply_link(&mut self, schema: &Schema, sds: usize) -> Call {
        let (link, object) = self.end(schema, sds);
        Call::ApplyLink { sds, link, object }
    }

    fn unapply_link(&mut self, schema: &Schema, sds: usize) -> Call {
        let (link, object) = self.end_there(schema, sds, Side::Origin);
        Call::UnapplyLink { sds, link, object }
    }

    fn add_destination(&mut self, schema: &Schema, sds: usize) -> Call {
        let (link, object) = self.end(schema, sds);
        Call::AddDestination { sds, link, object }
    }

    fn remove_destination(&mut self, schema: &Schema, sds: usize) -> Call {
        let (link, object) = self.end_there(schema, sds, Side::Destination);
        Call::RemoveDestination { sds, link, object }
    }

    fn remove_type(&mut self, schema: &Schema, sds: usize) -> Call {
        Call::RemoveType { sds, name: self.borne_name(schema, sds, any_type) }
    }

    fn rename(&mut self, schema: &Schema, sds: usize) -> Call {
        let name = self.borne_name(schema, sds, any_type);
        let new_name = if self.random.one_in(6) { self.again(&name) } else { self.new_name(schema, sds) };
        Call::Rename { sds, name, new_name }
    }

    fn remove_number(&mut self, schema: &Schema, sds: usize) -> Call {
        Call::RemoveNumber { sds, ty: self.ty_in(schema, sds) }
    }

    fn rename_number(&mut self, schema: &Schema, sds: usize) -> Call {
        let ty = self.ty_in(schema, sds);
        let own = schema.sdss.get(&sds).and_then(|here| here.name_of(ty));
        let new_name = match own {
            Some(own) if self.random.one_in(4) => self.again(&own.into()),
            _ => self.new_name(schema, sds),
        };
        Call::RenameNumber { sds, ty, new_name }
    }

    fn set_modes(&mut self, schema: &Schema, sds: usize) -> Call {
        let [usage, definition] = [(); 2].map(|()| self.code(Modes::FIVE + 1));
        Call::SetModes { sds, name: self.borne_name(schema, sds, any_type), usage, definition }
    }

    /// Mostly a file that was written lately, which doesn't undo what a mode leads to; seldom one of another history. One
    /// in three is spoiled.
    pub fn read_file(&mut self, schema: &Schema) -> Call {
        let file = match (self.random.below(16), self.random.pick(&self.files)) {
            (0, _) => to_file(&self.another()),
            (1..=10, Some(file)) => file,
            _ => to_file(schema),
        };
        let file = match self.random.below(6) {
            0 => files::malformed(&mut self.random, &file),
            1 => files::unsound(&mut self.random, &Written::new(schema.clone())).unwrap_or(file),
            _ => file,
        };
        Call::ReadFile { file: Text(file) }
    }

    /// The schema of another history: some changes to a fresh one.
    fn another(&mut self) -> Schema {
        let (mut caller, mut schema) = (Caller::new(self.random.word()), Schema::fresh());
        let changes: Vec<usize> = (1..19).collect();
        for _ in 0..self.random.below(200) {
            caller.any_of(&schema, &changes).on(&mut schema, 0);
        }
        schema
    }

    fn scan_object(&mut self, schema: &Schema) -> Call {
        let list = self.list(schema);
        let code = if list.is_empty() { self.random.odd_number(10) } else { self.code(10) };
        Call::ScanObject { ty: self.ty(schema, &list, Schema::is_object), code, schema: list }
    }

    fn scan_link(&mut self, schema: &Schema) -> Call {
        let list = self.list(schema);
        let code = if list.is_empty() { self.random.odd_number(5) } else { self.code(5) };
        Call::ScanLink { ty: self.ty(schema, &list, Schema::is_link), code, schema: list }
    }

    fn profile(&mut self, schema: &Schema) -> Call {
        let list = self.list(schema);
        Call::Profile { ty: self.ty(schema, &list, Schema::is_object), schema: list }
    }

    fn find(&mut self, schema: &Schema) -> Call {
        let list = self.list(schema);
        let sds = match self.random.pick(&list) {
            Some(sds) => sds.into(),
            None => self.sds(schema),
        };
        let is_malformed = list.is_empty() && self.random.one_in(3);
        let name = if is_malformed { Text(self.malformed()) } else { self.borne_name(schema, sds, any_type) };
        Call::Find { name, schema: list }
    }

    fn depth(&mut self, schema: &Schema) -> Call {
        let list = self.list(schema);
        Call::Depth { ty: self.ty(schema, &list, Schema::is_object), schema: list }
    }

    fn name(&mut self, schema: &Schema) -> Call {
        let sds = if self.random.one_in(8) { 0 } else { self.sds(schema) };
        Call::Name { sds, ty: self.ty_in(schema, sds) }
    }

    fn descendant_set(&mut self, schema: &Schema) -> Call {
        let list = self.list(schema);
        Call::DescendantSet { ty: self.ty(schema, &list, Schema::is_object), schema: list }
    }

    fn modes(&mut self, schema: &Schema) -> Call {
        let list = self.list(schema);
        Call::Modes { ty: self.ty(schema, &list, any_type), schema: list }
    }
}

/// Inputs, each mostly right.
impl Caller {
    /// A kind, category, scan code or set of modes: one of `known`, or an odd number.
    fn code(&mut self, known: usize) -> usize {
        if self.random.one_in(12) {
            self.random.odd_number(known)
        } else {
            self.random.below(known)
        }
    }

    fn sds(&mut self, schema: &Schema) -> usize {
        if self.random.one_in(12) {
            self.random.odd_number(Schema::SDSS)
        } else {
            self.changeable_sds(schema)
        }
    }

    /// A used SDS other than SDS 0; failing that, SDS 0.
    fn changeable_sds(&mut self, schema: &Schema) -> usize {
        let used: Vec<usize> = schema.sdss.range(1..).map(|(&sds, _)| sds).collect();
        self.random.pick(&used).unwrap_or(0)
    }

    fn malformed(&mut self) -> Vec<u8> {
        MALFORMED[self.random.below(MALFORMED.len())].to_vec()
    }

    /// A name that is borne, as a call gives it: at times in another spelling, seldom one that is nearly the same.
    fn given(&mut self, name: &[u8]) -> Vec<u8> {
        match self.random.below(32) {
            0 => self.random.missed(name),
            1..=10 => self.random.respelt(name),
            _ => name.to_vec(),
        }
    }

    /// A name that the call gives already, once more.
    fn again(&mut self, name: &Text) -> Text {
        if self.random.one_in(2) {
            Text(self.random.respelt(&name.0))
        } else {
            name.clone()
        }
    }

    /// A well-formed name, and one that is free if one is soon found.
    fn made_name(&mut self, is_free: impl Fn(&[u8]) -> bool) -> Vec<u8> {
        let mut name = Vec::new();
        for _ in 0..10 {
            name = if self.random.one_in(3) {
                NAMES[self.random.below(NAMES.len())].to_vec()
            } else {
                let mut made = vec![b"aAbz"[self.random.below(4)]];
                made.extend((0..=self.random.below(3)).map(|_| b"abzABZ019_"[self.random.below(10)]));
                made
            };
            if is_free(&name) {
                break;
            }
        }
        name
    }

    fn new_name(&mut self, schema: &Schema, sds: usize) -> Text {
        let here = schema.sdss.get(&sds);
        Text(match self.random.below(12) {
            0 => self.malformed(),
            1 => return self.borne_name(schema, sds, any_type),
            _ => self.made_name(|name| here.is_none_or(|here| here.find(name).is_none())),
        })
    }

    fn import_name(&mut self, schema: &Schema, target: usize, is_blank: bool) -> Text {
        if is_blank {
            Text(Vec::new())
        } else {
            self.new_name(schema, target)
        }
    }

    /// A name borne in the SDS, mostly by a type of the wanted kind.
    fn borne_name(&mut self, schema: &Schema, sds: usize, is_wanted: IsWanted) -> Text {
        let borne: Vec<(&Name, &Presence)> =
            schema.sdss.get(&sds).map_or(Vec::new(), |sds| sds.named.iter().collect());
        let wanted: Vec<_> = borne.iter().copied().filter(|(_, present)| is_wanted(schema, present.ty)).collect();
        let found = match self.random.below(16) {
            0 => return Text(self.malformed()),
            1 => None,
            2 => self.random.pick(&borne),
            _ => self.random.pick(&wanted),
        };
        Text(match found {
            Some((name, _)) => self.given(name),
            None => self.made_name(|_| true),
        })
    }

    /// A run of parents: mostly 1 to 4 different object types, parted by one space.
    fn parents(&mut self, schema: &Schema, sds: usize) -> Text {
        let presences: Vec<(&Name, &Presence)> =
            schema.sdss.get(&sds).map_or(Vec::new(), |sds| sds.named.iter().collect());
        let objects =
            presences.into_iter().filter(|(_, present)| schema.is_object(present.ty)).map(|(name, _)| name);
        let objects: Vec<&Name> = self.random.shuffled(objects.collect());
        let count = if self.random.one_in(10) { self.random.below(7) } else { 1 + self.random.below(4) };
        let mut names: Vec<Vec<u8>> = objects.into_iter().take(count).map(|name| self.given(name)).collect();
        match self.random.below(12) {
            0 => names.push(self.borne_name(schema, sds, any_type).0),
            1 => names.extend(names.first().map(|name| self.again(&name.into()).0)),
            _ => {}
        }
        let mut run = names.join(&b' ');
        if self.random.one_in(16) {
            // A space too many: before, behind or somewhere in the run.
            run.insert(self.random.below(run.len() + 1), b' ');
        }
        Text(run)
    }

    /// An attribute type, and an object or link type.
    fn application(&mut self, schema: &Schema, sds: usize) -> (Text, Text) {
        let attribute = self.borne_name(schema, sds, Schema::is_attribute);
        (attribute, self.borne_name(schema, sds, is_object_or_link))
    }

    /// The same, mostly with the one applied to the other.
    fn application_there(&mut self, schema: &Schema, sds: usize) -> (Text, Text) {
        if let Some(here) = schema.sdss.get(&sds).filter(|_| !self.random.one_in(3)) {
            let applications: Vec<_> = here.applications.iter().collect();
            if let Some(application) = self.random.pick(&applications) {
                return (self.name_of(here, application.attribute), self.name_of(here, application.to));
            }
        }
        self.application(schema, sds)
    }

    /// A link type and an object type.
    fn end(&mut self, schema: &Schema, sds: usize) -> (Text, Text) {
        let link = self.borne_name(schema, sds, Schema::is_link);
        (link, self.borne_name(schema, sds, Schema::is_object))
    }

    /// The same, mostly with the one an end of the other.
    fn end_there(&mut self, schema: &Schema, sds: usize, side: Side) -> (Text, Text) {
        if let Some(here) = schema.sdss.get(&sds).filter(|_| !self.random.one_in(3)) {
            let ends: Vec<_> = here.ends.iter().filter(|end| end.side == side).collect();
            if let Some(end) = self.random.pick(&ends) {
                return (self.name_of(here, end.link), self.name_of(here, end.object));
            }
        }
        self.end(schema, sds)
    }

    fn name_of(&mut self, sds: &Sds, ty: usize) -> Text {
        Text(match sds.name_of(ty) {
            Some(name) => self.given(name),
            None => self.made_name(|_| true), // no name means what is nameless
        })
    }

    /// A working schema: some or all of the used SDSs; at times none, one twice, or one that is not used. Under an
    /// empty list no call is done, so there an unknown code and a malformed name are drawn more often than elsewhere.
    fn list(&mut self, schema: &Schema) -> Vec<u8> {
        let mut list = self.random.shuffled(schema.used());
        match self.random.below(32) {
            0..=11 => {}
            12 => list = list.repeat(if self.random.one_in(2) { 2 } else { 17 }),
            13 => list.clear(),
            14 => {
                list.truncate(1 + self.random.below(3));
                list.push(self.random.pick(&list).expect("there is SDS 0"));
            }
            15 | 16 => {
                if self.random.one_in(2) {
                    list.truncate(self.random.below(3));
                }
                let odd = match self.random.below(3) {
                    0 => self.random.byte(),
                    1 => 16,
                    _ => self.random.below(Schema::SDSS) as u8,
                };
                list.insert(self.random.below(list.len() + 1), odd);
            }
            _ => list.truncate(1 + self.random.below(3)),
        }
        list
    }

    /// A type number, mostly that of a visible type of the wanted kind; under an empty list, of any of that kind.
    fn ty(&mut self, schema: &Schema, list: &[u8], is_wanted: IsWanted) -> usize {
        let is_listed = |sds: usize| list.is_empty() || list.iter().any(|&listed| usize::from(listed) == sds);
        let listed = schema.sdss.iter().filter(|(&sds, _)| is_listed(sds));
        let visible: Vec<usize> = listed.flat_map(|(_, sds)| sds.types()).collect();
        let wanted: Vec<usize> = visible.iter().copied().filter(|&ty| is_wanted(schema, ty)).collect();
        let used: Vec<usize> = schema.types.keys().copied().collect();
        let found = match self.random.below(16) {
            0 => None,
            1 => self.random.pick(&used),
            2 => self.random.pick(&visible),
            _ => self.random.pick(&wanted),
        };
        found.unwrap_or_else(|| self.random.odd_number(Schema::TYPES))
    }

    /// The same where one SDS is meant, and a type of any kind; nameless ones are drawn more often than others.
    fn ty_in(&mut self, schema: &Schema, sds: usize) -> usize {
        let nameless: Vec<usize> =
            schema.sdss.get(&sds).map_or(Vec::new(), |here| here.nameless.keys().copied().collect());
        match self.random.pick(&nameless) {
            Some(ty) if self.random.one_in(3) => ty,
            _ => self.ty(schema, &u8::try_from(sds).map_or(Vec::new(), |sds| vec![sds]), any_type),
        }
    }
}

/// How many places are free in the table that the mode fills.
pub fn free_places(mode: Mode, schema: &Schema) -> usize {
    match mode {
        Mode::Small | Mode::Growing | Mode::Deep => 0,
        Mode::FullSdss => Schema::SDSS - schema.sdss.len(),
        Mode::FullTypes => Schema::TYPES - schema.types.len(),
        Mode::FullPresences => Schema::PRESENCES - schema.presence_count(),
        Mode::FullApplications => Schema::APPLICATIONS - schema.application_count(),
        Mode::FullEnds => Schema::ENDS - schema.end_count(),
    }
}

fn has_empty_sds(schema: &Schema) -> bool {
    schema.sdss.values().any(Sds::is_empty)
}

/// The names in the source of types that the target lacks, but not their parents.
pub fn importable(schema: &Schema, target: usize, source: usize) -> Vec<&Name> {
    let (Some(to), Some(from)) = (schema.sdss.get(&target), schema.sdss.get(&source)) else {
        return Vec::new();
    };
    let has_parents = |ty| schema.parents(ty).into_iter().all(|parent| to.holds(parent));
    let importable = from.named.iter().filter(|(_, present)| !to.holds(present.ty) && has_parents(present.ty));
    importable.map(|(name, _)| name).collect()
}

/// Gives an SDS its first type.
fn import_object(target: usize) -> Call {
    let blank = Text(Vec::new());
    Call::Import { target, source: 0, name: "object".into(), new_name: blank.clone(), new_reverse_name: blank }
}
