//! Every call of document 01, and those of 02, as a method on the schema.
//!
//! A call is a row of early returns, one for each number, in rising order, but that 02 sets some of its own between: a
//! number is tried over all inputs of the call before the next one is. Number 1 is left to the reader of bytes, since a
//! schema here is always a good one.
#![forbid(unsafe_code)]

use crate::base;
use crate::file::{self, Fault};
use crate::schema::{
    has_same, is_name, is_same, Application, End, Modes, Name, Presence, Schema, Sds, Side, Type, DESIGNATION,
    IMPLICIT, LAST_VALUE_KIND,
};
use std::collections::BTreeSet;

/// The answer: 01's number, its values in 01's order, and the entries or the file that a call puts down.
#[derive(Clone, Debug, Default, PartialEq, Eq)]
pub struct Reply {
    pub no: usize,
    pub one: usize,
    pub two: usize,
    pub three: usize,
    pub list: Vec<u16>,
    pub file: Vec<u8>,
}

fn refused(no: usize) -> Reply {
    Reply { no, ..Reply::default() }
}

/// A refusal that tells the lowest type that stands in the way.
fn refused_by(no: usize, lowest: usize) -> Reply {
    Reply { no, one: lowest, ..Reply::default() }
}

fn done() -> Reply {
    Reply::default()
}

fn gives(one: usize) -> Reply {
    Reply { one, ..Reply::default() }
}

fn gives_two(one: usize, two: usize) -> Reply {
    Reply { one, two, ..Reply::default() }
}

/// Calls 1 to 8, those by number, the setting of modes and the reading of a file, which change the schema.
impl Schema {
    pub fn new_sds(&mut self, name: &[u8]) -> Reply {
        if !is_name(name) {
            return refused(4);
        }
        if self.sdss.values().any(|sds| is_same(&sds.name, name)) {
            return refused(11);
        }
        let Some(number) = (0..Self::SDSS).find(|number| !self.sdss.contains_key(number)) else {
            return refused(14);
        };
        self.sdss.insert(number, Sds::new(name));
        gives(number)
    }

    pub fn remove_sds(&mut self, sds: usize) -> Reply {
        let Some(removed) = self.sdss.get(&sds) else {
            return refused(2);
        };
        if sds == 0 {
            return refused(3);
        }
        if let Some(lowest) = removed.types().min() {
            return refused_by(12, lowest);
        }
        self.sdss.remove(&sds);
        done()
    }

    /// `parents` is one run of bytes, names parted by one space; an empty run is no parents.
    pub fn new_object(&mut self, sds: usize, name: &[u8], parents: &[u8]) -> Reply {
        let Some(here) = self.sdss.get(&sds) else {
            return refused(2);
        };
        if sds == 0 {
            return refused(3);
        }
        let parent_names: Vec<&[u8]> = match parents {
            [] => Vec::new(),
            run => run.split(|&byte| byte == b' ').collect(),
        };
        if !is_name(name) || !parent_names.iter().all(|parent| is_name(parent)) {
            return refused(4);
        }
        if !(1..=Self::PARENTS).contains(&parent_names.len()) {
            return refused(5);
        }
        let Some(parents) = parent_names.iter().map(|parent| here.find(parent)).collect::<Option<Vec<_>>>() else {
            return refused(6);
        };
        if !parents.iter().all(|&parent| self.is_object(parent)) {
            return refused(7);
        }
        if has_repeat(&parents) {
            return refused(8);
        }
        if is_borne(here, &[name]) {
            return refused(11);
        }
        let Some([ty]) = self.room_for_types() else {
            return refused(14);
        };
        self.put_type(sds, name, ty, Type::Object { parents: parents.into_iter().collect() });
        gives(ty)
    }

    pub fn new_attribute(&mut self, sds: usize, name: &[u8], value_kind: usize) -> Reply {
        let Some(here) = self.sdss.get(&sds) else {
            return refused(2);
        };
        if sds == 0 {
            return refused(3);
        }
        if !is_name(name) {
            return refused(4);
        }
        if value_kind > LAST_VALUE_KIND {
            return refused(5);
        }
        if is_borne(here, &[name]) {
            return refused(11);
        }
        let Some([ty]) = self.room_for_types() else {
            return refused(14);
        };
        self.put_type(sds, name, ty, Type::Attribute { value_kind });
        gives(ty)
    }

    pub fn new_designation(&mut self, sds: usize, name: &[u8]) -> Reply {
        let Some(here) = self.sdss.get(&sds) else {
            return refused(2);
        };
        if sds == 0 {
            return refused(3);
        }
        if !is_name(name) {
            return refused(4);
        }
        if is_borne(here, &[name]) {
            return refused(11);
        }
        let Some([ty]) = self.room_for_types() else {
            return refused(14);
        };
        self.put_type(sds, name, ty, Type::Link { category: DESIGNATION, reverse: None });
        gives(ty)
    }

    pub fn new_pair(
        &mut self,
        sds: usize,
        name: &[u8],
        reverse_name: &[u8],
        category: usize,
        reverse_category: usize,
    ) -> Reply {
        let Some(here) = self.sdss.get(&sds) else {
            return refused(2);
        };
        if sds == 0 {
            return refused(3);
        }
        if !is_name(name) || !is_name(reverse_name) {
            return refused(4);
        }
        if category >= DESIGNATION || reverse_category >= DESIGNATION {
            return refused(5);
        }
        if category == IMPLICIT && reverse_category == IMPLICIT {
            return refused(5);
        }
        if is_borne(here, &[name, reverse_name]) {
            return refused(11);
        }
        let Some([ty, reverse]) = self.room_for_types() else {
            return refused(14);
        };
        self.put_type(sds, name, ty, Type::Link { category, reverse: Some(reverse) });
        self.put_type(sds, reverse_name, reverse, Type::Link { category: reverse_category, reverse: Some(ty) });
        gives_two(ty, reverse)
    }

    pub fn import(
        &mut self,
        target: usize,
        source: usize,
        name: &[u8],
        new_name: &[u8],
        new_reverse_name: &[u8],
    ) -> Reply {
        let (Some(to), Some(from)) = (self.sdss.get(&target), self.sdss.get(&source)) else {
            return refused(2);
        };
        if target == 0 {
            return refused(3);
        }
        let is_blank_or_name = |name: &[u8]| name.is_empty() || is_name(name);
        if !is_name(name) || !is_blank_or_name(new_name) || !is_blank_or_name(new_reverse_name) {
            return refused(4);
        }
        let Some(ty) = from.find(name) else {
            return refused(6);
        };
        let reverse = self.reverse(ty);
        if reverse.is_none() && !new_reverse_name.is_empty() {
            return refused(7);
        }
        if to.holds(ty) {
            return refused(9);
        }
        // Blanks filled in, as the source spells the name; a pair is imported together.
        let filled = |new_name: &[u8], ty: usize| match new_name {
            [] => from.name_of(ty).expect("a reverse is present where its type is").clone(),
            given => Name::new(given),
        };
        let mut imported: Vec<(Name, usize)> = vec![(filled(new_name, ty), ty)];
        imported.extend(reverse.map(|reverse| (filled(new_reverse_name, reverse), reverse)));
        let names: Vec<&[u8]> = imported.iter().map(|(name, _)| &**name).collect();
        if is_borne(to, &names) {
            return refused(11);
        }
        // The ancestors that the target lacks come along, each once and without a name (02, Q-8).
        let mut brought = self.ancestors(ty);
        brought.retain(|&ancestor| !to.holds(ancestor));
        if self.presence_count() + imported.len() + brought.len() > Self::PRESENCES {
            return refused(14);
        }
        // Whatever modes the source has.
        let to = self.within(target);
        to.named.extend(imported.into_iter().map(|(name, ty)| (name, Presence::of(ty))));
        to.nameless.extend(brought.into_iter().map(|ancestor| (ancestor, Modes::ALL)));
        gives_two(ty, reverse.unwrap_or(0))
    }

    pub fn apply(&mut self, sds: usize, attribute: &[u8], to: &[u8]) -> Reply {
        let application = match self.application(sds, attribute, to) {
            Ok(application) => application,
            Err(no) => return refused(no),
        };
        if self.sdss[&sds].applications.contains(&application) {
            return refused(9);
        }
        if self.application_count() == Self::APPLICATIONS {
            return refused(14);
        }
        self.within(sds).applications.insert(application);
        done()
    }

    pub fn unapply(&mut self, sds: usize, attribute: &[u8], to: &[u8]) -> Reply {
        let application = match self.application(sds, attribute, to) {
            Ok(application) => application,
            Err(no) => return refused(no),
        };
        if !self.sdss[&sds].applications.contains(&application) {
            return refused(13);
        }
        self.within(sds).applications.remove(&application);
        done()
    }

    /// Makes the object type an origin of the link type, and a destination of the reverse.
    pub fn apply_link(&mut self, sds: usize, link: &[u8], object: &[u8]) -> Reply {
        self.put_end(sds, link, Side::Origin, object)
    }

    pub fn unapply_link(&mut self, sds: usize, link: &[u8], object: &[u8]) -> Reply {
        self.take_end(sds, link, Side::Origin, object)
    }

    /// Makes the object type a destination of the link type, and an origin of the reverse.
    pub fn add_destination(&mut self, sds: usize, link: &[u8], object: &[u8]) -> Reply {
        self.put_end(sds, link, Side::Destination, object)
    }

    pub fn remove_destination(&mut self, sds: usize, link: &[u8], object: &[u8]) -> Reply {
        self.take_end(sds, link, Side::Destination, object)
    }

    pub fn remove_type(&mut self, sds: usize, name: &[u8]) -> Reply {
        let Some(here) = self.sdss.get(&sds) else {
            return refused(2);
        };
        if sds == 0 {
            return refused(3);
        }
        if !is_name(name) {
            return refused(4);
        }
        let Some(ty) = here.find(name) else {
            return refused(6);
        };
        self.remove_present(sds, ty)
    }

    /// The same by the number of the type, which may be nameless there (02, Q-8).
    pub fn remove_number(&mut self, sds: usize, ty: usize) -> Reply {
        let Some(here) = self.sdss.get(&sds) else {
            return refused(2);
        };
        if sds == 0 {
            return refused(3);
        }
        if !here.holds(ty) {
            return refused(6);
        }
        self.remove_present(sds, ty)
    }

    pub fn rename(&mut self, sds: usize, name: &[u8], new_name: &[u8]) -> Reply {
        let Some(here) = self.sdss.get(&sds) else {
            return refused(2);
        };
        if sds == 0 {
            return refused(3);
        }
        if !is_name(name) || !is_name(new_name) {
            return refused(4);
        }
        let Some(ty) = here.find(name) else {
            return refused(6);
        };
        self.rename_present(sds, ty, new_name)
    }

    /// The same by the number of the type, which may be nameless there and has a name then (02, Q-8).
    pub fn rename_number(&mut self, sds: usize, ty: usize, new_name: &[u8]) -> Reply {
        let Some(here) = self.sdss.get(&sds) else {
            return refused(2);
        };
        if sds == 0 {
            return refused(3);
        }
        if !is_name(new_name) {
            return refused(4);
        }
        if !here.holds(ty) {
            return refused(6);
        }
        self.rename_present(sds, ty, new_name)
    }

    /// Sets both sets of a presence, and of its reverse's in that SDS (02, Q-2). 19 is tried right after 5, which the
    /// call lacks.
    pub fn set_modes(&mut self, sds: usize, name: &[u8], modes: Modes) -> Reply {
        let Some(here) = self.sdss.get(&sds) else {
            return refused(2);
        };
        if sds == 0 {
            return refused(3);
        }
        if !is_name(name) {
            return refused(4);
        }
        if !modes.are_known() {
            return refused(19);
        }
        let Some(ty) = here.find(name) else {
            return refused(6);
        };
        let types = self.with_reverse(ty);
        self.within(sds).set_modes(&types, modes);
        done()
    }

    /// Whatever was there, the schema is then that of the file. 20 tells the length of the longest start that the file
    /// shares with some well-formed one.
    pub fn read_file(&mut self, file: &[u8]) -> Reply {
        match file::read(file) {
            Err(Fault::Malformed { start }) => Reply { no: 20, one: start, ..Reply::default() },
            Err(Fault::NotWritten) => refused(21),
            Ok(schema) => {
                *self = schema;
                done()
            }
        }
    }

    /// What a removal does with a type that is there: 16, 17 and 18 are left to be tried.
    fn remove_present(&mut self, sds: usize, ty: usize) -> Reply {
        let going = self.with_reverse(ty);
        for (no, types) in self.in_the_way(&self.sdss[&sds], &going) {
            if let Some(&lowest) = types.first() {
                return refused_by(no, lowest);
            }
        }
        for gone in going {
            self.within(sds).take_away(gone);
            if !self.sdss.values().any(|sds| sds.holds(gone)) {
                self.types.remove(&gone);
            }
        }
        gives(ty)
    }

    /// What a rename does with a type that is there: 11 is left to be tried.
    fn rename_present(&mut self, sds: usize, ty: usize, new_name: &[u8]) -> Reply {
        let here = self.within(sds);
        if here.find(new_name).is_some_and(|bearer| bearer != ty) {
            return refused(11);
        }
        let modes = here.modes_of(ty).expect("tested by the call");
        here.take_away(ty);
        here.named.insert(Name::new(new_name), Presence { ty, modes });
        done()
    }

    /// A link type goes, and has its modes, with its reverse.
    pub fn with_reverse(&self, ty: usize) -> Vec<usize> {
        [Some(ty), self.reverse(ty)].into_iter().flatten().collect()
    }

    /// What stands in the way of types that are to go from an SDS: the types that each number can tell, in the order in
    /// which the numbers are tried. An application and an end are of two types: where one goes, the other holds it.
    pub fn in_the_way(&self, here: &Sds, going: &[usize]) -> [(usize, BTreeSet<usize>); 3] {
        let children = going.iter().flat_map(|&ty| self.children(ty)).filter(|&child| here.holds(child));
        let applications = here.applications.iter().map(|a| [a.attribute, a.to]);
        let ends = here.ends.iter().map(|end| [end.link, end.object]);
        [(16, children.collect()), (17, others(going, applications)), (18, others(going, ends))]
    }

    /// The application that a call speaks of, or the lowest of the numbers 2, 3, 4, 6 and 7 whose condition holds.
    fn application(&self, sds: usize, attribute: &[u8], to: &[u8]) -> Result<Application, usize> {
        let Some(here) = self.sdss.get(&sds) else {
            return Err(2);
        };
        if sds == 0 {
            return Err(3);
        }
        if !is_name(attribute) || !is_name(to) {
            return Err(4);
        }
        let (Some(attribute), Some(to)) = (here.find(attribute), here.find(to)) else {
            return Err(6);
        };
        if !self.is_attribute(attribute) || self.is_attribute(to) {
            return Err(7);
        }
        Ok(Application { to, attribute })
    }

    /// The end that a call speaks of, and that of the reverse if there is one; or, as above, 2, 3, 4, 6 or 7.
    fn ends_of_call(&self, sds: usize, link: &[u8], side: Side, object: &[u8]) -> Result<Vec<End>, usize> {
        let Some(here) = self.sdss.get(&sds) else {
            return Err(2);
        };
        if sds == 0 {
            return Err(3);
        }
        if !is_name(link) || !is_name(object) {
            return Err(4);
        }
        let (Some(link), Some(object)) = (here.find(link), here.find(object)) else {
            return Err(6);
        };
        if !self.is_link(link) || !self.is_object(object) {
            return Err(7);
        }
        let end = End { link, side, object };
        let mirror = self.reverse(link).map(|reverse| end.mirror(reverse));
        Ok([Some(end), mirror].into_iter().flatten().collect())
    }

    fn put_end(&mut self, sds: usize, link: &[u8], side: Side, object: &[u8]) -> Reply {
        let ends = match self.ends_of_call(sds, link, side, object) {
            Ok(ends) => ends,
            Err(no) => return refused(no),
        };
        if self.sdss[&sds].ends.contains(&ends[0]) {
            return refused(9);
        }
        if self.end_count() + ends.len() > Self::ENDS {
            return refused(14);
        }
        self.within(sds).ends.extend(ends);
        done()
    }

    fn take_end(&mut self, sds: usize, link: &[u8], side: Side, object: &[u8]) -> Reply {
        let ends = match self.ends_of_call(sds, link, side, object) {
            Ok(ends) => ends,
            Err(no) => return refused(no),
        };
        if !self.sdss[&sds].ends.contains(&ends[0]) {
            return refused(13);
        }
        self.within(sds).ends.retain(|end| !ends.contains(end));
        done()
    }

    /// The lowest unused numbers for `N` new types, if there is room for them and for a presence of each.
    fn room_for_types<const N: usize>(&self) -> Option<[usize; N]> {
        if self.presence_count() + N > Self::PRESENCES {
            return None;
        }
        let unused = (0..Self::TYPES).filter(|number| !self.types.contains_key(number));
        unused.take(N).collect::<Vec<_>>().try_into().ok()
    }

    fn put_type(&mut self, sds: usize, name: &[u8], number: usize, ty: Type) {
        self.types.insert(number, ty);
        self.within(sds).named.insert(Name::new(name), Presence::of(number));
    }

    /// An SDS that the call has found to be used, to be changed.
    fn within(&mut self, sds: usize) -> &mut Sds {
        self.sdss.get_mut(&sds).expect("tested by the call")
    }
}

/// The other of each two types of which one goes.
fn others(going: &[usize], pairs: impl Iterator<Item = [usize; 2]>) -> BTreeSet<usize> {
    let both_ways = pairs.flat_map(|[one, other]| [(one, other), (other, one)]);
    both_ways.filter(|(ty, _)| going.contains(ty)).map(|(_, other)| other).collect()
}

/// Whether a new name is borne in the SDS, or two of the new names are the same.
fn is_borne(sds: &Sds, new_names: &[&[u8]]) -> bool {
    new_names.iter().any(|name| sds.find(name).is_some()) || has_same(new_names.iter().copied())
}

fn has_repeat<T: Ord>(items: &[T]) -> bool {
    items.iter().collect::<BTreeSet<_>>().len() < items.len()
}

/// What a scan of an object type lists, in the order of the codes.
#[derive(Clone, Copy)]
enum ObjectScan {
    Child,
    Descendant,
    Parent,
    Ancestor,
    Attribute,
    AttributeAll,
    LinkOrigin,
    LinkOriginAll,
    LinkDestination,
    LinkDestinationAll,
}

const OBJECT_SCANS: [ObjectScan; 10] = [
    ObjectScan::Child,
    ObjectScan::Descendant,
    ObjectScan::Parent,
    ObjectScan::Ancestor,
    ObjectScan::Attribute,
    ObjectScan::AttributeAll,
    ObjectScan::LinkOrigin,
    ObjectScan::LinkOriginAll,
    ObjectScan::LinkDestination,
    ObjectScan::LinkDestinationAll,
];

/// What a scan of a link type lists, in the order of the codes.
#[derive(Clone, Copy)]
enum LinkScan {
    Origin,
    OriginAll,
    Destination,
    DestinationAll,
    AppliedAttributes,
}

const LINK_SCANS: [LinkScan; 5] = [
    LinkScan::Origin,
    LinkScan::OriginAll,
    LinkScan::Destination,
    LinkScan::DestinationAll,
    LinkScan::AppliedAttributes,
];

/// The SDSs of a list, in its order. Only their applications and ends count.
struct WorkingSchema<'a> {
    sdss: Vec<&'a Sds>,
    visible: BTreeSet<usize>,
}

impl WorkingSchema<'_> {
    fn sees(&self, ty: usize) -> bool {
        self.visible.contains(&ty)
    }

    /// The attribute types applied to one of the types.
    fn attributes(&self, of: &BTreeSet<usize>) -> BTreeSet<usize> {
        let applications = self.sdss.iter().flat_map(|sds| &sds.applications);
        applications.filter(|a| of.contains(&a.to)).map(|a| a.attribute).collect()
    }

    /// The link types that have one of the object types on the side.
    fn links(&self, side: Side, of: &BTreeSet<usize>) -> BTreeSet<usize> {
        let ends = self.sdss.iter().flat_map(|sds| &sds.ends);
        ends.filter(|end| end.side == side && of.contains(&end.object)).map(|end| end.link).collect()
    }

    /// The object types that the link type has on the side.
    fn objects(&self, link: usize, side: Side) -> BTreeSet<usize> {
        let ends = self.sdss.iter().flat_map(|sds| &sds.ends);
        ends.filter(|end| end.link == link && end.side == side).map(|end| end.object).collect()
    }
}

/// Calls 9 to 13, that for modes and the writing of a file, which ask. `list` is the working schema, `output` the length in bytes of the
/// output area.
impl Schema {
    pub fn scan_object(&self, list: &[u8], ty: usize, code: usize, output: usize) -> Reply {
        let asked = self.asked(list, OBJECT_SCANS.get(code), ty, Self::is_object);
        asked.map_or_else(refused, |(working, &scan)| put_down(&[self.object_list(&working, ty, scan)], output))
    }

    pub fn scan_link(&self, list: &[u8], ty: usize, code: usize, output: usize) -> Reply {
        let asked = self.asked(list, LINK_SCANS.get(code), ty, Self::is_link);
        asked.map_or_else(refused, |(working, &scan)| put_down(&[self.link_list(&working, ty, scan)], output))
    }

    pub fn profile(&self, list: &[u8], ty: usize, output: usize) -> Reply {
        let scans = [ObjectScan::Ancestor, ObjectScan::AttributeAll, ObjectScan::LinkOriginAll];
        let asked = self.asked(list, Some(scans), ty, Self::is_object);
        asked.map_or_else(refused, |(working, scans)| {
            put_down(&scans.map(|scan| self.object_list(&working, ty, scan)), output)
        })
    }

    pub fn find(&self, list: &[u8], name: &[u8]) -> Reply {
        let Some(working) = self.working_schema(list) else {
            return refused(2);
        };
        if !is_name(name) {
            return refused(4);
        }
        let Some(ty) = working.sdss.iter().find_map(|sds| sds.find(name)) else {
            return refused(6);
        };
        if has_repeat(list) {
            return refused(8);
        }
        gives(ty)
    }

    pub fn depth(&self, list: &[u8], ty: usize) -> Reply {
        let asked = self.asked(list, Some(()), ty, Self::is_object);
        asked.map_or_else(refused, |_| gives(self.longest_way_up(ty)))
    }

    /// Gives where the local name starts in the base, and its length, 0 where the type is nameless.
    pub fn name(&self, sds: usize, ty: usize) -> Reply {
        let Some(here) = self.sdss.get(&sds) else {
            return refused(2);
        };
        if !here.holds(ty) {
            return refused(6);
        }
        gives_two(base::name_start(self, sds, ty), here.name_of(ty).map_or(0, |name| name.len()))
    }

    /// Gives the low word, the high word and the number of marks set.
    pub fn descendant_set(&self, list: &[u8], ty: usize) -> Reply {
        let asked = self.asked(list, Some(()), ty, Self::is_object);
        asked.map_or_else(refused, |(working, ())| {
            let marked = &self.descendants(ty) & &working.visible;
            let mut words = [0; 2];
            for ty in &marked {
                words[ty / 64] |= 1 << (ty % 64);
            }
            Reply { one: words[0], two: words[1], three: marked.len(), ..done() }
        })
    }

    /// Gives usage and definition, each the union over the listed SDSs that hold the type, which may be of any kind.
    pub fn modes(&self, list: &[u8], ty: usize) -> Reply {
        let asked = self.asked(list, Some(()), ty, |_, _| true);
        asked.map_or_else(refused, |(working, ())| {
            let held = working.sdss.iter().filter_map(|sds| sds.modes_of(ty));
            let Modes { usage, definition } = held.fold(Modes::NONE, Modes::union);
            gives_two(usage, definition)
        })
    }

    /// Gives the length of the file; `output` is counted in bytes here.
    pub fn write_file(&self, output: usize) -> Reply {
        let file = file::to_file(self);
        match file.len() <= output {
            true => Reply { one: file.len(), file, ..Reply::default() },
            false => refused(15),
        }
    }

    /// The working schema of a call that asks about a type of the wanted kind, and what it asks, none for an unknown
    /// code; or the lowest of the numbers 2, 5, 6, 7 and 8 whose condition holds.
    fn asked<T>(
        &self,
        list: &[u8],
        what: Option<T>,
        ty: usize,
        is_wanted: fn(&Schema, usize) -> bool,
    ) -> Result<(WorkingSchema<'_>, T), usize> {
        let Some(working) = self.working_schema(list) else {
            return Err(2);
        };
        let Some(what) = what else {
            return Err(5);
        };
        if !working.sees(ty) {
            return Err(6);
        }
        if !is_wanted(self, ty) {
            return Err(7);
        }
        if has_repeat(list) {
            return Err(8);
        }
        Ok((working, what))
    }

    /// The SDSs listed, none if one of them is unused. An empty list makes nothing visible.
    fn working_schema(&self, list: &[u8]) -> Option<WorkingSchema<'_>> {
        let sdss: Vec<&Sds> = list.iter().map(|&sds| self.sdss.get(&sds.into())).collect::<Option<_>>()?;
        let visible = sdss.iter().flat_map(|sds| sds.types()).collect();
        Some(WorkingSchema { sdss, visible })
    }

    fn object_list(&self, working: &WorkingSchema, ty: usize, scan: ObjectScan) -> Vec<u16> {
        let itself = BTreeSet::from([ty]);
        let with_ancestors = || &itself | &self.ancestors(ty);
        let found = match scan {
            ObjectScan::Child => self.children(ty),
            ObjectScan::Descendant => self.descendants(ty),
            ObjectScan::Parent => self.parents(ty),
            ObjectScan::Ancestor => self.ancestors(ty),
            ObjectScan::Attribute => working.attributes(&itself),
            ObjectScan::AttributeAll => working.attributes(&with_ancestors()),
            ObjectScan::LinkOrigin => working.links(Side::Origin, &itself),
            ObjectScan::LinkOriginAll => working.links(Side::Origin, &with_ancestors()),
            ObjectScan::LinkDestination => working.links(Side::Destination, &itself),
            ObjectScan::LinkDestinationAll => working.links(Side::Destination, &with_ancestors()),
        };
        entries(&found & &working.visible)
    }

    fn link_list(&self, working: &WorkingSchema, ty: usize, scan: LinkScan) -> Vec<u16> {
        let with_descendants = |mut objects: BTreeSet<usize>| {
            for object in objects.clone() {
                objects.extend(self.descendants(object));
            }
            objects
        };
        let found = match scan {
            LinkScan::Origin => working.objects(ty, Side::Origin),
            LinkScan::OriginAll => with_descendants(working.objects(ty, Side::Origin)),
            LinkScan::Destination => working.objects(ty, Side::Destination),
            LinkScan::DestinationAll => with_descendants(working.objects(ty, Side::Destination)),
            LinkScan::AppliedAttributes => working.attributes(&BTreeSet::from([ty])),
        };
        entries(&found & &working.visible)
    }
}

/// The lists put down one straight after the other, with their counts, in an output of so many bytes. Room is counted
/// in whole entries of two bytes.
fn put_down(lists: &[Vec<u16>], output: usize) -> Reply {
    let list = lists.concat();
    if list.len() > output / 2 {
        return refused(15);
    }
    let count = |n: usize| lists.get(n).map_or(0, Vec::len);
    Reply { one: count(0), two: count(1), three: count(2), list, ..Reply::default() }
}

/// In rising type number, each once; type numbers are below 128.
fn entries(types: BTreeSet<usize>) -> Vec<u16> {
    types.into_iter().map(|ty| ty as u16).collect()
}
