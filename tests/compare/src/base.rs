//! A schema as bytes of a base, as `docs/LAYOUT.md` lays it out. One schema has one base, and a base is sound exactly
//! when it is that of a good schema.
#![forbid(unsafe_code)]

use crate::schema::{
    has_same, is_name, Application, End, Modes, Name, Presence, Schema, Sds, Side, Type, DESIGNATION, IMPLICIT,
    LAST_VALUE_KIND,
};
use std::collections::{BTreeMap, BTreeSet};

/// Rows of one width, one behind the other.
#[derive(Clone, Copy)]
pub struct Table {
    pub start: usize,
    pub rows: usize,
    pub width: usize,
}

pub const SDSS: Table = Table { start: 0, rows: Schema::SDSS, width: Schema::NAME };
pub const TYPES: Table = SDSS.followed_by(Schema::TYPES, 4 + Schema::PARENTS);
pub const PRESENCES: Table = TYPES.followed_by(Schema::PRESENCES, 1 + Schema::NAME + 3);
pub const APPLICATIONS: Table = PRESENCES.followed_by(Schema::APPLICATIONS, 3);
pub const ENDS: Table = APPLICATIONS.followed_by(Schema::ENDS, 4);
pub const LENGTH: usize = ENDS.end();

/// Where a presence's row has its type and its modes, behind SDS and name.
pub const TYPE: usize = 1 + Schema::NAME;
pub const USAGE: usize = TYPE + 1;
pub const DEFINITION: usize = USAGE + 1;

impl Table {
    const fn followed_by(self, rows: usize, width: usize) -> Table {
        Table { start: self.end(), rows, width }
    }

    const fn end(self) -> usize {
        self.start + self.rows * self.width
    }

    pub fn rows(self, base: &[u8]) -> impl Iterator<Item = &[u8]> {
        base[self.start..self.end()].chunks_exact(self.width)
    }

    pub fn row(self, base: &mut [u8], number: usize) -> &mut [u8] {
        &mut base[self.start + number * self.width..][..self.width]
    }

    /// The used rows of a table kept in order: strictly rising by what sets them in order, with no gap. None if they are
    /// not.
    fn rising_rows<K: Ord>(self, base: &[u8], key: fn(&[u8]) -> K) -> Option<Vec<&[u8]>> {
        let used: Vec<&[u8]> = self.rows(base).take_while(|row| is_used(row)).collect();
        let is_gapless = !self.rows(base).skip(used.len()).any(is_used);
        let keys: Vec<K> = used.iter().map(|row| key(row)).collect();
        let is_rising = keys.windows(2).all(|pair| pair[0] < pair[1]);
        (is_gapless && is_rising).then_some(used)
    }
}

/// Presences stand by SDS, then name, then type. A name's field may have its padding, which is below every byte of a name;
/// so nameless ones, whose field is padding alone, stand before the others, by type.
pub fn presence_key(row: &[u8]) -> (u8, Name, u8) {
    (row[0], Name::new(&row[1..][..Schema::NAME]), row[TYPE])
}

/// Applications and ends stand as their bytes do, which are numbers.
fn bytes_of(row: &[u8]) -> Vec<u8> {
    row.to_vec()
}

/// Every used row has a byte that is not 0.
pub fn is_used(row: &[u8]) -> bool {
    row.iter().any(|&byte| byte != 0)
}

pub fn to_bytes(schema: &Schema) -> Vec<u8> {
    let mut base = vec![0; LENGTH];
    for (&number, sds) in &schema.sdss {
        SDSS.row(&mut base, number)[..sds.name.len()].copy_from_slice(&sds.name);
    }
    for (&number, ty) in &schema.types {
        TYPES.row(&mut base, number).copy_from_slice(&type_row(ty));
    }
    // The maps and sets are in the order of the rows: names hold no byte 0, so padding doesn't change their order.
    let (mut presences, mut applications, mut ends) = (0.., 0.., 0..);
    for (&number, sds) in &schema.sdss {
        let nameless = sds.nameless.iter().map(|(&ty, &modes)| (&[][..], ty, modes));
        let named = sds.named.iter().map(|(name, present)| (&**name, present.ty, present.modes));
        for (name, ty, Modes { usage, definition }) in nameless.chain(named) {
            let row = PRESENCES.row(&mut base, presences.next().unwrap());
            row[0] = number as u8;
            row[1..][..name.len()].copy_from_slice(name);
            row[TYPE..].copy_from_slice(&[ty, usage, definition].map(|field| field as u8));
        }
        for application in &sds.applications {
            let row = [number, application.to, application.attribute].map(|field| field as u8);
            APPLICATIONS.row(&mut base, applications.next().unwrap()).copy_from_slice(&row);
        }
        for end in &sds.ends {
            let row = [number, end.link, end.side as usize, end.object].map(|field| field as u8);
            ENDS.row(&mut base, ends.next().unwrap()).copy_from_slice(&row);
        }
    }
    base
}

fn type_row(ty: &Type) -> [u8; TYPES.width] {
    let mut row = [0; TYPES.width];
    match ty {
        Type::Object { parents } => {
            row[0] = 1;
            row[3] = parents.len() as u8;
            for (field, &parent) in row[4..].iter_mut().zip(parents) {
                *field = parent as u8;
            }
        }
        Type::Attribute { value_kind } => {
            row[0] = 2;
            row[1] = *value_kind as u8;
        }
        Type::Link { category, reverse } => {
            row[0] = 3;
            row[1] = *category as u8;
            row[2] = reverse.unwrap_or(0) as u8;
        }
    }
    row
}

/// Where the field of a type's local name starts in the base; the type is present in the SDS.
pub fn name_start(schema: &Schema, sds: usize, ty: usize) -> usize {
    let before: usize = schema.sdss.range(..sds).map(|(_, lower)| lower.presences().count()).sum();
    let number = before + schema.sdss[&sds].types().take_while(|&other| other != ty).count();
    PRESENCES.start + number * PRESENCES.width + 1
}

pub fn is_sound(base: &[u8]) -> bool {
    from_bytes(base).is_some()
}

/// The schema that the base is the bytes of; none exactly when the base is not sound.
pub fn from_bytes(base: &[u8]) -> Option<Schema> {
    if base.len() != LENGTH {
        return None;
    }
    let mut schema = Schema { sdss: BTreeMap::new(), types: BTreeMap::new() };
    for (number, row) in SDSS.rows(base).enumerate().filter(|(_, row)| is_used(row)) {
        schema.sdss.insert(number, Sds::new(name_in(row)?));
    }
    for (number, row) in TYPES.rows(base).enumerate().filter(|(_, row)| is_used(row)) {
        schema.types.insert(number, type_in(row)?);
    }
    for row in PRESENCES.rising_rows(base, presence_key)? {
        let sds = schema.sdss.get_mut(&row[0].into())?;
        let (field, ty) = (&row[1..][..Schema::NAME], row[TYPE].into());
        let modes = Modes { usage: row[USAGE].into(), definition: row[DEFINITION].into() };
        let is_stored_twice = match is_used(field) {
            true => sds.named.insert(Name::new(name_in(field)?), Presence { ty, modes }).is_some(),
            false => sds.nameless.insert(ty, modes).is_some(),
        };
        if is_stored_twice {
            return None;
        }
    }
    for row in APPLICATIONS.rising_rows(base, bytes_of)? {
        let application = Application { to: row[1].into(), attribute: row[2].into() };
        schema.sdss.get_mut(&row[0].into())?.applications.insert(application);
    }
    for row in ENDS.rising_rows(base, bytes_of)? {
        let side = match row[2] {
            0 => Side::Origin,
            1 => Side::Destination,
            _ => return None,
        };
        let end = End { link: row[1].into(), side, object: row[3].into() };
        schema.sdss.get_mut(&row[0].into())?.ends.insert(end);
    }
    is_good(&schema).then_some(schema)
}

/// The name in a field: well formed, with nothing but zeros behind it.
pub fn name_in(field: &[u8]) -> Option<&[u8]> {
    let length = field.iter().position(|&byte| byte == 0).unwrap_or(field.len());
    let (name, padding) = field.split_at(length);
    (is_name(name) && !is_used(padding)).then_some(name)
}

/// The type in a used row, whose parents are rising and whose other fields are 0.
fn type_in(row: &[u8]) -> Option<Type> {
    let parents = row[4..].get(..row[3].into())?;
    let is_rising = parents.windows(2).all(|pair| pair[0] < pair[1]);
    if !is_rising || is_used(&row[4 + parents.len()..]) {
        return None;
    }
    match *row {
        [1, 0, 0, ..] => Some(Type::Object { parents: parents.iter().map(|&parent| parent.into()).collect() }),
        [2, value_kind, 0, 0, ..] => Some(Type::Attribute { value_kind: value_kind.into() }),
        [3, category, reverse, 0, ..] => {
            let reverse = (reverse != 0).then_some(reverse.into());
            Some(Type::Link { category: category.into(), reverse })
        }
        _ => None,
    }
}

/// Document 01, "Things in a base" and "A base is sound when", but for what reading the rows or a file has settled: names
/// are well formed, numbers of SDSs and types below the limits, parents at most 4, nothing is stored twice byte for byte.
pub fn is_good(schema: &Schema) -> bool {
    // Names are unique among SDSs.
    if has_same(schema.sdss.values().map(|sds| &*sds.name)) {
        return false;
    }
    // SDS 0 is as in a fresh base byte for byte, and so is the type that it holds.
    let fresh = Schema::fresh();
    if schema.sdss.get(&0) != fresh.sdss.get(&0) || schema.types.get(&0) != fresh.types.get(&0) {
        return false;
    }
    // Each type is present somewhere, and only types are; no type is its own ancestor.
    let present: BTreeSet<usize> = schema.sdss.values().flat_map(Sds::types).collect();
    present.iter().eq(schema.types.keys())
        && schema.types.iter().all(|(&number, ty)| is_good_type(schema, number, ty))
        && !has_cycle(schema)
        && schema.sdss.values().all(|sds| is_good_sds(schema, sds))
}

fn is_good_type(schema: &Schema, number: usize, ty: &Type) -> bool {
    match ty {
        // 1 to 4 parents, all object types; only type 0 has none.
        Type::Object { parents } => {
            parents.is_empty() == (number == 0) && parents.iter().all(|&parent| schema.is_object(parent))
        }
        Type::Attribute { value_kind } => *value_kind <= LAST_VALUE_KIND,
        // A designation type has no reverse.
        Type::Link { category: DESIGNATION, reverse } => reverse.is_none(),
        // Every other has exactly one, a different type, which has it in turn. Two implicit types are never a pair.
        Type::Link { category, reverse: Some(reverse) } => match schema.types.get(reverse) {
            Some(Type::Link { category: other, reverse: back }) => {
                *category < DESIGNATION
                    && *reverse != number
                    && *back == Some(number)
                    && (*category, *other) != (IMPLICIT, IMPLICIT)
            }
            _ => false,
        },
        Type::Link { reverse: None, .. } => false,
    }
}

/// Whether some type is its own ancestor: a depth-first search that comes back to a type on its way.
fn has_cycle(schema: &Schema) -> bool {
    fn comes_back(schema: &Schema, ty: usize, way: &mut Vec<usize>, finished: &mut BTreeSet<usize>) -> bool {
        if way.contains(&ty) {
            return true;
        }
        if finished.contains(&ty) {
            return false;
        }
        way.push(ty);
        let found = schema.parents(ty).into_iter().any(|parent| comes_back(schema, parent, way, finished));
        way.pop();
        finished.insert(ty);
        found
    }
    let mut finished = BTreeSet::new();
    schema.types.keys().any(|&ty| comes_back(schema, ty, &mut Vec::new(), &mut finished))
}

fn is_good_sds(schema: &Schema, sds: &Sds) -> bool {
    // Local names are unique in an SDS.
    if has_same(sds.named.keys().map(|name| &**name)) {
        return false;
    }
    // No type but an object type is without one.
    if !sds.nameless.keys().all(|&ty| schema.is_object(ty)) {
        return false;
    }
    // A type has at most one presence in an SDS.
    let present: BTreeSet<usize> = sds.types().collect();
    if present.len() < sds.presences().count() {
        return false;
    }
    let is_good_presence = |Presence { ty, modes }: Presence| {
        // Parents of a present type are present; a link type and its reverse are present in the same SDSs, with the
        // same modes. No mode is unknown.
        schema.parents(ty).is_subset(&present)
            && schema.reverse(ty).is_none_or(|reverse| sds.modes_of(reverse) == Some(modes))
            && modes.are_known()
    };
    // An attribute type is applied to an object or link type; both are present.
    let is_good_application = |application: &Application| {
        present.contains(&application.to)
            && present.contains(&application.attribute)
            && schema.is_attribute(application.attribute)
            && !schema.is_attribute(application.to)
    };
    // A link type has object types as ends; both are present. An object type is an origin of a link type exactly when
    // it is a destination of its reverse.
    let is_good_end = |end: &End| {
        present.contains(&end.link)
            && present.contains(&end.object)
            && schema.is_link(end.link)
            && schema.is_object(end.object)
            && schema.reverse(end.link).is_none_or(|reverse| sds.ends.contains(&end.mirror(reverse)))
    };
    sds.presences().all(is_good_presence)
        && sds.applications.iter().all(is_good_application)
        && sds.ends.iter().all(is_good_end)
}
