//! Sound bases spoiled on purpose. Some ways break the layout; others break one sentence of document 01 in a schema
//! that is then laid out as it should be. A few leave the base sound; a way that finds nothing to spoil leaves it as
//! it was.
#![forbid(unsafe_code)]

use crate::base::{
    is_used, presence_key, to_bytes, Table, APPLICATIONS, ENDS, LENGTH, PRESENCES, SDSS, TYPE, TYPES, USAGE,
};
use crate::modes;
use crate::nameless::{self, nameless, take_name};
use crate::random::{Random, BESIDE_LETTERS, CASE};
use crate::schema::{Application, End, Modes, Name, Presence, Schema, Sds, Side, Type};
use std::collections::BTreeSet;

pub enum Way {
    Length(fn(&mut Random) -> usize),
    Layout(fn(&mut Random, &mut [u8])),
    Schema(fn(&mut Random, &mut Schema)),
}

pub const WAYS: [(&str, Way); 86] = [
    ("wrong length", Way::Length(wrong_length)),
    ("flipped bit", Way::Layout(flipped_bit)),
    ("changed byte of a row", Way::Layout(changed_byte)),
    ("swapped rows", Way::Layout(swapped_rows)),
    ("doubled row", Way::Layout(doubled_row)),
    ("dropped row", Way::Layout(dropped_row)),
    ("gap", Way::Layout(gap)),
    ("row after a gap", Way::Layout(row_after_gap)),
    ("unused row among the used", Way::Layout(unused_row_among_the_used)),
    ("key a byte out of order", Way::Layout(key_out_of_order)),
    ("byte in padding", Way::Layout(byte_in_padding)),
    ("byte in unused room", Way::Layout(byte_in_unused_room)),
    ("byte in the last row", Way::Layout(byte_in_the_last_row)),
    ("field that a kind lacks", Way::Layout(field_that_a_kind_lacks)),
    ("parents not rising", Way::Layout(parents_not_rising)),
    ("number of parents", Way::Layout(number_of_parents)),
    ("row of an unused SDS", Way::Layout(row_of_an_unused_sds)),
    ("same name twice", Way::Layout(same_name_twice)),
    ("both spellings of a name", Way::Layout(both_spellings)),
    ("both spellings, falling", Way::Layout(both_spellings_falling)),
    ("both spellings, by bytes", Way::Layout(both_spellings_by_bytes)),
    ("rows by bytes", Way::Layout(rows_by_bytes)),
    ("two rows by bytes", Way::Layout(two_rows_by_bytes)),
    ("rows by capitals", Way::Layout(rows_by_capitals)),
    ("byte beside the letters", Way::Layout(byte_beside_the_letters)),
    ("SDS 0 respelt", Way::Layout(sds_0_respelt)),
    ("name respelt", Way::Layout(name_respelt)),
    ("every name respelt", Way::Layout(every_name_respelt)),
    ("cycle of parents", Way::Schema(cycle_of_parents)),
    ("ring of any length", Way::Schema(ring_of_any_length)),
    ("no parents", Way::Schema(no_parents)),
    ("parent of no use", Way::Schema(parent_of_no_use)),
    ("missing parent", Way::Schema(missing_parent)),
    ("no parent in one more SDS", Way::Schema(no_parent_in_one_more_sds)),
    ("reverse", Way::Schema(other_reverse)),
    ("category", Way::Schema(other_category)),
    ("value kind", Way::Schema(unknown_value_kind)),
    ("missing reverse", Way::Schema(missing_reverse)),
    ("type twice in an SDS", Way::Schema(type_twice)),
    ("type present nowhere", Way::Schema(type_present_nowhere)),
    ("presence of an unused type", Way::Schema(presence_of_an_unused_type)),
    ("application", Way::Schema(other_application)),
    ("end", Way::Schema(other_end)),
    ("missing mirror", Way::Schema(missing_mirror)),
    ("mirror of another", Way::Schema(mirror_of_another)),
    ("SDS 0 changed", Way::Schema(sds_0_changed)),
    ("two SDSs of one name", Way::Schema(two_sdss_of_one_name)),
    ("two SDSs in two spellings", Way::Schema(two_sdss_in_two_spellings)),
    ("malformed name", Way::Schema(malformed_name)),
    ("usage of 32 or more", Way::Schema(unknown_usage)),
    ("definition of 32 or more", Way::Schema(unknown_definition)),
    ("pair of two usages", Way::Schema(pair_of_two_usages)),
    ("pair of two definitions", Way::Schema(pair_of_two_definitions)),
    ("modes of SDS 0", Way::Schema(modes_of_sds_0)),
    ("modes in an unused row", Way::Layout(modes_in_an_unused_row)),
    ("modes of a lone type", Way::Schema(modes_of_a_lone_type)),
    ("modes of a pair", Way::Schema(modes_of_a_pair)),
    ("modes of every presence", Way::Schema(modes::give)),
    ("one pair of many", Way::Schema(one_pair_of_many)),
    ("pair with its sets turned", Way::Schema(pair_with_its_sets_turned)),
    ("two pairs crossed", Way::Schema(two_pairs_crossed)),
    ("pair otherwise in each SDS", Way::Schema(pair_otherwise_in_each_sds)),
    ("one of a pair as elsewhere", Way::Schema(one_of_a_pair_as_elsewhere)),
    ("nameless attribute type", Way::Schema(nameless_attribute_type)),
    ("nameless link type", Way::Schema(nameless_link_type)),
    ("nameless pair", Way::Schema(nameless_pair)),
    ("nameless in SDS 0", Way::Schema(nameless_in_sds_0)),
    ("nameless of an unused type", Way::Schema(nameless_of_an_unused_type)),
    ("nameless and named", Way::Schema(nameless_and_named)),
    ("nameless, modes of 32", Way::Schema(nameless_of_unknown_modes)),
    ("nameless rows swapped", Way::Layout(nameless_rows_swapped)),
    ("nameless behind a named", Way::Layout(nameless_behind_a_named)),
    ("nameless row doubled", Way::Layout(nameless_row_doubled)),
    ("nameless twice, other modes", Way::Layout(nameless_twice)),
    ("stray byte, nameless", Way::Layout(stray_byte)),
    ("gap behind nameless", Way::Layout(gap_behind_nameless)),
    ("nameless row emptied", Way::Layout(nameless_row_emptied)),
    ("name made blank in place", Way::Layout(name_made_blank_in_place)),
    ("nameless ancestor missing", Way::Schema(nameless_ancestor_missing)),
    ("named ancestor missing", Way::Schema(named_ancestor_missing)),
    ("full, last rows swapped", Way::Layout(full_and_last_rows_swapped)),
    ("full of presences", Way::Schema(full_of_presences)),
    ("name taken away", Way::Schema(name_taken_away)),
    ("every object type nameless", Way::Schema(every_object_type_nameless)),
    ("modes of a nameless type", Way::Schema(modes_of_a_nameless_type)),
    ("nameless type joined", Way::Schema(nameless_type_joined)),
];

/// The ways that spoil spellings, modes or nameless presences, and whether a base stays sound.
pub const EXPECTED: [(&str, bool); 48] = [
    ("both spellings of a name", false),
    ("both spellings, falling", false),
    ("both spellings, by bytes", false),
    ("rows by bytes", false),
    ("two rows by bytes", false),
    ("rows by capitals", false),
    ("byte beside the letters", false),
    ("SDS 0 respelt", false),
    ("name respelt", true),
    ("every name respelt", true),
    ("two SDSs in two spellings", false),
    ("usage of 32 or more", false),
    ("definition of 32 or more", false),
    ("pair of two usages", false),
    ("pair of two definitions", false),
    ("modes of SDS 0", false),
    ("modes in an unused row", false),
    ("modes of a lone type", true),
    ("modes of a pair", true),
    ("modes of every presence", true),
    ("one pair of many", false),
    ("pair with its sets turned", false),
    ("two pairs crossed", false),
    ("pair otherwise in each SDS", true),
    ("one of a pair as elsewhere", false),
    ("nameless attribute type", false),
    ("nameless link type", false),
    ("nameless pair", false),
    ("nameless in SDS 0", false),
    ("nameless of an unused type", false),
    ("nameless and named", false),
    ("nameless, modes of 32", false),
    ("nameless rows swapped", false),
    ("nameless behind a named", false),
    ("nameless row doubled", false),
    ("nameless twice, other modes", false),
    ("stray byte, nameless", false),
    ("gap behind nameless", false),
    ("nameless row emptied", false),
    ("name made blank in place", false),
    ("nameless ancestor missing", false),
    ("named ancestor missing", false),
    ("full, last rows swapped", false),
    ("full of presences", true),
    ("name taken away", true),
    ("every object type nameless", true),
    ("modes of a nameless type", true),
    ("nameless type joined", true),
];

/// A sound base, that of the schema, spoiled in the way.
pub fn spoiled(way: &Way, random: &mut Random, base: &[u8], schema: &Schema) -> Vec<u8> {
    let mut spoiled = base.to_vec();
    match way {
        Way::Length(wrong) => spoiled.resize(wrong(random), 0),
        Way::Layout(spoil) => spoil(random, &mut spoiled),
        Way::Schema(spoil) => {
            let mut schema = schema.clone();
            spoil(random, &mut schema);
            spoiled = to_bytes(&schema);
        }
    }
    spoiled
}

// Ways that break the layout.

/// Tables whose rows are kept in order.
const ORDERED: [Table; 3] = [PRESENCES, APPLICATIONS, ENDS];
const TABLES: [Table; 5] = [SDSS, TYPES, PRESENCES, APPLICATIONS, ENDS];

fn table(random: &mut Random, tables: &[Table]) -> Table {
    random.pick(tables).expect("there are tables")
}

/// The numbers of the used rows for which `is_wanted` holds.
fn rows_where(base: &[u8], table: Table, is_wanted: impl Fn(&[u8]) -> bool) -> Vec<usize> {
    let rows = table.rows(base).enumerate();
    rows.filter(|(_, row)| is_used(row) && is_wanted(row)).map(|(number, _)| number).collect()
}

/// A used row for which `is_wanted` holds, to be changed.
fn row_where<'a>(
    random: &mut Random,
    base: &'a mut [u8],
    table: Table,
    is_wanted: impl Fn(&[u8]) -> bool,
) -> Option<&'a mut [u8]> {
    let number = random.pick(&rows_where(base, table, is_wanted))?;
    Some(table.row(base, number))
}

/// Whether the row of a presence has a name.
fn is_named(row: &[u8]) -> bool {
    row[1] != 0
}

fn used_rows(base: &[u8], table: Table) -> Vec<Vec<u8>> {
    table.rows(base).filter(|row| is_used(row)).map(<[u8]>::to_vec).collect()
}

/// Puts the rows down from the start of the table, as many as it has room for, with unused ones behind.
fn put_rows(base: &mut [u8], table: Table, rows: &[Vec<u8>]) {
    for number in 0..table.rows {
        match rows.get(number) {
            Some(row) => table.row(base, number).copy_from_slice(row),
            None => table.row(base, number).fill(0),
        }
    }
}

fn wrong_length(random: &mut Random) -> usize {
    match random.below(6) {
        0 => 0,
        1 => LENGTH - 1,
        2 => LENGTH + 1,
        3 => 2 * LENGTH,
        4 => random.below(LENGTH),
        _ => LENGTH + 1 + random.below(LENGTH),
    }
}

fn flipped_bit(random: &mut Random, base: &mut [u8]) {
    base[random.below(LENGTH)] ^= 1 << random.below(8);
}

fn changed_byte(random: &mut Random, base: &mut [u8]) {
    let table = table(random, &TABLES);
    if let Some(row) = row_where(random, base, table, |_| true) {
        let byte = &mut row[random.below(table.width)];
        *byte = match random.below(3) {
            0 => byte.wrapping_add(1),
            1 => byte.wrapping_sub(1),
            _ => random.byte(),
        };
    }
}

fn swapped_rows(random: &mut Random, base: &mut [u8]) {
    let table = table(random, &TABLES);
    let used = rows_where(base, table, |_| true);
    if used.len() < 2 {
        return;
    }
    let at = random.below(used.len() - 1);
    let (one, other) = if random.one_in(2) { (used[at], used[at + 1]) } else { (used[at], used[used.len() - 1]) };
    let kept = table.row(base, one).to_vec();
    let moved = table.row(base, other).to_vec();
    table.row(base, one).copy_from_slice(&moved);
    table.row(base, other).copy_from_slice(&kept);
}

fn doubled_row(random: &mut Random, base: &mut [u8]) {
    let table = table(random, &ORDERED);
    let mut rows = used_rows(base, table);
    if !rows.is_empty() {
        let at = random.below(rows.len());
        rows.insert(at, rows[at].clone());
        put_rows(base, table, &rows);
    }
}

fn dropped_row(random: &mut Random, base: &mut [u8]) {
    let table = table(random, &ORDERED);
    let mut rows = used_rows(base, table);
    if !rows.is_empty() {
        rows.remove(random.below(rows.len()));
        put_rows(base, table, &rows);
    }
}

fn gap(random: &mut Random, base: &mut [u8]) {
    let table = table(random, &TABLES);
    if let Some(row) = row_where(random, base, table, |_| true) {
        row.fill(0);
    }
}

fn row_after_gap(random: &mut Random, base: &mut [u8]) {
    let table = table(random, &ORDERED);
    let used = used_rows(base, table).len();
    if 0 < used && used < table.rows {
        let last = table.row(base, used - 1).to_vec();
        table.row(base, used - 1).fill(0);
        table.row(base, used + random.below(table.rows - used)).copy_from_slice(&last);
    }
}

/// The rows from some place on are one further: as many as before, but behind an unused one.
fn unused_row_among_the_used(random: &mut Random, base: &mut [u8]) {
    let table = table(random, &ORDERED);
    let mut rows = used_rows(base, table);
    if 0 < rows.len() && rows.len() < table.rows {
        rows.insert(random.below(rows.len()), vec![0; table.width]);
        put_rows(base, table, &rows);
    }
}

/// Of two neighbours the byte that sets them in order is now one too high or one too low for that.
fn key_out_of_order(random: &mut Random, base: &mut [u8]) {
    let table = table(random, &ORDERED);
    let rows = used_rows(base, table);
    if rows.len() < 2 {
        return;
    }
    let at = random.below(rows.len() - 1);
    let (low, high) = (&rows[at], &rows[at + 1]);
    // A letter's case sets no rows in order, though a number may be that of a letter.
    let is_name = |byte: usize| table.start == PRESENCES.start && (1..=Schema::NAME).contains(&byte);
    let differs = |byte: usize| match is_name(byte) {
        true => !low[byte].eq_ignore_ascii_case(&high[byte]),
        false => low[byte] != high[byte],
    };
    let byte = (0..table.width).find(|&byte| differs(byte)).expect("rows rise");
    if random.one_in(2) {
        table.row(base, at)[byte] = high[byte].saturating_add(1);
    } else {
        table.row(base, at + 1)[byte] = low[byte].saturating_sub(1);
    }
}

fn byte_in_padding(random: &mut Random, base: &mut [u8]) {
    let (table, start) = if random.one_in(2) { (SDSS, 0) } else { (PRESENCES, 1) };
    if let Some(row) = row_where(random, base, table, |row| row[start + Schema::NAME - 1] == 0) {
        let name = &mut row[start..][..Schema::NAME];
        let length = name.iter().position(|&byte| byte == 0).expect("tested above");
        name[length + random.below(Schema::NAME - length)] = b'a';
    }
}

fn byte_in_unused_room(random: &mut Random, base: &mut [u8]) {
    let table = table(random, &TABLES);
    let unused: Vec<usize> = (0..table.rows).filter(|&number| !is_used(table.row(base, number))).collect();
    if let Some(number) = random.pick(&unused) {
        table.row(base, number)[random.below(table.width)] = 1 + random.byte() % 255;
    }
}

/// As far behind what is used as there is room.
fn byte_in_the_last_row(random: &mut Random, base: &mut [u8]) {
    let table = table(random, &TABLES);
    let row = table.row(base, table.rows - 1);
    if !is_used(row) {
        row[random.below(table.width)] = 1 + random.byte() % 255;
    }
}

fn field_that_a_kind_lacks(random: &mut Random, base: &mut [u8]) {
    if let Some(row) = row_where(random, base, TYPES, |_| true) {
        let lacking: &[usize] = match row[0] {
            1 => &[1, 2],
            2 => &[2, 3, 4, 5, 6, 7],
            _ => &[3, 4, 5, 6, 7],
        };
        row[random.pick(lacking).expect("each kind lacks some")] = 1 + random.byte() % 4;
    }
}

fn parents_not_rising(random: &mut Random, base: &mut [u8]) {
    if let Some(row) = row_where(random, base, TYPES, |row| row[3] > 1) {
        if random.one_in(2) {
            row.swap(4, 5);
        } else {
            row[4] = row[5];
        }
    }
}

fn number_of_parents(random: &mut Random, base: &mut [u8]) {
    if let Some(row) = row_where(random, base, TYPES, |row| row[0] == 1) {
        row[3] = if random.one_in(2) { random.below(7) as u8 } else { random.byte() };
    }
}

fn row_of_an_unused_sds(random: &mut Random, base: &mut [u8]) {
    let table = table(random, &ORDERED);
    let mut rows = used_rows(base, table);
    // The last row can take a higher SDS and stay in its place.
    if let Some(row) = rows.last_mut() {
        row[0] += 1 + random.below(16) as u8;
        put_rows(base, table, &rows);
    }
}

fn same_name_twice(random: &mut Random, base: &mut [u8]) {
    let mut rows = used_rows(base, PRESENCES);
    let named: Vec<usize> = (1..rows.len()).filter(|&at| is_named(&rows[at - 1])).collect();
    if let Some(at) = random.pick(&named) {
        let before = rows[at - 1].clone();
        rows[at][..=Schema::NAME].copy_from_slice(&before[..=Schema::NAME]);
        rows.sort_by_key(|row| presence_key(row));
        put_rows(base, PRESENCES, &rows);
    }
}

/// Two neighbours in an SDS get one name in two spellings. The rows, and where the two stand; none if there are none.
fn rows_with_both_spellings(random: &mut Random, base: &[u8]) -> Option<(Vec<Vec<u8>>, usize)> {
    let mut rows = used_rows(base, PRESENCES);
    let can_be = |at: &usize| rows[at - 1][0] == rows[*at][0] && is_named(&rows[at - 1]);
    let firsts: Vec<usize> = (1..rows.len()).filter(can_be).map(|at| at - 1).collect();
    let first = random.pick(&firsts)?;
    let name = rows[first + random.below(2)][1..][..Schema::NAME].to_vec();
    let mut names = [random.respelt(&name), name];
    names.sort();
    for (row, name) in rows[first..].iter_mut().zip(names) {
        row[1..][..Schema::NAME].copy_from_slice(&name);
    }
    Some((rows, first))
}

/// In order but for that.
fn both_spellings(random: &mut Random, base: &mut [u8]) {
    if let Some((rows, _)) = rows_with_both_spellings(random, base) {
        put_rows(base, PRESENCES, &rows);
    }
}

/// The higher spelling stands first.
fn both_spellings_falling(random: &mut Random, base: &mut [u8]) {
    if let Some((mut rows, first)) = rows_with_both_spellings(random, base) {
        rows.swap(first, first + 1);
        put_rows(base, PRESENCES, &rows);
    }
}

/// All rows stand as their bytes do, mostly with others between the two.
fn both_spellings_by_bytes(random: &mut Random, base: &mut [u8]) {
    if let Some((mut rows, _)) = rows_with_both_spellings(random, base) {
        rows.sort();
        put_rows(base, PRESENCES, &rows);
    }
}

fn rows_by_bytes(_: &mut Random, base: &mut [u8]) {
    let mut rows = used_rows(base, PRESENCES);
    rows.sort();
    put_rows(base, PRESENCES, &rows);
}

/// Two neighbours that stand otherwise by their bytes stand so.
fn two_rows_by_bytes(random: &mut Random, base: &mut [u8]) {
    let mut rows = used_rows(base, PRESENCES);
    let falling: Vec<usize> = (1..rows.len()).filter(|&at| rows[at - 1] > rows[at]).collect();
    if let Some(at) = random.pick(&falling) {
        rows.swap(at - 1, at);
        put_rows(base, PRESENCES, &rows);
    }
}

/// With the letters brought to capitals, and not to small letters, an underscore stands behind them.
fn rows_by_capitals(_: &mut Random, base: &mut [u8]) {
    let mut rows = used_rows(base, PRESENCES);
    rows.sort_by_key(|row| (row[0], row[1..][..Schema::NAME].to_ascii_uppercase()));
    put_rows(base, PRESENCES, &rows);
}

/// The name of an SDS or a presence, to be changed; of SDS 0 or of another.
fn name_where<'a>(random: &mut Random, base: &'a mut [u8], is_of_sds_0: bool) -> Option<&'a mut [u8]> {
    if random.one_in(2) {
        let numbers = rows_where(base, SDSS, |_| true).into_iter().filter(|&sds| (sds == 0) == is_of_sds_0);
        let number = random.pick(&numbers.collect::<Vec<_>>())?;
        Some(SDSS.row(base, number))
    } else {
        let row = row_where(random, base, PRESENCES, |row| (row[0] == 0) == is_of_sds_0 && is_named(row))?;
        Some(&mut row[1..][..Schema::NAME])
    }
}

/// A name gets a byte that stands right before or behind the letters, or a digit or underscore without the bit that
/// tells a letter's case.
fn byte_beside_the_letters(random: &mut Random, base: &mut [u8]) {
    let is_of_sds_0 = random.one_in(8);
    if let Some(name) = name_where(random, base, is_of_sds_0) {
        let length = name.iter().position(|&byte| byte == 0).unwrap_or(name.len());
        let byte = &mut name[random.below(length)];
        *byte = match *byte {
            b'A' | b'a' => *byte - 1,
            b'Z' | b'z' => *byte + 1,
            letter if letter.is_ascii_alphabetic() => BESIDE_LETTERS[random.below(BESIDE_LETTERS.len())],
            other => other ^ CASE,
        };
    }
}

fn sds_0_respelt(random: &mut Random, base: &mut [u8]) {
    if let Some(name) = name_where(random, base, true) {
        let respelt = random.respelt(name);
        name.copy_from_slice(&respelt);
    }
}

/// The base stays sound: the same names stand in the same order.
fn name_respelt(random: &mut Random, base: &mut [u8]) {
    if let Some(name) = name_where(random, base, false) {
        let respelt = random.respelt(name);
        name.copy_from_slice(&respelt);
    }
}

/// The base stays sound.
fn every_name_respelt(random: &mut Random, base: &mut [u8]) {
    for number in 1..SDSS.rows {
        let name = SDSS.row(base, number);
        let spelt = random.spelt(name);
        name.copy_from_slice(&spelt);
    }
    for number in rows_where(base, PRESENCES, |row| row[0] != 0) {
        let name = &mut PRESENCES.row(base, number)[1..][..Schema::NAME];
        let spelt = random.spelt(name);
        name.copy_from_slice(&spelt);
    }
}

fn modes_in_an_unused_row(random: &mut Random, base: &mut [u8]) {
    let used = used_rows(base, PRESENCES).len();
    if used < PRESENCES.rows {
        let number = match random.below(3) {
            0 => used,
            1 => PRESENCES.rows - 1,
            _ => used + random.below(PRESENCES.rows - used),
        };
        PRESENCES.row(base, number)[USAGE + random.below(2)] = 1 + random.below(Modes::FIVE) as u8;
    }
}

// Ways that break one sentence of document 01.

fn types_where(schema: &Schema, is_wanted: impl Fn(usize) -> bool) -> Vec<usize> {
    schema.types.keys().copied().filter(|&ty| is_wanted(ty)).collect()
}

fn unused_type(random: &mut Random, schema: &Schema) -> usize {
    let unused: Vec<usize> = (0..256).filter(|number| !schema.types.contains_key(number)).collect();
    random.pick(&unused).expect("128 and over are never used")
}

/// An SDS for which `is_wanted` holds, to be changed.
fn sds_where<'a>(
    random: &mut Random,
    schema: &'a mut Schema,
    is_wanted: impl Fn(&Sds) -> bool,
) -> Option<&'a mut Sds> {
    let wanted: Vec<usize> = schema.sdss.iter().filter(|(_, sds)| is_wanted(sds)).map(|(&sds, _)| sds).collect();
    schema.sdss.get_mut(&random.pick(&wanted)?)
}

fn present(sds: &Sds, is_wanted: impl Fn(usize) -> bool) -> Vec<usize> {
    sds.types().filter(|&ty| is_wanted(ty)).collect()
}

/// Puts `parent` among the parents, in the place of another if there are 4.
fn put_parent(schema: &mut Schema, ty: usize, parent: usize) {
    if let Some(Type::Object { parents }) = schema.types.get_mut(&ty) {
        if parents.len() == Schema::PARENTS {
            parents.pop_first();
        }
        parents.insert(parent);
    }
}

/// A type becomes a parent of itself or of an ancestor that is present nowhere without it.
fn cycle_of_parents(random: &mut Random, schema: &mut Schema) {
    let objects = types_where(schema, |ty| schema.is_object(ty));
    let ty = random.pick(&objects).expect("there is type 0");
    let is_alone = |ancestor: usize| schema.sdss.values().any(|sds| sds.holds(ancestor) && !sds.holds(ty));
    let mut children: Vec<usize> = schema.ancestors(ty).into_iter().filter(|&a| !is_alone(a)).collect();
    if children.is_empty() || random.one_in(4) {
        children = vec![ty];
    }
    let child = random.pick(&children).expect("there is one");
    put_parent(schema, child, ty);
}

/// Another schema: all types stand in one chain of parents, but that from any one of them the step leads back, to one
/// that came before it or to itself.
fn ring_of_any_length(random: &mut Random, schema: &mut Schema) {
    let mut chain: Vec<usize> = (1..Schema::TYPES).collect();
    match random.below(3) {
        0 => {}
        1 => chain.reverse(),
        _ => chain = random.shuffled(chain),
    }
    let length = 1 + random.below(chain.len());
    let first = random.below(chain.len() - length + 1);
    let last = first + length - 1;
    let has_short_ways = random.one_in(2);
    *schema = Schema::fresh();
    let mut sds = Sds { name: Name::new("chain"), ..schema.sdss[&0].clone() };
    for (at, &ty) in chain.iter().enumerate() {
        let next = if at == last { first } else { at + 1 };
        let mut parents = BTreeSet::from([chain.get(next).copied().unwrap_or(0)]);
        if has_short_ways && random.one_in(4) {
            parents.insert(0);
        }
        schema.types.insert(ty, Type::Object { parents });
        sds.named.insert(Name::new(format!("type_{ty}")), Presence::of(ty));
    }
    schema.sdss.insert(1, sds);
}

fn no_parents(random: &mut Random, schema: &mut Schema) {
    let objects = types_where(schema, |ty| ty != 0 && schema.is_object(ty));
    if let Some(Type::Object { parents }) = random.pick(&objects).and_then(|ty| schema.types.get_mut(&ty)) {
        parents.clear();
    }
}

/// A parent that is not used, or no object type.
fn parent_of_no_use(random: &mut Random, schema: &mut Schema) {
    let objects = types_where(schema, |ty| ty != 0 && schema.is_object(ty));
    let others = types_where(schema, |ty| !schema.is_object(ty));
    let parent = match random.pick(&others) {
        Some(other) if random.one_in(2) => other,
        _ => unused_type(random, schema),
    };
    if let Some(ty) = random.pick(&objects) {
        put_parent(schema, ty, parent);
    }
}

/// A type is present where one of its parents no longer is, or gets a parent that is not present there.
fn missing_parent(random: &mut Random, schema: &mut Schema) {
    let objects = types_where(schema, |ty| ty != 0 && schema.is_object(ty));
    let Some(ty) = random.pick(&objects) else { return };
    if random.one_in(2) {
        if let Some(parent) = random.pick(&objects) {
            put_parent(schema, ty, parent);
        }
    } else {
        let parents: Vec<usize> = schema.parents(ty).into_iter().collect();
        let parent = random.pick(&parents).expect("only type 0 has none");
        if let Some(sds) = sds_where(random, schema, |sds| sds.holds(ty)) {
            sds.take_away(parent);
        }
    }
}

/// A type comes into one more SDS, which lacks a parent of it.
fn no_parent_in_one_more_sds(random: &mut Random, schema: &mut Schema) {
    if schema.presence_count() == Schema::PRESENCES {
        return;
    }
    let lacks_parent = |sds: &Sds, ty| schema.parents(ty).into_iter().any(|parent| !sds.holds(parent));
    let orphans: Vec<(usize, usize)> = (schema.sdss.iter().skip(1))
        .flat_map(|(&number, sds)| {
            types_where(schema, |ty| !sds.holds(ty) && lacks_parent(sds, ty))
                .into_iter()
                .map(move |ty| (number, ty))
        })
        .collect();
    if let Some((number, ty)) = random.pick(&orphans) {
        let sds = schema.sdss.get_mut(&number).expect("a used SDS");
        sds.named.insert(Name::new("orphan"), Presence::of(ty));
    }
}

fn other_reverse(random: &mut Random, schema: &mut Schema) {
    let links = types_where(schema, |ty| schema.is_link(ty));
    let Some(ty) = random.pick(&links) else { return };
    let other = match random.below(4) {
        0 => None,
        1 => Some(unused_type(random, schema)),
        2 => random.pick(&links),
        _ => random.pick(&types_where(schema, |_| true)),
    };
    if let Some(Type::Link { reverse, .. }) = schema.types.get_mut(&ty) {
        *reverse = other;
    }
}

fn other_category(random: &mut Random, schema: &mut Schema) {
    let links = types_where(schema, |ty| schema.is_link(ty));
    let Some(ty) = random.pick(&links) else { return };
    if let Some(Type::Link { category, .. }) = schema.types.get_mut(&ty) {
        *category = random.below(7);
    }
}

fn unknown_value_kind(random: &mut Random, schema: &mut Schema) {
    let attributes = types_where(schema, |ty| schema.is_attribute(ty));
    let Some(ty) = random.pick(&attributes) else { return };
    schema.types.insert(ty, Type::Attribute { value_kind: 6 + random.below(250) });
}

fn missing_reverse(random: &mut Random, schema: &mut Schema) {
    let reversed = types_where(schema, |ty| schema.reverse(ty).is_some());
    let Some(ty) = random.pick(&reversed) else { return };
    if let Some(sds) = sds_where(random, schema, |sds| sds.holds(ty)) {
        sds.take_away(ty);
    }
}

fn type_twice(random: &mut Random, schema: &mut Schema) {
    if schema.presence_count() == Schema::PRESENCES {
        return;
    }
    if let Some(sds) = sds_where(random, schema, |sds| !sds.is_empty()) {
        let ty = random.pick(&present(sds, |_| true)).expect("there is one");
        sds.named.insert(Name::new("twice"), Presence::of(ty));
    }
}

fn type_present_nowhere(random: &mut Random, schema: &mut Schema) {
    let unused: Vec<usize> = (0..Schema::TYPES).filter(|number| !schema.types.contains_key(number)).collect();
    if let Some(ty) = random.pick(&unused) {
        schema.types.insert(ty, Type::Attribute { value_kind: 0 });
    }
}

fn presence_of_an_unused_type(random: &mut Random, schema: &mut Schema) {
    let unused = unused_type(random, schema);
    if let Some(sds) = sds_where(random, schema, |sds| !sds.named.is_empty()) {
        let names: Vec<Name> = sds.named.keys().cloned().collect();
        sds.named.insert(random.pick(&names).expect("there is one"), Presence::of(unused));
    }
}

/// An application gets a type that is not used, not present there or of any kind.
fn other_application(random: &mut Random, schema: &mut Schema) {
    let other = random.below(Schema::TYPES);
    if let Some(sds) = sds_where(random, schema, |sds| !sds.applications.is_empty()) {
        let applications: Vec<Application> = sds.applications.iter().copied().collect();
        let application = random.pick(&applications).expect("there is one");
        sds.applications.remove(&application);
        sds.applications.insert(match random.below(3) {
            0 => Application { to: other, ..application },
            1 => Application { attribute: other, ..application },
            _ => Application { to: application.attribute, attribute: application.to },
        });
    }
}

/// An end, if possible of a designation type, gets a type that is not used, not present there or of any kind.
fn other_end(random: &mut Random, schema: &mut Schema) {
    let other = random.below(Schema::TYPES);
    let reversed = types_where(schema, |ty| schema.reverse(ty).is_some());
    let is_lone = |end: &&End| !reversed.contains(&end.link);
    if let Some(sds) = sds_where(random, schema, |sds| !sds.ends.is_empty()) {
        let ends: Vec<End> = sds.ends.iter().copied().collect();
        let lone: Vec<End> = sds.ends.iter().filter(is_lone).copied().collect();
        let end = random.pick(&lone).or_else(|| random.pick(&ends)).expect("there is one");
        sds.ends.remove(&end);
        sds.ends.insert(match random.below(3) {
            0 => End { link: other, ..end },
            1 => End { object: other, ..end },
            _ => End { link: end.object, object: end.link, ..end },
        });
    }
}

fn missing_mirror(random: &mut Random, schema: &mut Schema) {
    let reversed = types_where(schema, |ty| schema.reverse(ty).is_some());
    let is_mirrored = |end: &&End| reversed.contains(&end.link);
    if let Some(sds) = sds_where(random, schema, |sds| sds.ends.iter().any(|end| is_mirrored(&end))) {
        let ends: Vec<End> = sds.ends.iter().filter(is_mirrored).copied().collect();
        let end = random.pick(&ends).expect("there is one");
        sds.ends.remove(&end);
        if random.one_in(2) {
            // An end that has a mirror, but the wrong one.
            let side = if end.side == Side::Origin { Side::Destination } else { Side::Origin };
            sds.ends.insert(End { side, ..end });
        }
    }
}

/// An end gets another object type, or exchanges it with an end of another link type: each link type has as many ends on
/// each side as before.
fn mirror_of_another(random: &mut Random, schema: &mut Schema) {
    let reversed = types_where(schema, |ty| schema.reverse(ty).is_some());
    let objects = types_where(schema, |ty| schema.is_object(ty));
    let is_mirrored = |end: &&End| reversed.contains(&end.link);
    let Some(sds) = sds_where(random, schema, |sds| sds.ends.iter().any(|end| is_mirrored(&end))) else { return };
    let ends: Vec<End> = sds.ends.iter().filter(is_mirrored).copied().collect();
    let end = random.pick(&ends).expect("there is one");
    let is_free = |end: End, object| !sds.ends.contains(&End { object, ..end });
    let can_exchange =
        |other: &&End| other.side == end.side && is_free(end, other.object) && is_free(**other, end.object);
    let others: Vec<End> = ends.iter().filter(can_exchange).copied().collect();
    let free = present(sds, |ty| objects.contains(&ty) && is_free(end, ty));
    match (random.pick(&others), random.pick(&free)) {
        (Some(other), _) if random.one_in(2) => {
            sds.ends.retain(|kept| *kept != end && *kept != other);
            sds.ends.extend([End { object: other.object, ..end }, End { object: end.object, ..other }]);
        }
        (_, Some(object)) => {
            sds.ends.remove(&end);
            sds.ends.insert(End { object, ..end });
        }
        _ => {}
    }
}

fn sds_0_changed(random: &mut Random, schema: &mut Schema) {
    let used = types_where(schema, |ty| ty != 0);
    let (has_presence, has_end) = (schema.presence_count() < Schema::PRESENCES, schema.end_count() < Schema::ENDS);
    let system = schema.sdss.get_mut(&0).expect("a used SDS");
    match (random.below(8), random.pick(&used)) {
        (0, _) => system.name = Name::new("systems"),
        (1, _) => system.named = [(Name::new("objects"), Presence::of(0))].into(),
        (2, _) => system.named.clear(),
        (3, Some(ty)) if has_presence => _ = system.named.insert(Name::new("other"), Presence::of(ty)),
        (4, Some(link)) if has_end => _ = system.ends.insert(End { link, side: Side::Origin, object: 0 }),
        (5, Some(parent)) => put_parent(schema, 0, parent),
        (6, _) => _ = schema.types.insert(0, Type::Attribute { value_kind: 0 }),
        _ => _ = schema.sdss.remove(&0),
    }
}

fn two_sdss_of_one_name(random: &mut Random, schema: &mut Schema) {
    let names: Vec<Name> = schema.sdss.values().map(|sds| sds.name.clone()).collect();
    let name = random.pick(&names).expect("there is SDS 0");
    let used: Vec<usize> = schema.sdss.keys().copied().collect();
    let number = if random.one_in(2) { random.pick(&used) } else { Some(random.below(Schema::SDSS)) };
    let number = number.expect("there is SDS 0");
    schema.sdss.entry(number).or_insert(Sds::new(b"")).name = name;
}

/// An SDS other than SDS 0, or one that was not used, gets the name of another in another spelling.
fn two_sdss_in_two_spellings(random: &mut Random, schema: &mut Schema) {
    let used: Vec<usize> = schema.sdss.keys().copied().collect();
    let other = random.pick(&used).expect("there is SDS 0");
    let name = Name(random.respelt(&schema.sdss[&other].name));
    let numbers: Vec<usize> = (1..Schema::SDSS).filter(|&sds| sds != other).collect();
    let number = random.pick(&numbers).expect("there are many");
    schema.sdss.entry(number).or_insert(Sds::new(b"")).name = name;
}

/// A blank one is none, where an object type may go without: that can leave the base sound.
fn malformed_name(random: &mut Random, schema: &mut Schema) {
    let malformed: [&[u8]; 9] = [b"", b"0a", b"_", b"a b", b"a\0b", b"a-", b"{", b"\x80", b"abcdefghijklmno."];
    let malformed = Name::new(malformed[random.below(malformed.len())]);
    if let Some(sds) = sds_where(random, schema, |sds| !sds.named.is_empty()) {
        if random.one_in(3) {
            sds.name = malformed;
        } else {
            let names: Vec<Name> = sds.named.keys().cloned().collect();
            let name = random.pick(&names).expect("there is one");
            let present = sds.named.remove(&name).expect("it is borne");
            sds.named.insert(malformed, present);
        }
    }
}

// Ways that spoil modes (02, Q-2), some of which leave the base sound.

/// A presence of such a type, not in SDS 0: its SDS, to be changed, the type, alone or with its reverse, and its modes.
fn presence_where<'a>(
    random: &mut Random,
    schema: &'a mut Schema,
    is_wanted: fn(&Schema, usize) -> bool,
) -> Option<(&'a mut Sds, Vec<usize>, Modes)> {
    let sdss = schema.sdss.range(1..);
    let all = sdss
        .flat_map(|(&sds, here)| present(here, |ty| is_wanted(schema, ty)).into_iter().map(move |ty| (sds, ty)));
    let (sds, ty) = random.pick(&all.collect::<Vec<_>>())?;
    let types = schema.with_reverse(ty);
    let here = schema.sdss.get_mut(&sds)?;
    let modes = here.modes_of(ty)?;
    Some((here, types, modes))
}

fn is_paired(schema: &Schema, ty: usize) -> bool {
    schema.reverse(ty).is_some()
}

/// A known set that is another, at times by one mode.
fn other_set(random: &mut Random, set: usize) -> usize {
    match random.below(2) {
        0 => set ^ 1 << random.below(5),
        _ => (set + 1 + random.below(Modes::FIVE)) % (Modes::FIVE + 1),
    }
}

fn other_modes(random: &mut Random, modes: Modes) -> Modes {
    let Modes { usage, definition } = modes;
    match random.below(3) {
        0 => Modes { usage: other_set(random, usage), ..modes },
        1 => Modes { definition: other_set(random, definition), ..modes },
        _ => Modes { usage: other_set(random, usage), definition: other_set(random, definition) },
    }
}

fn unknown_set(random: &mut Random) -> usize {
    match random.below(4) {
        0 => Modes::FIVE + 1,
        1 => 1 << (5 + random.below(3)) | Modes::FIVE,
        2 => 255,
        _ => Modes::FIVE + 1 + random.below(255 - Modes::FIVE),
    }
}

/// Of a pair both, so that nothing else is wrong.
fn unknown_usage(random: &mut Random, schema: &mut Schema) {
    let usage = unknown_set(random);
    if let Some((here, types, modes)) = presence_where(random, schema, |_, _| true) {
        here.set_modes(&types, Modes { usage, ..modes });
    }
}

fn unknown_definition(random: &mut Random, schema: &mut Schema) {
    let definition = unknown_set(random);
    if let Some((here, types, modes)) = presence_where(random, schema, |_, _| true) {
        here.set_modes(&types, Modes { definition, ..modes });
    }
}

fn pair_of_two_usages(random: &mut Random, schema: &mut Schema) {
    if let Some((here, types, modes)) = presence_where(random, schema, is_paired) {
        here.set_modes(&types[..1], Modes { usage: other_set(random, modes.usage), ..modes });
    }
}

fn pair_of_two_definitions(random: &mut Random, schema: &mut Schema) {
    if let Some((here, types, modes)) = presence_where(random, schema, is_paired) {
        here.set_modes(&types[..1], Modes { definition: other_set(random, modes.definition), ..modes });
    }
}

fn modes_of_sds_0(random: &mut Random, schema: &mut Schema) {
    let modes = other_modes(random, Modes::ALL);
    schema.sdss.get_mut(&0).expect("a used SDS").set_modes(&[0], modes);
}

/// The base stays sound.
fn modes_of_a_lone_type(random: &mut Random, schema: &mut Schema) {
    if let Some((here, types, modes)) = presence_where(random, schema, |schema, ty| !is_paired(schema, ty)) {
        here.set_modes(&types, other_modes(random, modes));
    }
}

/// The base stays sound.
fn modes_of_a_pair(random: &mut Random, schema: &mut Schema) {
    if let Some((here, types, modes)) = presence_where(random, schema, is_paired) {
        here.set_modes(&types, other_modes(random, modes));
    }
}

/// Another schema, sound and with all modes: SDSs that share many pairs, and some attribute types. In an SDS the rows of
/// a pair are neighbours, as far from each other as can be, or anywhere.
fn many_pairs(random: &mut Random) -> Schema {
    let mut s = Schema::fresh();
    let (pairs, attributes) = (2 + random.below(24), random.below(8));
    let mut numbers = random.shuffled((1..Schema::TYPES).collect()).into_iter();
    let mut groups: Vec<Vec<usize>> = (0..pairs).map(|_| numbers.by_ref().take(2).collect()).collect();
    groups.extend(numbers.take(attributes).map(|ty| vec![ty]));
    for group in &groups {
        match group[..] {
            [ty, reverse] => {
                s.types.insert(ty, Type::Link { category: 0, reverse: Some(reverse) });
                s.types.insert(reverse, Type::Link { category: 0, reverse: Some(ty) });
            }
            _ => _ = s.types.insert(group[0], Type::Attribute { value_kind: 0 }),
        }
    }
    let sdss: Vec<usize> = random.shuffled((1..Schema::SDSS).collect());
    let count = 2 + random.below(5);
    for (place, &sds) in sdss[..count].iter().enumerate() {
        let mut here = Sds::new(format!("sds{sds}").as_bytes());
        let order = random.below(3);
        for (n, group) in groups.iter().enumerate() {
            // Two hold every type, so that each pair is shared.
            if place > 1 && random.one_in(3) {
                continue;
            }
            let names = match order {
                0 => [format!("p{n:02}a"), format!("p{n:02}b")],
                1 => [format!("a{n:02}"), format!("z{:02}", 99 - n)],
                _ => ["a", "b"].map(|last| format!("p{:04}_{n}{last}", random.below(10_000))),
            };
            let types = random.shuffled(group.clone());
            here.named.extend(names.map(Name::new).into_iter().zip(types.into_iter().map(Presence::of)));
        }
        s.sdss.insert(sds, here);
    }
    s
}

/// One of a pair in one SDS has fewer modes; all others are there.
fn one_pair_of_many(random: &mut Random, schema: &mut Schema) {
    *schema = many_pairs(random);
    if let Some((here, types, modes)) = presence_where(random, schema, is_paired) {
        here.set_modes(&types[..1], other_modes(random, modes));
    }
}

/// The usage of the one is the definition of the other.
fn pair_with_its_sets_turned(random: &mut Random, schema: &mut Schema) {
    *schema = many_pairs(random);
    if let Some((here, types, _)) = presence_where(random, schema, is_paired) {
        let usage = random.below(Modes::FIVE + 1);
        let definition = other_set(random, usage);
        here.set_modes(&types[..1], Modes { usage, definition });
        here.set_modes(&types[1..], Modes { usage: definition, definition: usage });
    }
}

/// In an SDS two pairs have exchanged the modes of one of each: all modes are there as often as they should be.
fn two_pairs_crossed(random: &mut Random, schema: &mut Schema) {
    *schema = many_pairs(random);
    let pairs = types_where(schema, |ty| schema.reverse(ty).is_some_and(|reverse| ty < reverse));
    let reverses: Vec<usize> = pairs.iter().filter_map(|&ty| schema.reverse(ty)).collect();
    if let Some(here) = sds_where(random, schema, |sds| pairs.iter().all(|&ty| sds.holds(ty))) {
        let (one, step) = (random.below(pairs.len()), 1 + random.below(pairs.len() - 1));
        let other = (one + step) % pairs.len();
        let modes = modes::any(random);
        let others = other_modes(random, modes);
        here.set_modes(&[pairs[one], reverses[other]], modes);
        here.set_modes(&[reverses[one], pairs[other]], others);
    }
}

/// A pair that several SDSs hold gets in each of them modes that it has in no other. Gives the types of the pair.
fn otherwise_in_each_sds(random: &mut Random, schema: &mut Schema) -> Vec<usize> {
    let paired = types_where(schema, |ty| is_paired(schema, ty));
    let types = schema.with_reverse(random.pick(&paired).expect("there are many"));
    let first = random.below(Modes::FIVE + 1);
    for (place, (_, here)) in schema.sdss.range_mut(1..).enumerate() {
        let usage = (first + place) % (Modes::FIVE + 1);
        here.set_modes(&types, Modes { usage, definition: random.below(Modes::FIVE + 1) });
    }
    types
}

/// The base stays sound.
fn pair_otherwise_in_each_sds(random: &mut Random, schema: &mut Schema) {
    *schema = many_pairs(random);
    otherwise_in_each_sds(random, schema);
}

/// The same, but that in one SDS one of the pair has the modes that both have in another. At times it has them exchanged,
/// so that over all SDSs it has those that its reverse has.
fn one_of_a_pair_as_elsewhere(random: &mut Random, schema: &mut Schema) {
    *schema = many_pairs(random);
    let types = otherwise_in_each_sds(random, schema);
    let held = schema.sdss.iter().filter(|(_, sds)| sds.holds(types[0])).map(|(&sds, _)| sds).collect();
    let [one, other] = random.shuffled(held)[..2] else { return };
    let modes = [one, other].map(|sds| schema.sdss[&sds].modes_of(types[0]).expect("it is held"));
    let changed = if random.one_in(2) { vec![(one, modes[1])] } else { vec![(one, modes[1]), (other, modes[0])] };
    for (sds, modes) in changed {
        schema.sdss.get_mut(&sds).expect("a used SDS").set_modes(&types[..1], modes);
    }
}

// Ways that spoil nameless presences (02, Q-8), some of which leave the base sound.

/// Takes the names of presences away, of a type of the kind alone or with its reverse, in an SDS other than SDS 0.
fn take_names(random: &mut Random, schema: &mut Schema, count: usize, is_wanted: fn(&Schema, usize) -> bool) {
    if let Some((here, types, _)) = presence_where(random, schema, is_wanted) {
        types.into_iter().take(count).for_each(|ty| take_name(here, ty));
    }
}

fn nameless_attribute_type(random: &mut Random, schema: &mut Schema) {
    take_names(random, schema, 1, Schema::is_attribute);
}

fn nameless_link_type(random: &mut Random, schema: &mut Schema) {
    take_names(random, schema, 1, Schema::is_link);
}

fn nameless_pair(random: &mut Random, schema: &mut Schema) {
    take_names(random, schema, 2, is_paired);
}

/// Type 0 has no name there, or another object type comes in without one.
fn nameless_in_sds_0(random: &mut Random, schema: &mut Schema) {
    let objects = types_where(schema, |ty| ty != 0 && schema.parents(ty) == [0].into());
    let has_room = schema.presence_count() < Schema::PRESENCES;
    let system = schema.sdss.get_mut(&0).expect("a used SDS");
    match random.pick(&objects) {
        Some(ty) if has_room && random.one_in(2) => _ = system.nameless.insert(ty, Modes::ALL),
        _ => take_name(system, 0),
    }
}

/// An SDS other than SDS 0 in which a type is nameless, to be changed, and one such type.
fn nameless_where<'a>(random: &mut Random, schema: &'a mut Schema) -> Option<(&'a mut Sds, usize)> {
    let (sds, ty) = random.pick(&nameless(schema).into_iter().collect::<Vec<_>>())?;
    Some((schema.sdss.get_mut(&sds)?, ty))
}

/// In the place of one that is used.
fn nameless_of_an_unused_type(random: &mut Random, schema: &mut Schema) {
    let unused = unused_type(random, schema);
    let used = schema.clone();
    if let Some((here, ty)) = nameless_where(random, schema) {
        let modes = here.modes_of(ty).unwrap_or(Modes::ALL);
        if used.children(ty).is_empty() {
            here.nameless.remove(&ty);
        } else if used.presence_count() == Schema::PRESENCES {
            return;
        }
        here.nameless.insert(unused, modes);
    }
}

/// A type has two presences in an SDS, of which one has no name.
fn nameless_and_named(random: &mut Random, schema: &mut Schema) {
    if schema.presence_count() == Schema::PRESENCES {
        return;
    }
    if random.one_in(2) {
        if let Some((here, ty)) = nameless_where(random, schema) {
            here.named.insert(Name::new("twice"), Presence::of(ty));
        }
    } else if let Some((here, types, modes)) = presence_where(random, schema, Schema::is_object) {
        here.nameless.insert(types[0], modes);
        here.named.insert(Name::new("twice"), Presence::of(types[0]));
    }
}

fn nameless_of_unknown_modes(random: &mut Random, schema: &mut Schema) {
    let unknown = unknown_set(random);
    if let Some((here, ty)) = nameless_where(random, schema) {
        let modes = match random.below(2) {
            0 => Modes { usage: unknown, ..Modes::ALL },
            _ => Modes { definition: unknown, ..Modes::ALL },
        };
        here.nameless.insert(ty, modes);
    }
}

/// The rows of presences, and the places among them of nameless ones for which `is_wanted` holds, by the next row.
fn nameless_rows(base: &[u8], is_wanted: fn(&[u8], Option<&Vec<u8>>) -> bool) -> (Vec<Vec<u8>>, Vec<usize>) {
    let rows = used_rows(base, PRESENCES);
    let is_so = |at: &usize| !is_named(&rows[*at]) && is_wanted(&rows[*at], rows.get(at + 1));
    let places = (0..rows.len()).filter(is_so).collect();
    (rows, places)
}

/// Two neighbours that should stand by type.
fn nameless_rows_swapped(random: &mut Random, base: &mut [u8]) {
    let (mut rows, places) =
        nameless_rows(base, |row, next| next.is_some_and(|next| next[0] == row[0] && !is_named(next)));
    if let Some(at) = random.pick(&places) {
        rows.swap(at, at + 1);
        put_rows(base, PRESENCES, &rows);
    }
}

/// Behind the first of its SDS that is named, or the last.
fn nameless_behind_a_named(random: &mut Random, base: &mut [u8]) {
    let (mut rows, places) = nameless_rows(base, |_, _| true);
    let named = |row: &Vec<u8>| rows.iter().filter(|other| other[0] == row[0] && is_named(other)).count();
    let places: Vec<usize> = places.into_iter().filter(|&at| named(&rows[at]) > 0).collect();
    if let Some(at) = random.pick(&places) {
        let count = if random.one_in(2) { 1 } else { named(&rows[at]) };
        let row = rows.remove(at);
        let first = rows.iter().position(|other| other[0] == row[0] && is_named(other)).expect("tested above");
        rows.insert(first + count, row);
        put_rows(base, PRESENCES, &rows);
    }
}

fn nameless_row_doubled(random: &mut Random, base: &mut [u8]) {
    let (mut rows, places) = nameless_rows(base, |_, _| true);
    if let Some(at) = random.pick(&places).filter(|_| rows.len() < PRESENCES.rows) {
        rows.insert(at, rows[at].clone());
        put_rows(base, PRESENCES, &rows);
    }
}

/// The modes of the second are other ones, at times rising.
fn nameless_twice(random: &mut Random, base: &mut [u8]) {
    let (mut rows, places) = nameless_rows(base, |_, _| true);
    if let Some(at) = random.pick(&places).filter(|_| rows.len() < PRESENCES.rows) {
        let mut again = rows[at].clone();
        again[USAGE] ^= 1 << random.below(5);
        rows.insert(at + random.below(2), again);
        put_rows(base, PRESENCES, &rows);
    }
}

/// A byte of the field of a nameless type that is not the first: of a name, or any.
fn stray_byte(random: &mut Random, base: &mut [u8]) {
    if let Some(row) = row_where(random, base, PRESENCES, |row| !is_named(row)) {
        let at = if random.one_in(4) { Schema::NAME } else { 2 + random.below(Schema::NAME - 1) };
        row[at] = if random.one_in(2) { b'a' } else { 1 + random.byte() % 255 };
    }
}

fn gap_behind_nameless(random: &mut Random, base: &mut [u8]) {
    let (mut rows, places) = nameless_rows(base, |_, next| next.is_some());
    if let Some(at) = random.pick(&places).filter(|_| rows.len() < PRESENCES.rows) {
        rows.insert(at + 1, vec![0; PRESENCES.width]);
        put_rows(base, PRESENCES, &rows);
    }
}

/// A gap in its place; the last row would leave none.
fn nameless_row_emptied(random: &mut Random, base: &mut [u8]) {
    let (mut rows, places) = nameless_rows(base, |_, next| next.is_some());
    if let Some(at) = random.pick(&places) {
        rows[at].fill(0);
        put_rows(base, PRESENCES, &rows);
    }
}

/// An object type's, and where the row would have to stand elsewhere.
fn name_made_blank_in_place(random: &mut Random, base: &mut [u8]) {
    let mut rows = used_rows(base, PRESENCES);
    let is_object = |row: &[u8]| TYPES.rows(base).nth(row[TYPE].into()).is_some_and(|ty| ty[0] == 1);
    let is_behind =
        |row: &[u8], before: &[u8]| before[0] == row[0] && (is_named(before) || before[TYPE] > row[TYPE]);
    let can_be = |at: &usize| is_named(&rows[*at]) && is_object(&rows[*at]) && is_behind(&rows[*at], &rows[at - 1]);
    if let Some(at) = random.pick(&(1..rows.len()).filter(can_be).collect::<Vec<_>>()) {
        rows[at][1..TYPE].fill(0);
        put_rows(base, PRESENCES, &rows);
    }
}

/// A presence goes that has a child there.
fn ancestor_missing(random: &mut Random, schema: &mut Schema, is_wanted: fn(&Sds, usize) -> bool) {
    let has_child = |here: &Sds, ty: usize| schema.children(ty).into_iter().any(|child| here.holds(child));
    let all = schema.sdss.range(1..).flat_map(|(&sds, here)| {
        present(here, |ty| is_wanted(here, ty) && has_child(here, ty)).into_iter().map(move |ty| (sds, ty))
    });
    if let Some((sds, ty)) = random.pick(&all.collect::<Vec<_>>()) {
        let here = schema.sdss.get_mut(&sds).expect("a used SDS");
        here.take_away(ty);
        // Nothing else is wrong.
        here.applications.retain(|application| application.to != ty);
        here.ends.retain(|end| end.object != ty);
    }
}

fn nameless_ancestor_missing(random: &mut Random, schema: &mut Schema) {
    ancestor_missing(random, schema, |here, ty| here.nameless.contains_key(&ty));
}

fn named_ancestor_missing(random: &mut Random, schema: &mut Schema) {
    ancestor_missing(random, schema, |here, ty| here.name_of(ty).is_some());
}

/// Another schema. The base stays sound.
fn full_of_presences(random: &mut Random, schema: &mut Schema) {
    *schema = nameless::full(random);
}

/// The same, but that its last two rows, of nameless types, stand the other way round.
fn full_and_last_rows_swapped(random: &mut Random, base: &mut [u8]) {
    let last = PRESENCES.rows - 1;
    let mut rows = loop {
        base.copy_from_slice(&to_bytes(&nameless::full(random)));
        let rows = used_rows(base, PRESENCES);
        if rows[last - 1][0] == rows[last][0] {
            break rows;
        }
    };
    rows.swap(last - 1, last);
    put_rows(base, PRESENCES, &rows);
}

/// The SDSs other than SDS 0 and the object types that have a name there.
fn named_objects(schema: &Schema) -> Vec<(usize, usize)> {
    let sdss = schema.sdss.range(1..);
    let named = sdss.flat_map(|(&sds, here)| here.named.values().map(move |present| (sds, present.ty)));
    named.filter(|&(_, ty)| schema.is_object(ty)).collect()
}

/// The row is moved to its place: the base stays sound.
fn name_taken_away(random: &mut Random, schema: &mut Schema) {
    if let Some((sds, ty)) = random.pick(&named_objects(schema)) {
        take_name(schema.sdss.get_mut(&sds).expect("a used SDS"), ty);
    }
}

/// The base stays sound.
fn every_object_type_nameless(_: &mut Random, schema: &mut Schema) {
    for (sds, ty) in named_objects(schema) {
        take_name(schema.sdss.get_mut(&sds).expect("a used SDS"), ty);
    }
}

/// The base stays sound.
fn modes_of_a_nameless_type(random: &mut Random, schema: &mut Schema) {
    if let Some((here, ty)) = nameless_where(random, schema) {
        let modes = here.modes_of(ty).expect("it is held");
        here.nameless.insert(ty, other_modes(random, modes));
    }
}

/// An attribute type is applied to a nameless type, or that is an end of a link type. The base stays sound.
fn nameless_type_joined(random: &mut Random, schema: &mut Schema) {
    let has_room = [schema.application_count() < Schema::APPLICATIONS, schema.end_count() + 2 <= Schema::ENDS];
    let joined = nameless(schema).into_iter().flat_map(|(sds, ty)| {
        let others = present(&schema.sdss[&sds], |other| !schema.is_object(other));
        others.into_iter().map(move |other| (sds, ty, other))
    });
    let Some((sds, ty, other)) = random.pick(&joined.collect::<Vec<_>>()) else { return };
    let (is_attribute, reverse) = (schema.is_attribute(other), schema.reverse(other));
    let here = schema.sdss.get_mut(&sds).expect("a used SDS");
    if is_attribute && has_room[0] {
        here.applications.insert(Application { to: ty, attribute: other });
    } else if !is_attribute && has_room[1] {
        let side = if random.one_in(2) { Side::Origin } else { Side::Destination };
        let end = End { link: other, side, object: ty };
        here.ends.insert(end);
        here.ends.extend(reverse.map(|reverse| end.mirror(reverse)));
    }
}

#[cfg(test)]
mod tests {
    use super::{ring_of_any_length, types_where};
    use crate::base::{is_sound, to_bytes};
    use crate::random::Random;
    use crate::schema::{Schema, Type};
    use std::collections::BTreeSet;

    #[test]
    fn rings_of_all_lengths() {
        let (mut random, mut schema) = (Random::new(1), Schema::fresh());
        let mut lengths = BTreeSet::new();
        for _ in 0..1000 {
            ring_of_any_length(&mut random, &mut schema);
            let ring = types_where(&schema, |ty| schema.ancestors(ty).contains(&ty));
            lengths.insert(ring.len());
            // Nothing else is wrong: opened, it is sound.
            schema.types.insert(ring[0], Type::Object { parents: [0].into() });
            assert!(is_sound(&to_bytes(&schema)));
        }
        assert!(lengths.iter().copied().eq(1..Schema::TYPES));
    }
}
