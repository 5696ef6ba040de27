//! Exchange files (02, Q-3): bases drawn to be written, files that are read or refused, those that break a rule
//! (`breaks.rs`) among them, and what tells one such file from another.
#![forbid(unsafe_code)]

use crate::base::{from_bytes, to_bytes, LENGTH};
use crate::bases;
use crate::breaks::{Broken, BROKEN};
use crate::calls::{Call, Text};
use crate::coverage::Trait;
use crate::file::{
    self, entries, in_bytes, to_file, Entries, Fault, APPLICATION, COUNT, END, LONGEST, MOST, PARENT, SECTIONS,
    TYPE, WIDTHS,
};
use crate::modes;
use crate::nameless;
use crate::random::{Caller, Random};
use crate::removals;
use crate::run::Run;
use crate::schema::{Application, End, Modes, Name, Presence, Schema, Sds, Side, Type, DESIGNATION};
use crate::shapes::{in_any_order, SHAPES};
use crate::spellings;
use crate::spoil::{Way, EXPECTED, WAYS};

/// A run of so many files should have seen all that is listed here.
pub const LONG: usize = 200_000;

/// The files are made in shares, each of so many at least, and of so many at least beside a part of a sweep.
pub const SHARE: usize = 500;
const BESIDE: usize = 460;

/// A sweep takes every start of a file and every file that is another in one byte, over so many shares.
const PARTS: usize = 16;

/// What should come up at least a few times.
pub const FEW: [&str; 1] = ["21, 65,535 entries"];

/// What should come up often.
pub fn often() -> Vec<String> {
    let mut often: Vec<String> = OFTEN.map(String::from).to_vec();
    often.extend(BROKEN.iter().map(|(what, _)| format!("21, {what}")));
    often.extend(ways().map(|(what, _, no)| format!("{no}, schema: {what}")));
    for (section, width) in SECTIONS.into_iter().zip(WIDTHS) {
        often.extend(OFTEN_EACH.map(|what| format!("{what}: {section}")));
        often.extend((0..width).map(|byte| format!("20, not above, byte {byte}: {section}")));
    }
    often
}

const OFTEN: [&str; 54] = [
    "0, fresh",
    "0, nameless types",
    "0, nameless types of other modes",
    "0, a name of 16 bytes",
    "0, a capital",
    "0, 4 parents",
    "0, a parent of a higher number",
    "0, an SDS without types",
    "0, rows not in the order of entries",
    "0, 16 SDSs",
    "0, 128 types",
    "0, 512 presences",
    "0, 256 applications",
    "0, 512 ends",
    "0, the longest",
    "0, over zeros",
    "0, over any bytes",
    "0, over another base",
    "0, over its own base",
    "20, over zeros",
    "20, over any bytes",
    "20, over another base",
    "21, over zeros",
    "21, over any bytes",
    "21, over another base",
    "1, a good file",
    "1, a malformed file",
    "1, a file not sound",
    "1, no base",
    "1, a byte too few",
    "1, a byte too many",
    "20, empty",
    "20, any bytes",
    "20, a byte behind",
    "20, more behind",
    "20, a file behind",
    "20, not sound either",
    "20, a byte left out",
    "20, a byte put in",
    "20 or 21, sections in another order",
    "21, no entries",
    "0, swept: as it is",
    "20, swept: every start",
    "swept: a byte to 0",
    "swept: a byte to 255",
    "swept: a byte one up",
    "swept: a byte one down",
    "write 0, just room enough",
    "write 0, a byte more",
    "write 0, room for every file",
    "write 0, the longest",
    "write 15, a byte too few",
    "write 15, no room",
    "write 1",
];

/// In each section.
const OFTEN_EACH: [&str; 17] = [
    "20, cut before the count",
    "20, cut in the count",
    "20, cut between entries",
    "20, cut in an entry",
    "20, too few above, last byte",
    "20, too few above, last but one",
    "20, too few above, 65,535 told",
    "20, just enough above",
    "20, the same twice",
    "20, the same twice, told earlier",
    "20, swapped",
    "20, one less than before",
    "20 or 21, count one more",
    "20 or 21, count one less",
    "20 or 21, count of 0",
    "20 or 21, count of 65,535",
    "21, up to 255s",
];

/// The ways to spoil a schema, and the number that tells of it.
fn ways() -> impl Iterator<Item = (&'static str, fn(&mut Random, &mut Schema), usize)> {
    WAYS.iter().filter_map(|(name, way)| match way {
        Way::Schema(spoil) => {
            let stays_sound = EXPECTED.iter().any(|(expected, stays_sound)| expected == name && *stays_sound);
            Some((*name, *spoil, if stays_sound { 0 } else { 21 }))
        }
        _ => None,
    })
}

/// A file, and what it is called if it is answered one of the numbers.
pub struct Made {
    pub file: Vec<u8>,
    pub traits: Vec<Trait>,
}

impl Made {
    fn new(file: Vec<u8>, numbers: &'static [usize], what: String) -> Made {
        Made { file, traits: vec![Trait { what, numbers }] }
    }

    fn plain(file: Vec<u8>) -> Made {
        Made { file, traits: Vec::new() }
    }
}

/// A good schema with all that it is written as.
pub struct Written {
    s: Schema,
    base: Vec<u8>,
    entries: Entries,
    file: Vec<u8>,
}

impl Written {
    pub fn new(s: Schema) -> Written {
        let entries = entries(&s);
        Written { base: to_bytes(&s), file: in_bytes(&entries), entries, s }
    }
}

/// Rules that take a full table to break.
const ON_FULL: [&str; 3] = ["513 presences", "257 applications", "513 ends"];

/// A well-formed file that no good schema is written as: one rule is broken in it. None where there is nothing to break so.
fn broken(random: &mut Random, written: &Written, rule: usize) -> Option<Made> {
    let (what, spoil) = BROKEN[rule];
    let full = ON_FULL.contains(&what).then(|| Written::new(longest(random)));
    let Written { s, entries, .. } = full.as_ref().unwrap_or(written);
    let mut broken = Broken { random, s, entries: entries.clone(), named: 0 };
    spoil(&mut broken)?;
    Some(Made::new(broken.file()?, &[21], format!("21, {what}")))
}

/// The file of a schema that is spoiled, or of another one.
fn of_spoiled(random: &mut Random, written: &Written) -> Made {
    let ways: Vec<_> = ways().collect();
    let (what, spoil, no) = random.pick(&ways).expect("there are some");
    let mut spoiled = written.s.clone();
    spoil(random, &mut spoiled);
    let file = to_file(&spoiled);
    match file == written.file {
        true => Made::plain(file),
        false => Made::new(file, if no == 0 { &[0] } else { &[21] }, format!("{no}, schema: {what}")),
    }
}

/// A file with a rule broken, if there is something to break.
pub fn unsound(random: &mut Random, written: &Written) -> Option<Vec<u8>> {
    let rule = random.below(BROKEN.len());
    broken(random, written, rule).map(|made| made.file)
}

// Files that are not well formed, and some that nearly are not.

/// The counts are those of the entries, but for what is done here.
fn with_count(entries: &Entries, section: usize, count: u16) -> Vec<u8> {
    let at = start_of(entries, section);
    let mut file = in_bytes(entries);
    file[at..][..COUNT].copy_from_slice(&count.to_le_bytes());
    file
}

/// Where the section begins, with its count.
fn start_of(entries: &Entries, section: usize) -> usize {
    entries[..section].iter().map(|entries| COUNT + entries.concat().len()).sum()
}

/// The string of the width that has so many above it, at most 65,535.
fn with_above(width: usize, above: usize) -> Vec<u8> {
    let mut string = vec![255; width];
    string[width - 2..].copy_from_slice(&(65_535 - above as u16).to_be_bytes());
    string
}

/// An entry that doesn't stand above the one before, told at this byte.
fn not_above(random: &mut Random, written: &Written, section: usize, byte: usize) -> Made {
    let (mut entries, width) = (written.entries.clone(), WIDTHS[section]);
    if entries[section].is_empty() {
        let first = random.bytes(width);
        entries[section].push(first);
    }
    let at = random.below(entries[section].len());
    let before = &mut entries[section][at];
    let is_early = byte + 1 < width && random.one_in(4);
    if is_early {
        // No string begins so and stands above: the bytes behind are the greatest.
        before[byte + 1..].fill(255);
    } else {
        before[byte] = before[byte].max(1);
    }
    let mut entry = before.clone();
    if is_early {
        let behind = if random.one_in(2) { vec![255; width - byte - 1] } else { random.bytes(width - byte - 1) };
        entry[byte + 1..].copy_from_slice(&behind);
    } else {
        entry[byte] = if random.one_in(2) { entry[byte] - 1 } else { random.below(entry[byte].into()) as u8 };
        let behind = random.bytes(width - byte - 1);
        entry[byte + 1..].copy_from_slice(&behind);
    }
    entries[section].insert(at + 1, entry);
    Made::plain(in_bytes(&entries))
}

/// An entry twice, one less than the one before, or two the other way round.
fn out_of_order(random: &mut Random, written: &Written, section: usize) -> Made {
    let mut entries = written.entries.clone();
    let count = entries[section].len();
    if count == 0 {
        return Made::plain(in_bytes(&entries));
    }
    let at = random.below(count);
    let mut again = entries[section][at].clone();
    match random.below(4) {
        0 if count > 1 => {
            let other = if random.one_in(2) { (at + 1) % count } else { random.below(count) };
            entries[section].swap(at, other);
            let what = format!("20, swapped: {}", SECTIONS[section]);
            return Made::new(in_bytes(&entries), &[20], what);
        }
        1 => {
            // The string right below.
            for byte in again.iter_mut().rev() {
                *byte = byte.wrapping_sub(1);
                if *byte != 255 {
                    break;
                }
            }
            entries[section].insert(at + 1, again);
            let what = format!("20, one less than before: {}", SECTIONS[section]);
            return Made::new(in_bytes(&entries), &[20], what);
        }
        2 => {
            // With 255s at its end.
            let width = again.len();
            again[width - 1 - random.below(width - 1)..].fill(255);
            entries[section][at] = again.clone();
            entries[section].insert(at + 1, again);
        }
        _ => {
            let to = if random.one_in(4) { count } else { at + 1 };
            entries[section].insert(to, again);
        }
    }
    Made::plain(in_bytes(&entries))
}

/// An entry that leaves above itself too few strings for those to come, or just enough.
fn near_the_end(random: &mut Random, written: &Written, section: usize) -> Made {
    let (mut entries, width) = (written.entries.clone(), WIDTHS[section]);
    let before = match random.below(3) {
        0 => 0,
        _ => random.below(entries[section].len() + 1),
    };
    entries[section].truncate(before);
    // With so many to come behind it.
    let most = 65_534 - before;
    let to_come = match random.below(7) {
        0 | 1 => most,
        2 => most - random.below(300),
        3 => 256 * (1 + random.below(200)) - 1 + random.below(3),
        4 => 1 + random.below(most),
        _ => 1 + random.below(300),
    };
    let above = match random.below(6) {
        0 | 1 => to_come,
        2 | 3 => to_come - 1,
        4 => random.below(to_come),
        _ => (to_come + random.below(300)).min(65_535),
    };
    entries[section].push(with_above(width, above));
    // Some that follow, each right above.
    let follow = random.below(4).min(above);
    entries[section].extend((1..=follow).map(|step| with_above(width, above - step)));
    let mut file = with_count(&entries, section, (before + 1 + to_come) as u16);
    // At times the file ends there, or is cut a little before.
    match random.below(6) {
        0 => {}
        1 => {
            let end = start_of(&entries, section) + COUNT + entries[section].len() * width;
            file.truncate(end - random.below(width));
        }
        _ => file.truncate(start_of(&entries, section) + COUNT + entries[section].len() * width),
    }
    Made::plain(file)
}

/// A section that ends with the greatest strings: well formed.
fn up_to_the_end(random: &mut Random, written: &Written, section: usize) -> Made {
    let (mut entries, width) = (written.entries.clone(), WIDTHS[section]);
    let count = 1 + random.below(5);
    entries[section].extend((0..count).rev().map(|above| with_above(width, above)));
    Made::new(in_bytes(&entries), &[21], format!("21, up to 255s: {}", SECTIONS[section]))
}

/// A count that is not that of the entries.
fn miscounted(random: &mut Random, written: &Written, section: usize) -> Made {
    let entries = &written.entries;
    let count = entries[section].len() as u16;
    let (count, what) = match random.below(5) {
        0 => (count + 1, "count one more"),
        1 => (count.saturating_sub(1), "count one less"),
        2 => (0, "count of 0"),
        3 => (65_535, "count of 65,535"),
        _ => return Made::plain(with_count(entries, section, count.swap_bytes())),
    };
    if usize::from(count) == entries[section].len() {
        return Made::plain(written.file.clone());
    }
    let what = format!("20 or 21, {what}: {}", SECTIONS[section]);
    Made::new(with_count(entries, section, count), &[20, 21], what)
}

/// Cut at each kind of place.
fn cut(random: &mut Random, written: &Written, section: usize) -> Made {
    let entries = &written.entries;
    let (mut file, start, width) = (written.file.clone(), start_of(entries, section), WIDTHS[section]);
    let count = entries[section].len();
    let kept = match random.below(4) {
        0 => 0,
        1 => 1,
        2 => COUNT + random.below(count.max(1)) * width,
        _ => COUNT + (random.below(count.max(1)) * width + 1 + random.below(width - 1)).min(count * width),
    };
    file.truncate(start + kept);
    Made::plain(file)
}

/// Bytes behind, put in, left out or of no order at all.
fn astray(random: &mut Random, written: &Written) -> Made {
    let mut file = written.file.clone();
    let what = match random.below(9) {
        0 => {
            file.push(if random.one_in(2) { 0 } else { random.byte() });
            "20, a byte behind"
        }
        1 => {
            let behind = 2 + random.below(40);
            file.extend(if random.one_in(2) { vec![0; behind] } else { random.bytes(behind) });
            "20, more behind"
        }
        2 => {
            file.extend(file.clone());
            "20, a file behind"
        }
        3 => {
            file.remove(random.below(file.len()));
            "20, a byte left out"
        }
        4 => {
            file.insert(random.below(file.len()), random.byte());
            "20, a byte put in"
        }
        5 => {
            file.clear();
            "20, empty"
        }
        6 => {
            let length = 1 + random.below(400);
            file = random.bytes(length);
            "20, any bytes"
        }
        7 => {
            file = vec![0; SECTIONS.len() * COUNT];
            "21, no entries"
        }
        _ => {
            let mut entries = written.entries.clone();
            let section = random.below(SECTIONS.len() - 1);
            entries.swap(section, section + 1);
            file = in_bytes(&entries);
            "20 or 21, sections in another order"
        }
    };
    let numbers: &[usize] = match &what[..4] {
        "20, " => &[20],
        "21, " => &[21],
        _ => &[20, 21],
    };
    Made::new(file, numbers, what.into())
}

/// Not well formed, though a rule is broken before that: 20 is told.
fn both(random: &mut Random, written: &Written) -> Made {
    let Some(mut file) = unsound(random, written) else { return Made::plain(written.file.clone()) };
    match random.below(2) {
        0 => file.push(random.byte()),
        _ => file.truncate(file.len() - 1),
    }
    Made::new(file, &[20], "20, not sound either".into())
}

/// The file with something wrong, mostly so that it is not well formed.
pub fn malformed(random: &mut Random, file: &[u8]) -> Vec<u8> {
    let mut file = file.to_vec();
    let at = random.below(file.len());
    match random.below(5) {
        0 => file.truncate(at),
        1 => file.push(random.byte()),
        2 => file[at] = file[at].wrapping_add(1),
        3 => file[at] = file[at].wrapping_sub(1),
        _ => file[at] = random.byte(),
    }
    file
}

/// Sections that are as long as they can be told to be, each well formed and far over every limit.
fn huge(section: usize) -> Vec<u8> {
    let mut entries: Entries = Default::default();
    entries[section] = (0..65_535).rev().map(|above| with_above(WIDTHS[section], above)).collect();
    in_bytes(&entries)
}

/// Sections whose huge files are short enough to be lent to a process that serves the library.
const HUGE: [usize; 4] = [PARENT, APPLICATION, TYPE, END];

/// A file of any kind, made of that of the schema.
pub fn any(random: &mut Random, written: &Written) -> Made {
    let section = random.below(SECTIONS.len());
    match random.below(100) {
        0..=34 => {
            let rule = random.below(BROKEN.len());
            broken(random, written, rule).unwrap_or_else(|| Made::plain(written.file.clone()))
        }
        35..=57 => of_spoiled(random, written),
        58..=67 => {
            let bytes = |section: usize| (0..WIDTHS[section]).map(move |byte| (section, byte));
            let all: Vec<(usize, usize)> = (0..SECTIONS.len()).flat_map(bytes).collect();
            let (section, byte) = random.pick(&all).expect("there are some");
            not_above(random, written, section, byte)
        }
        68..=74 => out_of_order(random, written, section),
        75..=82 => near_the_end(random, written, section),
        83 | 84 => up_to_the_end(random, written, section),
        85..=90 => miscounted(random, written, section),
        91..=94 => cut(random, written, section),
        95..=97 => astray(random, written),
        98 => both(random, written),
        _ => Made::plain(written.file.clone()),
    }
}

// What a file is called by its answer.

/// The traits of a file that was refused 20, told this length.
fn malformed_traits(file: &[u8], told: usize) -> Vec<String> {
    let mut at = 0;
    for (section, width) in SECTIONS.into_iter().zip(WIDTHS) {
        if told < at + COUNT {
            // No count is wrong, so it is cut.
            return vec![format!("20, cut {} the count: {section}", if told == at { "before" } else { "in" })];
        }
        let count = usize::from(u16::from_le_bytes([file[at], file[at + 1]]));
        at += COUNT;
        if told < at + count * width {
            let (number, byte) = ((told - at) / width, (told - at) % width);
            let start = at + number * width;
            let before = (number > 0).then(|| &file[start - width..start]);
            let wrong = if told == file.len() { None } else { Some(&file[start..=told]) };
            let traits = match wrong {
                None => cut_traits(byte, before, count - number),
                Some(wrong) => {
                    let entry = file.get(start..start + width);
                    wrong_traits(wrong, entry, width, before, count)
                }
            };
            return traits.into_iter().map(|what| format!("{what}: {section}")).collect();
        }
        at += count * width;
    }
    Vec::new()
}

/// Of a file that ends within a section, so many bytes behind the entry before, with so many to come.
fn cut_traits(byte: usize, before: Option<&[u8]>, to_come: usize) -> Vec<String> {
    let is_tight = before.is_some_and(|before| to_come <= 65_535 && before == with_above(before.len(), to_come));
    let place = if byte == 0 { "20, cut between entries" } else { "20, cut in an entry" };
    [place].into_iter().chain(is_tight.then_some("20, just enough above")).map(String::from).collect()
}

/// Of an entry that is wrong at the last of these bytes, in a section of so many.
fn wrong_traits(
    wrong: &[u8],
    entry: Option<&[u8]>,
    width: usize,
    before: Option<&[u8]>,
    count: usize,
) -> Vec<String> {
    let byte = wrong.len() - 1;
    // Whether some string that begins so stands above the one before.
    let can_be_above = before.is_none_or(|before| {
        let (same, behind) = before.split_at(wrong.len());
        wrong > same || wrong == same && behind.iter().any(|&byte| byte < 255)
    });
    let mut traits = Vec::new();
    if can_be_above {
        let place = if byte + 1 == width { "last byte" } else { "last but one" };
        traits.push(format!("20, too few above, {place}"));
        if count == 65_535 {
            traits.push("20, too few above, 65,535 told".into());
        }
    } else {
        traits.push(format!("20, not above, byte {byte}"));
        if entry == before {
            traits.push("20, the same twice".into());
            if byte + 1 < width {
                traits.push("20, the same twice, told earlier".into());
            }
        }
    }
    traits
}

/// The traits of a file that was accepted, by the schema that it is of.
fn good_traits(s: &Schema, file: &[u8]) -> Vec<&'static str> {
    let sdss = || s.sdss.values();
    let names = || sdss().flat_map(|sds| sds.named.keys().chain([&sds.name]));
    let parents = || s.types.keys().map(|&ty| (ty, s.parents(ty)));
    let is_by_type = |sds: &Sds| sds.types().collect::<Vec<_>>().is_sorted();
    [
        (*s == Schema::fresh(), "0, fresh"),
        (sdss().any(|sds| !sds.nameless.is_empty()), "0, nameless types"),
        (
            sdss().any(|sds| sds.nameless.values().any(|modes| *modes != Modes::ALL)),
            "0, nameless types of other modes",
        ),
        (names().any(|name| name.len() == Schema::NAME), "0, a name of 16 bytes"),
        (names().any(|name| name.iter().any(u8::is_ascii_uppercase)), "0, a capital"),
        (parents().any(|(_, parents)| parents.len() == Schema::PARENTS), "0, 4 parents"),
        (parents().any(|(ty, parents)| parents.iter().any(|&up| up > ty)), "0, a parent of a higher number"),
        (sdss().any(Sds::is_empty), "0, an SDS without types"),
        (!sdss().all(is_by_type), "0, rows not in the order of entries"),
        (s.sdss.len() == Schema::SDSS, "0, 16 SDSs"),
        (s.types.len() == Schema::TYPES, "0, 128 types"),
        (s.presence_count() == Schema::PRESENCES, "0, 512 presences"),
        (s.application_count() == Schema::APPLICATIONS, "0, 256 applications"),
        (s.end_count() == Schema::ENDS, "0, 512 ends"),
        (file.len() == LONGEST, "0, the longest"),
    ]
    .into_iter()
    .filter_map(|(is_so, what)| is_so.then_some(what))
    .collect()
}

/// The traits of a file that was to be read over what has not a base's length.
fn wrong_length_traits(file: &[u8], length: usize) -> Vec<&'static str> {
    let what = match file::read(file) {
        Ok(_) => "1, a good file",
        Err(Fault::Malformed { .. }) => "1, a malformed file",
        Err(Fault::NotWritten) => "1, a file not sound",
    };
    let lengths = [(0, "1, no base"), (LENGTH - 1, "1, a byte too few"), (LENGTH + 1, "1, a byte too many")];
    let wrong = lengths.into_iter().filter(|(wrong, _)| *wrong == length).map(|(_, what)| what);
    [what].into_iter().chain(wrong).collect()
}

// Schemas to be written.

/// Few types of every kind, in more than one spelling, with any modes, nameless ones among them; at times large ones, and
/// seldom one with a table full or as long a file as can be.
fn draw(random: &mut Random) -> Schema {
    match random.below(40) {
        0 => Schema::fresh(),
        1 | 39 => longest(random),
        2 => {
            let full = [bases::full, bases::worst, bases::typical, bases::short];
            random.pick(&full).expect("there are some")()
        }
        3 => nameless::full(random),
        4 => SHAPES[random.below(SHAPES.len())].1(random),
        5..=8 => nameless::draw(random),
        9..=12 => removals::draw(random),
        13..=15 => spellings::draw(random),
        16 | 17 => modes::draw(random),
        _ => small(random),
    }
}

/// As `spellings::draw`, with any modes and some types nameless.
fn small(random: &mut Random) -> Schema {
    let mut s = spellings::draw(random);
    modes::give(random, &mut s);
    for sds in s.used().into_iter().skip(1) {
        let taken = random.below(8);
        nameless::take_names(random, &mut s, sds.into(), taken);
    }
    s
}

/// Every table full but for parents, which are as many as can be: one attribute and one link type, so that there can be
/// applications and ends, and no other but object types.
pub fn longest(random: &mut Random) -> Schema {
    let mut s = Schema::fresh();
    let mut numbers = random.shuffled((1..Schema::TYPES).collect());
    let [attribute, link] = [(); 2].map(|()| numbers.pop().expect("there are enough"));
    s.types.insert(attribute, Type::Attribute { value_kind: random.below(6) });
    s.types.insert(link, Type::Link { category: DESIGNATION, reverse: None });
    let mut objects = vec![0];
    for ty in numbers {
        let nearest = objects[objects.len().saturating_sub(8)..].to_vec();
        let parents = random.shuffled(nearest).into_iter().take(Schema::PARENTS).collect();
        s.types.insert(ty, Type::Object { parents });
        objects.push(ty);
    }
    let mut left = Schema::PRESENCES - 1;
    for sds in in_any_order(random, (1..Schema::SDSS).collect()) {
        let mut here = Sds::new(format!("sds_{sds}").as_bytes());
        // No object type before its parents.
        let held: Vec<usize> = [attribute, link].into_iter().chain(objects.iter().copied()).take(left).collect();
        left -= held.len();
        let names = (0..held.len()).map(|n| Name::new(format!("a_long_name_{n:04}"))).collect();
        here.named.extend(in_any_order(random, names).into_iter().zip(held.iter().copied().map(Presence::of)));
        let others: Vec<usize> = held.iter().copied().filter(|&ty| ty != attribute).collect();
        let applications = Schema::APPLICATIONS - s.application_count();
        here.applications = others.iter().map(|&to| Application { to, attribute }).take(applications).collect();
        let ends = Schema::ENDS - s.end_count();
        let ended = others.iter().filter(|&&ty| ty != link);
        let both =
            ended.flat_map(|&object| [Side::Origin, Side::Destination].map(|side| End { link, side, object }));
        here.ends = both.take(ends).collect();
        s.sdss.insert(sds, here);
    }
    modes::give(random, &mut s);
    s
}

// The run.

impl Run {
    /// A share of files: a part of a sweep, and files beside it. It depends on nothing but the numbers.
    pub fn files(&mut self, seed: u64, number: usize) -> Result<(), String> {
        let start = Random::new(seed).word().wrapping_add(number as u64);
        self.caller = Caller::new(Random::new(start).word());
        let mut made = self.sweep(seed, number)?;
        if number % 64 == 0 {
            self.place = format!("seed {seed}, share {number}, a section of 65,535 entries");
            let section = HUGE[number / 64 % HUGE.len()];
            self.read(
                Made::new(huge(section), &[21], "21, 65,535 entries".into()),
                &Written::new(Schema::fresh()),
            )?;
            made += 1;
        }
        let until = SHARE.max(made + BESIDE);
        while made < until {
            let written = Written::new(draw(&mut self.caller.random));
            self.place = format!("seed {seed}, share {number}, after file {made}");
            self.write(&written)?;
            self.write(&written)?;
            for _ in 0..24 {
                made += 1;
                self.place = format!("seed {seed}, share {number}, file {made}");
                let file = any(&mut self.caller.random, &written);
                self.read(file, &written)?;
            }
        }
        Ok(())
    }

    /// A part of what is made of one file: every start of it, and every byte changed to 0, to 255, one up and one down;
    /// of the longest one of these. Gives how many.
    fn sweep(&mut self, seed: u64, number: usize) -> Result<usize, String> {
        let (sweep, part) = (number / PARTS, number % PARTS);
        let mut random = Random::new(seed.wrapping_add(sweep as u64));
        let s = match sweep {
            0 => longest(&mut random),
            1 => Schema::fresh(),
            _ => [small, removals::draw, spellings::draw][sweep % 3](&mut random),
        };
        let written = Written::new(s);
        let file = &written.file;
        self.place = format!("seed {seed}, sweep {sweep}");
        self.read(Made::new(file.clone(), &[0], "0, swept: as it is".into()), &written)?;
        let mut made = 1;
        for at in (part..file.len()).step_by(PARTS) {
            let changes = [
                (0, "swept: a byte to 0"),
                (255, "swept: a byte to 255"),
                (file[at].wrapping_add(1), "swept: a byte one up"),
                (file[at].wrapping_sub(1), "swept: a byte one down"),
            ];
            let only = (file.len() == LONGEST).then(|| random.below(changes.len()));
            self.place = format!("seed {seed}, sweep {sweep}, at {at}");
            self.read(Made::new(file[..at].to_vec(), &[20], "20, swept: every start".into()), &written)?;
            made += 1;
            for (_, (byte, what)) in
                changes.into_iter().enumerate().filter(|(n, _)| only.is_none_or(|only| only == *n))
            {
                let mut changed = file.clone();
                changed[at] = byte;
                self.read(Made::new(changed, &[0, 20, 21], what.into()), &written)?;
                made += 1;
            }
        }
        Ok(made)
    }

    /// The base of the schema is written, with room for the file and without.
    fn write(&mut self, Written { base, file, .. }: &Written) -> Result<(), String> {
        let room = self.caller.room(file.len());
        let (answer, after) = self.on_bytes(base.clone(), room, &Call::WriteFile)?;
        if answer[0] == 0 && after.output[..file.len()] != file[..] {
            return Err(format!("{}: the keeper writes another file", self.place));
        }
        self.counts.file(match (answer[0], room) {
            (0, _) if room == file.len() => Some("write 0, just room enough"),
            (0, _) if room == file.len() + 1 => Some("write 0, a byte more"),
            (0, MOST) => Some("write 0, room for every file"),
            (15, 0) => Some("write 15, no room"),
            (15, _) if room + 1 == file.len() => Some("write 15, a byte too few"),
            _ => None,
        });
        self.counts.file((answer[0] == 0 && file.len() == LONGEST).then_some("write 0, the longest"));
        if self.caller.random.one_in(4) {
            let spoiled = self.other_base(base.clone());
            let (answer, _) = self.on_bytes(spoiled, room, &Call::WriteFile)?;
            self.counts.file((answer[0] == 1).then_some("write 1"));
        }
        Ok(())
    }

    /// The base with a bit turned, or of another length.
    fn other_base(&mut self, mut base: Vec<u8>) -> Vec<u8> {
        let at = self.caller.random.below(LENGTH);
        match self.caller.random.below(4) {
            0 => base.truncate(at),
            1 => base.push(0),
            _ => base[at] ^= 1 << self.caller.random.below(8),
        }
        base
    }

    /// The file is read over some bytes. What is accepted is written back.
    fn read(&mut self, Made { file, traits }: Made, written: &Written) -> Result<(), String> {
        let (over, base) = match self.caller.random.below(16) {
            0..=2 => ("zeros", vec![0; LENGTH]),
            3..=5 => ("any bytes", self.caller.random.bytes(LENGTH)),
            6..=9 => ("another base", to_bytes(&Schema::fresh())),
            10..=14 => ("its own base", written.base.clone()),
            _ => ("no base", self.wrong_base()),
        };
        let length = base.len();
        let (answer, after) = self.on_any_bytes(base, &Call::ReadFile { file: Text(file.clone()) })?;
        match answer[0] {
            1 => self.counts.file(wrong_length_traits(&file, length)),
            20 => self.counts.file(malformed_traits(&file, answer[1])),
            0 => {
                let read = from_bytes(&after.base).ok_or(format!("{}: the keeper reads no base", self.place))?;
                self.counts.file(good_traits(&read, &file));
                let (answer, back) = self.on_bytes(after.base, file.len(), &Call::WriteFile)?;
                if answer != [0, file.len(), 0, 0] || back.output != file {
                    return Err(format!("{}: what was read is written otherwise", self.place));
                }
            }
            _ => {}
        }
        if answer[0] != 1 {
            let over = if answer[0] != 0 && over == "its own base" { "another base" } else { over };
            self.counts.file([format!("{}, over {over}", answer[0])]);
            let found = traits.into_iter().filter(|found| found.numbers.contains(&answer[0]));
            self.counts.file(found.map(|found| found.what));
        }
        Ok(())
    }

    fn wrong_base(&mut self) -> Vec<u8> {
        let length = match self.caller.random.below(5) {
            0 => 0,
            1 => LENGTH - 1,
            2 => LENGTH + 1,
            3 => self.caller.random.below(LENGTH),
            _ => LENGTH + 1 + self.caller.random.below(LENGTH),
        };
        vec![0; length]
    }
}

#[cfg(test)]
mod tests {
    use super::{broken, draw, often, small, Written, BROKEN, FEW, PARTS};
    use crate::file::{self, Fault};
    use crate::random::Random;
    use crate::run::Run;
    use std::collections::BTreeSet;

    /// Each rule can be broken, and the file is then refused 21.
    #[test]
    fn every_rule_is_broken() {
        let mut random = Random::new(1);
        for (rule, (what, _)) in BROKEN.iter().enumerate() {
            let drawn: Vec<Written> = (0..60).map(|_| Written::new(small(&mut random))).collect();
            let made = drawn.iter().filter_map(|written| broken(&mut random, written, rule));
            let told: Vec<_> = made.map(|made| file::read(&made.file).err()).collect();
            let broken = told.iter().filter(|told| **told == Some(Fault::NotWritten)).count();
            assert!(broken > 5 && broken == told.len(), "{what}: {broken} of {}", told.len());
        }
    }

    /// Two sweeps, and the files beside them, have all that a long run is asked for, and nothing else.
    #[test]
    fn every_kind_of_file_is_made() {
        let mut run = Run::new(None);
        (PARTS..3 * PARTS).for_each(|number| run.files(1, number).unwrap());
        run.files(1, 4 * PARTS).unwrap();
        let seen: BTreeSet<String> = run.counts.filed.keys().cloned().collect();
        let asked: BTreeSet<String> = often().into_iter().chain(FEW.map(String::from)).collect();
        assert_eq!(asked.difference(&seen).collect::<Vec<_>>(), [""; 0]);
        assert_eq!(seen.difference(&asked).collect::<Vec<_>>(), [""; 0]);
    }

    #[test]
    fn every_drawn_schema_is_written() {
        let mut random = Random::new(1);
        for s in (0..120).map(|_| draw(&mut random)) {
            assert_eq!(file::read(&Written::new(s.clone()).file), Ok(s));
        }
    }
}
