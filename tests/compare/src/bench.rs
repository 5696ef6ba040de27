//! The check of soundness, some of the asking calls, each changing call and the exchange file timed, side by side: the
//! library, the independent keeper and, for three of the asking calls and for the file, SQLite.
#![forbid(unsafe_code)]

use crate::base::{is_sound, to_bytes};
use crate::bases::{chain, full, short, typical, worst, zigzag};
use crate::calls::{apply, Call, Text};
use crate::library::{Area, Lent};
use crate::schema::Schema;
use crate::served::{start, Replies, Requests};
use crate::sqlite::{Answered, Sqlite};
use std::cell::RefCell;
use std::hint::black_box;
use std::io::{stderr, IsTerminal};
use std::process::ExitCode;
use std::time::Instant;

/// The best of many rounds of some calls. All that are compared take turns, so that none is alone with a quiet
/// machine.
const ROUNDS: usize = 60;
const CALLS: usize = 100;

/// `sqlite` and `program` are the programs that ask SQLite and serve the library, built for the machine at hand.
pub fn bench(sqlite: &str, program: &[String]) -> ExitCode {
    match tables(sqlite, program) {
        Ok(()) => ExitCode::SUCCESS,
        Err(fault) => {
            eprintln!("compare: {fault}");
            ExitCode::FAILURE
        }
    }
}

fn tables(sqlite: &str, program: &[String]) -> Result<(), String> {
    let server = Server::start(program)?;
    let machine = std::env::consts::ARCH;
    println!("ns a call, the best of {ROUNDS} rounds of {CALLS}, on {machine}; all built for release\n");
    println!(
        "{:<9}{:<12}{:>8}{:>8}{:>8}{:>16}{:>16}",
        "base", "", "library", "keeper", "memcmp", "library/keeper", "library/memcmp"
    );
    let bases = [
        ("typical", typical()),
        ("full", full()),
        ("chain", chain()),
        ("zigzag", zigzag()),
        ("short", short()),
        ("worst", worst()),
    ];
    for (base, schema) in [("fresh", Schema::fresh())].iter().chain(&bases) {
        show_progress(base);
        let [library, keeper, memcmp] = check(&server, &to_bytes(schema))?;
        show_progress("");
        println!(
            "{base:<9}{:<12}{library:>8.0}{keeper:>8.0}{memcmp:>8.0}{:>16.2}{:>16.1}",
            "check",
            library / keeper,
            library / memcmp
        );
    }
    println!(
        "\n{:<9}{:<12}{:>8}{:>8}{:>8}{:>8}{:>8}{:>16}{:>16}",
        "base", "", "library", "check", "keeper", "held", "SQLite", "library/keeper", "library/SQLite"
    );
    for (base, schema) in &bases {
        let mut sqlite = Sqlite::start(sqlite, schema, &working_schema(schema))?;
        for (number, (what, call, about)) in questions(schema).into_iter().enumerate() {
            show_progress(&format!("{base} {what}"));
            let mut ask = || sqlite.ask(number, CALLS, &about);
            let [library, check, keeper, held, sqlite] = question(&server, schema, &call, &mut ask)?;
            show_progress("");
            println!(
                "{base:<9}{what:<12}{library:>8.0}{:>7.0}%{keeper:>8.0}{held:>8.0}{sqlite:>8.0}{:>16.2}{:>16.2}",
                100.0 * check / library,
                library / keeper,
                library / sqlite
            );
        }
    }
    println!(
        "\n{:<9}{:<12}{:>8}{:>8}{:>8}{:>8}{:>16}",
        "base", "", "library", "check", "keeper", "held", "library/keeper"
    );
    for (base, schema) in bases.iter().filter(|(base, _)| ["typical", "full", "chain"].contains(base)) {
        for (what, call) in upward(schema) {
            show_progress(&format!("{base} {what}"));
            let [library, check, keeper, held] = each_on(&server, schema, &call)?;
            show_progress("");
            println!(
                "{base:<9}{what:<12}{library:>8.0}{:>7.0}%{keeper:>8.0}{held:>8.0}{:>16.2}",
                100.0 * check / library,
                library / keeper
            );
        }
    }
    println!(
        "\n{:<21}{:>8}{:>8}{:>8}{:>8}{:>16}",
        "typical", "library", "check", "keeper", "held", "library/keeper"
    );
    for (what, schema, call) in changes() {
        show_progress(what);
        let [library, check, keeper, held] = each_on(&server, &schema, &call)?;
        show_progress("");
        // fresh alone makes no check
        let share = if check < library { format!("{:.0}%", 100.0 * check / library) } else { "-".into() };
        println!("{what:<21}{library:>8.0}{share:>8}{keeper:>8.0}{held:>8.0}{:>16.2}", library / keeper);
    }
    println!(
        "\n{:<9}{:<12}{:>8}{:>8}{:>8}{:>8}{:>8}{:>8}{:>16}{:>16}{:>8}{:>10}",
        "base",
        "",
        "library",
        "check",
        "keeper",
        "held",
        "SQLite",
        "memcpy",
        "library/keeper",
        "library/SQLite",
        "bytes",
        "SQLite's"
    );
    for (base, schema) in [("fresh", Schema::fresh()), ("typical", typical()), ("full", full())] {
        let mut sqlite = Sqlite::start(sqlite, &schema, &working_schema(&schema))?;
        let (bytes, dumped) = (file_of(&schema).0.len(), sqlite.ask(DUMP, 1, "-")?.entries);
        for (what, call, number, expected) in files(&schema, dumped[0]) {
            show_progress(&format!("{base} {what}"));
            let mut ask = || sqlite.ask(number, CALLS, "-");
            let [library, check, memcpy, keeper, held, sqlite] = file(&server, &schema, &call, &mut ask, expected)?;
            show_progress("");
            println!(
                "{base:<9}{what:<12}{library:>8.0}{:>7.0}%{keeper:>8.0}{held:>8.0}{sqlite:>8.0}{memcpy:>8.0}\
                 {:>16.2}{:>16.2}{bytes:>8}{:>10}",
                100.0 * check / library,
                library / keeper,
                library / sqlite,
                dumped[0]
            );
        }
    }
    println!("\ncheck: the share of the library's time that the check of soundness takes");
    println!("keeper: over the same bytes, which it checks too");
    println!("held: the keeper over a schema that it holds, as SQLite does; neither checks it");
    println!("memcpy: of the file; bytes: its length, and that of SQLite's dump of all its tables");
    Ok(())
}

/// A person who waits sees what is being timed.
fn show_progress(what: &str) {
    if stderr().is_terminal() {
        eprint!("\r\x1b[K{what}");
    }
}

/// The working schema of every question: SDSs 1 and 2, as far as they are used.
fn working_schema(schema: &Schema) -> Vec<u8> {
    [1, 2].into_iter().filter(|&sds| schema.sdss.contains_key(&sds.into())).collect()
}

/// The object type with the longest way up.
fn lowest(schema: &Schema) -> usize {
    let objects = schema.types.keys().copied().filter(|&ty| schema.is_object(ty));
    objects.max_by_key(|&ty| schema.longest_way_up(ty)).expect("there is type 0")
}

/// The descendants of the type right below type 0, the profile of the lowest one and a name of many: in the order in
/// which SQLite numbers them, each with what it is about.
fn questions(schema: &Schema) -> [(&'static str, Call, String); 3] {
    let high = schema.descendants(0).into_iter().find(|&ty| schema.longest_way_up(ty) == 1).expect("a child");
    let (low, name, list) = (lowest(schema), "object_type_30", working_schema(schema));
    [
        ("descendants", Call::ScanObject { schema: list.clone(), ty: high, code: 1 }, high.to_string()),
        ("profile", Call::Profile { schema: list.clone(), ty: low }, low.to_string()),
        ("find", Call::Find { schema: list, name: name.into() }, name.into()),
    ]
}

/// What the lowest type has above it, and its modes.
fn upward(schema: &Schema) -> [(&'static str, Call); 3] {
    let (low, list) = (lowest(schema), working_schema(schema));
    [
        ("ancestors", Call::ScanObject { schema: list.clone(), ty: low, code: 3 }),
        ("depth", Call::Depth { schema: list.clone(), ty: low }),
        ("modes", Call::Modes { schema: list, ty: low }),
    ]
}

/// One check of the library and of the keeper, and one comparison of the same bytes with others.
fn check(server: &Server, base: &[u8]) -> Result<[f64; 3], String> {
    let other = base.to_vec();
    side_by_side([
        &mut || server.time_check(base),
        &mut || Ok(time(|| _ = black_box(is_sound(black_box(base))))),
        &mut || Ok(time(|| _ = black_box(black_box(base) == black_box(&other)))),
    ])
}

/// The call by the library, a check by it, the call by the keeper, over bytes and over what it holds, and by SQLite,
/// whose entries must be the same.
fn question(
    server: &Server,
    schema: &Schema,
    call: &Call,
    sqlite: &mut dyn FnMut() -> Result<Answered, String>,
) -> Result<[f64; 5], String> {
    let (mut schema, mut base) = (schema.clone(), to_bytes(schema));
    let reply = call.on(&mut schema, usize::MAX);
    let expected: Vec<usize> = match &reply.list[..] {
        [] => vec![reply.one],
        list => list.iter().map(|&ty| ty.into()).collect(),
    };
    let mut output = vec![0; 2 * expected.len()];
    let lent = Lent { base: base.clone(), output: output.clone() };
    side_by_side([
        &mut || server.time(call, &lent, [reply.no, reply.one, reply.two, reply.three]),
        &mut || server.time_check(&lent.base),
        &mut || Ok(time(|| _ = black_box(apply(black_box(&mut base), &mut output, call)))),
        &mut || Ok(time(|| _ = black_box(call.on(black_box(&mut schema), usize::MAX)))),
        &mut || match sqlite()? {
            answered if answered.entries == expected => Ok(answered.nanoseconds),
            answered => Err(format!("SQLite gives {:?} to {call:?}, not {expected:?}", answered.entries)),
        },
    ])
}

/// Each changing call on the typical base, where it is done; a call that would be refused there is made on that base
/// with one thing more.
fn changes() -> Vec<(&'static str, Schema, Call)> {
    let with = |more: Call| {
        let mut schema = typical();
        assert_eq!(more.on(&mut schema, 0).no, 0, "{more:?}");
        schema
    };
    let new: fn() -> Text = || "new_type".into();
    let (attribute, link) = (|| "attribute_7".into(), || "link_7".into());
    let applied = || Call::Apply { sds: 1, attribute: attribute(), to: "object_type_45".into() };
    let origin = || Call::ApplyLink { sds: 1, link: link(), object: "object_type_45".into() };
    let destination = || Call::AddDestination { sds: 1, link: link(), object: "object_type_45".into() };
    let parents = "object_type_30 object_type_20 object_type_10 object";
    vec![
        ("fresh", typical(), Call::Fresh),
        ("new SDS", typical(), Call::NewSds { name: "another".into() }),
        ("remove SDS", with(Call::NewSds { name: "another".into() }), Call::RemoveSds { sds: 3 }),
        ("new object", typical(), Call::NewObject { sds: 1, name: new(), parents: parents.into() }),
        ("new attribute", typical(), Call::NewAttribute { sds: 1, name: new(), value_kind: 5 }),
        ("new designation", typical(), Call::NewDesignation { sds: 1, name: new() }),
        (
            "new pair",
            typical(),
            Call::NewPair { sds: 1, name: new(), reverse_name: "reverse".into(), category: 0, reverse_category: 3 },
        ),
        (
            "import of a pair",
            typical(),
            Call::Import {
                target: 2,
                source: 1,
                name: "link_11".into(),
                new_name: "".into(),
                new_reverse_name: "".into(),
            },
        ),
        // SDS 2 has all that is above it
        (
            "import, no ancestor",
            typical(),
            Call::Import {
                target: 2,
                source: 1,
                name: "object_type_39".into(),
                new_name: "".into(),
                new_reverse_name: "".into(),
            },
        ),
        // types 39 to 49 are above it, and SDS 2 lacks them
        (
            "import, 11 ancestors",
            typical(),
            Call::Import {
                target: 2,
                source: 1,
                name: "object_type_50".into(),
                new_name: "".into(),
                new_reverse_name: "".into(),
            },
        ),
        ("apply", typical(), applied()),
        ("unapply", with(applied()), Call::Unapply { sds: 1, attribute: attribute(), to: "object_type_45".into() }),
        ("apply link", typical(), origin()),
        (
            "unapply link",
            with(origin()),
            Call::UnapplyLink { sds: 1, link: link(), object: "object_type_45".into() },
        ),
        ("add destination", typical(), destination()),
        (
            "remove destination",
            with(destination()),
            Call::RemoveDestination { sds: 1, link: link(), object: "object_type_45".into() },
        ),
        (
            "remove type",
            with(Call::NewAttribute { sds: 1, name: new(), value_kind: 5 }),
            Call::RemoveType { sds: 1, name: new() },
        ),
        (
            "remove number",
            with(Call::NewAttribute { sds: 1, name: new(), value_kind: 5 }),
            Call::RemoveNumber { sds: 1, ty: 100 },
        ),
        ("rename", typical(), Call::Rename { sds: 1, name: "object_type_30".into(), new_name: new() }),
        ("rename number", typical(), Call::RenameNumber { sds: 1, ty: 30, new_name: new() }),
        ("set modes of a pair", typical(), Call::SetModes { sds: 1, name: link(), usage: 4, definition: 0 }),
    ]
}

/// The call, which is done, by the library, a check by it, and the call by the keeper, over bytes and over what it
/// holds. Each finds the base as it was.
fn each_on(server: &Server, schema: &Schema, call: &Call) -> Result<[f64; 4], String> {
    let reply = call.on(&mut schema.clone(), usize::MAX);
    assert_eq!(reply.no, 0, "{call:?}");
    let lent = Lent { base: to_bytes(schema), output: vec![0; 2 * reply.list.len()] };
    let (mut base, mut output, mut held) = (lent.base.clone(), lent.output.clone(), schema.clone());
    side_by_side([
        &mut || server.time(call, &lent, [reply.no, reply.one, reply.two, reply.three]),
        &mut || server.time_check(&lent.base),
        &mut || {
            let again = |base: &mut Vec<u8>| base.copy_from_slice(&lent.base);
            Ok(time_each(&mut base, again, |base| _ = black_box(apply(black_box(base), &mut output, call))))
        },
        &mut || {
            let again = |held: &mut Schema| *held = schema.clone();
            Ok(time_each(&mut held, again, |held| _ = black_box(call.on(black_box(held), usize::MAX))))
        },
    ])
}

/// The numbers of SQLite's dump of its tables and of their restoration.
const DUMP: usize = 3;
const RESTORE: usize = 4;

fn file_of(schema: &Schema) -> Text {
    Text(Call::WriteFile.on(&mut schema.clone(), usize::MAX).file)
}

/// The file of a schema written and read in, each with the number of what SQLite does and the entry that it answers: the
/// length of its dump, and the presences in what it restored.
fn files(schema: &Schema, dumped: usize) -> [(&'static str, Call, usize, usize); 2] {
    [
        ("write file", Call::WriteFile, DUMP, dumped),
        ("read file", Call::ReadFile { file: file_of(schema) }, RESTORE, schema.presence_count()),
    ]
}

/// The call by the library, a check by it, a copy of the file's bytes, the call by the keeper, over bytes and over what it
/// holds, and by SQLite. A read finds the base that it makes: it takes any bytes, and looks at none of them.
fn file(
    server: &Server,
    schema: &Schema,
    call: &Call,
    sqlite: &mut dyn FnMut() -> Result<Answered, String>,
    expected: usize,
) -> Result<[f64; 6], String> {
    let reply = call.on(&mut schema.clone(), usize::MAX);
    assert_eq!(reply.no, 0, "{call:?}");
    let lent = Lent { base: to_bytes(schema), output: vec![0; reply.file.len()] };
    let (mut base, mut output, mut held) = (lent.base.clone(), lent.output.clone(), schema.clone());
    let (Text(bytes), Text(mut copy)) = (file_of(schema), file_of(schema));
    side_by_side([
        &mut || server.time(call, &lent, [reply.no, reply.one, reply.two, reply.three]),
        &mut || server.time_check(&lent.base),
        &mut || Ok(time(|| black_box(&mut copy).copy_from_slice(black_box(&bytes)))),
        &mut || Ok(time(|| _ = black_box(apply(black_box(&mut base), &mut output, call)))),
        &mut || Ok(time(|| _ = black_box(call.on(black_box(&mut held), usize::MAX)))),
        &mut || match sqlite()? {
            answered if answered.entries == [expected] => Ok(answered.nanoseconds),
            answered => Err(format!("SQLite gives {:?} for {call:?}, not {expected}", answered.entries)),
        },
    ])
}

type Round<'a> = &'a mut dyn FnMut() -> Result<f64, String>;

/// The best that each takes for a call, where all take turns.
fn side_by_side<const N: usize>(mut all: [Round; N]) -> Result<[f64; N], String> {
    let mut best = [f64::INFINITY; N];
    for _ in 0..ROUNDS {
        for (best, round) in best.iter_mut().zip(&mut all) {
            *best = best.min(round()? / CALLS as f64);
        }
    }
    Ok(best)
}

/// A round.
fn time(mut call: impl FnMut()) -> f64 {
    let start = Instant::now();
    (0..CALLS).for_each(|_| call());
    start.elapsed().as_nanos() as f64
}

/// A round of calls that each find the same; only the calls are timed.
fn time_each<T>(on: &mut T, again: impl Fn(&mut T), mut call: impl FnMut(&mut T)) -> f64 {
    let mut nanoseconds = 0.0;
    for _ in 0..CALLS {
        again(on);
        let start = Instant::now();
        call(on);
        nanoseconds += start.elapsed().as_nanos() as f64;
    }
    nanoseconds
}

/// The process that serves the library; its calls are timed where they are made.
struct Server(RefCell<(Requests, Replies)>);

impl Server {
    fn start(program: &[String]) -> Result<Server, String> {
        start(program).map(|ends| Server(RefCell::new(ends)))
    }

    /// A round of calls that have the expected answer.
    fn time(&self, call: &Call, lent: &Lent, expected: [usize; 4]) -> Result<f64, String> {
        let (requests, replies) = &mut *self.0.borrow_mut();
        let mut round = || {
            requests.write(call, lent, CALLS)?;
            requests.flush()?;
            replies.read(Area::of(call, lent).bytes.len())
        };
        let reply = round().map_err(|fault| fault.to_string())?;
        match reply.found.answer == expected {
            true => Ok(reply.nanoseconds as f64),
            false => Err(format!("answer {:?} to {call:?}, not {expected:?}", reply.found.answer)),
        }
    }

    /// A round of the call that ends right after the check: SDS 16 is refused with 2.
    fn time_check(&self, base: &[u8]) -> Result<f64, String> {
        let lent = Lent { base: base.to_vec(), output: Vec::new() };
        self.time(&Call::Name { sds: Schema::SDSS, ty: 0 }, &lent, [2, 0, 0, 0])
    }
}

#[cfg(test)]
mod tests {
    use super::{changes, files};
    use crate::bases::{full, typical};
    use crate::nameless::nameless;
    use crate::schema::Schema;

    #[test]
    fn every_change_is_done() {
        for (what, schema, call) in changes() {
            let mut after = schema.clone();
            assert_eq!(call.on(&mut after, 0).no, 0, "{what}");
            let brought = if what.contains("ancestors") { 11 } else { 0 };
            assert_eq!(nameless(&after).len(), brought, "{what}");
        }
    }

    #[test]
    fn every_file_is_read_in_as_it_was() {
        for schema in [Schema::fresh(), typical(), full()] {
            for (what, call, ..) in files(&schema, 0) {
                let mut after = schema.clone();
                assert_eq!(call.on(&mut after, usize::MAX).no, 0, "{what}");
                assert_eq!(after, schema, "{what}");
            }
        }
    }
}
