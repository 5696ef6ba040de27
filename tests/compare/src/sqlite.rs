//! A schema as rows of SQL tables, and the questions of the benchmark asked of SQLite (`tests/c/sqlite.c`), which dumps
//! and restores those tables too.
#![forbid(unsafe_code)]

use crate::schema::{Modes, Presence, Schema, Type};
use std::fmt::Write as _;
use std::io::{BufRead, BufReader, Write as _};
use std::process::{Child, ChildStdin, ChildStdout, Command, Stdio};

pub struct Sqlite {
    process: Child,
    input: Option<ChildStdin>,
    output: BufReader<ChildStdout>,
}

/// What the questions took together, and the entries that each was answered with.
pub struct Answered {
    pub nanoseconds: f64,
    pub entries: Vec<usize>,
}

impl Sqlite {
    /// The program with the schema in its tables and the working schema.
    pub fn start(program: &str, schema: &Schema, list: &[u8]) -> Result<Sqlite, String> {
        let fault = |fault: std::io::Error| format!("{program}: {fault}");
        let mut command = Command::new(program);
        let mut process = command.stdin(Stdio::piped()).stdout(Stdio::piped()).spawn().map_err(fault)?;
        let mut input = process.stdin.take().expect("piped");
        input.write_all(rows(schema, list).as_bytes()).map_err(fault)?;
        let output = BufReader::new(process.stdout.take().expect("piped"));
        Ok(Sqlite { process, input: Some(input), output })
    }

    /// Asks a question, by its number, so many times; it is timed where it is asked.
    pub fn ask(&mut self, question: usize, times: usize, about: &str) -> Result<Answered, String> {
        let mut line = String::new();
        let mut asked = || {
            writeln!(self.input.as_ref().expect("open to the end"), "{question} {times} {about}")?;
            self.output.read_line(&mut line)
        };
        asked().map_err(|fault| format!("SQLite: {fault}"))?;
        answered(&line).ok_or_else(|| format!("SQLite answers {line:?}"))
    }
}

/// The process ends with its input.
impl Drop for Sqlite {
    fn drop(&mut self) {
        drop(self.input.take());
        _ = self.process.wait();
    }
}

fn answered(line: &str) -> Option<Answered> {
    let mut words = line.split_whitespace();
    let nanoseconds = words.next()?.parse().ok()?;
    let entries = words.map(|word| word.parse().ok()).collect::<Option<_>>()?;
    Some(Answered { nanoseconds, entries })
}

/// What the tables of `sqlite.c` hold, and an empty line.
fn rows(schema: &Schema, list: &[u8]) -> String {
    let mut sql = String::new();
    let mut insert = |table: &str, values: String| {
        writeln!(sql, "INSERT INTO {table} VALUES ({values});").expect("a string takes all");
    };
    for (place, sds) in list.iter().enumerate() {
        insert("working", format!("{place}, {sds}"));
    }
    for (number, ty) in &schema.types {
        let fields = match ty {
            Type::Object { parents } => {
                parents.iter().for_each(|parent| insert("parent", format!("{number}, {parent}")));
                [1, 0, 0]
            }
            Type::Attribute { value_kind } => [2, *value_kind, 0],
            Type::Link { category, reverse } => [3, *category, reverse.unwrap_or(0)],
        };
        insert("type", format!("{number}, {}, {}, {}", fields[0], fields[1], fields[2]));
    }
    for (number, sds) in &schema.sdss {
        insert("sds", format!("{number}, '{}'", sds.name.escape_ascii()));
        for (name, Presence { ty, modes: Modes { usage, definition } }) in &sds.named {
            insert("presence", format!("{number}, '{}', {ty}, {usage}, {definition}", name.escape_ascii()));
        }
        assert!(sds.nameless.is_empty(), "a name is part of the key of that table");
        for application in &sds.applications {
            insert("application", format!("{number}, {}, {}", application.to, application.attribute));
        }
        for end in &sds.ends {
            insert("ends", format!("{number}, {}, {}, {}", end.link, end.side as usize, end.object));
        }
    }
    sql + "\n"
}
