//! The lines of `crates/cases/stdin`, made by the keeper written from the documents alone; what they print is held
//! to `crates/cases/stdout`. How a line is read is written anew, from the head of stdin and `crates/cases/src`.
#![forbid(unsafe_code)]

use crate::base::LENGTH;
use crate::calls::{apply, Call, Text};
use std::fs;
use std::process::ExitCode;

/// So many bytes of a line are kept; one that has as many is the beginning of a longer one, and no call.
const KEPT: usize = 128;
const NO_CALL: &str = " = ?";

/// The bytes of the output area, and the most SDSs that a list is read for.
const OUTPUT: usize = 512;
const LISTED: usize = 20;

/// `stdin` and `stdout` are the files of the lines and of what they print.
pub fn cases(stdin: &str, stdout: &str) -> ExitCode {
    match compared(stdin, stdout) {
        Ok(0) => ExitCode::SUCCESS,
        Ok(_) => ExitCode::FAILURE,
        Err(fault) => {
            println!("cases: {fault}");
            ExitCode::FAILURE
        }
    }
}

/// Gives the number of differences.
fn compared(stdin: &str, stdout: &str) -> Result<usize, String> {
    let read = |path: &str| fs::read(path).map_err(|fault| format!("{path}: {fault}"));
    let (printed, calls) = printed(&read(stdin)?);
    let differences = differences(&printed, &read(stdout)?);
    if let Some(first) = differences.first() {
        println!("{stdout}, {first}");
    }
    println!("cases: {calls} calls, {} differences", differences.len());
    Ok(differences.len())
}

/// Line by line, a line that only one of them has included.
fn differences(printed: &[u8], stored: &[u8]) -> Vec<String> {
    let [printed, stored] = [printed, stored].map(|text| text.split(|&byte| byte == b'\n').collect::<Vec<_>>());
    let shown = |lines: &[&[u8]], at: usize| {
        lines.get(at).map_or("nothing".into(), |line| format!("`{}`", line.escape_ascii()))
    };
    (0..printed.len().max(stored.len()))
        .filter(|&at| printed.get(at) != stored.get(at))
        .map(|at| format!("line {}: stored {}, the keeper {}", at + 1, shown(&stored, at), shown(&printed, at)))
        .collect()
}

/// What the lines print, and how many of them are calls.
pub fn printed(lines: &[u8]) -> (Vec<u8>, usize) {
    let mut lent = Lent { base: vec![0; LENGTH], output: vec![0; OUTPUT], calls: 0 };
    let mut printed = Vec::new();
    // The last line may lack its newline.
    for line in lines.split_inclusive(|&byte| byte == b'\n') {
        let line = line.strip_suffix(b"\n").unwrap_or(line);
        let line = Line(&line[..line.len().min(KEPT)]);
        printed.extend(line.0);
        printed.extend(lent.told(line).bytes());
        printed.push(b'\n');
    }
    (printed, lent.calls)
}

/// What the calls are lent, zeros at first, and how many there were.
struct Lent {
    base: Vec<u8>,
    output: Vec<u8>,
    calls: usize,
}

impl Lent {
    /// What is printed behind a line: of a call the number, the three values and the types put down.
    fn told(&mut self, line: Line) -> String {
        if line.is_heading() {
            return String::new();
        }
        if line.0.len() == KEPT {
            return NO_CALL.into();
        }
        if line.word(0) == b"output" {
            return entries(&self.output, line.number(1));
        }
        let Some((call, room)) = line.call() else {
            return NO_CALL.into();
        };
        self.calls += 1;
        let answer = apply(&mut self.base, &mut self.output[..room], &call);
        let mut told = format!(" = {}", answer.map(|number| number.to_string()).join(" "));
        if answer[0] == 0 && call.asked().is_some_and(|asked| asked.has_output) {
            told += &entries(&self.output, call.entries(answer));
        }
        told
    }
}

/// The first entries of the output; beyond it each is 0.
fn entries(output: &[u8], count: usize) -> String {
    let there = output.chunks_exact(2).map(|entry| u16::from_le_bytes([entry[0], entry[1]]));
    let shown = there.chain(std::iter::repeat(0)).take(count);
    " :".to_string() + &shown.map(|entry| format!(" {entry}")).collect::<String>()
}

/// A line, of words parted by one space.
#[derive(Clone, Copy)]
struct Line<'a>(&'a [u8]);

impl<'a> Line<'a> {
    fn is_heading(self) -> bool {
        self.0.first().is_none_or(|&byte| byte == b'#')
    }

    /// Behind the last word every word is blank.
    fn word(self, at: usize) -> &'a [u8] {
        self.0.split(|&byte| byte == b' ').nth(at).unwrap_or_default()
    }

    /// From a word to the end of the line.
    fn rest(self, at: usize) -> Text {
        self.0.splitn(at + 1, |&byte| byte == b' ').nth(at).unwrap_or_default().into()
    }

    /// A word as it is, but that - is a blank one.
    fn unless_blank(self, at: usize) -> &'a [u8] {
        match self.word(at) {
            b"-" => b"",
            word => word,
        }
    }

    fn name(self, at: usize) -> Text {
        self.unless_blank(at).into()
    }

    fn list(self, at: usize) -> Vec<u8> {
        self.unless_blank(at).iter().take(LISTED).map(|&byte| digit(byte)).collect()
    }

    /// In decimal; a blank word is 0. Of a long one the first nine digits count.
    fn number(self, at: usize) -> usize {
        let with_digit = |n, &byte| if n < 100_000_000 { n * 10 + usize::from(digit(byte)) } else { n };
        self.word(at).iter().fold(0, with_digit)
    }

    /// Two hexadecimal digits a byte, letters small; - is no bytes. None where the word is not of that form.
    fn bytes(self, at: usize) -> Option<Vec<u8>> {
        let digit = |byte: &u8| (*byte as char).to_digit(16).filter(|_| !byte.is_ascii_uppercase());
        let digits: Vec<u8> =
            self.unless_blank(at).iter().map(|byte| digit(byte).map(|digit| digit as u8)).collect::<Option<_>>()?;
        (digits.len() % 2 == 0).then(|| digits.chunks_exact(2).map(|pair| pair[0] * 16 + pair[1]).collect())
    }

    /// The call, and the length of its output in bytes.
    fn call(self) -> Option<(Call, usize)> {
        let sds = self.number(1);
        let [second, third] = [self.name(2), self.name(3)];
        let (schema, ty, code) = (self.list(1), self.number(2), self.number(3));
        let call = match self.word(0) {
            b"fresh" => Call::Fresh,
            b"new_sds" => Call::NewSds { name: self.name(1) },
            b"remove_sds" => Call::RemoveSds { sds },
            b"new_object" => Call::NewObject { sds, name: second, parents: self.rest(3) },
            b"new_attribute" => Call::NewAttribute { sds, name: second, value_kind: self.number(3) },
            b"new_designation" => Call::NewDesignation { sds, name: second },
            b"new_pair" => Call::NewPair {
                sds,
                name: second,
                reverse_name: third,
                category: self.number(4),
                reverse_category: self.number(5),
            },
            b"import" => Call::Import {
                target: sds,
                source: self.number(2),
                name: third,
                new_name: self.name(4),
                new_reverse_name: self.name(5),
            },
            b"apply" => Call::Apply { sds, attribute: second, to: third },
            b"unapply" => Call::Unapply { sds, attribute: second, to: third },
            b"apply_link" => Call::ApplyLink { sds, link: second, object: third },
            b"unapply_link" => Call::UnapplyLink { sds, link: second, object: third },
            b"add_destination" => Call::AddDestination { sds, link: second, object: third },
            b"remove_destination" => Call::RemoveDestination { sds, link: second, object: third },
            b"remove_type" => Call::RemoveType { sds, name: second },
            b"remove_number" => Call::RemoveNumber { sds, ty },
            b"rename" => Call::Rename { sds, name: second, new_name: third },
            b"rename_number" => Call::RenameNumber { sds, ty, new_name: third },
            b"set_modes" => Call::SetModes { sds, name: second, usage: self.number(3), definition: self.number(4) },
            b"scan_object" => Call::ScanObject { schema, ty, code },
            b"scan_link" => Call::ScanLink { schema, ty, code },
            b"profile" => Call::Profile { schema, ty },
            b"find" => Call::Find { schema, name: second },
            b"depth" => Call::Depth { schema, ty },
            b"name" => Call::Name { sds, ty },
            b"descendant_set" => Call::DescendantSet { schema, ty },
            b"modes" => Call::Modes { schema, ty },
            b"write_file" => Call::WriteFile,
            b"read_file" => Call::ReadFile { file: Text(self.bytes(1)?) },
            _ => return None,
        };
        let output_at = match call {
            Call::WriteFile => 1,
            Call::Profile { .. } => 3,
            _ => 4,
        };
        Some((call, self.number(output_at).min(OUTPUT)))
    }
}

/// The number that a digit or a capital letter stands for, A for 10. Bytes below the digits are 0; others count on.
fn digit(byte: u8) -> u8 {
    match byte {
        b'A'.. => byte - b'A' + 10,
        _ => byte.saturating_sub(b'0'),
    }
}
