//! The calls as values, and a keeper over a lent base and output, as the functions of `include/cisternfox.h` are.
#![forbid(unsafe_code)]

use crate::base::{from_bytes, to_bytes, LENGTH};
use crate::keeper::Reply;
use crate::schema::{Modes, Schema};
use std::fmt;

/// Bytes that should be a name, or several; shown as text.
#[derive(Clone, PartialEq, Eq)]
pub struct Text(pub Vec<u8>);

impl fmt::Debug for Text {
    fn fmt(&self, out: &mut fmt::Formatter<'_>) -> fmt::Result {
        write!(out, "\"{}\"", self.0.escape_ascii())
    }
}

impl<T: AsRef<[u8]>> From<T> for Text {
    fn from(bytes: T) -> Text {
        Text(bytes.as_ref().to_vec())
    }
}

/// A call with its inputs. The lent base and output are not among them; `schema` is the list of SDSs.
#[derive(Clone, Debug, PartialEq, Eq)]
pub enum Call {
    Fresh,
    NewSds { name: Text },
    RemoveSds { sds: usize },
    NewObject { sds: usize, name: Text, parents: Text },
    NewAttribute { sds: usize, name: Text, value_kind: usize },
    NewDesignation { sds: usize, name: Text },
    NewPair { sds: usize, name: Text, reverse_name: Text, category: usize, reverse_category: usize },
    Import { target: usize, source: usize, name: Text, new_name: Text, new_reverse_name: Text },
    Apply { sds: usize, attribute: Text, to: Text },
    Unapply { sds: usize, attribute: Text, to: Text },
    ApplyLink { sds: usize, link: Text, object: Text },
    UnapplyLink { sds: usize, link: Text, object: Text },
    AddDestination { sds: usize, link: Text, object: Text },
    RemoveDestination { sds: usize, link: Text, object: Text },
    RemoveType { sds: usize, name: Text },
    RemoveNumber { sds: usize, ty: usize },
    Rename { sds: usize, name: Text, new_name: Text },
    RenameNumber { sds: usize, ty: usize, new_name: Text },
    SetModes { sds: usize, name: Text, usage: usize, definition: usize },
    ReadFile { file: Text },
    ScanObject { schema: Vec<u8>, ty: usize, code: usize },
    ScanLink { schema: Vec<u8>, ty: usize, code: usize },
    Profile { schema: Vec<u8>, ty: usize },
    Find { schema: Vec<u8>, name: Text },
    Depth { schema: Vec<u8>, ty: usize },
    Name { sds: usize, ty: usize },
    DescendantSet { schema: Vec<u8>, ty: usize },
    Modes { schema: Vec<u8>, ty: usize },
    WriteFile,
}

/// What a call under a working schema asks.
pub struct Asked<'a> {
    pub schema: &'a [u8],
    pub code: Option<usize>,
    pub has_output: bool,
}

/// A call's name and the refusals that can occur in it, in the order in which they are tried.
pub struct Known {
    pub name: &'static str,
    pub refusals: &'static [usize],
}

const fn known(name: &'static str, refusals: &'static [usize]) -> Known {
    Known { name, refusals }
}

/// Every number that a call can answer is below this.
pub const NUMBERS: usize = 22;

/// The refusals that tell something, their first value: a type (02, Q-1), 20 a length. All other values of a refusal
/// are 0.
pub const TELLING: [usize; 5] = [12, 16, 17, 18, 20];

/// In the order of `Call`.
pub const CALLS: [Known; 29] = [
    known("fresh", &[1]),
    known("new_sds", &[1, 4, 11, 14]),
    known("remove_sds", &[1, 2, 3, 12]),
    known("new_object", &[1, 2, 3, 4, 5, 6, 7, 8, 11, 14]),
    known("new_attribute", &[1, 2, 3, 4, 5, 11, 14]),
    known("new_designation", &[1, 2, 3, 4, 11, 14]),
    known("new_pair", &[1, 2, 3, 4, 5, 11, 14]),
    known("import", &[1, 2, 3, 4, 6, 7, 9, 11, 14]),
    known("apply", &[1, 2, 3, 4, 6, 7, 9, 14]),
    known("unapply", &[1, 2, 3, 4, 6, 7, 13]),
    known("apply_link", &[1, 2, 3, 4, 6, 7, 9, 14]),
    known("unapply_link", &[1, 2, 3, 4, 6, 7, 13]),
    known("add_destination", &[1, 2, 3, 4, 6, 7, 9, 14]),
    known("remove_destination", &[1, 2, 3, 4, 6, 7, 13]),
    known("remove_type", &[1, 2, 3, 4, 6, 16, 17, 18]),
    known("remove_number", &[1, 2, 3, 6, 16, 17, 18]),
    known("rename", &[1, 2, 3, 4, 6, 11]),
    known("rename_number", &[1, 2, 3, 4, 6, 11]),
    known("set_modes", &[1, 2, 3, 4, 19, 6]),
    known("read_file", &[1, 20, 21]),
    known("scan_object", &[1, 2, 5, 6, 7, 8, 15]),
    known("scan_link", &[1, 2, 5, 6, 7, 8, 15]),
    known("profile", &[1, 2, 6, 7, 8, 15]),
    known("find", &[1, 2, 4, 6, 8]),
    known("depth", &[1, 2, 6, 7, 8]),
    known("name", &[1, 2, 6]),
    known("descendant_set", &[1, 2, 6, 7, 8]),
    known("modes", &[1, 2, 6, 8]),
    known("write_file", &[1, 15]),
];

/// The places of those that take any bytes of the right length, and so don't tell whether they are sound.
pub const TAKING_ANY_BYTES: [usize; 2] = [0, 19];

impl Call {
    /// Where the call stands in `CALLS`.
    pub fn index(&self) -> usize {
        match self {
            Call::Fresh => 0,
            Call::NewSds { .. } => 1,
            Call::RemoveSds { .. } => 2,
            Call::NewObject { .. } => 3,
            Call::NewAttribute { .. } => 4,
            Call::NewDesignation { .. } => 5,
            Call::NewPair { .. } => 6,
            Call::Import { .. } => 7,
            Call::Apply { .. } => 8,
            Call::Unapply { .. } => 9,
            Call::ApplyLink { .. } => 10,
            Call::UnapplyLink { .. } => 11,
            Call::AddDestination { .. } => 12,
            Call::RemoveDestination { .. } => 13,
            Call::RemoveType { .. } => 14,
            Call::RemoveNumber { .. } => 15,
            Call::Rename { .. } => 16,
            Call::RenameNumber { .. } => 17,
            Call::SetModes { .. } => 18,
            Call::ReadFile { .. } => 19,
            Call::ScanObject { .. } => 20,
            Call::ScanLink { .. } => 21,
            Call::Profile { .. } => 22,
            Call::Find { .. } => 23,
            Call::Depth { .. } => 24,
            Call::Name { .. } => 25,
            Call::DescendantSet { .. } => 26,
            Call::Modes { .. } => 27,
            Call::WriteFile => 28,
        }
    }

    /// Whether the call leaves every base as it is.
    pub fn asks(&self) -> bool {
        self.index() >= 20
    }

    /// Whether the call writes a base over any bytes of the right length.
    pub fn takes_any_bytes(&self) -> bool {
        TAKING_ANY_BYTES.contains(&self.index())
    }

    /// The numbers and the slices that the C function takes beside base and output, each in the order of the header.
    pub fn inputs(&self) -> ([usize; 3], [&[u8]; 3]) {
        match self {
            Call::Fresh | Call::WriteFile => ([0; 3], [&[]; 3]),
            Call::NewSds { name } | Call::ReadFile { file: name } => ([0; 3], [&name.0, &[], &[]]),
            Call::RemoveSds { sds } => ([*sds, 0, 0], [&[]; 3]),
            Call::NewObject { sds, name, parents } => ([*sds, 0, 0], [&name.0, &parents.0, &[]]),
            Call::NewAttribute { sds, name, value_kind } => ([*sds, *value_kind, 0], [&name.0, &[], &[]]),
            Call::NewPair { sds, name, reverse_name, category, reverse_category } => {
                ([*sds, *category, *reverse_category], [&name.0, &reverse_name.0, &[]])
            }
            Call::Import { target, source, name, new_name, new_reverse_name } => {
                ([*target, *source, 0], [&name.0, &new_name.0, &new_reverse_name.0])
            }
            Call::Apply { sds, attribute, to } | Call::Unapply { sds, attribute, to } => {
                ([*sds, 0, 0], [&attribute.0, &to.0, &[]])
            }
            Call::ApplyLink { sds, link, object }
            | Call::UnapplyLink { sds, link, object }
            | Call::AddDestination { sds, link, object }
            | Call::RemoveDestination { sds, link, object } => ([*sds, 0, 0], [&link.0, &object.0, &[]]),
            Call::NewDesignation { sds, name } | Call::RemoveType { sds, name } => {
                ([*sds, 0, 0], [&name.0, &[], &[]])
            }
            Call::RemoveNumber { sds, ty } | Call::Name { sds, ty } => ([*sds, *ty, 0], [&[]; 3]),
            Call::Rename { sds, name, new_name } => ([*sds, 0, 0], [&name.0, &new_name.0, &[]]),
            Call::RenameNumber { sds, ty, new_name } => ([*sds, *ty, 0], [&new_name.0, &[], &[]]),
            Call::SetModes { sds, name, usage, definition } => ([*sds, *usage, *definition], [&name.0, &[], &[]]),
            Call::ScanObject { schema, ty, code } | Call::ScanLink { schema, ty, code } => {
                ([*ty, *code, 0], [schema, &[], &[]])
            }
            Call::Profile { schema, ty }
            | Call::Depth { schema, ty }
            | Call::DescendantSet { schema, ty }
            | Call::Modes { schema, ty } => ([*ty, 0, 0], [schema, &[], &[]]),
            Call::Find { schema, name } => ([0; 3], [schema, &name.0, &[]]),
        }
    }

    /// The working schema, the code and whether there is an output, of a call that has a working schema.
    pub fn asked(&self) -> Option<Asked<'_>> {
        let (schema, code, has_output) = match self {
            Call::ScanObject { schema, code, .. } | Call::ScanLink { schema, code, .. } => {
                (schema, Some(*code), true)
            }
            Call::Profile { schema, .. } => (schema, None, true),
            Call::Find { schema, .. }
            | Call::Depth { schema, .. }
            | Call::DescendantSet { schema, .. }
            | Call::Modes { schema, .. } => (schema, None, false),
            _ => return None,
        };
        Some(Asked { schema, code, has_output })
    }

    /// The same call under another working schema, if it has one.
    pub fn under(&self, list: &[u8]) -> Call {
        let mut call = self.clone();
        if let Call::ScanObject { schema, .. }
        | Call::ScanLink { schema, .. }
        | Call::Profile { schema, .. }
        | Call::Find { schema, .. }
        | Call::Depth { schema, .. }
        | Call::DescendantSet { schema, .. }
        | Call::Modes { schema, .. } = &mut call
        {
            *schema = list.to_vec();
        }
        call
    }

    /// The entries that the call has put down, by its answer.
    pub fn entries(&self, [_, one, two, three]: [usize; 4]) -> usize {
        match self {
            Call::ScanObject { .. } | Call::ScanLink { .. } => one,
            Call::Profile { .. } => one + two + three,
            _ => 0,
        }
    }

    /// The bytes of the output that the call has written, by its answer.
    pub fn written(&self, answer: [usize; 4]) -> usize {
        match self {
            Call::WriteFile => answer[1],
            _ => 2 * self.entries(answer),
        }
    }

    /// The call on a schema; `output` is the length in bytes of the output area.
    pub fn on(&self, s: &mut Schema, output: usize) -> Reply {
        match self {
            Call::Fresh => {
                *s = Schema::fresh();
                Reply::default()
            }
            Call::NewSds { name } => s.new_sds(&name.0),
            Call::RemoveSds { sds } => s.remove_sds(*sds),
            Call::NewObject { sds, name, parents } => s.new_object(*sds, &name.0, &parents.0),
            Call::NewAttribute { sds, name, value_kind } => s.new_attribute(*sds, &name.0, *value_kind),
            Call::NewDesignation { sds, name } => s.new_designation(*sds, &name.0),
            Call::NewPair { sds, name, reverse_name, category, reverse_category } => {
                s.new_pair(*sds, &name.0, &reverse_name.0, *category, *reverse_category)
            }
            Call::Import { target, source, name, new_name, new_reverse_name } => {
                s.import(*target, *source, &name.0, &new_name.0, &new_reverse_name.0)
            }
            Call::Apply { sds, attribute, to } => s.apply(*sds, &attribute.0, &to.0),
            Call::Unapply { sds, attribute, to } => s.unapply(*sds, &attribute.0, &to.0),
            Call::ApplyLink { sds, link, object } => s.apply_link(*sds, &link.0, &object.0),
            Call::UnapplyLink { sds, link, object } => s.unapply_link(*sds, &link.0, &object.0),
            Call::AddDestination { sds, link, object } => s.add_destination(*sds, &link.0, &object.0),
            Call::RemoveDestination { sds, link, object } => s.remove_destination(*sds, &link.0, &object.0),
            Call::RemoveType { sds, name } => s.remove_type(*sds, &name.0),
            Call::RemoveNumber { sds, ty } => s.remove_number(*sds, *ty),
            Call::Rename { sds, name, new_name } => s.rename(*sds, &name.0, &new_name.0),
            Call::RenameNumber { sds, ty, new_name } => s.rename_number(*sds, *ty, &new_name.0),
            &Call::SetModes { sds, ref name, usage, definition } => {
                s.set_modes(sds, &name.0, Modes { usage, definition })
            }
            Call::ReadFile { file } => s.read_file(&file.0),
            Call::ScanObject { schema, ty, code } => s.scan_object(schema, *ty, *code, output),
            Call::ScanLink { schema, ty, code } => s.scan_link(schema, *ty, *code, output),
            Call::Profile { schema, ty } => s.profile(schema, *ty, output),
            Call::Find { schema, name } => s.find(schema, &name.0),
            Call::Depth { schema, ty } => s.depth(schema, *ty),
            Call::Name { sds, ty } => s.name(*sds, *ty),
            Call::DescendantSet { schema, ty } => s.descendant_set(schema, *ty),
            Call::Modes { schema, ty } => s.modes(schema, *ty),
            Call::WriteFile => s.write_file(output),
        }
    }
}

/// The call on a lent base and output. Gives the number and the three values; a refusal leaves both as found.
pub fn apply(base: &mut [u8], output: &mut [u8], call: &Call) -> [usize; 4] {
    // Whatever schema stands for any bytes, it is replaced.
    let found = match call.takes_any_bytes() {
        true => (base.len() == LENGTH).then(Schema::fresh),
        false => from_bytes(base),
    };
    match found {
        Some(mut schema) => apply_to(&mut schema, base, output, call),
        None => [1, 0, 0, 0],
    }
}

/// The same where the schema that the base is the bytes of is known; it becomes that of the base after the call.
pub fn apply_to(schema: &mut Schema, base: &mut [u8], output: &mut [u8], call: &Call) -> [usize; 4] {
    let reply = call.on(schema, output.len());
    if reply.no == 0 {
        if !call.asks() {
            base.copy_from_slice(&to_bytes(schema));
        }
        for (entry, bytes) in reply.list.iter().zip(output.chunks_exact_mut(2)) {
            bytes.copy_from_slice(&entry.to_le_bytes());
        }
        output[..reply.file.len()].copy_from_slice(&reply.file);
    }
    [reply.no, reply.one, reply.two, reply.three]
}
