//! The library linked from its archive (`build.rs`): its functions as `include/cisternfox.h` declares them. No other
//! code here is unsafe. Calls are made and compared at once.

use crate::base::LENGTH;
use crate::calls::Call;
use crate::file::MOST;
use crate::library::{Area, Expected, Found, Lent, Library};

#[repr(C)]
struct Answer {
    no: usize,
    one: usize,
    two: usize,
    three: usize,
}

// Laid out as in the header.
#[rustfmt::skip]
unsafe extern "C" {
    safe fn cf_base_length() -> usize;
    safe fn cf_file_most() -> usize;
    fn cf_fresh(base: *mut u8, base_len: usize) -> Answer;
    fn cf_new_sds(base: *mut u8, base_len: usize, name: *const u8, name_len: usize) -> Answer;
    fn cf_remove_sds(base: *mut u8, base_len: usize, sds: usize) -> Answer;
    fn cf_new_object(base: *mut u8, base_len: usize, sds: usize, name: *const u8, name_len: usize,
                     parents: *const u8, parents_len: usize) -> Answer;
    fn cf_new_attribute(base: *mut u8, base_len: usize, sds: usize, name: *const u8, name_len: usize,
                        value_kind: usize) -> Answer;
    fn cf_new_designation(base: *mut u8, base_len: usize, sds: usize, name: *const u8, name_len: usize) -> Answer;
    fn cf_new_pair(base: *mut u8, base_len: usize, sds: usize, name: *const u8, name_len: usize,
                   reverse_name: *const u8, reverse_name_len: usize, category: usize,
                   reverse_category: usize) -> Answer;
    fn cf_import(base: *mut u8, base_len: usize, target: usize, source: usize, name: *const u8, name_len: usize,
                 new_name: *const u8, new_name_len: usize, new_reverse_name: *const u8,
                 new_reverse_name_len: usize) -> Answer;
    fn cf_apply(base: *mut u8, base_len: usize, sds: usize, attribute: *const u8, attribute_len: usize,
                to: *const u8, to_len: usize) -> Answer;
    fn cf_unapply(base: *mut u8, base_len: usize, sds: usize, attribute: *const u8, attribute_len: usize,
                  to: *const u8, to_len: usize) -> Answer;
    fn cf_apply_link(base: *mut u8, base_len: usize, sds: usize, link: *const u8, link_len: usize,
                     object: *const u8, object_len: usize) -> Answer;
    fn cf_unapply_link(base: *mut u8, base_len: usize, sds: usize, link: *const u8, link_len: usize,
                       object: *const u8, object_len: usize) -> Answer;
    fn cf_add_destination(base: *mut u8, base_len: usize, sds: usize, link: *const u8, link_len: usize,
                          object: *const u8, object_len: usize) -> Answer;
    fn cf_remove_destination(base: *mut u8, base_len: usize, sds: usize, link: *const u8, link_len: usize,
                             object: *const u8, object_len: usize) -> Answer;
    fn cf_remove_type(base: *mut u8, base_len: usize, sds: usize, name: *const u8, name_len: usize) -> Answer;
    fn cf_remove_number(base: *mut u8, base_len: usize, sds: usize, ty: usize) -> Answer;
    fn cf_rename(base: *mut u8, base_len: usize, sds: usize, name: *const u8, name_len: usize,
                 new_name: *const u8, new_name_len: usize) -> Answer;
    fn cf_rename_number(base: *mut u8, base_len: usize, sds: usize, ty: usize, new_name: *const u8,
                        new_name_len: usize) -> Answer;
    fn cf_set_modes(base: *mut u8, base_len: usize, sds: usize, name: *const u8, name_len: usize, usage: usize,
                    definition: usize) -> Answer;
    fn cf_read_file(base: *mut u8, base_len: usize, file: *const u8, file_len: usize) -> Answer;
    fn cf_name(base: *const u8, base_len: usize, sds: usize, ty: usize) -> Answer;
    fn cf_scan_object(base: *const u8, base_len: usize, schema: *const u8, schema_len: usize, ty: usize,
                      code: usize, output: *mut u8, output_len: usize) -> Answer;
    fn cf_scan_link(base: *const u8, base_len: usize, schema: *const u8, schema_len: usize, ty: usize,
                    code: usize, output: *mut u8, output_len: usize) -> Answer;
    fn cf_profile(base: *const u8, base_len: usize, schema: *const u8, schema_len: usize, ty: usize,
                  output: *mut u8, output_len: usize) -> Answer;
    fn cf_find(base: *const u8, base_len: usize, schema: *const u8, schema_len: usize, name: *const u8,
               name_len: usize) -> Answer;
    fn cf_depth(base: *const u8, base_len: usize, schema: *const u8, schema_len: usize, ty: usize) -> Answer;
    fn cf_descendant_set(base: *const u8, base_len: usize, schema: *const u8, schema_len: usize,
                         ty: usize) -> Answer;
    fn cf_modes(base: *const u8, base_len: usize, schema: *const u8, schema_len: usize, ty: usize) -> Answer;
    fn cf_write_file(base: *const u8, base_len: usize, output: *mut u8, output_len: usize) -> Answer;
}

/// Makes the call on what is lent. `b` is the base; `x`, `y` and `z` are the slices beside base and output, in the order
/// of the header. A call stays one line or two, to be held to that.
#[rustfmt::skip]
fn made(call: &Call, lent: &Lent) -> Found {
    let Area { mut bytes, parts } = Area::of(call, lent);
    let start = bytes.as_mut_ptr();
    let [(b, b_len), (output, output_len), (x, x_len), (y, y_len), (z, z_len)] =
        parts.map(|part| (start.wrapping_add(part.start), part.len()));
    // SAFETY: each slice is a part of `bytes`, which nothing else reads or writes here, and no two parts overlap. The
    // library keeps no pointer.
    let answer = unsafe {
        match *call {
            Call::Fresh => cf_fresh(b, b_len),
            Call::NewSds { .. } => cf_new_sds(b, b_len, x, x_len),
            Call::RemoveSds { sds } => cf_remove_sds(b, b_len, sds),
            Call::NewObject { sds, .. } => cf_new_object(b, b_len, sds, x, x_len, y, y_len),
            Call::NewAttribute { sds, value_kind, .. } => cf_new_attribute(b, b_len, sds, x, x_len, value_kind),
            Call::NewDesignation { sds, .. } => cf_new_designation(b, b_len, sds, x, x_len),
            Call::NewPair { sds, category, reverse_category, .. } =>
                cf_new_pair(b, b_len, sds, x, x_len, y, y_len, category, reverse_category),
            Call::Import { target, source, .. } =>
                cf_import(b, b_len, target, source, x, x_len, y, y_len, z, z_len),
            Call::Apply { sds, .. } => cf_apply(b, b_len, sds, x, x_len, y, y_len),
            Call::Unapply { sds, .. } => cf_unapply(b, b_len, sds, x, x_len, y, y_len),
            Call::ApplyLink { sds, .. } => cf_apply_link(b, b_len, sds, x, x_len, y, y_len),
            Call::UnapplyLink { sds, .. } => cf_unapply_link(b, b_len, sds, x, x_len, y, y_len),
            Call::AddDestination { sds, .. } => cf_add_destination(b, b_len, sds, x, x_len, y, y_len),
            Call::RemoveDestination { sds, .. } => cf_remove_destination(b, b_len, sds, x, x_len, y, y_len),
            Call::RemoveType { sds, .. } => cf_remove_type(b, b_len, sds, x, x_len),
            Call::RemoveNumber { sds, ty } => cf_remove_number(b, b_len, sds, ty),
            Call::Rename { sds, .. } => cf_rename(b, b_len, sds, x, x_len, y, y_len),
            Call::RenameNumber { sds, ty, .. } => cf_rename_number(b, b_len, sds, ty, x, x_len),
            Call::SetModes { sds, usage, definition, .. } =>
                cf_set_modes(b, b_len, sds, x, x_len, usage, definition),
            Call::ReadFile { .. } => cf_read_file(b, b_len, x, x_len),
            Call::ScanObject { ty, code, .. } =>
                cf_scan_object(b, b_len, x, x_len, ty, code, output, output_len),
            Call::ScanLink { ty, code, .. } => cf_scan_link(b, b_len, x, x_len, ty, code, output, output_len),
            Call::Profile { ty, .. } => cf_profile(b, b_len, x, x_len, ty, output, output_len),
            Call::Find { .. } => cf_find(b, b_len, x, x_len, y, y_len),
            Call::Depth { ty, .. } => cf_depth(b, b_len, x, x_len, ty),
            Call::Name { sds, ty } => cf_name(b, b_len, sds, ty),
            Call::DescendantSet { ty, .. } => cf_descendant_set(b, b_len, x, x_len, ty),
            Call::Modes { ty, .. } => cf_modes(b, b_len, x, x_len, ty),
            Call::WriteFile => cf_write_file(b, b_len, output, output_len),
        }
    };
    Found { answer: [answer.no, answer.one, answer.two, answer.three], bytes }
}

pub struct Linked {
    differences: Vec<String>,
}

impl Linked {
    pub fn new() -> Result<Linked, String> {
        match (cf_base_length(), cf_file_most()) {
            (LENGTH, MOST) => Ok(Linked { differences: Vec::new() }),
            (LENGTH, most) => Err(format!("a file has {MOST} bytes at most, but {most} in the library")),
            (length, _) => Err(format!("a base has {LENGTH} bytes, but {length} in the library")),
        }
    }
}

impl Library for Linked {
    fn compare(&mut self, before: &Lent, expected: Expected) -> Result<(), String> {
        self.differences.extend(expected.difference(&made(&expected.call, before)));
        Ok(())
    }

    fn finish(self: Box<Self>) -> Result<Vec<String>, String> {
        Ok(self.differences)
    }
}
