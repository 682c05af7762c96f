//! The archive's functions, declared and called: the only unsafe code.
//!
//! Why each call is sound:
//! - A pointer and the length behind it are those of one Rust slice, here and nowhere else. So the memory is there, aligned and whole, and
//!   stays lent until the call returns; an empty slice has length 0, and nothing is read or written at its pointer.
//! - Each function is proved safe and to end, for every input: it reads and writes within the slices that it is lent, and keeps none.
//! - What is lent for writing is lent by `&mut`, so it overlaps nothing else that is lent.
//! - All numbers are plain: every bit pattern that comes back is one that its type has.
#![allow(unsafe_code)]
use crate::changes::ObjectTableMut;
use crate::links::{Links, LinksMut};
use crate::refusal::Refusal;
use crate::tree::ObjectTable;

// The archive's usize is a word of 64 bits, and its answers are as wide.
const _: () = assert!(usize::BITS == 64);

type ReadsBytes = unsafe extern "C" fn(*const u8, usize, *mut u64, usize) -> i64;
type ReadsPlace = unsafe extern "C" fn(*const u8, usize, usize, *mut u64, usize) -> i64;
type WritesBytes = unsafe extern "C" fn(*const u8, usize, *mut u8, usize) -> i64;
type WritesTyped = unsafe extern "C" fn(u16, *const u8, usize, *mut u8, usize) -> i64;

/// Enable in a property's row where the layout has no such byte: no byte is 256.
pub(crate) const ENABLE_ABSENT: u64 = 256;

extern "C" {
    fn ptp_device_info(s: *const u8, s_len: usize, out: *mut u64, out_len: usize) -> i64;
    fn ptp_object_info(s: *const u8, s_len: usize, out: *mut u64, out_len: usize) -> i64;
    fn ptp_storage_info(s: *const u8, s_len: usize, out: *mut u64, out_len: usize) -> i64;
    fn ptp_prop_info(book: bool, s: *const u8, s_len: usize, out: *mut u64, out_len: usize) -> i64;
    fn ptp_handles(s: *const u8, s_len: usize, out: *mut u64, out_len: usize) -> i64;
    fn ptp_object_count(s: *const u8, s_len: usize, out: *mut u64, out_len: usize) -> i64;
    fn ptp_storage_payload(s: *const u8, s_len: usize, out: *mut u64, out_len: usize) -> i64;
    fn ptp_value(s: *const u8, s_len: usize, at: usize, code: u16, out: *mut u64, out_len: usize) -> i64;
    fn ptp_item(s: *const u8, s_len: usize, at: usize, code: u16, n: usize, out: *mut u64, out_len: usize) -> i64;
    fn ptp_text(s: *const u8, s_len: usize, at: usize, out: *mut u64, out_len: usize) -> i64;
    fn ptp_unit(s: *const u8, s_len: usize, at: usize, n: usize, out: *mut u64, out_len: usize) -> i64;
    fn ptp_utf8_len(s: *const u8, s_len: usize, at: usize, out: *mut u64, out_len: usize) -> i64;
    fn ptp_utf8(s: *const u8, s_len: usize, at: usize, out: *mut u8, out_len: usize) -> i64;
    fn ptp_next_value(s: *const u8, s_len: usize, code: u16, at: usize, left: u16, out: *mut u64, out_len: usize) -> i64;
    fn ptp_write_integer(code: u16, low: u64, high: u64, out: *mut u8, out_len: usize) -> i64;
    fn ptp_write_text(units: *const u16, units_len: usize, out: *mut u8, out_len: usize) -> i64;
    fn ptp_write_array(code: u16, items: *const u8, items_len: usize, out: *mut u8, out_len: usize) -> i64;
    fn ptp_tidy_value(code: u16, s: *const u8, s_len: usize, out: *mut u8, out_len: usize) -> i64;
    fn ptp_tidy_device(s: *const u8, s_len: usize, out: *mut u8, out_len: usize) -> i64;
    fn ptp_tidy_object(s: *const u8, s_len: usize, out: *mut u8, out_len: usize) -> i64;
    fn ptp_tidy_storage(s: *const u8, s_len: usize, out: *mut u8, out_len: usize) -> i64;
    fn ptp_read_container(s: *const u8, s_len: usize, at: usize, out: *mut u64, out_len: usize) -> i64;
    fn ptp_write_container(
        kind: u16,
        code: u16,
        number: u32,
        payload: *const u8,
        payload_len: usize,
        out: *mut u8,
        out_len: usize,
    ) -> i64;
    fn ptp_write_record(kind: u16, body: *const u8, body_len: usize, out: *mut u8, out_len: usize) -> i64;
    fn ptp_write_heading(out: *mut u8, out_len: usize) -> i64;
    fn ptp_list_window(
        s: *const u8,
        s_len: usize,
        last: bool,
        place: u64,
        records: u64,
        out: *mut u8,
        out_len: usize,
        counts: *mut u64,
        counts_len: usize,
    ) -> i64;
    fn ptp_write_ending(records: u64, place: u64, out: *mut u8, out_len: usize) -> i64;
    fn ptp_read_packet(s: *const u8, s_len: usize, at: usize, out: *mut u64, out_len: usize) -> i64;
    fn ptp_to_network(s: *const u8, s_len: usize, to_camera: bool, out: *mut u8, out_len: usize) -> i64;
    fn ptp_from_network(s: *const u8, s_len: usize, out: *mut u8, out_len: usize) -> i64;
    fn ptp_response_place(code: u16) -> i64;
    fn ptp_command_place(code: u16) -> i64;
    #[cfg(test)] // what it gives stands in code.rs
    fn ptp_name_bytes(out: *mut u8, out_len: usize) -> i64;
    fn ptp_path(
        handles: *const u32,
        handles_len: usize,
        parents: *const u16,
        parents_len: usize,
        ends: *const u32,
        ends_len: usize,
        marks: *const u8,
        marks_len: usize,
        count: usize,
        names: *const u8,
        names_len: usize,
        place: usize,
        out: *mut u8,
        out_len: usize,
    ) -> i64;
    fn ptp_read_record(s: *const u8, s_len: usize, out: *mut u64, out_len: usize) -> i64;
    fn ptp_read_recording(s: *const u8, s_len: usize, out: *mut u64, out_len: usize) -> i64;
    fn ptp_copy_recording(s: *const u8, s_len: usize, out: *mut u8, out_len: usize, left: *mut u64, left_len: usize) -> i64;
    fn ptp_mend_recording(
        s: *const u8,
        s_len: usize,
        out: *mut u8,
        out_len: usize,
        starts: *mut u64,
        starts_len: usize,
        lengths: *mut u64,
        lengths_len: usize,
        counts: *mut u64,
        counts_len: usize,
    ) -> i64;
    fn ptp_list_value(book: bool, s: *const u8, s_len: usize, n: usize, out: *mut u64, out_len: usize) -> i64;
    fn ptp_newer_value(
        book: bool,
        description: *const u8,
        description_len: usize,
        payload: *const u8,
        payload_len: usize,
        out: *mut u64,
        out_len: usize,
    ) -> i64;
    fn ptp_tidy_property(book: bool, s: *const u8, s_len: usize, out: *mut u8, out_len: usize) -> i64;
    fn ptp_command(
        number: *mut u32,
        end: *mut usize,
        code: u16,
        params: *const u32,
        params_len: usize,
        data: *const u8,
        data_len: usize,
        with_data: bool,
        out: *mut u8,
        out_len: usize,
    ) -> i64;
    fn ptp_set_value(
        book: bool,
        number: *mut u32,
        end: *mut usize,
        description: *const u8,
        description_len: usize,
        code: u16,
        value: *const u8,
        value_len: usize,
        out: *mut u8,
        out_len: usize,
    ) -> i64;
    fn ptp_find_answer(s: *const u8, s_len: usize, number: u32, out: *mut u64, out_len: usize) -> i64;
    fn ptp_find_response(s: *const u8, s_len: usize, number: u32, out: *mut u64, out_len: usize) -> i64;
    fn ptp_needed(s: *const u8, s_len: usize, number: u32) -> i64;
    fn ptp_units(s: *const u8, s_len: usize, at: usize, out: *mut u16, out_len: usize) -> i64;
    fn ptp_list_numbers(s: *const u8, s_len: usize, at: usize, code: u16, count: usize, out: *mut u64, out_len: usize) -> i64;
    fn ptp_settings_write(
        vendor: u32,
        property: u16,
        code: u16,
        value: *const u8,
        value_len: usize,
        own: bool,
        serial: *const u16,
        serial_len: usize,
        out: *mut u8,
        out_len: usize,
    ) -> i64;
    fn ptp_settings_remove(
        second: bool,
        row: *const u8,
        row_len: usize,
        vendor: u32,
        property: u16,
        own: bool,
        serial: *const u16,
        serial_len: usize,
        out: *mut u8,
        out_len: usize,
    ) -> i64;
    fn ptp_settings_check(second: bool, row: *const u8, row_len: usize) -> i64;
    fn ptp_settings_entry(second: bool, s: *const u8, s_len: usize, at: usize, out: *mut u64, out_len: usize) -> i64;
    fn ptp_settings_find(
        second: bool,
        row: *const u8,
        row_len: usize,
        vendor: u32,
        property: u16,
        serial: *const u16,
        serial_len: usize,
        out: *mut u64,
        out_len: usize,
    ) -> i64;
    fn ptp_settings_store(
        second: bool,
        row: *const u8,
        row_len: usize,
        entry: *const u8,
        entry_len: usize,
        out: *mut u8,
        out_len: usize,
    ) -> i64;
    fn ptp_walk(
        handles: *const u32,
        handles_len: usize,
        parents: *const u16,
        parents_len: usize,
        ends: *const u32,
        ends_len: usize,
        marks: *const u8,
        marks_len: usize,
        count: usize,
        names: *const u8,
        names_len: usize,
        places: *mut u16,
        places_len: usize,
    ) -> i64;
    fn ptp_paths(
        handles: *const u32,
        handles_len: usize,
        parents: *const u16,
        parents_len: usize,
        ends: *const u32,
        ends_len: usize,
        marks: *const u8,
        marks_len: usize,
        count: usize,
        names: *const u8,
        names_len: usize,
        out: *mut u8,
        out_len: usize,
        out_ends: *mut u32,
        out_ends_len: usize,
    ) -> i64;
    fn ptp_folders(
        handles: *const u32,
        handles_len: usize,
        parents: *const u16,
        parents_len: usize,
        ends: *const u32,
        ends_len: usize,
        marks: *const u8,
        marks_len: usize,
        count: usize,
        names: *const u8,
        names_len: usize,
        places: *mut u16,
        places_len: usize,
    ) -> i64;
    fn ptp_folder_paths(
        handles: *const u32,
        handles_len: usize,
        parents: *const u16,
        parents_len: usize,
        ends: *const u32,
        ends_len: usize,
        marks: *const u8,
        marks_len: usize,
        count: usize,
        names: *const u8,
        names_len: usize,
        out: *mut u8,
        out_len: usize,
        out_ends: *mut u32,
        out_ends_len: usize,
    ) -> i64;
    fn ptp_table_link(
        handles: *const u32,
        handles_len: usize,
        parents: *const u16,
        parents_len: usize,
        ends: *const u32,
        ends_len: usize,
        marks: *const u8,
        marks_len: usize,
        count: usize,
        names: *const u8,
        names_len: usize,
        first: *mut u16,
        first_len: usize,
        next: *mut u16,
        next_len: usize,
    ) -> i64;
    fn ptp_linked_walk(
        handles: *const u32,
        handles_len: usize,
        parents: *const u16,
        parents_len: usize,
        ends: *const u32,
        ends_len: usize,
        marks: *const u8,
        marks_len: usize,
        count: usize,
        names: *const u8,
        names_len: usize,
        first: *const u16,
        first_len: usize,
        next: *const u16,
        next_len: usize,
        places: *mut u16,
        places_len: usize,
    ) -> i64;
    fn ptp_linked_paths(
        handles: *const u32,
        handles_len: usize,
        parents: *const u16,
        parents_len: usize,
        ends: *const u32,
        ends_len: usize,
        marks: *const u8,
        marks_len: usize,
        count: usize,
        names: *const u8,
        names_len: usize,
        first: *const u16,
        first_len: usize,
        next: *const u16,
        next_len: usize,
        out: *mut u8,
        out_len: usize,
        out_ends: *mut u32,
        out_ends_len: usize,
    ) -> i64;
    fn ptp_linked_delete(
        handles: *const u32,
        handles_len: usize,
        parents: *const u16,
        parents_len: usize,
        ends: *const u32,
        ends_len: usize,
        marks: *mut u8,
        marks_len: usize,
        count: usize,
        names: *const u8,
        names_len: usize,
        first: *mut u16,
        first_len: usize,
        next: *mut u16,
        next_len: usize,
        place: usize,
    ) -> i64;
    fn ptp_linked_collect(
        handles: *mut u32,
        handles_len: usize,
        parents: *mut u16,
        parents_len: usize,
        ends: *mut u32,
        ends_len: usize,
        marks: *mut u8,
        marks_len: usize,
        count: usize,
        names: *mut u8,
        names_len: usize,
        first: *mut u16,
        first_len: usize,
        next: *mut u16,
        next_len: usize,
        new_places: *mut u16,
        new_places_len: usize,
    ) -> i64;
    fn ptp_linked_add(
        handles: *mut u32,
        handles_len: usize,
        parents: *mut u16,
        parents_len: usize,
        ends: *mut u32,
        ends_len: usize,
        marks: *mut u8,
        marks_len: usize,
        count: usize,
        names: *mut u8,
        names_len: usize,
        first: *mut u16,
        first_len: usize,
        next: *mut u16,
        next_len: usize,
        new_places: *mut u16,
        new_places_len: usize,
        parent: usize,
        handle: u32,
        name: *const u8,
        name_len: usize,
    ) -> i64;
    fn ptp_table_delete(
        handles: *const u32,
        handles_len: usize,
        parents: *const u16,
        parents_len: usize,
        ends: *const u32,
        ends_len: usize,
        marks: *mut u8,
        marks_len: usize,
        count: usize,
        names: *const u8,
        names_len: usize,
        place: usize,
    ) -> i64;
    fn ptp_table_collect(
        handles: *mut u32,
        handles_len: usize,
        parents: *mut u16,
        parents_len: usize,
        ends: *mut u32,
        ends_len: usize,
        marks: *mut u8,
        marks_len: usize,
        count: usize,
        names: *mut u8,
        names_len: usize,
        new_places: *mut u16,
        new_places_len: usize,
    ) -> i64;
    fn ptp_table_add(
        handles: *mut u32,
        handles_len: usize,
        parents: *mut u16,
        parents_len: usize,
        ends: *mut u32,
        ends_len: usize,
        marks: *mut u8,
        marks_len: usize,
        count: usize,
        names: *mut u8,
        names_len: usize,
        new_places: *mut u16,
        new_places_len: usize,
        parent: usize,
        handle: u32,
        name: *const u8,
        name_len: usize,
    ) -> i64;
}

// How many were given, or minus (the refusal's number and 256 times its place). No slice has 2^55 bytes, so the place is exact, but for one that
// the caller gave: see `told_at`.
fn told(answer: i64) -> Result<usize, Refusal> {
    if answer >= 0 {
        return Ok(answer as usize);
    }
    let refusal = answer.unsigned_abs();
    Err(Refusal::from_number(refusal % 256, (refusal / 256) as usize).expect("the archive refuses by 1 to 22"))
}

// The farthest place that the archive tells. Only one that the caller gave can be as far, where nothing can be read: then the refusal is of it.
const FARTHEST: usize = (1 << 55) - 1;

fn told_at(at: usize, answer: i64) -> Result<usize, Refusal> {
    told(answer).map_err(|why| match why {
        Refusal::END { at: FARTHEST } => Refusal::END { at },
        other => other,
    })
}

// `f` is one of the archive's.
fn read_into(f: ReadsBytes, s: &[u8], out: &mut [u64]) -> Result<usize, Refusal> {
    told(unsafe { f(s.as_ptr(), s.len(), out.as_mut_ptr(), out.len()) })
}

fn read<const N: usize>(f: ReadsBytes, s: &[u8]) -> Result<[u64; N], Refusal> {
    let mut out = [0; N];
    read_into(f, s, &mut out)?;
    Ok(out)
}

// At a place of the bytes.
fn read_at<const N: usize>(f: ReadsPlace, s: &[u8], at: usize) -> Result<[u64; N], Refusal> {
    let mut out = [0; N];
    told_at(at, unsafe { f(s.as_ptr(), s.len(), at, out.as_mut_ptr(), out.len()) })?;
    Ok(out)
}

fn write(f: WritesBytes, s: &[u8], out: &mut [u8]) -> Result<usize, Refusal> {
    told(unsafe { f(s.as_ptr(), s.len(), out.as_mut_ptr(), out.len()) })
}

fn write_typed(f: WritesTyped, code: u16, s: &[u8], out: &mut [u8]) -> Result<usize, Refusal> {
    told(unsafe { f(code, s.as_ptr(), s.len(), out.as_mut_ptr(), out.len()) })
}

pub(crate) fn handles(s: &[u8]) -> Result<[u64; 3], Refusal> {
    read(ptp_handles, s)
}

pub(crate) fn object_count(s: &[u8]) -> Result<[u64; 2], Refusal> {
    read(ptp_object_count, s)
}

pub(crate) fn storage_payload(s: &[u8]) -> Result<[u64; 11], Refusal> {
    read(ptp_storage_payload, s)
}

pub(crate) fn value(s: &[u8], at: usize, code: u16) -> Result<[u64; 4], Refusal> {
    let mut out = [0; 4];
    told_at(at, unsafe { ptp_value(s.as_ptr(), s.len(), at, code, out.as_mut_ptr(), out.len()) })?;
    Ok(out)
}

pub(crate) fn item(s: &[u8], at: usize, code: u16, n: usize) -> Result<[u64; 4], Refusal> {
    let mut out = [0; 4];
    told_at(at, unsafe { ptp_item(s.as_ptr(), s.len(), at, code, n, out.as_mut_ptr(), out.len()) })?;
    Ok(out)
}

pub(crate) fn text(s: &[u8], at: usize) -> Result<[u64; 3], Refusal> {
    read_at(ptp_text, s, at)
}

pub(crate) fn unit(s: &[u8], at: usize, n: usize) -> Result<[u64; 2], Refusal> {
    let mut out = [0; 2];
    told_at(at, unsafe { ptp_unit(s.as_ptr(), s.len(), at, n, out.as_mut_ptr(), out.len()) })?;
    Ok(out)
}

pub(crate) fn utf8_len(s: &[u8], at: usize) -> Result<[u64; 2], Refusal> {
    read_at(ptp_utf8_len, s, at)
}

pub(crate) fn utf8(s: &[u8], at: usize, out: &mut [u8]) -> Result<usize, Refusal> {
    told_at(at, unsafe { ptp_utf8(s.as_ptr(), s.len(), at, out.as_mut_ptr(), out.len()) })
}

/// The place after the value, how many are left, and the value; `None` where the list has ended.
pub(crate) fn next_value(s: &[u8], code: u16, at: usize, left: u16) -> Option<[u64; 5]> {
    let mut out = [0; 5];
    let count = told(unsafe { ptp_next_value(s.as_ptr(), s.len(), code, at, left, out.as_mut_ptr(), out.len()) });
    (count == Ok(5)).then_some(out)
}

pub(crate) fn write_integer(code: u16, low: u64, high: u64, out: &mut [u8]) -> Result<usize, Refusal> {
    told(unsafe { ptp_write_integer(code, low, high, out.as_mut_ptr(), out.len()) })
}

pub(crate) fn write_text(units: &[u16], out: &mut [u8]) -> Result<usize, Refusal> {
    told(unsafe { ptp_write_text(units.as_ptr(), units.len(), out.as_mut_ptr(), out.len()) })
}

pub(crate) fn write_array(code: u16, items: &[u8], out: &mut [u8]) -> Result<usize, Refusal> {
    write_typed(ptp_write_array, code, items, out)
}

pub(crate) fn tidy_value(code: u16, s: &[u8], out: &mut [u8]) -> Result<usize, Refusal> {
    write_typed(ptp_tidy_value, code, s, out)
}

pub(crate) fn tidy_device(s: &[u8], out: &mut [u8]) -> Result<usize, Refusal> {
    write(ptp_tidy_device, s, out)
}

pub(crate) fn tidy_object(s: &[u8], out: &mut [u8]) -> Result<usize, Refusal> {
    write(ptp_tidy_object, s, out)
}

pub(crate) fn tidy_storage(s: &[u8], out: &mut [u8]) -> Result<usize, Refusal> {
    write(ptp_tidy_storage, s, out)
}

pub(crate) fn read_container(s: &[u8], at: usize) -> Result<[u64; 6], Refusal> {
    read_at(ptp_read_container, s, at)
}

pub(crate) fn read_packet(s: &[u8], at: usize) -> Result<[u64; 8], Refusal> {
    read_at(ptp_read_packet, s, at)
}

pub(crate) fn to_network(s: &[u8], to_camera: bool, out: &mut [u8]) -> Result<usize, Refusal> {
    told(unsafe { ptp_to_network(s.as_ptr(), s.len(), to_camera, out.as_mut_ptr(), out.len()) })
}

pub(crate) fn from_network(s: &[u8], out: &mut [u8]) -> Result<usize, Refusal> {
    write(ptp_from_network, s, out)
}

pub(crate) fn write_container(kind: u16, code: u16, number: u32, payload: &[u8], out: &mut [u8]) -> Result<usize, Refusal> {
    told(unsafe { ptp_write_container(kind, code, number, payload.as_ptr(), payload.len(), out.as_mut_ptr(), out.len()) })
}

pub(crate) fn write_record(kind: u16, body: &[u8], out: &mut [u8]) -> Result<usize, Refusal> {
    write_typed(ptp_write_record, kind, body, out)
}

pub(crate) fn write_heading(out: &mut [u8]) -> Result<usize, Refusal> {
    told(unsafe { ptp_write_heading(out.as_mut_ptr(), out.len()) })
}

/// The bytes written; then the bytes used, the place and the records after them, and whether a refusal ended the listing.
pub(crate) fn list_window(s: &[u8], last: bool, place: u64, records: u64, out: &mut [u8]) -> (usize, [u64; 4]) {
    let mut counts = [0; 4];
    let count = told(unsafe {
        ptp_list_window(s.as_ptr(), s.len(), last, place, records, out.as_mut_ptr(), out.len(), counts.as_mut_ptr(), counts.len())
    });
    (count.expect("the counts have room"), counts)
}

pub(crate) fn write_ending(records: u64, place: u64, out: &mut [u8]) -> Result<usize, Refusal> {
    told(unsafe { ptp_write_ending(records, place, out.as_mut_ptr(), out.len()) })
}

/// A name's start and length in the name bytes.
pub(crate) fn response_place(code: u16) -> Option<(usize, usize)> {
    place(unsafe { ptp_response_place(code) })
}

pub(crate) fn command_place(code: u16) -> Option<(usize, usize)> {
    place(unsafe { ptp_command_place(code) })
}

fn place(word: i64) -> Option<(usize, usize)> {
    (word != 0).then_some((word as usize / 65536, word as usize % 65536))
}

pub(crate) fn device_info(s: &[u8]) -> Result<[u64; 25], Refusal> {
    read(ptp_device_info, s)
}

pub(crate) fn object_info(s: &[u8]) -> Result<[u64; 24], Refusal> {
    read(ptp_object_info, s)
}

pub(crate) fn storage_info(s: &[u8]) -> Result<[u64; 11], Refusal> {
    read(ptp_storage_info, s)
}

pub(crate) fn prop_info(book: bool, s: &[u8]) -> Result<[u64; 16], Refusal> {
    read(if book { book_prop_info } else { crate_prop_info }, s)
}

unsafe extern "C" fn crate_prop_info(s: *const u8, s_len: usize, out: *mut u64, out_len: usize) -> i64 {
    ptp_prop_info(false, s, s_len, out, out_len)
}

unsafe extern "C" fn book_prop_info(s: *const u8, s_len: usize, out: *mut u64, out_len: usize) -> i64 {
    ptp_prop_info(true, s, s_len, out, out_len)
}

pub(crate) fn read_record(s: &[u8]) -> Result<[u64; 9], Refusal> {
    read(ptp_read_record, s)
}

/// How many records.
pub(crate) fn read_recording(s: &[u8]) -> Result<[u64; 1], Refusal> {
    read(ptp_read_recording, s)
}

/// The bytes written; then the records and the bytes that were left out.
pub(crate) fn copy_recording(s: &[u8], out: &mut [u8]) -> Result<[usize; 3], Refusal> {
    let mut left = [0; 2];
    let count =
        told(unsafe { ptp_copy_recording(s.as_ptr(), s.len(), out.as_mut_ptr(), out.len(), left.as_mut_ptr(), left.len()) })?;
    Ok([count, left[0] as usize, left[1] as usize])
}

// The bytes kept, and the stretches dropped.
pub(crate) fn mend_recording(s: &[u8], out: &mut [u8], starts: &mut [u64], lengths: &mut [u64]) -> Result<(usize, usize), Refusal> {
    let mut counts = [0; 1];
    let count = told(unsafe {
        ptp_mend_recording(
            s.as_ptr(),
            s.len(),
            out.as_mut_ptr(),
            out.len(),
            starts.as_mut_ptr(),
            starts.len(),
            lengths.as_mut_ptr(),
            lengths.len(),
            counts.as_mut_ptr(),
            counts.len(),
        )
    })?;
    Ok((count, counts[0] as usize))
}

pub(crate) fn list_value(book: bool, s: &[u8], n: usize) -> Result<[u64; 3], Refusal> {
    let mut out = [0; 3];
    told(unsafe { ptp_list_value(book, s.as_ptr(), s.len(), n, out.as_mut_ptr(), out.len()) })?;
    Ok(out)
}

pub(crate) fn newer_value(book: bool, description: &[u8], payload: &[u8]) -> Result<[u64; 3], Refusal> {
    let mut out = [0; 3];
    told(unsafe {
        ptp_newer_value(book, description.as_ptr(), description.len(), payload.as_ptr(), payload.len(), out.as_mut_ptr(), out.len())
    })?;
    Ok(out)
}

pub(crate) fn tidy_property(book: bool, s: &[u8], out: &mut [u8]) -> Result<usize, Refusal> {
    told(unsafe { ptp_tidy_property(book, s.as_ptr(), s.len(), out.as_mut_ptr(), out.len()) })
}

/// The bytes written, and how many of them are the Command.
pub(crate) fn command(
    number: &mut u32,
    code: u16,
    params: &[u32],
    data: Option<&[u8]>,
    out: &mut [u8],
) -> Result<(usize, usize), Refusal> {
    let bytes = data.unwrap_or(&[]);
    let mut end = 0;
    let count = told(unsafe {
        ptp_command(
            number,
            &mut end,
            code,
            params.as_ptr(),
            params.len(),
            bytes.as_ptr(),
            bytes.len(),
            data.is_some(),
            out.as_mut_ptr(),
            out.len(),
        )
    })?;
    Ok((count, end))
}

pub(crate) fn set_value(
    book: bool,
    number: &mut u32,
    description: &[u8],
    code: u16,
    value: &[u8],
    out: &mut [u8],
) -> Result<(usize, usize), Refusal> {
    let mut end = 0;
    let count = told(unsafe {
        ptp_set_value(
            book,
            number,
            &mut end,
            description.as_ptr(),
            description.len(),
            code,
            value.as_ptr(),
            value.len(),
            out.as_mut_ptr(),
            out.len(),
        )
    })?;
    Ok((count, end))
}

pub(crate) fn find_answer(s: &[u8], number: u32) -> Result<[u64; 4], Refusal> {
    let mut out = [0; 4];
    told(unsafe { ptp_find_answer(s.as_ptr(), s.len(), number, out.as_mut_ptr(), out.len()) })?;
    Ok(out)
}

pub(crate) fn find_response(s: &[u8], number: u32) -> Result<[u64; 6], Refusal> {
    let mut out = [0; 6];
    told(unsafe { ptp_find_response(s.as_ptr(), s.len(), number, out.as_mut_ptr(), out.len()) })?;
    Ok(out)
}

pub(crate) fn needed(s: &[u8], number: u32) -> usize {
    told(unsafe { ptp_needed(s.as_ptr(), s.len(), number) }).expect("it refuses nothing")
}

pub(crate) fn units(s: &[u8], at: usize, out: &mut [u16]) -> Result<usize, Refusal> {
    told_at(at, unsafe { ptp_units(s.as_ptr(), s.len(), at, out.as_mut_ptr(), out.len()) })
}

pub(crate) fn list_numbers(s: &[u8], at: usize, code: u16, count: usize, out: &mut [u64]) -> Result<usize, Refusal> {
    told_at(at, unsafe { ptp_list_numbers(s.as_ptr(), s.len(), at, code, count, out.as_mut_ptr(), out.len()) })
}

pub(crate) fn settings_check(second: bool, row: &[u8]) -> Result<usize, Refusal> {
    told(unsafe { ptp_settings_check(second, row.as_ptr(), row.len()) })
}

pub(crate) fn settings_entry(second: bool, row: &[u8], at: usize) -> Result<[u64; 9], Refusal> {
    let mut out = [0; 9];
    told(unsafe { ptp_settings_entry(second, row.as_ptr(), row.len(), at, out.as_mut_ptr(), out.len()) })?;
    Ok(out)
}

// No numbers are given of what is not held.
pub(crate) fn settings_find(
    second: bool,
    row: &[u8],
    vendor: u32,
    property: u16,
    serial: &[u16],
) -> Result<Option<[u64; 4]>, Refusal> {
    let mut out = [0; 4];
    let given = told(unsafe {
        ptp_settings_find(
            second,
            row.as_ptr(),
            row.len(),
            vendor,
            property,
            serial.as_ptr(),
            serial.len(),
            out.as_mut_ptr(),
            out.len(),
        )
    })?;
    Ok(if given == 0 { None } else { Some(out) })
}

pub(crate) fn settings_store(second: bool, row: &[u8], entry: &[u8], out: &mut [u8]) -> Result<usize, Refusal> {
    told(unsafe { ptp_settings_store(second, row.as_ptr(), row.len(), entry.as_ptr(), entry.len(), out.as_mut_ptr(), out.len()) })
}

// Without a serial it is for any camera.
pub(crate) fn settings_write(
    vendor: u32,
    property: u16,
    code: u16,
    value: &[u8],
    serial: Option<&[u16]>,
    out: &mut [u8],
) -> Result<usize, Refusal> {
    let units = serial.unwrap_or(&[]);
    told(unsafe {
        ptp_settings_write(
            vendor,
            property,
            code,
            value.as_ptr(),
            value.len(),
            serial.is_some(),
            units.as_ptr(),
            units.len(),
            out.as_mut_ptr(),
            out.len(),
        )
    })
}

pub(crate) fn settings_remove(
    second: bool,
    row: &[u8],
    vendor: u32,
    property: u16,
    serial: Option<&[u16]>,
    out: &mut [u8],
) -> Result<usize, Refusal> {
    let units = serial.unwrap_or(&[]);
    told(unsafe {
        ptp_settings_remove(
            second,
            row.as_ptr(),
            row.len(),
            vendor,
            property,
            serial.is_some(),
            units.as_ptr(),
            units.len(),
            out.as_mut_ptr(),
            out.len(),
        )
    })
}

// A function of an object table, whose four lists, count and names come first, with what else it takes. The lists and names are lent by
// `$pointer`: a pointer for writing is taken where one for reading is asked for.
macro_rules! of_table {
    ($function:ident, $table:ident, $pointer:ident, $count:expr, $($more:expr),+) => {
        told(unsafe {
            $function(
                $table.handles.$pointer(),
                $table.handles.len(),
                $table.parents.$pointer(),
                $table.parents.len(),
                $table.ends.$pointer(),
                $table.ends.len(),
                $table.marks.$pointer(),
                $table.marks.len(),
                $count,
                $table.names.$pointer(),
                $table.names.len(),
                $($more),+
            )
        })
    };
}

pub(crate) fn walk(table: &ObjectTable<'_>, places: &mut [u16]) -> Result<usize, Refusal> {
    of_table!(ptp_walk, table, as_ptr, table.count, places.as_mut_ptr(), places.len())
}

pub(crate) fn path(table: &ObjectTable<'_>, place: usize, out: &mut [u8]) -> Result<usize, Refusal> {
    of_table!(ptp_path, table, as_ptr, table.count, place, out.as_mut_ptr(), out.len())
}

pub(crate) fn paths(table: &ObjectTable<'_>, out: &mut [u8], out_ends: &mut [u32]) -> Result<usize, Refusal> {
    of_table!(ptp_paths, table, as_ptr, table.count, out.as_mut_ptr(), out.len(), out_ends.as_mut_ptr(), out_ends.len())
}

pub(crate) fn folders(table: &ObjectTable<'_>, places: &mut [u16]) -> Result<usize, Refusal> {
    of_table!(ptp_folders, table, as_ptr, table.count, places.as_mut_ptr(), places.len())
}

pub(crate) fn folder_paths(table: &ObjectTable<'_>, out: &mut [u8], out_ends: &mut [u32]) -> Result<usize, Refusal> {
    of_table!(ptp_folder_paths, table, as_ptr, table.count, out.as_mut_ptr(), out.len(), out_ends.as_mut_ptr(), out_ends.len())
}

// Of a table that keeps its links, which come behind it, lent as it is.
macro_rules! of_linked {
    ($function:ident, $table:ident, $links:ident, $pointer:ident, $count:expr, $($more:expr),+) => {
        of_table!(
            $function,
            $table,
            $pointer,
            $count,
            $links.first.$pointer(),
            $links.first.len(),
            $links.next.$pointer(),
            $links.next.len(),
            $($more),+
        )
    };
}

/// The count.
pub(crate) fn table_link(table: &ObjectTable<'_>, links: &mut LinksMut<'_>) -> Result<usize, Refusal> {
    of_table!(
        ptp_table_link,
        table,
        as_ptr,
        table.count,
        links.first.as_mut_ptr(),
        links.first.len(),
        links.next.as_mut_ptr(),
        links.next.len()
    )
}

pub(crate) fn linked_walk(table: &ObjectTable<'_>, links: Links<'_>, places: &mut [u16]) -> Result<usize, Refusal> {
    of_linked!(ptp_linked_walk, table, links, as_ptr, table.count, places.as_mut_ptr(), places.len())
}

pub(crate) fn linked_paths(
    table: &ObjectTable<'_>,
    links: Links<'_>,
    out: &mut [u8],
    out_ends: &mut [u32],
) -> Result<usize, Refusal> {
    of_linked!(
        ptp_linked_paths,
        table,
        links,
        as_ptr,
        table.count,
        out.as_mut_ptr(),
        out.len(),
        out_ends.as_mut_ptr(),
        out_ends.len()
    )
}

/// The count, which stays.
pub(crate) fn linked_delete(table: &mut ObjectTableMut<'_>, links: &mut LinksMut<'_>, place: usize) -> Result<usize, Refusal> {
    of_linked!(ptp_linked_delete, table, links, as_mut_ptr, *table.count, place)
}

/// The new count.
pub(crate) fn linked_collect(
    table: &mut ObjectTableMut<'_>,
    links: &mut LinksMut<'_>,
    new_places: &mut [u16],
) -> Result<usize, Refusal> {
    of_linked!(ptp_linked_collect, table, links, as_mut_ptr, *table.count, new_places.as_mut_ptr(), new_places.len())
}

/// The object's place.
pub(crate) fn linked_add(
    table: &mut ObjectTableMut<'_>,
    links: &mut LinksMut<'_>,
    new_places: &mut [u16],
    parent: usize,
    handle: u32,
    name: &[u8],
) -> Result<usize, Refusal> {
    of_linked!(
        ptp_linked_add,
        table,
        links,
        as_mut_ptr,
        *table.count,
        new_places.as_mut_ptr(),
        new_places.len(),
        parent,
        handle,
        name.as_ptr(),
        name.len()
    )
}

/// The count, which stays.
pub(crate) fn table_delete(table: &mut ObjectTableMut<'_>, place: usize) -> Result<usize, Refusal> {
    of_table!(ptp_table_delete, table, as_mut_ptr, *table.count, place)
}

/// The new count.
pub(crate) fn table_collect(table: &mut ObjectTableMut<'_>, new_places: &mut [u16]) -> Result<usize, Refusal> {
    of_table!(ptp_table_collect, table, as_mut_ptr, *table.count, new_places.as_mut_ptr(), new_places.len())
}

/// The object's place.
pub(crate) fn table_add(
    table: &mut ObjectTableMut<'_>,
    new_places: &mut [u16],
    parent: usize,
    handle: u32,
    name: &[u8],
) -> Result<usize, Refusal> {
    of_table!(
        ptp_table_add,
        table,
        as_mut_ptr,
        *table.count,
        new_places.as_mut_ptr(),
        new_places.len(),
        parent,
        handle,
        name.as_ptr(),
        name.len()
    )
}

#[cfg(test)]
mod tests {
    use super::*;

    const KEPT: u64 = 0xA5A5;

    // What no safe function can ask, since it brings its own room: an output of every length, from a dataset and a record that are right.
    fn try_rooms(f: ReadsBytes, s: &[u8], need: usize) {
        for room in 0..need {
            let mut out = [KEPT; 32];
            assert_eq!(read_into(f, s, &mut out[..room]), Err(Refusal::ROOM));
            assert_eq!(out, [KEPT; 32]);
        }
        for room in need..need + 2 {
            let mut out = [KEPT; 32];
            assert_eq!(read_into(f, s, &mut out[..room]), Ok(need));
            assert!(out[..need].iter().all(|&n| n != KEPT));
            assert!(out[need..].iter().all(|&n| n == KEPT));
        }
    }

    #[test]
    fn rows_need_their_exact_room() {
        try_rooms(ptp_device_info, &[0; 64], 25);
        try_rooms(ptp_object_info, &[0; 64], 24);
        try_rooms(ptp_storage_info, &[0; 64], 11);
        try_rooms(crate_prop_info, &[0; 64], 16);
        try_rooms(book_prop_info, &[0; 64], 16);
        try_rooms(ptp_read_record, &[6, 0, 0, 0, 3, 0], 9);
        try_rooms(ptp_read_recording, &[6, 0, 0, 0, 3, 0], 1);
        try_rooms(first_packet, &[14, 0, 0, 0, 7, 0, 0, 0, 1, 32, 0, 0, 0, 0], 8);
        try_rooms(first_setting, &ENTRY, 9);
        try_rooms(found_setting, &ENTRY, 4);
    }

    unsafe extern "C" fn first_packet(s: *const u8, s_len: usize, out: *mut u64, out_len: usize) -> i64 {
        ptp_read_packet(s, s_len, 0, out, out_len)
    }

    // An entry for any camera, without a value: alone in its row it is the first, and what is found.
    const ENTRY: [u8; 14] = [14, 0, 0, 0, 16, 0, 6, 0, 0, 0, 1, 0, 0, 0];

    unsafe extern "C" fn first_setting(s: *const u8, s_len: usize, out: *mut u64, out_len: usize) -> i64 {
        ptp_settings_entry(true, s, s_len, 0, out, out_len)
    }

    unsafe extern "C" fn found_setting(s: *const u8, s_len: usize, out: *mut u64, out_len: usize) -> i64 {
        ptp_settings_find(true, s, s_len, 6, 1, [].as_ptr(), 0, out, out_len)
    }

    // The room of the stretches' count, which mend_recording brings itself.
    #[test]
    fn mending_needs_room_for_its_count() {
        let (mut out, mut starts, mut lengths, mut counts) = ([9; 8], [KEPT; 2], [KEPT; 2], [KEPT; 2]);
        for (room, answer) in [(0, -9), (1, 6), (2, 6)] {
            let s = [255, 6, 0, 0, 0, 3, 0];
            let (out, starts, lengths) = (out.as_mut_ptr(), starts.as_mut_ptr(), lengths.as_mut_ptr());
            let told = unsafe { ptp_mend_recording(s.as_ptr(), 7, out, 8, starts, 2, lengths, 2, counts.as_mut_ptr(), room) };
            assert_eq!((told, counts), (answer, if room == 0 { [KEPT; 2] } else { [1, KEPT] }));
        }
        assert_eq!((out, starts, lengths), ([6, 0, 0, 0, 3, 0, 9, 9], [0, KEPT], [1, KEPT]));
    }

    // A note and an empty Response: room for the copy and not for the two numbers, and the other way round.
    #[test]
    fn a_copy_needs_both_its_outputs() {
        let s = [7, 0, 0, 0, 3, 0, 65, 18, 0, 0, 0, 1, 0, 12, 0, 0, 0, 3, 0, 1, 32, 0, 0, 0, 0];
        let copied = |s: &[u8], room: usize, numbers: usize| {
            let (mut out, mut left) = ([0xA5; 20], [KEPT; 3]);
            let (lent, numbered) = (&mut out[..room], &mut left[..numbers]);
            let answer =
                unsafe { ptp_copy_recording(s.as_ptr(), s.len(), lent.as_mut_ptr(), room, numbered.as_mut_ptr(), numbers) };
            (told(answer), out, left)
        };
        for (room, numbers) in [(18, 0), (18, 1), (17, 2), (0, 0)] {
            assert_eq!(copied(&s, room, numbers), (Err(Refusal::ROOM), [0xA5; 20], [KEPT; 3]));
        }
        assert_eq!(copied(&s[..24], 18, 0), (Err(Refusal::END { at: 13 }), [0xA5; 20], [KEPT; 3]));
        let (answer, out, left) = copied(&s, 20, 3);
        assert_eq!((answer, &out[..18], &out[18..], left), (Ok(18), &s[7..], &[0xA5; 2][..], [1, 7, KEPT]));
    }

    #[test]
    fn refused_rows_keep_their_numbers() {
        for f in [
            ptp_device_info as ReadsBytes,
            ptp_object_info,
            ptp_storage_info,
            crate_prop_info,
            book_prop_info,
            ptp_read_record,
            ptp_read_recording,
            first_packet,
            first_setting,
            found_setting,
        ] {
            let mut out = [KEPT; 32];
            assert_eq!(read_into(f, &[6], &mut out), Err(Refusal::END { at: 0 }));
            assert_eq!(out, [KEPT; 32]);
        }
    }

    // The names in Rust are the proved ones, and each place lies within them.
    #[test]
    fn names_are_those_of_the_archive() {
        let mut bytes = [0; 975];
        assert_eq!(told(unsafe { ptp_name_bytes(bytes.as_mut_ptr(), 974) }), Err(Refusal::ROOM));
        assert_eq!(told(unsafe { ptp_name_bytes(bytes.as_mut_ptr(), bytes.len()) }), Ok(975));
        assert_eq!(crate::code::NAMES.as_bytes(), bytes);
    }
}
