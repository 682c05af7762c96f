"""What the library exports: a line a function, as its proved source writes it. Nothing is loaded here, so that the gate can compare the lines."""

from __future__ import annotations

import re
from typing import Dict, List

LINES = """
ptp_device_info(s: &[u8], out: &mut [u64])
ptp_object_info(s: &[u8], out: &mut [u64])
ptp_storage_info(s: &[u8], out: &mut [u64])
ptp_prop_info(book: bool, s: &[u8], out: &mut [u64])
ptp_handles(s: &[u8], out: &mut [u64])
ptp_object_count(s: &[u8], out: &mut [u64])
ptp_storage_payload(s: &[u8], out: &mut [u64])
ptp_value(s: &[u8], at: usize, code: u16, out: &mut [u64])
ptp_item(s: &[u8], at: usize, code: u16, n: usize, out: &mut [u64])
ptp_text(s: &[u8], at: usize, out: &mut [u64])
ptp_unit(s: &[u8], at: usize, n: usize, out: &mut [u64])
ptp_utf8_len(s: &[u8], at: usize, out: &mut [u64])
ptp_utf8(s: &[u8], at: usize, out: &mut [u8])
ptp_list_numbers(s: &[u8], at: usize, code: u16, count: usize, out: &mut [u64])
ptp_units(s: &[u8], at: usize, out: &mut [u16])
ptp_write_integer(code: u16, low: u64, high: u64, out: &mut [u8])
ptp_write_text(units: &[u16], out: &mut [u8])
ptp_write_array(code: u16, items: &[u8], out: &mut [u8])
ptp_tidy_value(code: u16, s: &[u8], out: &mut [u8])
ptp_tidy_device(s: &[u8], out: &mut [u8])
ptp_tidy_object(s: &[u8], out: &mut [u8])
ptp_tidy_storage(s: &[u8], out: &mut [u8])
ptp_list_value(book: bool, s: &[u8], n: usize, out: &mut [u64])
ptp_next_value(s: &[u8], code: u16, at: usize, left: u16, out: &mut [u64])
ptp_newer_value(book: bool, description: &[u8], payload: &[u8], out: &mut [u64])
ptp_tidy_property(book: bool, s: &[u8], out: &mut [u8])
ptp_command(number: &mut u32, end: &mut usize, code: u16, params: &[u32], data: &[u8], with_data: bool, out: &mut [u8])
ptp_set_value(book: bool, number: &mut u32, end: &mut usize, description: &[u8], code: u16, value: &[u8], out: &mut [u8])
ptp_find_answer(s: &[u8], number: u32, out: &mut [u64])
ptp_find_response(s: &[u8], number: u32, out: &mut [u64])
ptp_needed(s: &[u8], number: u32)
ptp_read_packet(s: &[u8], at: usize, out: &mut [u64])
ptp_to_network(s: &[u8], to_camera: bool, out: &mut [u8])
ptp_from_network(s: &[u8], out: &mut [u8])
ptp_walk(handles: &[u32], parents: &[u16], ends: &[u32], marks: &[u8], count: usize, names: &[u8], places: &mut [u16])
ptp_path(handles: &[u32], parents: &[u16], ends: &[u32], marks: &[u8], count: usize, names: &[u8], place: usize, out: &mut [u8])
ptp_paths(handles: &[u32], parents: &[u16], ends: &[u32], marks: &[u8], count: usize, names: &[u8], out: &mut [u8], out_ends: &mut [u32])
ptp_folders(handles: &[u32], parents: &[u16], ends: &[u32], marks: &[u8], count: usize, names: &[u8], places: &mut [u16])
ptp_folder_paths(handles: &[u32], parents: &[u16], ends: &[u32], marks: &[u8], count: usize, names: &[u8], out: &mut [u8], out_ends: &mut [u32])
ptp_table_delete(handles: &[u32], parents: &[u16], ends: &[u32], marks: &mut [u8], count: usize, names: &[u8], place: usize)
ptp_table_collect(handles: &mut [u32], parents: &mut [u16], ends: &mut [u32], marks: &mut [u8], count: usize, names: &mut [u8], new_places: &mut [u16])
ptp_table_add(handles: &mut [u32], parents: &mut [u16], ends: &mut [u32], marks: &mut [u8], count: usize, names: &mut [u8], new_places: &mut [u16], parent: usize, handle: u32, name: &[u8])
ptp_table_link(handles: &[u32], parents: &[u16], ends: &[u32], marks: &[u8], count: usize, names: &[u8], first: &mut [u16], next: &mut [u16])
ptp_linked_walk(handles: &[u32], parents: &[u16], ends: &[u32], marks: &[u8], count: usize, names: &[u8], first: &[u16], next: &[u16], places: &mut [u16])
ptp_linked_paths(handles: &[u32], parents: &[u16], ends: &[u32], marks: &[u8], count: usize, names: &[u8], first: &[u16], next: &[u16], out: &mut [u8], out_ends: &mut [u32])
ptp_linked_delete(handles: &[u32], parents: &[u16], ends: &[u32], marks: &mut [u8], count: usize, names: &[u8], first: &mut [u16], next: &mut [u16], place: usize)
ptp_linked_collect(handles: &mut [u32], parents: &mut [u16], ends: &mut [u32], marks: &mut [u8], count: usize, names: &mut [u8], first: &mut [u16], next: &mut [u16], new_places: &mut [u16])
ptp_linked_add(handles: &mut [u32], parents: &mut [u16], ends: &mut [u32], marks: &mut [u8], count: usize, names: &mut [u8], first: &mut [u16], next: &mut [u16], new_places: &mut [u16], parent: usize, handle: u32, name: &[u8])
ptp_settings_check(second: bool, row: &[u8])
ptp_settings_entry(second: bool, s: &[u8], at: usize, out: &mut [u64])
ptp_settings_find(second: bool, row: &[u8], vendor: u32, property: u16, serial: &[u16], out: &mut [u64])
ptp_settings_store(second: bool, row: &[u8], entry: &[u8], out: &mut [u8])
ptp_settings_write(vendor: u32, property: u16, code: u16, value: &[u8], own: bool, serial: &[u16], out: &mut [u8])
ptp_settings_remove(second: bool, row: &[u8], vendor: u32, property: u16, own: bool, serial: &[u16], out: &mut [u8])
ptp_read_container(s: &[u8], at: usize, out: &mut [u64])
ptp_write_container(kind: u16, code: u16, number: u32, payload: &[u8], out: &mut [u8])
ptp_read_record(s: &[u8], out: &mut [u64])
ptp_read_recording(s: &[u8], out: &mut [u64])
ptp_write_record(kind: u16, body: &[u8], out: &mut [u8])
ptp_write_heading(out: &mut [u8])
ptp_list_window(s: &[u8], last: bool, place: u64, records: u64, out: &mut [u8], counts: &mut [u64])
ptp_write_ending(records: u64, place: u64, out: &mut [u8])
ptp_copy_recording(s: &[u8], out: &mut [u8], left: &mut [u64])
ptp_mend_recording(s: &[u8], out: &mut [u8], starts: &mut [u64], lengths: &mut [u64], counts: &mut [u64])
ptp_response_place(code: u16)
ptp_command_place(code: u16)
ptp_name_bytes(out: &mut [u8])
"""


def declarations() -> Dict[str, List[str]]:
    """Each function's parameter types, in their order."""
    found = {}
    for name, parameters in re.findall(r"^(\w+)\((.*)\)$", LINES, re.M):
        found[name] = [part.split(": ")[1] for part in parameters.split(", ")]
    return found
