
// Ours, as the archive exports it: a slice is its address and its length.

mod archive {
    use trees::Table;

    pub type Numbers = unsafe extern "C" fn(*const u8, usize, *mut u64, usize) -> u64;
    pub type Bytes = unsafe extern "C" fn(*const u8, usize, *mut u8, usize) -> u64;
    pub type Place = unsafe extern "C" fn(u16) -> u64;

    extern "C" {
        pub fn ptp_device_info(s: *const u8, len: usize, out: *mut u64, room: usize) -> u64;
        pub fn ptp_object_info(s: *const u8, len: usize, out: *mut u64, room: usize) -> u64;
        pub fn ptp_storage_info(s: *const u8, len: usize, out: *mut u64, room: usize) -> u64;
        pub fn ptp_prop_info(book: bool, s: *const u8, len: usize, out: *mut u64, room: usize) -> u64;
        pub fn ptp_tidy_property(book: bool, s: *const u8, len: usize, out: *mut u8, room: usize) -> u64;
        pub fn ptp_command(number: *mut u32, end: *mut usize, code: u16, params: *const u32, count: usize, data: *const u8, len: usize,
                       with_data: bool, out: *mut u8, room: usize) -> u64;
        pub fn ptp_set_value(book: bool, number: *mut u32, end: *mut usize, description: *const u8, description_len: usize, code: u16, value: *const u8,
                         value_len: usize, out: *mut u8, room: usize) -> u64;
        pub fn ptp_settings_find(second: bool, row: *const u8, row_len: usize, vendor: u32, property: u16, serial: *const u16,
                             serial_len: usize, out: *mut u64, room: usize) -> u64;
        pub fn ptp_settings_store(second: bool, row: *const u8, row_len: usize, entry: *const u8, entry_len: usize, out: *mut u8,
                              room: usize) -> u64;
        pub fn ptp_find_answer(s: *const u8, len: usize, number: u32, out: *mut u64, room: usize) -> u64;
        pub fn ptp_paths(handles: *const u32, handle_count: usize, parents: *const u16, parent_count: usize,
                     ends: *const u32, end_count: usize, marks: *const u8, mark_count: usize, count: usize, names: *const u8, len: usize,
                     out: *mut u8, room: usize, out_ends: *mut u32, out_count: usize) -> u64;
        pub fn ptp_walk(handles: *const u32, handle_count: usize, parents: *const u16, parent_count: usize,
                        ends: *const u32, end_count: usize, marks: *const u8, mark_count: usize, count: usize, names: *const u8, len: usize,
                        places: *mut u16, place_count: usize) -> u64;
        pub fn ptp_folders(handles: *const u32, handle_count: usize, parents: *const u16, parent_count: usize,
                           ends: *const u32, end_count: usize, marks: *const u8, mark_count: usize, count: usize, names: *const u8, len: usize,
                           places: *mut u16, place_count: usize) -> u64;
        pub fn ptp_folder_paths(handles: *const u32, handle_count: usize, parents: *const u16, parent_count: usize,
                                ends: *const u32, end_count: usize, marks: *const u8, mark_count: usize, count: usize, names: *const u8, len: usize,
                                out: *mut u8, room: usize, out_ends: *mut u32, out_count: usize) -> u64;
        pub fn ptp_table_link(handles: *const u32, handle_count: usize, parents: *const u16, parent_count: usize,
                              ends: *const u32, end_count: usize, marks: *const u8, mark_count: usize, count: usize, names: *const u8, len: usize,
                              first: *mut u16, first_count: usize, next: *mut u16, next_count: usize) -> u64;
        pub fn ptp_linked_walk(handles: *const u32, handle_count: usize, parents: *const u16, parent_count: usize,
                               ends: *const u32, end_count: usize, marks: *const u8, mark_count: usize, count: usize, names: *const u8, len: usize,
                               first: *const u16, first_count: usize, next: *const u16, next_count: usize,
                               places: *mut u16, place_count: usize) -> u64;
        pub fn ptp_linked_delete(handles: *const u32, handle_count: usize, parents: *const u16, parent_count: usize,
                                 ends: *const u32, end_count: usize, marks: *mut u8, mark_count: usize, count: usize, names: *const u8, len: usize,
                                 first: *mut u16, first_count: usize, next: *mut u16, next_count: usize,
                                 place: usize) -> u64;
        pub fn ptp_linked_add(handles: *mut u32, handle_count: usize, parents: *mut u16, parent_count: usize,
                              ends: *mut u32, end_count: usize, marks: *mut u8, mark_count: usize, count: usize, names: *mut u8, len: usize,
                              first: *mut u16, first_count: usize, next: *mut u16, next_count: usize,
                              new_places: *mut u16, place_count: usize, parent: usize, handle: u32, name: *const u8, name_len: usize) -> u64;
        pub fn ptp_table_collect(handles: *mut u32, handle_count: usize, parents: *mut u16, parent_count: usize,
                             ends: *mut u32, end_count: usize, marks: *mut u8, mark_count: usize, count: usize, names: *mut u8, len: usize,
                             new_places: *mut u16, place_count: usize) -> u64;
        pub fn ptp_text(s: *const u8, len: usize, at: usize, out: *mut u64, room: usize) -> u64;
        pub fn ptp_utf8_len(s: *const u8, len: usize, at: usize, out: *mut u64, room: usize) -> u64;
        pub fn ptp_utf8(s: *const u8, len: usize, at: usize, out: *mut u8, room: usize) -> u64;
        pub fn ptp_read_container(s: *const u8, len: usize, at: usize, out: *mut u64, room: usize) -> u64;
        pub fn ptp_tidy_device(s: *const u8, len: usize, out: *mut u8, room: usize) -> u64;
        pub fn ptp_tidy_object(s: *const u8, len: usize, out: *mut u8, room: usize) -> u64;
        pub fn ptp_tidy_storage(s: *const u8, len: usize, out: *mut u8, room: usize) -> u64;
        pub fn ptp_to_network(s: *const u8, len: usize, to_camera: bool, out: *mut u8, room: usize) -> u64;
        pub fn ptp_from_network(s: *const u8, len: usize, out: *mut u8, room: usize) -> u64;
        pub fn ptp_response_place(code: u16) -> u64;
        pub fn ptp_command_place(code: u16) -> u64;
        pub fn ptp_handles(s: *const u8, len: usize, out: *mut u64, room: usize) -> u64;
        pub fn ptp_value(s: *const u8, len: usize, at: usize, code: u16, out: *mut u64, room: usize) -> u64;
        pub fn ptp_list_numbers(s: *const u8, len: usize, at: usize, code: u16, count: usize, out: *mut u64, room: usize) -> u64;
        pub fn ptp_copy_recording(s: *const u8, len: usize, out: *mut u8, room: usize, left: *mut u64, left_room: usize) -> u64;
        pub fn ptp_next_value(s: *const u8, len: usize, code: u16, at: usize, left: u16, out: *mut u64, room: usize) -> u64;
        pub fn ptp_write_text(units: *const u16, count: usize, out: *mut u8, room: usize) -> u64;
        pub fn ptp_write_container(kind: u16, code: u16, number: u32, payload: *const u8, len: usize, out: *mut u8, room: usize) -> u64;
    }

    pub unsafe extern "C" fn crate_prop_info(s: *const u8, len: usize, out: *mut u64, room: usize) -> u64 {
        ptp_prop_info(false, s, len, out, room)
    }

    pub unsafe extern "C" fn book_prop_info(s: *const u8, len: usize, out: *mut u64, room: usize) -> u64 {
        ptp_prop_info(true, s, len, out, room)
    }

    pub unsafe extern "C" fn crate_tidy_property(s: *const u8, len: usize, out: *mut u8, room: usize) -> u64 {
        ptp_tidy_property(false, s, len, out, room)
    }

    pub fn text(s: &[u8], out: &mut [u64]) -> u64 {
        unsafe { ptp_text(s.as_ptr(), s.len(), 0, out.as_mut_ptr(), out.len()) }
    }

    pub fn utf8_len(s: &[u8], out: &mut [u64]) -> u64 {
        unsafe { ptp_utf8_len(s.as_ptr(), s.len(), 0, out.as_mut_ptr(), out.len()) }
    }

    pub fn utf8(s: &[u8], out: &mut [u8]) -> u64 {
        unsafe { ptp_utf8(s.as_ptr(), s.len(), 0, out.as_mut_ptr(), out.len()) }
    }

    pub fn read_container(s: &[u8], out: &mut [u64]) -> u64 {
        unsafe { ptp_read_container(s.as_ptr(), s.len(), 0, out.as_mut_ptr(), out.len()) }
    }

    pub fn value(s: &[u8], code: u16, out: &mut [u64]) -> u64 {
        unsafe { ptp_value(s.as_ptr(), s.len(), 0, code, out.as_mut_ptr(), out.len()) }
    }

    pub fn next_value(s: &[u8], code: u16, at: usize, left: u16, out: &mut [u64]) -> u64 {
        unsafe { ptp_next_value(s.as_ptr(), s.len(), code, at, left, out.as_mut_ptr(), out.len()) }
    }

    pub fn list_numbers(s: &[u8], at: usize, code: u16, count: usize, out: &mut [u64]) -> u64 {
        unsafe { ptp_list_numbers(s.as_ptr(), s.len(), at, code, count, out.as_mut_ptr(), out.len()) }
    }

    pub fn copy_recording(s: &[u8], out: &mut [u8], left: &mut [u64]) -> u64 {
        unsafe { ptp_copy_recording(s.as_ptr(), s.len(), out.as_mut_ptr(), out.len(), left.as_mut_ptr(), left.len()) }
    }

    pub fn write_text(units: &[u16], out: &mut [u8]) -> u64 {
        unsafe { ptp_write_text(units.as_ptr(), units.len(), out.as_mut_ptr(), out.len()) }
    }

    pub fn write_container(kind: u16, code: u16, number: u32, payload: &[u8], out: &mut [u8]) -> u64 {
        unsafe { ptp_write_container(kind, code, number, payload.as_ptr(), payload.len(), out.as_mut_ptr(), out.len()) }
    }

    pub fn numbers(f: Numbers, s: &[u8], out: &mut [u64]) -> u64 {
        unsafe { f(s.as_ptr(), s.len(), out.as_mut_ptr(), out.len()) }
    }

    pub fn bytes(f: Bytes, s: &[u8], out: &mut [u8]) -> u64 {
        unsafe { f(s.as_ptr(), s.len(), out.as_mut_ptr(), out.len()) }
    }

    pub fn find_answer(s: &[u8], number: u32, out: &mut [u64]) -> u64 {
        unsafe { ptp_find_answer(s.as_ptr(), s.len(), number, out.as_mut_ptr(), out.len()) }
    }

    pub fn make_command(number: u32, code: u16, params: &[u32], out: &mut [u8]) -> u64 {
        let mut number = number;
        let mut end = 0;
        unsafe {
            ptp_command(&mut number, &mut end, code, params.as_ptr(), params.len(), out.as_ptr(), 0, false, out.as_mut_ptr(), out.len())
        }
    }

    pub fn set_value(number: u32, description: &[u8], code: u16, value: &[u8], out: &mut [u8]) -> u64 {
        let mut number = number;
        let mut end = 0;
        unsafe {
            ptp_set_value(false, &mut number, &mut end, description.as_ptr(), description.len(), code, value.as_ptr(), value.len(),
                          out.as_mut_ptr(), out.len())
        }
    }

    pub fn settings_find(row: &[u8], vendor: u32, property: u16, serial: &[u16], out: &mut [u64]) -> u64 {
        unsafe {
            ptp_settings_find(true, row.as_ptr(), row.len(), vendor, property, serial.as_ptr(), serial.len(), out.as_mut_ptr(), out.len())
        }
    }

    pub fn settings_store(row: &[u8], entry: &[u8], out: &mut [u8]) -> u64 {
        unsafe {
            ptp_settings_store(true, row.as_ptr(), row.len(), entry.as_ptr(), entry.len(), out.as_mut_ptr(), out.len())
        }
    }

    /// The words of a table, and of one that is changed, with its links.
    macro_rules! lent {
        ($function:ident, $table:ident, $pointer:ident $(, $more:expr)*) => {
            unsafe {
                $function($table.handles.$pointer(), $table.handles.len(), $table.parents.$pointer(), $table.parents.len(),
                          $table.ends.$pointer(), $table.ends.len(), $table.marks.$pointer(), $table.marks.len(), $table.count,
                          $table.names.$pointer(), $table.names.len() $(, $more)*)
            }
        };
    }

    macro_rules! linked {
        ($function:ident, $table:ident, $pointer:ident $(, $more:expr)*) => {
            lent!($function, $table, $pointer, $table.first.$pointer(), $table.first.len(), $table.next.$pointer(), $table.next.len() $(, $more)*)
        };
    }

    pub fn walk(table: &Table, places: &mut [u16]) -> u64 {
        lent!(ptp_walk, table, as_ptr, places.as_mut_ptr(), places.len())
    }

    pub fn folders(table: &Table, places: &mut [u16]) -> u64 {
        lent!(ptp_folders, table, as_ptr, places.as_mut_ptr(), places.len())
    }

    pub fn folder_paths(table: &Table, out: &mut [u8], ends: &mut [u32]) -> u64 {
        lent!(ptp_folder_paths, table, as_ptr, out.as_mut_ptr(), out.len(), ends.as_mut_ptr(), ends.len())
    }

    pub fn link(table: &mut Table) -> u64 {
        linked!(ptp_table_link, table, as_mut_ptr)
    }

    pub fn linked_walk(table: &Table, places: &mut [u16]) -> u64 {
        linked!(ptp_linked_walk, table, as_ptr, places.as_mut_ptr(), places.len())
    }

    pub fn linked_delete(table: &mut Table, place: usize) -> u64 {
        linked!(ptp_linked_delete, table, as_mut_ptr, place)
    }

    pub fn linked_add(table: &mut Table, new_places: &mut [u16], parent: usize, name: &[u8]) -> u64 {
        linked!(ptp_linked_add, table, as_mut_ptr, new_places.as_mut_ptr(), new_places.len(), parent, 7, name.as_ptr(), name.len())
    }

    pub fn to_network(s: &[u8], to_camera: bool, out: &mut [u8]) -> u64 {
        unsafe { ptp_to_network(s.as_ptr(), s.len(), to_camera, out.as_mut_ptr(), out.len()) }
    }

    pub fn from_network(s: &[u8], out: &mut [u8]) -> u64 {
        unsafe { ptp_from_network(s.as_ptr(), s.len(), out.as_mut_ptr(), out.len()) }
    }

    pub fn paths(table: &Table, out: &mut [u8], ends: &mut [u32]) -> u64 {
        lent!(ptp_paths, table, as_ptr, out.as_mut_ptr(), out.len(), ends.as_mut_ptr(), ends.len())
    }

    pub fn collect(table: &mut Table, new_places: &mut [u16]) -> u64 {
        lent!(ptp_table_collect, table, as_mut_ptr, new_places.as_mut_ptr(), new_places.len())
    }

    pub fn accepted(answer: u64) -> usize {
        assert!(answer as i64 >= 0, "refused with {}", -(answer as i64));
        answer as usize
    }
}
