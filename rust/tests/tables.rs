//! Object tables in lent lists: a refusal leaves them as they were, the exact need suffices, and nothing past what was given is touched.
use ptp_proved::{utf8_len, ObjectTable, ObjectTableMut, Refusal};

const KEPT: u8 = 0xA5;
const PLACES: usize = ObjectTable::PLACES;

// The places of objects; in those behind them stands what keeps no rule.
const fn list<T: Copy, const N: usize>(used: [T; N], rest: T) -> [T; PLACES] {
    let mut all = [rest; PLACES];
    let mut place = 0;
    while place < N {
        all[place] = used[place];
        place += 1;
    }
    all
}

const FOUR_LIVE: [u8; PLACES] = list([1, 1, 7, 255], 1);

// The root without a name, under it A and C, under A B.
const TABLE: ObjectTable = ObjectTable {
    handles: &list([1, 2, 3, 4], 9),
    parents: &list([0, 0, 1, 0], 9),
    ends: &list([1, 6, 11, 16], 9),
    marks: &FOUR_LIVE,
    count: 4,
    names: b"\x00\x02A\0\0\0\x02B\0\0\0\x02C\0\0\0",
};

#[test]
fn walk_needs_its_exact_room() {
    for room in 0..4 {
        let mut places = [9; 6];
        assert_eq!(TABLE.walk(&mut places[..room]), Err(Refusal::ROOM));
        assert_eq!(places, [9; 6]);
    }
    for room in [4, 6] {
        let mut places = [9; 6];
        assert_eq!(TABLE.walk(&mut places[..room]), Ok(&[0, 1, 3, 2][..]));
        assert_eq!(places[4..], [9, 9]);
    }
}

// As `paths` tells it.
fn need(table: &ObjectTable) -> usize {
    let mut lengths = vec![utf8_len(table.names, 0).unwrap().0];
    for place in 1..table.count {
        let above = lengths[table.parents[place] as usize];
        let (name, _) = utf8_len(table.names, table.ends[place - 1] as usize).unwrap();
        lengths.push(above + usize::from(above > 0) + name);
    }
    lengths.iter().zip(table.marks).filter(|(_, &mark)| mark != 0).map(|(length, _)| length).sum()
}

#[test]
fn the_need_of_paths_can_be_known() {
    // a root with a name, in it é, in that B
    let named = ObjectTable {
        handles: &list([1, 2, 3], 0),
        parents: &list([0, 0, 1], 0),
        ends: &list([5, 10, 15], 0),
        marks: &FOUR_LIVE,
        count: 3,
        names: b"\x02R\0\0\0\x02\xE9\0\0\0\x02B\0\0\0",
    };
    let two_live = ObjectTable { marks: &list([1, 0, 0, 1], 0), ..TABLE };
    for table in [TABLE, named, two_live] {
        let (mut out, mut ends) = ([KEPT; 16], [9; 4]);
        assert_eq!(table.paths(&mut out[..need(&table) - 1], &mut ends), Err(Refusal::ROOM));
        assert_eq!(table.paths(&mut out[..need(&table)], &mut ends).unwrap().bytes().len(), need(&table));
        let mut places = [9; 4];
        assert_eq!(table.placed_paths(&mut out[..need(&table) - 1], &mut ends, &mut places), Err(Refusal::ROOM));
        let placed = table.placed_paths(&mut out[..need(&table)], &mut ends, &mut places).unwrap();
        assert_eq!(placed.bytes().len(), need(&table));
    }
}

#[test]
fn paths_need_their_exact_room() {
    for (room, ends_room) in [(4, 4), (5, 3), (0, 0), (4, 3)] {
        let (mut out, mut ends) = ([KEPT; 8], [9; 6]);
        assert_eq!(TABLE.paths(&mut out[..room], &mut ends[..ends_room]), Err(Refusal::ROOM));
        assert_eq!((out, ends), ([KEPT; 8], [9; 6]));
    }
    for (room, ends_room) in [(5, 4), (8, 6)] {
        let (mut out, mut ends) = ([KEPT; 8], [9; 6]);
        let paths = TABLE.paths(&mut out[..room], &mut ends[..ends_room]).unwrap();
        assert!(paths.iter().eq(["", "A", "C", "A/B"]));
        assert_eq!(paths.get(4), None);
        assert_eq!((&out[5..], &ends[4..]), (&[KEPT; 3][..], &[9; 2][..]));
    }
}

#[test]
fn placed_paths_need_their_exact_room() {
    for (room, ends_room, places_room) in [(4, 4, 4), (5, 3, 4), (0, 0, 0), (4, 3, 4), (5, 4, 3), (8, 6, 0)] {
        let (mut out, mut ends, mut places) = ([KEPT; 8], [9; 6], [9; 6]);
        let (lent, lent_ends, lent_places) = (&mut out[..room], &mut ends[..ends_room], &mut places[..places_room]);
        assert_eq!(TABLE.placed_paths(lent, lent_ends, lent_places), Err(Refusal::ROOM));
        assert_eq!(TABLE.placed_folder_paths(lent, lent_ends, lent_places), Err(Refusal::ROOM));
        assert_eq!((out, ends, places), ([KEPT; 8], [9; 6], [9; 6]));
    }
    for (room, ends_room) in [(5, 4), (8, 6)] {
        let (mut out, mut ends, mut places) = ([KEPT; 8], [9; 6], [9; 6]);
        let placed = TABLE.placed_paths(&mut out[..room], &mut ends[..ends_room], &mut places[..ends_room]).unwrap();
        assert!(placed.iter().map(|(_, path)| path).eq(["", "A", "C", "A/B"]));
        assert!(placed.paths().iter().eq(["", "A", "C", "A/B"]));
        assert!(placed.iter().map(|(handle, _)| handle).eq(placed.places().iter().map(|&place| TABLE.handles[usize::from(place)])));
        assert_eq!((placed.get(4), placed.len(), placed.is_empty(), placed.ends().len()), (None, 4, false, 4));
        assert_eq!((&out[5..], &ends[4..], &places[4..]), (&[KEPT; 3][..], &[9; 2][..], &[9; 2][..]));
    }
}

#[test]
fn only_live_objects_are_walked() {
    let two_live = ObjectTable { marks: &list([1, 0, 0, 1], 1), ..TABLE };
    let (mut places, mut out, mut ends) = ([9; 3], [KEPT; 2], [9; 3]);
    assert_eq!(two_live.walk(&mut places[..1]), Err(Refusal::ROOM));
    assert_eq!(two_live.walk(&mut places), Ok(&[0, 3][..]));
    assert!(two_live.paths(&mut out, &mut ends).unwrap().iter().eq(["", "C"]));
    assert_eq!((places[2], out[1], ends[2]), (9, KEPT, 9));
    assert!(two_live.placed_paths(&mut out, &mut ends, &mut places).unwrap().iter().map(|(_, path)| path).eq(["", "C"]));
    assert_eq!((places[2], out[1], ends[2]), (9, KEPT, 9));
    for place in [1, 2, 4, 1024, usize::MAX] {
        assert_eq!(two_live.path(place, &mut out), Err(Refusal::PLACE));
    }
}

#[test]
fn a_table_that_breaks_its_rule_is_refused() {
    let long = [0; PLACES + 1];
    for table in [
        ObjectTable { handles: &[1, 2, 3, 4], ..TABLE },
        ObjectTable { parents: &TABLE.parents[..PLACES - 1], ..TABLE },
        ObjectTable { ends: &long, ..TABLE },
        ObjectTable { marks: &FOUR_LIVE[..4], ..TABLE },
        ObjectTable { count: 0, ..TABLE },
        ObjectTable { count: PLACES + 1, ..TABLE },
        ObjectTable { count: usize::MAX, ..TABLE },
        ObjectTable { count: 5, ..TABLE },
        ObjectTable { marks: &list([0, 0, 0, 0], 1), ..TABLE },
        ObjectTable { marks: &list([1, 0, 1, 1], 1), ..TABLE },
    ] {
        assert_eq!(table.walk(&mut [0; PLACES]), Err(Refusal::TABLE));
        assert_eq!(table.path(0, &mut [0; 8]), Err(Refusal::TABLE));
        assert_eq!(table.paths(&mut [0; 8], &mut [0; 4]), Err(Refusal::TABLE));
        assert_eq!(table.placed_paths(&mut [0; 8], &mut [0; 4], &mut [0; 4]), Err(Refusal::TABLE));
        assert_eq!(table.placed_paths(&mut [0; 8], &mut [0; 4], &mut []), Err(Refusal::TABLE));
    }
}

#[test]
fn refused_table_writes_nothing() {
    let late_parent = ObjectTable { parents: &list([0, 0, 3, 0], 0), ..TABLE };
    let short_names = ObjectTable { ends: &list([1, 6, 10, 16], 0), marks: &list([1, 1, 0, 1], 0), ..TABLE };
    for (table, why) in [(late_parent, Refusal::TABLE), (short_names, Refusal::END { at: 0 })] {
        let (mut out, mut ends, mut places) = ([KEPT; 8], [9; 4], [9; 4]);
        assert_eq!(table.paths(&mut out, &mut ends), Err(why));
        assert_eq!(table.placed_paths(&mut out, &mut ends, &mut places), Err(why));
        assert_eq!(table.walk(&mut places), Err(why));
        assert_eq!((out, ends, places), ([KEPT; 8], [9; 4], [9; 4]));
    }
}

// Lists of one's own, to be changed.
#[derive(Clone, PartialEq)]
struct Own {
    handles: Vec<u32>,
    parents: Vec<u16>,
    ends: Vec<u32>,
    marks: Vec<u8>,
    count: usize,
    names: Vec<u8>,
    new_places: Vec<u16>,
}

impl Own {
    fn of(table: ObjectTable) -> Own {
        Own {
            handles: table.handles.to_vec(),
            parents: table.parents.to_vec(),
            ends: table.ends.to_vec(),
            marks: table.marks.to_vec(),
            count: table.count,
            names: table.names.to_vec(),
            new_places: vec![9; PLACES],
        }
    }

    fn lent(&mut self) -> (ObjectTableMut<'_>, &mut [u16]) {
        let Own { handles, parents, ends, marks, count, names, new_places } = self;
        (ObjectTableMut { handles, parents, ends, marks, count, names }, new_places)
    }
}

#[test]
fn a_refused_change_changes_nothing() {
    let mut own = Own::of(ObjectTable { marks: &list([1, 0, 0, 1], 1), ..TABLE });
    let before = own.clone();
    let (mut table, new_places) = own.lent();
    for place in [0, 1, 2, 4, PLACES, usize::MAX] {
        assert_eq!(table.delete(place), Err(Refusal::PLACE));
    }
    for (parent, name, why) in [
        (1, &b"\x02D\0"[..], Refusal::PLACE),
        (4, b"\x00", Refusal::PLACE),
        (0, b"\x02D\0", Refusal::END { at: 0 }),
        (0, b"\x02\x00\xD8\0\0", Refusal::TEXT { at: 0 }),
        (0, b"\x02D\0\0\0\0", Refusal::TRAIL),
        (0, b"\x06D\0D\0D\0D\0D\0\0\0", Refusal::ROOM),
    ] {
        assert_eq!(table.add(parent, 7, name, new_places), Err(why));
    }
    assert_eq!(table.add(0, 7, b"\0", &mut new_places[1..]), Err(Refusal::TABLE));
    assert_eq!(table.collect(&mut new_places[1..]), Err(Refusal::TABLE));
    assert!(own == before);
}

#[test]
fn deleting_writes_marks_alone() {
    let (mut own, before) = (Own::of(TABLE), Own::of(TABLE));
    assert_eq!(own.lent().0.delete(1), Ok(()));
    assert_eq!(own.marks, list([1, 0, 0, 255], 1));
    assert!(Own { marks: before.marks.clone(), ..own } == before);
}

#[test]
fn collecting_keeps_what_is_behind() {
    let mut own = Own::of(ObjectTable { marks: &list([1, 0, 0, 255], 5), ..TABLE });
    let (mut table, new_places) = own.lent();
    assert_eq!(table.collect(new_places), Ok(&[0, ObjectTable::GONE, ObjectTable::GONE, 1][..]));
    assert_eq!((own.count, own.handles, own.parents), (2, list([1, 4, 3, 4], 9).to_vec(), list([0, 0, 1, 0], 9).to_vec()));
    assert_eq!((own.ends, own.marks), (list([1, 6, 11, 16], 9).to_vec(), list([1, 1, 0, 255], 5).to_vec()));
    assert_eq!(own.names, b"\x00\x02C\0\0\0\x02B\0\0\0\x02C\0\0\0");
    assert_eq!(own.new_places[4..], [9; PLACES - 4]);
}

#[test]
fn adding_collects_only_where_it_must() {
    let mut own = Own::of(ObjectTable { marks: &list([1, 0, 0, 1], 1), ..TABLE });
    own.names.push(KEPT);
    let (mut table, new_places) = own.lent();
    // one byte is left, which a name of none fills
    let added = table.add(3, 7, &[0], new_places).unwrap();
    assert_eq!((added.place, added.new_places, added.others_moved()), (4, &[0, 1, 2, 3][..], false));
    let added = table.add(4, 8, b"\x02D\0\0\0", new_places).unwrap();
    assert_eq!((added.place, added.new_places, added.others_moved()), (3, &[0, 65535, 65535, 1, 2][..], true));
    assert!(table.view().paths(&mut [0; 16], &mut [0; 4]).unwrap().iter().eq(["", "C", "C/", "C//D"]));
    let (mut out, mut ends, mut places) = ([0; 16], [0; 4], [0; 4]);
    let placed = table.view().placed_paths(&mut out, &mut ends, &mut places).unwrap();
    assert!(placed.iter().map(|(_, path)| path).eq(["", "C", "C/", "C//D"]));
}
