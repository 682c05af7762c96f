//! Object tables.
use super::{show, words};
use ptp_proved::{Links, LinksMut, ObjectTable, ObjectTableMut, Paths, PlacedPaths, Refusal};

// A list that is only written holds this before.
const FILLED: u16 = 0xA5A5;
const FILLED_END: u32 = 0xA5A5_A5A5;

struct Table {
    handles: Vec<u32>,
    parents: Vec<u16>,
    ends: Vec<u32>,
    marks: Vec<u8>,
    count: usize,
    names: Vec<u8>,
    new_places: [u16; ObjectTable::PLACES],
}

impl Table {
    fn read(words: &[&str]) -> Option<Table> {
        match words {
            [handles, parents, ends, marks, count, names] => Some(Table {
                handles: words::list(handles, words::half)?,
                parents: words::list(parents, words::short)?,
                ends: words::list(ends, words::half)?,
                marks: words::list(marks, words::byte)?,
                count: words::size(count)?,
                names: words::bytes(names)?,
                new_places: [FILLED; ObjectTable::PLACES],
            }),
            _ => None,
        }
    }

    fn lent(&mut self) -> (ObjectTableMut<'_>, &mut [u16]) {
        let Table { handles, parents, ends, marks, count, names, new_places } = self;
        (ObjectTableMut { handles, parents, ends, marks, count, names }, new_places)
    }

    // What a change answers, and then all that was lent to it.
    fn changed(&self, answer: Result<usize, Refusal>) -> String {
        let lists = [show::runs(&self.handles), show::runs(&self.parents), show::runs(&self.ends), show::runs(&self.marks)];
        format!("{} {} {} {}", counted(answer), lists.join(" "), show::bytes(&self.names), show::runs(&self.new_places))
    }
}

/// The links of a table that keeps them.
struct Kept {
    first: Vec<u16>,
    next: Vec<u16>,
}

impl Kept {
    fn read(words: &[&str]) -> Option<Kept> {
        match words {
            [first, next] => Some(Kept { first: words::list(first, words::short)?, next: words::list(next, words::short)? }),
            _ => None,
        }
    }

    fn filled() -> Kept {
        Kept { first: vec![FILLED; ObjectTable::PLACES], next: vec![FILLED; ObjectTable::PLACES] }
    }

    fn lent(&mut self) -> LinksMut<'_> {
        LinksMut { first: &mut self.first, next: &mut self.next }
    }

    fn view(&self) -> Links<'_> {
        Links { first: &self.first, next: &self.next }
    }

    fn show(&self) -> String {
        format!("{} {}", show::runs(&self.first), show::runs(&self.next))
    }
}

/// Of the questions whose first six words are a table.
pub fn answer(kind: &str, words: &[&str]) -> Option<String> {
    let mut table = Table::read(words.get(..6)?)?;
    match (kind, &words[6..]) {
        ("walk", []) => Some(places(|out| table.lent().0.view().walk(out).map(<[u16]>::len))),
        ("folders", []) => Some(places(|out| table.lent().0.view().folders(out).map(<[u16]>::len))),
        ("path", [place, room]) => path(table.lent().0.view(), place, room),
        ("paths", [room]) => {
            let line = paths(room, |out, ends| told(table.lent().0.view().paths(out, ends)));
            same(line, paths(room, |out, ends| placed(table.lent().0.view().placed_paths(out, ends, &mut all_places()))))
        }
        ("folder-paths", [room]) => {
            let line = paths(room, |out, ends| told(table.lent().0.view().folder_paths(out, ends)));
            same(line, paths(room, |out, ends| placed(table.lent().0.view().placed_folder_paths(out, ends, &mut all_places()))))
        }
        ("delete", [place]) => delete(table, place, None),
        ("collect", []) => Some(collect(table, None)),
        ("add", [parent, handle, name]) => add(table, parent, handle, name, None),
        ("link", []) => Some(link(table)),
        (_, [first, next, more @ ..]) => linked(kind, table, Kept::read(&[first, next])?, more),
        _ => None,
    }
}

// Of those whose next two are its links.
fn linked(kind: &str, mut table: Table, kept: Kept, more: &[&str]) -> Option<String> {
    match (kind, more) {
        ("linked-walk", []) => Some(places(|out| table.lent().0.view().linked_walk(kept.view(), out).map(<[u16]>::len))),
        ("linked-paths", [room]) => {
            let line = paths(room, |out, ends| told(table.lent().0.view().linked_paths(kept.view(), out, ends)));
            let links = kept.view();
            let placed_line =
                paths(room, |out, ends| placed(table.lent().0.view().placed_linked_paths(links, out, ends, &mut all_places())));
            same(line, placed_line)
        }
        ("linked-delete", [place]) => delete(table, place, Some(kept)),
        ("linked-collect", []) => Some(collect(table, Some(kept))),
        ("linked-add", [parent, handle, name]) => add(table, parent, handle, name, Some(kept)),
        _ => None,
    }
}

fn counted(answer: Result<usize, Refusal>) -> String {
    answer.map_or_else(show::refusal, |count| format!("ok {count}"))
}

// An answer's line, and the links behind it where the table keeps them.
fn with_links(line: String, kept: Option<Kept>) -> String {
    kept.map_or(line.clone(), |kept| format!("{line} {}", kept.show()))
}

fn link(mut table: Table) -> String {
    let mut kept = Kept::filled();
    let answer = table.lent().0.view().link(&mut kept.lent());
    let word = answer.map_or_else(show::refusal, |()| "ok".into());
    format!("{word} {}", kept.show())
}

fn places(mut list: impl FnMut(&mut [u16]) -> Result<usize, Refusal>) -> String {
    let mut places = [FILLED; ObjectTable::PLACES];
    match list(&mut places) {
        Ok(count) => {
            assert!(places[count..].iter().all(|&place| place == FILLED), "a place too many");
            format!("ok {}", show::numbers(&places[..count]))
        }
        Err(why) => {
            assert_eq!(places, [FILLED; ObjectTable::PLACES], "a refused list was written");
            show::refusal(why)
        }
    }
}

fn path(table: ObjectTable, place: &str, room: &str) -> Option<String> {
    let (place, mut out) = (words::size(place)?, words::room(room)?);
    let answer = table.path(place, &mut out).map(str::len);
    Some(format!("{} {}", counted(answer), show::bytes(&out)))
}

// How many bytes, and how many paths.
fn told(answer: Result<Paths, Refusal>) -> Result<(usize, usize), Refusal> {
    answer.map(|paths| {
        let all: String = paths.iter().collect();
        assert_eq!(all.as_bytes(), paths.bytes());
        (paths.bytes().len(), paths.len())
    })
}

// The same of the paths with their handles.
fn placed(answer: Result<PlacedPaths, Refusal>) -> Result<(usize, usize), Refusal> {
    answer.map(|paths| {
        assert!(paths.iter().map(|(_, path)| path).eq(paths.paths().iter()));
        assert_eq!(paths.places().len(), paths.len());
        (paths.bytes().len(), paths.len())
    })
}

fn all_places() -> [u16; ObjectTable::PLACES] {
    [0; ObjectTable::PLACES]
}

// One question, answered in two ways.
fn same(line: Option<String>, other: Option<String>) -> Option<String> {
    assert_eq!(line, other);
    line
}

fn paths(room: &str, mut list: impl FnMut(&mut [u8], &mut [u32]) -> Result<(usize, usize), Refusal>) -> Option<String> {
    let (mut out, mut ends) = (words::room(room)?, [FILLED_END; ObjectTable::PLACES]);
    let answer = list(&mut out, &mut ends);
    let told = answer.map_or(0, |(_, told)| told);
    assert!(ends[told..].iter().all(|&end| end == FILLED_END), "an end too many");
    let line = format!("{} {}", counted(answer.map(|(count, _)| count)), show::bytes(&out));
    Some(if answer.is_ok() { format!("{line} {}", show::runs(&ends)) } else { line })
}

fn delete(mut table: Table, place: &str, mut kept: Option<Kept>) -> Option<String> {
    let place = words::size(place)?;
    let (mut lent, _) = table.lent();
    let answer = match &mut kept {
        Some(kept) => lent.linked_delete(&mut kept.lent(), place),
        None => lent.delete(place),
    };
    let word = answer.map_or_else(show::refusal, |()| "ok".into());
    Some(with_links(format!("{word} {}", show::runs(&table.marks)), kept))
}

fn collect(mut table: Table, mut kept: Option<Kept>) -> String {
    let used = table.count;
    let (mut lent, new_places) = table.lent();
    let answer = match &mut kept {
        Some(kept) => lent.linked_collect(&mut kept.lent(), new_places),
        None => lent.collect(new_places),
    };
    let answer = answer.map(<[u16]>::len);
    assert_eq!(answer.unwrap_or(used), used, "a new place for each that was used");
    let count = table.count;
    with_links(table.changed(answer.map(|_| count)), kept)
}

fn add(mut table: Table, parent: &str, handle: &str, name: &str, mut kept: Option<Kept>) -> Option<String> {
    let (parent, handle, name) = (words::size(parent)?, words::half(handle)?, words::bytes(name)?);
    let used = table.count;
    let (mut lent, new_places) = table.lent();
    let answer = match &mut kept {
        Some(kept) => lent.linked_add(&mut kept.lent(), parent, handle, &name, new_places),
        None => lent.add(parent, handle, &name, new_places),
    };
    let answer = answer.map(|added| {
        let own_places = (0..used).all(|place| added.new_places[place] as usize == place);
        assert_eq!((added.new_places.len(), added.others_moved()), (used, !own_places));
        added.place
    });
    assert_eq!(table.count, answer.map_or(used, |place| place + 1));
    Some(with_links(table.changed(answer), kept))
}
