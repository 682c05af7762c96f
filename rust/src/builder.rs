//! From object records to paths: a table made of records that come in any order. Plain Rust; each order and each path is a proved call's.
use crate::dataset::PtpObjectInfo;
use crate::reader::PtpReader;
use crate::refusal::Refusal;
use crate::text::utf8_len;
use crate::tree::ObjectTable;
use crate::value::PtpDataType;
use alloc::collections::BTreeMap;
use alloc::string::String;
use alloc::vec;
use alloc::vec::Vec;
use core::fmt;

struct Object {
    handle: u32,
    parent: u32,
    name: Vec<u8>,
}

/// Gathers object records as they come, a child before its parent too, and makes their table.
///
/// ```
/// use ptp_proved::TableBuilder;
/// let mut builder = TableBuilder::new();
/// builder.add(8, 7, b"\x02B\0\0\0")?; // B in A, which comes later
/// builder.add(7, 0, b"\x02A\0\0\0")?;
/// let table = builder.build().unwrap();
/// assert_eq!(table.paths(), [(0, "".into()), (7, "A".into()), (8, "A/B".into())]);
/// # Ok::<(), ptp_proved::Refusal>(())
/// ```
pub struct TableBuilder {
    // the root first
    objects: Vec<Object>,
}

/// Why no table was made. Objects are told by their handles.
#[derive(Clone, Debug, PartialEq, Eq)]
pub enum Unbuilt {
    /// There are so many objects, and a table holds 1,023 beside its root: make one for each storage, or for each folder.
    TooMany(usize),
    /// Two records have this handle, or one has the root's.
    Twice(u32),
    /// Some objects are below no root: these name a parent that no record is of, and these stand on a circle of parents.
    Apart {
        /// those whose parent is missing
        orphans: Vec<u32>,
        /// those that are their own ancestors
        circles: Vec<u32>,
    },
}

impl fmt::Display for Unbuilt {
    fn fmt(&self, f: &mut fmt::Formatter<'_>) -> fmt::Result {
        match self {
            Unbuilt::TooMany(count) => {
                write!(f, "{count} objects, and a table holds 1,023: make one for each storage, or for each folder")
            }
            Unbuilt::Twice(handle) => write!(f, "handle {handle} is there twice"),
            Unbuilt::Apart { orphans, circles } => write!(f, "no parent for {orphans:?}; circles of parents: {circles:?}"),
        }
    }
}

impl Default for TableBuilder {
    fn default() -> Self {
        TableBuilder::new()
    }
}

impl TableBuilder {
    /// With a root of its own: handle 0, which objects name that stand in no folder, and no name.
    pub fn new() -> Self {
        TableBuilder { objects: vec![Object { handle: 0, parent: 0, name: vec![0] }] }
    }

    /// With a folder as the root; `name` is the bytes of one string, which may be the folder's path. Refusals: END, TEXT, TRAIL.
    pub fn rooted(handle: u32, name: &[u8]) -> Result<Self, Refusal> {
        check_name(name)?;
        Ok(TableBuilder { objects: vec![Object { handle, parent: handle, name: name.to_vec() }] })
    }

    /// An object: its handle, its parent's, and the bytes of one string for its name. Refusals: END, TEXT, TRAIL.
    pub fn add(&mut self, handle: u32, parent: u32, name: &[u8]) -> Result<(), Refusal> {
        check_name(name)?;
        self.objects.push(Object { handle, parent, name: name.to_vec() });
        Ok(())
    }

    /// The same of an object record, which does not tell its own handle.
    pub fn add_info(&mut self, handle: u32, info: &PtpObjectInfo<'_>) -> Result<(), Refusal> {
        self.add(handle, info.ParentObject, &PtpDataType::STR(info.Filename).to_vec())
    }

    /// The table: level by level, those of one folder in the order in which they came.
    pub fn build(&self) -> Result<OwnedTable, Unbuilt> {
        if self.objects.len() > ObjectTable::PLACES {
            return Err(Unbuilt::TooMany(self.objects.len() - 1));
        }
        let mut numbers = BTreeMap::new();
        for (number, object) in self.objects.iter().enumerate() {
            if numbers.insert(object.handle, number).is_some() {
                return Err(Unbuilt::Twice(object.handle));
            }
        }
        let parents: Vec<Option<usize>> = self.objects.iter().map(|object| numbers.get(&object.parent).copied()).collect();
        let order = in_levels(&parents);
        if order.len() < self.objects.len() {
            return Err(self.apart(&parents));
        }
        Ok(self.lay_out(&order, &parents))
    }

    fn lay_out(&self, order: &[usize], parents: &[Option<usize>]) -> OwnedTable {
        let mut places = vec![0; order.len()];
        let mut table = OwnedTable::empty();
        for (place, &number) in order.iter().enumerate() {
            places[number] = place;
            table.handles[place] = self.objects[number].handle;
            // a parent's place stands before its children's
            table.parents[place] = parents[number].map_or(0, |parent| places[parent]) as u16;
            table.names.extend_from_slice(&self.objects[number].name);
            table.ends[place] = table.names.len() as u32;
            table.marks[place] = 1;
        }
        table.count = order.len();
        table
    }

    // Who has no parent, and who stands on a circle: after as many steps as there are objects a way up is on one, or it has ended.
    fn apart(&self, parents: &[Option<usize>]) -> Unbuilt {
        let up = |number: usize| if number == 0 { None } else { parents[number] };
        let handles = |wanted: &dyn Fn(usize) -> bool| {
            (1..parents.len()).filter(|&number| wanted(number)).map(|number| self.objects[number].handle).collect()
        };
        Unbuilt::Apart {
            orphans: handles(&|number| parents[number].is_none()),
            circles: handles(&|number| {
                let mut way = core::iter::successors(up(number), |&above| up(above)).take(parents.len());
                way.any(|above| above == number)
            }),
        }
    }
}

fn check_name(name: &[u8]) -> Result<(), Refusal> {
    let mut reader = PtpReader::new(name);
    reader.read_ptp_str()?;
    reader.expect_end()
}

// The numbers of those below the root, the first, level by level.
fn in_levels(parents: &[Option<usize>]) -> Vec<usize> {
    let mut children = vec![Vec::new(); parents.len()];
    for (number, parent) in parents.iter().enumerate().skip(1) {
        if let Some(parent) = *parent {
            children[parent].push(number);
        }
    }
    let (mut order, mut next) = (vec![0], 0);
    while next < order.len() {
        order.extend_from_slice(&children[order[next]]);
        next += 1;
    }
    order
}

/// A table that [`TableBuilder`] made.
#[derive(Clone, Debug, PartialEq, Eq)]
pub struct OwnedTable {
    handles: Vec<u32>,
    parents: Vec<u16>,
    ends: Vec<u32>,
    marks: Vec<u8>,
    count: usize,
    names: Vec<u8>,
}

// Its names were read, and each parent stands before its children.
const KEPT: &str = "the table keeps its rule, and this is room for it";

impl OwnedTable {
    fn empty() -> Self {
        let places = ObjectTable::PLACES;
        OwnedTable {
            handles: vec![0; places],
            parents: vec![0; places],
            ends: vec![0; places],
            marks: vec![0; places],
            count: 0,
            names: vec![],
        }
    }

    /// The lists.
    pub fn table(&self) -> ObjectTable<'_> {
        let OwnedTable { handles, parents, ends, marks, count, names } = self;
        ObjectTable { handles, parents, ends, marks, count: *count, names }
    }

    /// Every object's handle and path, in walk order: by depth.
    pub fn paths(&self) -> Vec<(u32, String)> {
        let (mut out, mut ends, mut places) = self.room();
        let paths = self.table().placed_paths(&mut out, &mut ends, &mut places).expect(KEPT);
        paths.iter().map(|(handle, path)| (handle, path.into())).collect()
    }

    /// The same as a folder view: each folder, then all below it, before the next one at its level.
    pub fn folder_paths(&self) -> Vec<(u32, String)> {
        let (mut out, mut ends, mut places) = self.room();
        let paths = self.table().placed_folder_paths(&mut out, &mut ends, &mut places).expect(KEPT);
        paths.iter().map(|(handle, path)| (handle, path.into())).collect()
    }

    // For all paths, a slash for each object, and their ends and places.
    fn room(&self) -> (Vec<u8>, Vec<u32>, Vec<u16>) {
        let (mut lengths, mut start, mut total) = (vec![0; self.count], 0, 0);
        for place in 0..self.count {
            let (length, next) = utf8_len(&self.names, start).expect(KEPT);
            let above = if place == 0 { 0 } else { lengths[self.parents[place] as usize] + 1 };
            lengths[place] = above + length;
            total += lengths[place];
            start = next;
        }
        (vec![0; total], vec![0; self.count], vec![0; self.count])
    }
}
