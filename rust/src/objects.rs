//! An object table of one's own.
use crate::changes::{Added, ObjectTableMut};
use crate::links::{Links, LinksMut};
use crate::reader::PtpReader;
use crate::refusal::Refusal;
use crate::tree::{ObjectTable, Paths, PlacedPaths};
use core::fmt;

/// The objects of a card: up to 1,024 of them, with their names in bytes that are lent. It is 17 KB, and nothing is allocated.
///
/// An object is added below another one, and deleted with all that stand below it. What deleted objects had is used again: their places and
/// their name bytes. The objects that stay keep their handles and their paths; their places change only where it collects, and are told then.
///
/// ```
/// use ptp_proved::Objects;
/// let mut names = [0; 64];
/// let mut objects = Objects::new(0, &[0], &mut names)?; // the storage, without a name
/// let folder = objects.add(0, 7, b"\x02A\0\0\0")?.place;
/// let frame = objects.add(folder, 8, b"\x02B\0\0\0")?.place;
/// assert_eq!(objects.table().path(frame, &mut [0; 16])?, "A/B");
/// objects.delete(folder)?;
/// assert_eq!((objects.find(7), objects.find(8), objects.len()), (None, None, 1));
/// # Ok::<(), ptp_proved::Refusal>(())
/// ```
pub struct Objects<'n> {
    handles: [u32; ObjectTable::PLACES],
    parents: [u16; ObjectTable::PLACES],
    ends: [u32; ObjectTable::PLACES],
    marks: [u8; ObjectTable::PLACES],
    new_places: [u16; ObjectTable::PLACES],
    // the links of the table: what is asked and changed goes along them
    first: [u16; ObjectTable::PLACES],
    next: [u16; ObjectTable::PLACES],
    count: usize,
    names: &'n mut [u8],
}

// No table that is made here can be refused: `new` keeps its rule, each change is proved to keep it, and nothing else reaches the lists.
const KEPT: &str = "the table keeps its rule";

impl<'n> Objects<'n> {
    /// A root alone, at place 0. `name` is the bytes of one string, `&[0]` for none; `names` is the room for all names, 511 bytes for the
    /// longest. Refusals: END, TEXT, TRAIL of the name; ROOM.
    pub fn new(handle: u32, name: &[u8], names: &'n mut [u8]) -> Result<Objects<'n>, Refusal> {
        let mut reader = PtpReader::new(name);
        reader.read_ptp_str()?;
        reader.expect_end()?;
        names.get_mut(..name.len()).ok_or(Refusal::ROOM)?.copy_from_slice(name);
        let mut objects = Objects {
            handles: [0; ObjectTable::PLACES],
            parents: [0; ObjectTable::PLACES],
            ends: [0; ObjectTable::PLACES],
            marks: [0; ObjectTable::PLACES],
            new_places: [0; ObjectTable::PLACES],
            first: [0; ObjectTable::PLACES],
            next: [0; ObjectTable::PLACES],
            count: 1,
            names,
        };
        objects.handles[0] = handle;
        objects.ends[0] = name.len() as u32;
        objects.marks[0] = 1;
        Ok(objects)
    }

    /// Adds an object below the one at `parent`; `name` is the bytes of one string. It collects first where no place is left at the end, or
    /// too few name bytes: [`Added::others_moved`] tells. Refusals, which change nothing: PLACE for a parent that is not live; END, TEXT, TRAIL of
    /// the name; TAKEN with 1,024 live objects; ROOM where the names of the live objects and the new one do not fit.
    pub fn add(&mut self, parent: usize, handle: u32, name: &[u8]) -> Result<Added<'_>, Refusal> {
        let (mut table, mut links, new_places) = self.parts();
        table.linked_add(&mut links, parent, handle, name, new_places)
    }

    /// Deletes the object at a place, and all that stand below it. The others keep their places. Refusal, which changes nothing: PLACE for the
    /// root, and for a place where no live object stands.
    pub fn delete(&mut self, place: usize) -> Result<(), Refusal> {
        let (mut table, mut links, _) = self.parts();
        table.linked_delete(&mut links, place)
    }

    /// Moves the live objects down in their order, into the places and name bytes of deleted ones. It gives for each place that was used the
    /// new one, [`GONE`](ObjectTable::GONE) for none. [`add`](Self::add) does so itself where it must.
    pub fn collect(&mut self) -> &[u16] {
        let (mut table, mut links, new_places) = self.parts();
        table.linked_collect(&mut links, new_places).expect(KEPT)
    }

    /// The places of the objects in walk order: [`ObjectTable::walk`]. Refusal: ROOM.
    pub fn walk<'o>(&self, places: &'o mut [u16]) -> Result<&'o [u16], Refusal> {
        self.table().linked_walk(self.links(), places)
    }

    /// All paths in walk order: [`ObjectTable::paths`]. Refusal: ROOM for either output.
    pub fn paths<'o>(&self, out: &'o mut [u8], out_ends: &'o mut [u32]) -> Result<Paths<'o>, Refusal> {
        self.table().linked_paths(self.links(), out, out_ends)
    }

    /// The same with their handles: [`ObjectTable::placed_paths`]. Refusal: ROOM for any of the three.
    pub fn placed_paths<'o>(
        &'o self,
        out: &'o mut [u8],
        out_ends: &'o mut [u32],
        places: &'o mut [u16],
    ) -> Result<PlacedPaths<'o>, Refusal> {
        self.table().placed_linked_paths(self.links(), out, out_ends, places)
    }

    /// The places of the objects as a folder view: [`ObjectTable::folders`]. Refusal: ROOM.
    pub fn folders<'o>(&self, places: &'o mut [u16]) -> Result<&'o [u16], Refusal> {
        self.table().folders(places)
    }

    /// All paths of the folder view: [`ObjectTable::folder_paths`]. Refusal: ROOM for either output.
    pub fn folder_paths<'o>(&self, out: &'o mut [u8], out_ends: &'o mut [u32]) -> Result<Paths<'o>, Refusal> {
        self.table().folder_paths(out, out_ends)
    }

    /// The same with their handles: [`ObjectTable::placed_folder_paths`]. Refusal: ROOM for any of the three.
    pub fn placed_folder_paths<'o>(
        &'o self,
        out: &'o mut [u8],
        out_ends: &'o mut [u32],
        places: &'o mut [u16],
    ) -> Result<PlacedPaths<'o>, Refusal> {
        self.table().placed_folder_paths(out, out_ends, places)
    }

    /// The place of the live object of this handle; of several, the first.
    pub fn find(&self, handle: u32) -> Option<usize> {
        (0..self.count).find(|&place| self.marks[place] != 0 && self.handles[place] == handle)
    }

    /// How many objects are live: as many paths there are.
    #[allow(clippy::len_without_is_empty)] // the root is always there
    pub fn len(&self) -> usize {
        self.table().live_count()
    }

    /// The lists, for the walk and the paths.
    pub fn table(&self) -> ObjectTable<'_> {
        let Objects { handles, parents, ends, marks, count, names, .. } = self;
        ObjectTable { handles, parents, ends, marks, count: *count, names }
    }

    fn links(&self) -> Links<'_> {
        Links { first: &self.first, next: &self.next }
    }

    fn parts(&mut self) -> (ObjectTableMut<'_>, LinksMut<'_>, &mut [u16]) {
        let Objects { handles, parents, ends, marks, new_places, first, next, count, names } = self;
        (ObjectTableMut { handles, parents, ends, marks, count, names }, LinksMut { first, next }, new_places)
    }
}

/// What the used places hold, and how much room there is for names in all.
impl fmt::Debug for Objects<'_> {
    fn fmt(&self, f: &mut fmt::Formatter<'_>) -> fmt::Result {
        f.debug_struct("Objects")
            .field("handles", &&self.handles[..self.count])
            .field("parents", &&self.parents[..self.count])
            .field("ends", &&self.ends[..self.count])
            .field("marks", &&self.marks[..self.count])
            .field("names", &&self.names[..self.ends[self.count - 1] as usize])
            .field("room", &self.names.len())
            .finish()
    }
}
