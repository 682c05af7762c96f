//! Objects deleted, collected and added in lists that are lent.
use crate::archive;
use crate::refusal::Refusal;
use crate::tree::ObjectTable;

/// The lists of an [`ObjectTable`], lent so that they can be changed. [`Objects`](crate::Objects) has such lists of its own, and is what most need.
///
/// A refused call changes nothing that was lent.
///
/// ```
/// use ptp_proved::{ObjectTable, ObjectTableMut, Refusal};
/// let (mut handles, mut parents, mut ends, mut marks, mut new_places) = ([0; 1024], [0; 1024], [0; 1024], [0; 1024], [0; 1024]);
/// // a root without a name, and room for one name of five bytes more
/// let (mut count, mut names) = (1, [0; 6]);
/// (ends[0], marks[0]) = (1, 1);
/// let mut table = ObjectTableMut {
///     handles: &mut handles,
///     parents: &mut parents,
///     ends: &mut ends,
///     marks: &mut marks,
///     count: &mut count,
///     names: &mut names,
/// };
/// assert_eq!(table.add(0, 7, b"\x02A\0\0\0", &mut new_places)?.place, 1);
/// assert_eq!(table.add(0, 8, b"\x02B\0\0\0", &mut new_places), Err(Refusal::ROOM));
/// table.delete(1)?;
/// assert_eq!(table.collect(&mut new_places)?, [0, ObjectTable::GONE]);
/// assert_eq!(*table.count, 1);
/// # Ok::<(), ptp_proved::Refusal>(())
/// ```
#[derive(Debug)]
pub struct ObjectTableMut<'a> {
    /// each object's handle
    pub handles: &'a mut [u32],
    /// the place of each object's parent
    pub parents: &'a mut [u16],
    /// where each name ends in `names`
    pub ends: &'a mut [u32],
    /// 0 for an object that is not live; for a live one 1 is written
    pub marks: &'a mut [u8],
    /// how many places are used
    pub count: &'a mut usize,
    /// the names, end to end, each a string; what is behind the last is room for more
    pub names: &'a mut [u8],
}

impl ObjectTableMut<'_> {
    /// The same lists, lent for reading.
    pub fn view(&self) -> ObjectTable<'_> {
        let ObjectTableMut { handles, parents, ends, marks, count, names } = self;
        ObjectTable { handles, parents, ends, marks, count: **count, names }
    }

    /// Ends an object and all that stand below it: their marks become 0, and nothing else changes. Refusals: those of
    /// [`ObjectTable::walk`] but ROOM; PLACE for the root, and for a place where no live object stands.
    pub fn delete(&mut self, place: usize) -> Result<(), Refusal> {
        archive::table_delete(self, place).map(drop)
    }

    /// Moves the live objects down in their order, and their names. It gives for each place that was used the new one,
    /// [`GONE`](ObjectTable::GONE) for none. What stands behind the new count and behind the last name stays. Refusals: those of the walk but
    /// ROOM; TABLE too where `new_places` has not 1,024 places.
    pub fn collect<'o>(&mut self, new_places: &'o mut [u16]) -> Result<&'o [u16], Refusal> {
        let used = *self.count;
        *self.count = archive::table_collect(self, new_places)?;
        Ok(&new_places[..used])
    }

    /// Adds an object below the one at `parent`; `name` is the bytes of one string. It collects first where no place is left at the end, or
    /// too few name bytes. Refusals: those of [`collect`](Self::collect); PLACE for a parent that is not live; END, TEXT, TRAIL of the name;
    /// TAKEN with 1,024 live objects; ROOM where the names of the live objects and the new one do not fit.
    pub fn add<'o>(&mut self, parent: usize, handle: u32, name: &[u8], new_places: &'o mut [u16]) -> Result<Added<'o>, Refusal> {
        let used = *self.count;
        let place = archive::table_add(self, new_places, parent, handle, name)?;
        *self.count = place + 1;
        Ok(Added { place, new_places: &new_places[..used] })
    }
}

/// Where an added object stands, and where the others do now.
///
/// ```
/// use ptp_proved::Objects;
/// let mut names = [0; 6];
/// let mut objects = Objects::new(1, &[0], &mut names)?;
/// let added = objects.add(0, 2, b"\x02A\0\0\0")?;
/// assert_eq!((added.place, added.new_places, added.others_moved()), (1, &[0][..], false));
/// objects.delete(1)?;
/// // the buffer is full: the name of what was deleted goes first
/// let added = objects.add(0, 3, b"\x02B\0\0\0")?;
/// assert_eq!((added.place, added.new_places, added.others_moved()), (1, &[0, 65535][..], true));
/// # Ok::<(), ptp_proved::Refusal>(())
/// ```
#[derive(Clone, Copy, Debug, PartialEq, Eq, Hash)]
pub struct Added<'o> {
    /// the object's place
    pub place: usize,
    /// for each place that was used before, the new one: its own where nothing moved, [`GONE`](ObjectTable::GONE) for none
    pub new_places: &'o [u16],
}

impl Added<'_> {
    /// Whether it collected first. Then a place that was kept elsewhere is to be looked up in `new_places`; else each is as it was.
    pub fn others_moved(&self) -> bool {
        // it collects only where an object has ended: then there are fewer places than before
        self.place < self.new_places.len()
    }
}
