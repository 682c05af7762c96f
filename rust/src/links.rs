//! Tables that keep their links.
use crate::archive;
use crate::changes::{Added, ObjectTableMut};
use crate::refusal::Refusal;
use crate::tree::{ObjectTable, Paths, PlacedPaths};

/// The links of an [`ObjectTable`]: two lists of 1,024 places. Of a live place `first` is its lowest live child, `next` the next higher live place
/// with the same parent; 0 is none. All else is 0, so a table has one pair of links. [`Objects`](crate::Objects) keeps them by itself.
///
/// ```
/// use ptp_proved::{Links, LinksMut, Objects, Refusal};
/// let (mut names, mut first, mut next, mut places) = ([0; 64], [0; 1024], [0; 1024], [0; 2]);
/// let mut objects = Objects::new(0, &[0], &mut names)?;
/// objects.add(0, 7, b"\x02A\0\0\0")?;
/// objects.table().link(&mut LinksMut { first: &mut first, next: &mut next })?;
/// assert_eq!((first[0], next[1]), (1, 0));
/// assert_eq!(objects.table().linked_walk(Links { first: &first, next: &next }, &mut places)?, [0, 1]);
/// next[1] = 1;
/// assert_eq!(objects.table().linked_walk(Links { first: &first, next: &next }, &mut places), Err(Refusal::TABLE));
/// # Ok::<(), ptp_proved::Refusal>(())
/// ```
#[derive(Clone, Copy, Debug)]
pub struct Links<'a> {
    /// each place's first child
    pub first: &'a [u16],
    /// each place's next sibling
    pub next: &'a [u16],
}

/// The same lists, lent so that they can be changed.
#[derive(Debug)]
pub struct LinksMut<'a> {
    /// each place's first child
    pub first: &'a mut [u16],
    /// each place's next sibling
    pub next: &'a mut [u16],
}

impl<'a> ObjectTable<'a> {
    /// Writes the table's links. Refusals, which change nothing: those of the walk but ROOM; TABLE too where a list of links has not 1,024 places.
    pub fn link(&self, links: &mut LinksMut<'_>) -> Result<(), Refusal> {
        archive::table_link(self, links).map(drop)
    }

    /// As [`walk`](Self::walk), along the links. Refusal too: TABLE where they are not the table's own.
    pub fn linked_walk<'o>(&self, links: Links<'_>, places: &'o mut [u16]) -> Result<&'o [u16], Refusal> {
        let count = archive::linked_walk(self, links, places)?;
        Ok(&places[..count])
    }

    /// As [`paths`](Self::paths), along the links. Refusal too: TABLE where they are not the table's own.
    pub fn linked_paths<'o>(&self, links: Links<'_>, out: &'o mut [u8], out_ends: &'o mut [u32]) -> Result<Paths<'o>, Refusal> {
        let count = archive::linked_paths(self, links, out, out_ends)?;
        Ok(Paths::new(&out[..count], &out_ends[..self.live_count()]))
    }

    /// As [`placed_paths`](Self::placed_paths), along the links. Refusal too: TABLE where they are not the table's own.
    pub fn placed_linked_paths<'o>(
        &self,
        links: Links<'_>,
        out: &'o mut [u8],
        out_ends: &'o mut [u32],
        places: &'o mut [u16],
    ) -> Result<PlacedPaths<'o>, Refusal>
    where
        'a: 'o,
    {
        let orders = (
            |places: &mut [u16]| archive::linked_walk(self, links, places),
            |out: &mut [u8], ends: &mut [u32]| archive::linked_paths(self, links, out, ends),
        );
        self.placed_in(orders, out, out_ends, places)
    }
}

/// Each change leaves the links of the table that it leaves. Refusal too: TABLE where they are not the table's own; then they stay as they are.
impl ObjectTableMut<'_> {
    /// As [`delete`](Self::delete), down the links.
    pub fn linked_delete(&mut self, links: &mut LinksMut<'_>, place: usize) -> Result<(), Refusal> {
        archive::linked_delete(self, links, place).map(drop)
    }

    /// As [`collect`](Self::collect), the links carried along.
    pub fn linked_collect<'o>(&mut self, links: &mut LinksMut<'_>, new_places: &'o mut [u16]) -> Result<&'o [u16], Refusal> {
        let used = *self.count;
        *self.count = archive::linked_collect(self, links, new_places)?;
        Ok(&new_places[..used])
    }

    /// As [`add`](Self::add): the new object is the last of its parent's chain.
    pub fn linked_add<'o>(
        &mut self,
        links: &mut LinksMut<'_>,
        parent: usize,
        handle: u32,
        name: &[u8],
        new_places: &'o mut [u16],
    ) -> Result<Added<'o>, Refusal> {
        let used = *self.count;
        let place = archive::linked_add(self, links, new_places, parent, handle, name)?;
        *self.count = place + 1;
        Ok(Added { place, new_places: &new_places[..used] })
    }
}
