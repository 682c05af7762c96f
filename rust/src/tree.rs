//! The walk of an object table, and its paths.
use crate::archive;
use crate::refusal::Refusal;

/// One to 1,024 objects in lists that are lent: handles, parents' places, live marks, and names end to end with the end of each.
///
/// Each list has 1,024 places, and `count` says how many are used; the others are not looked at. Place 0 is the root, with parent entry 0;
/// every other parent entry is smaller than its own place. The root is live, and so is the parent of each live object. Each name is wholly
/// one string, also that of an object that is not live. [`Objects`](crate::Objects) makes and keeps such lists.
///
/// ```
/// use ptp_proved::ObjectTable;
/// // a root without a name, in it A, in that B
/// let (mut parents, mut ends, mut marks) = ([0; 1024], [0; 1024], [0; 1024]);
/// parents[2] = 1;
/// ends[..3].copy_from_slice(&[1, 6, 11]);
/// marks[..3].fill(1);
/// let names = b"\0\x02A\0\0\0\x02B\0\0\0";
/// let table = ObjectTable { handles: &[7; 1024], parents: &parents, ends: &ends, marks: &marks, count: 3, names };
/// assert_eq!(table.path(2, &mut [0; 16])?, "A/B");
/// assert_eq!(table.walk(&mut [0; 3])?, [0, 1, 2]);
/// # Ok::<(), ptp_proved::Refusal>(())
/// ```
#[derive(Clone, Copy, Debug, PartialEq, Eq, Hash)]
pub struct ObjectTable<'a> {
    /// each object's handle
    pub handles: &'a [u32],
    /// the place of each object's parent
    pub parents: &'a [u16],
    /// where each name ends in `names`
    pub ends: &'a [u32],
    /// 0 for an object that is not live
    pub marks: &'a [u8],
    /// how many places are used
    pub count: usize,
    /// the names, end to end, each a string; bytes may follow the last
    pub names: &'a [u8],
}

impl<'a> ObjectTable<'a> {
    /// How many places each list has.
    pub const PLACES: usize = 1024;

    /// The new place of an object that has none, since it was not live.
    pub const GONE: u16 = 65_535;

    /// The places of the live objects in walk order: by depth, then by the places from the root down. It needs room for as many as there
    /// are. Refusals: TABLE; then name by name END, TEXT, TRAIL; then ROOM.
    pub fn walk<'o>(&self, places: &'o mut [u16]) -> Result<&'o [u16], Refusal> {
        let count = archive::walk(self, places)?;
        Ok(&places[..count])
    }

    /// The path of one place. It checks the whole table: for all paths ask [`paths`](Self::paths). Refusals: those of the walk but ROOM; PLACE
    /// where no live object stands; ROOM.
    pub fn path<'o>(&self, place: usize, out: &'o mut [u8]) -> Result<&'o str, Refusal> {
        let count = archive::path(self, place, out)?;
        Ok(core::str::from_utf8(&out[..count]).expect("a path is UTF-8"))
    }

    /// The paths of all live objects in walk order, end to end, and the end of each. Refusals: those of the walk, then ROOM for either output.
    ///
    /// It is refused for ROOM only after the walk. The exact need can be known before: an end for each live object; the root's path is as long
    /// as its name by [`utf8_len`](crate::utf8_len), any other as its parent's, a slash where that is not empty, and its name.
    ///
    /// Names go into paths as they are: see [`PtpString::is_plain`](crate::PtpString::is_plain).
    pub fn paths<'o>(&self, out: &'o mut [u8], out_ends: &'o mut [u32]) -> Result<Paths<'o>, Refusal> {
        let count = archive::paths(self, out, out_ends)?;
        Ok(Paths::new(&out[..count], &out_ends[..self.live_count()]))
    }

    /// The same paths, each with its handle: `places` takes the place of the object whose path it is. It needs room for as many as there are
    /// ends. Refusals: those of the walk, then ROOM for any of the three.
    pub fn placed_paths<'o>(
        &self,
        out: &'o mut [u8],
        out_ends: &'o mut [u32],
        places: &'o mut [u16],
    ) -> Result<PlacedPaths<'o>, Refusal>
    where
        'a: 'o,
    {
        let orders =
            (|places: &mut [u16]| archive::walk(self, places), |out: &mut [u8], ends: &mut [u32]| archive::paths(self, out, ends));
        self.placed_in(orders, out, out_ends, places)
    }

    /// The places of the live objects as a folder view: each folder, then all below it, before the next one at its level; siblings in rising
    /// places. They are the walk's, in another order. How deep a place is shown is the number of its parents. Refusals: those of the walk. A chain
    /// of 1,024 objects takes 126,000 bytes of stack.
    pub fn folders<'o>(&self, places: &'o mut [u16]) -> Result<&'o [u16], Refusal> {
        let count = archive::folders(self, places)?;
        Ok(&places[..count])
    }

    /// The paths of all live objects in that order: the same paths as [`paths`](Self::paths), which need the same room. Refusals: those of `paths`.
    pub fn folder_paths<'o>(&self, out: &'o mut [u8], out_ends: &'o mut [u32]) -> Result<Paths<'o>, Refusal> {
        let count = archive::folder_paths(self, out, out_ends)?;
        Ok(Paths::new(&out[..count], &out_ends[..self.live_count()]))
    }

    /// The same paths, each with its handle, as [`placed_paths`](Self::placed_paths) gives them. Refusals: those of `placed_paths`.
    pub fn placed_folder_paths<'o>(
        &self,
        out: &'o mut [u8],
        out_ends: &'o mut [u32],
        places: &'o mut [u16],
    ) -> Result<PlacedPaths<'o>, Refusal>
    where
        'a: 'o,
    {
        let orders = (
            |places: &mut [u16]| archive::folders(self, places),
            |out: &mut [u8], ends: &mut [u32]| archive::folder_paths(self, out, ends),
        );
        self.placed_in(orders, out, out_ends, places)
    }

    // By the two calls of one order. With too few places the first refuses, before anything is written.
    pub(crate) fn placed_in<'o>(
        &self,
        (places_of, paths_of): (
            impl Fn(&mut [u16]) -> Result<usize, Refusal>,
            impl Fn(&mut [u8], &mut [u32]) -> Result<usize, Refusal>,
        ),
        out: &'o mut [u8],
        out_ends: &'o mut [u32],
        places: &'o mut [u16],
    ) -> Result<PlacedPaths<'o>, Refusal>
    where
        'a: 'o,
    {
        if places.len() < self.live_count() {
            places_of(places)?;
        }
        let length = paths_of(out, out_ends)?;
        let count = places_of(places)?;
        Ok(PlacedPaths { paths: Paths::new(&out[..length], &out_ends[..count]), places: &places[..count], handles: self.handles })
    }

    // Of the places that are used.
    pub(crate) fn live_count(&self) -> usize {
        self.marks.iter().take(self.count).filter(|&&mark| mark != 0).count()
    }
}

/// The paths of an object table, in the order of its walk or of its folder view.
///
/// ```
/// use ptp_proved::Objects;
/// let (mut names, mut out, mut ends) = ([0; 6], [0; 16], [0; 2]);
/// let mut objects = Objects::new(1, &[0], &mut names)?;
/// objects.add(0, 2, b"\x02A\0\0\0")?;
/// let paths = objects.table().paths(&mut out, &mut ends)?;
/// assert_eq!((paths.len(), paths.get(1), paths.get(2)), (2, Some("A"), None));
/// # Ok::<(), ptp_proved::Refusal>(())
/// ```
#[derive(Clone, Copy, Debug, PartialEq, Eq, Hash)]
pub struct Paths<'o> {
    bytes: &'o [u8],
    ends: &'o [u32],
}

impl<'o> Paths<'o> {
    pub(crate) fn new(bytes: &'o [u8], ends: &'o [u32]) -> Paths<'o> {
        Paths { bytes, ends }
    }

    /// How many there are: one for each live object.
    pub fn len(&self) -> usize {
        self.ends.len()
    }

    /// Whether there is none.
    pub fn is_empty(&self) -> bool {
        self.ends.is_empty()
    }

    /// All of them, end to end.
    pub fn bytes(&self) -> &'o [u8] {
        self.bytes
    }

    /// The end of each.
    pub fn ends(&self) -> &'o [u32] {
        self.ends
    }

    /// The path of the `n`-th object of the walk or the view, from 0.
    pub fn get(&self, n: usize) -> Option<&'o str> {
        let end = *self.ends.get(n)? as usize;
        let start = if n == 0 { 0 } else { self.ends[n - 1] as usize };
        Some(core::str::from_utf8(&self.bytes[start..end]).expect("a path is UTF-8"))
    }

    /// All of them, in order; one step costs one path.
    pub fn iter(&self) -> EachPath<'o> {
        EachPath { paths: *self, next: 0 }
    }
}

/// A table's paths, one after the other.
///
/// ```
/// use ptp_proved::Objects;
/// let (mut names, mut out, mut ends) = ([0; 6], [0; 16], [0; 2]);
/// let mut objects = Objects::new(7, &[0], &mut names)?;
/// objects.add(0, 8, b"\x02A\0\0\0")?;
/// let mut each = objects.table().paths(&mut out, &mut ends)?.iter();
/// assert_eq!((each.len(), each.next(), each.next(), each.next()), (2, Some(""), Some("A"), None));
/// # Ok::<(), ptp_proved::Refusal>(())
/// ```
#[derive(Clone, Debug)]
pub struct EachPath<'o> {
    paths: Paths<'o>,
    next: usize,
}

impl<'o> Iterator for EachPath<'o> {
    type Item = &'o str;

    fn next(&mut self) -> Option<&'o str> {
        let path = self.paths.get(self.next)?;
        self.next += 1;
        Some(path)
    }

    fn size_hint(&self) -> (usize, Option<usize>) {
        let left = self.paths.len() - self.next;
        (left, Some(left))
    }
}

impl ExactSizeIterator for EachPath<'_> {}

impl core::iter::FusedIterator for EachPath<'_> {}

impl<'o> IntoIterator for Paths<'o> {
    type Item = &'o str;
    type IntoIter = EachPath<'o>;

    fn into_iter(self) -> EachPath<'o> {
        self.iter()
    }
}

impl<'o> IntoIterator for &Paths<'o> {
    type Item = &'o str;
    type IntoIter = EachPath<'o>;

    fn into_iter(self) -> EachPath<'o> {
        self.iter()
    }
}

/// The paths of an object table, each with its handle, in the order of its walk or of its folder view.
///
/// ```
/// use ptp_proved::Objects;
/// let (mut names, mut out, mut ends, mut places) = ([0; 6], [0; 16], [0; 2], [0; 2]);
/// let mut objects = Objects::new(1, &[0], &mut names)?;
/// objects.add(0, 2, b"\x02A\0\0\0")?;
/// let paths = objects.table().placed_paths(&mut out, &mut ends, &mut places)?;
/// assert_eq!((paths.len(), paths.get(1), paths.get(2)), (2, Some((2, "A")), None));
/// for (handle, path) in paths {
///     assert_eq!(path.is_empty(), handle == 1);
/// }
/// # Ok::<(), ptp_proved::Refusal>(())
/// ```
#[derive(Clone, Copy, Debug, PartialEq, Eq, Hash)]
pub struct PlacedPaths<'o> {
    paths: Paths<'o>,
    places: &'o [u16],
    handles: &'o [u32],
}

impl<'o> PlacedPaths<'o> {
    /// How many there are: one for each live object.
    pub fn len(&self) -> usize {
        self.paths.len()
    }

    /// Whether there is none.
    pub fn is_empty(&self) -> bool {
        self.paths.is_empty()
    }

    /// The same without their handles.
    pub fn paths(&self) -> Paths<'o> {
        self.paths
    }

    /// All of them, end to end.
    pub fn bytes(&self) -> &'o [u8] {
        self.paths.bytes
    }

    /// The end of each.
    pub fn ends(&self) -> &'o [u32] {
        self.paths.ends
    }

    /// The place of each object in its table.
    pub fn places(&self) -> &'o [u16] {
        self.places
    }

    /// The handle and the path of the `n`-th object of the walk or the view, from 0.
    pub fn get(&self, n: usize) -> Option<(u32, &'o str)> {
        let path = self.paths.get(n)?;
        Some((self.handles[self.places[n] as usize], path))
    }

    /// All of them, in order; one step costs one path.
    pub fn iter(&self) -> EachPlacedPath<'o> {
        EachPlacedPath { paths: *self, next: 0 }
    }
}

/// A table's paths with their handles, one after the other.
///
/// ```
/// use ptp_proved::Objects;
/// let (mut names, mut out, mut ends, mut places) = ([0; 6], [0; 16], [0; 2], [0; 2]);
/// let mut objects = Objects::new(7, &[0], &mut names)?;
/// objects.add(0, 8, b"\x02A\0\0\0")?;
/// let mut each = objects.table().placed_paths(&mut out, &mut ends, &mut places)?.iter();
/// assert_eq!((each.len(), each.next(), each.next(), each.next()), (2, Some((7, "")), Some((8, "A")), None));
/// # Ok::<(), ptp_proved::Refusal>(())
/// ```
#[derive(Clone, Debug)]
pub struct EachPlacedPath<'o> {
    paths: PlacedPaths<'o>,
    next: usize,
}

impl<'o> Iterator for EachPlacedPath<'o> {
    type Item = (u32, &'o str);

    fn next(&mut self) -> Option<(u32, &'o str)> {
        let path = self.paths.get(self.next)?;
        self.next += 1;
        Some(path)
    }

    fn size_hint(&self) -> (usize, Option<usize>) {
        let left = self.paths.len() - self.next;
        (left, Some(left))
    }
}

impl ExactSizeIterator for EachPlacedPath<'_> {}

impl core::iter::FusedIterator for EachPlacedPath<'_> {}

impl<'o> IntoIterator for PlacedPaths<'o> {
    type Item = (u32, &'o str);
    type IntoIter = EachPlacedPath<'o>;

    fn into_iter(self) -> EachPlacedPath<'o> {
        self.iter()
    }
}

impl<'o> IntoIterator for &PlacedPaths<'o> {
    type Item = (u32, &'o str);
    type IntoIter = EachPlacedPath<'o>;

    fn into_iter(self) -> EachPlacedPath<'o> {
        self.iter()
    }
}
