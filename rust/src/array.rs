//! An array's items, in the caller's bytes.
use core::fmt;
use core::marker::PhantomData;
use core::slice::ChunksExact;

/// An item of an array: an integer, or a pair (high, low) for 128 bits.
///
/// ```
/// use ptp_proved::PtpItem;
/// assert_eq!(<u16 as PtpItem>::read(&[2, 1]), 258);
/// assert_eq!(<(u64, u64) as PtpItem>::SIZE, 16);
/// ```
pub trait PtpItem: Copy {
    /// How many bytes an item takes.
    const SIZE: usize;

    /// The item that begins these bytes, of which there are at least `SIZE`.
    fn read(bytes: &[u8]) -> Self;
}

macro_rules! integers {
    ($($integer:ty)*) => {$(
        impl PtpItem for $integer {
            const SIZE: usize = core::mem::size_of::<$integer>();

            fn read(bytes: &[u8]) -> Self {
                let mut own = [0; core::mem::size_of::<$integer>()];
                own.copy_from_slice(&bytes[..Self::SIZE]);
                <$integer>::from_le_bytes(own)
            }
        }
    )*};
}

integers!(i8 u8 i16 u16 i32 u32 i64 u64);

// The low half comes first in the bytes.
impl PtpItem for (u64, u64) {
    const SIZE: usize = 16;

    fn read(bytes: &[u8]) -> Self {
        (u64::read(&bytes[8..]), u64::read(bytes))
    }
}

/// The items of an array, read from the caller's bytes as they are asked for.
///
/// ```
/// let array = ptp_proved::PtpReader::new(&[2, 0, 0, 0, 7, 0, 8, 0]).read_ptp_u16_vec()?;
/// assert_eq!((array.len(), array.get(1), array.get(2)), (2, Some(8), None));
/// for item in array {
///     assert!(item > 6);
/// }
/// # Ok::<(), ptp_proved::Refusal>(())
/// ```
#[derive(Clone, Copy, PartialEq, Eq, Hash)]
pub struct PtpArray<'a, T> {
    bytes: &'a [u8],
    item: PhantomData<T>,
}

/// An array's items, one after the other.
///
/// ```
/// let mut items = ptp_proved::PtpReader::new(&[2, 0, 0, 0, 7, 8]).read_ptp_u8_vec()?.iter();
/// assert_eq!((items.len(), items.next(), items.next(), items.next()), (2, Some(7), Some(8), None));
/// # Ok::<(), ptp_proved::Refusal>(())
/// ```
pub type Items<'a, T> = core::iter::Map<ChunksExact<'a, u8>, fn(&'a [u8]) -> T>;

impl<'a, T> PtpArray<'a, T> {
    // The bytes of the items.
    pub(crate) fn bytes(&self) -> &'a [u8] {
        self.bytes
    }
}

impl<'a, T: PtpItem> PtpArray<'a, T> {
    // The bytes are those of the items, without a count.
    pub(crate) fn new(bytes: &'a [u8]) -> Self {
        PtpArray { bytes, item: PhantomData }
    }

    /// How many items there are.
    pub fn len(&self) -> usize {
        self.bytes.len() / T::SIZE
    }

    /// Whether there is none.
    pub fn is_empty(&self) -> bool {
        self.bytes.is_empty()
    }

    /// Item `n`, from 0.
    pub fn get(&self, n: usize) -> Option<T> {
        let start = n.checked_mul(T::SIZE)?;
        Some(T::read(self.bytes.get(start..start.checked_add(T::SIZE)?)?))
    }

    /// In order; one step costs one item.
    pub fn iter(&self) -> Items<'a, T> {
        self.bytes.chunks_exact(T::SIZE).map(T::read)
    }
}

#[cfg(feature = "alloc")]
impl<T: PtpItem> PtpArray<'_, T> {
    /// Its items, allocated.
    ///
    /// ```
    /// let array = ptp_proved::PtpReader::new(&[1, 0, 0, 0, 7, 0]).read_ptp_u16_vec()?;
    /// assert_eq!(array.to_vec(), [7]);
    /// # Ok::<(), ptp_proved::Refusal>(())
    /// ```
    pub fn to_vec(&self) -> alloc::vec::Vec<T> {
        self.iter().collect()
    }
}

#[cfg(feature = "alloc")]
impl<T: PtpItem> From<PtpArray<'_, T>> for alloc::vec::Vec<T> {
    fn from(array: PtpArray<'_, T>) -> Self {
        array.to_vec()
    }
}

impl<'a, T: PtpItem> IntoIterator for PtpArray<'a, T> {
    type Item = T;
    type IntoIter = Items<'a, T>;

    fn into_iter(self) -> Items<'a, T> {
        self.iter()
    }
}

impl<'a, T: PtpItem> IntoIterator for &PtpArray<'a, T> {
    type Item = T;
    type IntoIter = Items<'a, T>;

    fn into_iter(self) -> Items<'a, T> {
        self.iter()
    }
}

impl<T: PtpItem + fmt::Debug> fmt::Debug for PtpArray<'_, T> {
    fn fmt(&self, f: &mut fmt::Formatter<'_>) -> fmt::Result {
        f.debug_list().entries(self.iter()).finish()
    }
}
