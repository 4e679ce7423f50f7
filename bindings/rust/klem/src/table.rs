use crate::path::given;
use crate::raw::{self, size, PATH, RESULT, TABLE};
use crate::{Error, Path};
use core::fmt;

/// What a level is.
#[derive(Clone, Copy, PartialEq, Eq, Hash, Debug)]
#[repr(u64)]
pub enum LevelType {
    /// A scope.
    Scope = 0,
    /// A device.
    Device = 1,
    /// A legacy `Processor` object's sub-objects.
    Processor = 2,
    /// A `PowerResource` object's sub-objects.
    PowerResource = 3,
    /// A `ThermalZone` object's sub-objects.
    ThermalZone = 4,
    /// The locals of a method that runs.
    MethodLocals = 5,
}

impl TryFrom<u64> for LevelType {
    /// The number, where it is no type's.
    type Error = u64;

    #[inline]
    fn try_from(number: u64) -> Result<LevelType, u64> {
        match number {
            0 => Ok(LevelType::Scope),
            1 => Ok(LevelType::Device),
            2 => Ok(LevelType::Processor),
            3 => Ok(LevelType::PowerResource),
            4 => Ok(LevelType::ThermalZone),
            5 => Ok(LevelType::MethodLocals),
            other => Err(other),
        }
    }
}

/// A handle to an object of a table. Handles are handed out from 0 and never again, so one may be kept across edits. Any number may
/// be asked for: one that was never handed out is refused by 21.
#[derive(Clone, Copy, PartialEq, Eq, PartialOrd, Ord, Hash, Debug)]
pub struct Handle(pub u32);

impl Handle {
    // The archive's handles are numbers of 32 bits, and come back in a word.
    #[allow(clippy::cast_possible_truncation)]
    #[inline]
    const fn of(word: u64) -> Handle {
        Handle(word as u32)
    }
}

/// What a search found.
#[derive(Clone, Copy, PartialEq, Eq, Debug)]
pub struct Found {
    /// The full name.
    pub path: Path,
    /// The object's handle.
    pub handle: Handle,
    /// How many scopes were asked.
    pub asked: usize,
}

/// What a search for a level found.
#[derive(Clone, Copy, PartialEq, Eq, Debug)]
pub struct FoundLevel {
    /// The level's full name; the path as it was given where the search rules do not apply to it.
    pub path: Path,
    /// How many scopes were asked; 0 where the search rules do not apply.
    pub asked: usize,
}

/// A level of a table.
#[derive(Clone, Copy, PartialEq, Eq, Hash, Debug)]
pub struct Level {
    /// How many levels stand around it; the root's depth is 0.
    pub depth: usize,
    /// What it is.
    pub typ: LevelType,
    /// Its segment; four zero bytes for the root.
    pub segment: [u8; 4],
}

// The levels of a table, the root counted.
const LEVELS: usize = 128;

/// The levels that [`Table::levels`] lists, as they stood then.
#[derive(Clone)]
pub struct Levels {
    words: [u64; LEVELS],
    next: usize,
    count: usize,
}

impl Iterator for Levels {
    type Item = Level;

    #[inline]
    fn next(&mut self) -> Option<Level> {
        if self.next >= self.count {
            return None;
        }
        let [a, b, c, d, typ, depth @ ..] = self.words.get(self.next)?.to_le_bytes();
        self.next = self.next.wrapping_add(1);
        let [low, middle, high] = depth;
        Some(Level {
            depth: usize::from(u16::from_le_bytes([low, middle])) | usize::from(high) << 16,
            typ: LevelType::try_from(u64::from(typ)).unwrap_or(LevelType::MethodLocals),
            segment: [a, b, c, d],
        })
    }

    #[inline]
    fn size_hint(&self) -> (usize, Option<usize>) {
        let left = self.count.saturating_sub(self.next);
        (left, Some(left))
    }
}

impl ExactSizeIterator for Levels {}

impl core::iter::FusedIterator for Levels {}

impl fmt::Debug for Levels {
    /// The levels that are still to come.
    fn fmt(&self, f: &mut fmt::Formatter<'_>) -> fmt::Result {
        f.debug_list().entries(self.clone()).finish()
    }
}

/// What an image held.
#[derive(Clone, Copy, PartialEq, Eq, Hash, Debug)]
pub struct Counts {
    /// The levels, without the root.
    pub levels: usize,
    /// The bindings.
    pub bindings: usize,
    /// The objects.
    pub objects: usize,
}

/// A namespace in 1,153 words of memory: levels, values, aliases, lookup and search.
///
/// `M` is where the words are: `[u64; 1153]` (the default: the table owns them, and [`Table::new`] is a constant, for a `static`),
/// `&mut [u64]` (they are lent, from a page that the kernel has), `&[u64]` (for calls that only read), a `Box` or a `Vec`, or
/// anything else that gives a slice of words. The memory has no pointers: a copy of it is a copy of the namespace, and it may stand
/// wherever it likes.
///
/// Every call tests the whole memory first, and refuses with 24 what is not well-formed (docs/TABLE.md). A refused call leaves the
/// memory as it was.
///
/// A table that owns its words is 9,224 bytes, so that it is cloned where it is asked for, and never copied unseen.
///
/// ```
/// use klem::{LevelType, Table};
///
/// let mut page = vec![0u64; Table::WORDS];
/// let mut table = Table::fresh_in(&mut page[..])?;
/// table.add_level(&"\\_SB_".parse()?, LevelType::Scope)?;
/// let handle = table.add_value(&"\\_SB_._UID".parse()?, 7)?;
/// let found = table.search(&"_UID".parse()?, &"\\_SB_.PCI0".parse()?)?;
/// assert_eq!((found.handle, found.asked), (handle, 2));
/// assert_eq!(table.get(handle)?, 7);
/// # Ok::<(), klem::Error>(())
/// ```
// Not Copy: 9 KB should not be copied unseen.
#[derive(Clone, PartialEq, Eq)]
pub struct Table<M = [u64; TABLE]>(M);

// A fresh table: the root alone, whose word has rank 1 and nothing else.
const FRESH: [u64; TABLE] = {
    let mut words = [0; TABLE];
    words[0] = 1 << 45;
    words
};

impl Table {
    /// How many words a table has.
    pub const WORDS: usize = TABLE;

    /// How many bytes the largest [image](Table::image) of a table has: one with 127 levels below the root, 512 bindings and 512 objects.
    pub const IMAGE_BYTES: usize = 7599;

    /// A fresh table that owns its words: the root, and nothing else. It is a constant, so that a kernel can have it as a `static`
    /// and need not have 9 KB of stack for it.
    #[inline]
    #[must_use]
    pub const fn new() -> Table {
        Table(FRESH)
    }
}

impl Default for Table {
    /// A fresh table.
    #[inline]
    fn default() -> Table {
        Table::new()
    }
}

impl<M> Table<M> {
    /// Takes memory as it is. Nothing is tested here: every call tests it.
    #[inline]
    #[must_use]
    pub const fn over(memory: M) -> Table<M> {
        Table(memory)
    }

    /// The memory, as it was lent.
    #[inline]
    #[must_use]
    pub fn into_memory(self) -> M {
        self.0
    }
}

impl<M: AsRef<[u64]>> Table<M> {
    /// The words.
    #[inline]
    #[must_use]
    pub fn words(&self) -> &[u64] {
        self.0.as_ref()
    }

    /// Whether the memory holds a table.
    #[inline]
    #[must_use]
    pub fn is_well_formed(&self) -> bool {
        let t = self.words();
        // SAFETY: the pointer comes with the length of what it points to, and that is only read.
        unsafe { raw::klem_well_formed(t.as_ptr(), t.len()) }
    }

    /// The object of a handle.
    ///
    /// # Errors
    ///
    /// 24 [`Error::BadTable`], 21 [`Error::NoSuchHandle`].
    #[inline]
    pub fn get(&self, handle: Handle) -> Result<u64, Error> {
        let t = self.words();
        // SAFETY: one call, with the result's words as they are given here; the words come with their length, and are only read.
        let [value, _, _] = unsafe { raw::ask(|a| raw::klem_get(t.as_ptr(), t.len(), handle.0, a, RESULT)) }?;
        Ok(value)
    }

    /// The handle that an absolute path is bound to, exactly.
    ///
    /// # Errors
    ///
    /// 24 [`Error::BadTable`], 11 [`Error::NotAbsolute`], 10 [`Error::InvalidNormalizedName`], 13 [`Error::RootNotAllowed`],
    /// 15 [`Error::LevelDoesNotExist`], 16 [`Error::ValueDoesNotExist`].
    #[inline]
    pub fn get_handle(&self, path: &Path) -> Result<Handle, Error> {
        let t = self.words();
        // SAFETY: as above, and the path too.
        let [handle, _, _] = unsafe { raw::ask(|a| raw::klem_get_handle(t.as_ptr(), t.len(), path.ptr(), PATH, a, RESULT)) }?;
        Ok(Handle::of(handle))
    }

    /// The object that an absolute path is bound to, exactly.
    ///
    /// # Errors
    ///
    /// As [`get_handle`](Table::get_handle).
    #[inline]
    pub fn get_by_path(&self, path: &Path) -> Result<u64, Error> {
        let t = self.words();
        // SAFETY: as above.
        let [value, _, _] = unsafe { raw::ask(|a| raw::klem_get_by_path(t.as_ptr(), t.len(), path.ptr(), PATH, a, RESULT)) }?;
        Ok(value)
    }

    /// Searches for a value. A bare segment is looked for in the scope, then in each scope around it, up to `\`; any other path is
    /// resolved against the scope and looked up there only.
    ///
    /// # Errors
    ///
    /// 24 [`Error::BadTable`], 11 [`Error::NotAbsolute`], 10 [`Error::InvalidNormalizedName`], 9 [`Error::TooManyComponents`],
    /// 13 [`Error::RootNotAllowed`], 15 [`Error::LevelDoesNotExist`], 16 [`Error::ValueDoesNotExist`].
    #[inline]
    pub fn search(&self, path: &Path, scope: &Path) -> Result<Found, Error> {
        let t = self.words();
        // SAFETY: one call, with `out` and the result's words as they are given here; the words and the paths come with their lengths,
        // and are only read.
        unsafe {
            given(
                Found { path: Path::EMPTY, handle: Handle(0), asked: 0 },
                |found| &mut found.path,
                |out, a| raw::klem_search(t.as_ptr(), t.len(), path.ptr(), PATH, scope.ptr(), PATH, out, PATH, a, RESULT),
                |found, [handle, asked, _]| {
                    found.handle = Handle::of(handle);
                    found.asked = size(asked);
                },
            )
        }
    }

    /// Searches for a level in the same way; a path that is not one bare segment is given back as it is, with no scope asked.
    ///
    /// # Errors
    ///
    /// 24 [`Error::BadTable`], 11 [`Error::NotAbsolute`], 10 [`Error::InvalidNormalizedName`], 15 [`Error::LevelDoesNotExist`].
    #[inline]
    pub fn search_for_level(&self, path: &Path, scope: &Path) -> Result<FoundLevel, Error> {
        let t = self.words();
        // SAFETY: as above.
        unsafe {
            given(
                FoundLevel { path: Path::EMPTY, asked: 0 },
                |found| &mut found.path,
                |out, a| raw::klem_search_for_level(t.as_ptr(), t.len(), path.ptr(), PATH, scope.ptr(), PATH, out, PATH, a, RESULT),
                |found, [asked, _, _]| found.asked = size(asked),
            )
        }
    }

    /// The levels from the one at an absolute path down: a level before those below it, siblings in byte order.
    ///
    /// # Errors
    ///
    /// 24 [`Error::BadTable`], 11 [`Error::NotAbsolute`], 10 [`Error::InvalidNormalizedName`], 15 [`Error::LevelDoesNotExist`].
    #[inline]
    pub fn levels(&self, path: &Path) -> Result<Levels, Error> {
        let t = self.words();
        let mut levels = Levels { words: [0; LEVELS], next: 0, count: 0 };
        let list = levels.words.as_mut_ptr();
        // SAFETY: as above; the list is as long as it is said to be.
        let [count, _, _] = unsafe { raw::ask(|a| raw::klem_levels(t.as_ptr(), t.len(), path.ptr(), PATH, list, LEVELS, a, RESULT)) }?;
        levels.count = size(count);
        Ok(levels)
    }

    /// Writes the table's image to the start of `out`, and gives how many bytes it is; what follows it stays. Equal tables have equal
    /// images (docs/IMAGE.md has the format), and [`Table::IMAGE_BYTES`] hold every one.
    ///
    /// ```
    /// use klem::{Error, Table};
    ///
    /// let mut table = Table::new();
    /// table.add_value(&"\\_UID".parse()?, 7)?;
    /// let mut room = [0; Table::IMAGE_BYTES];
    /// let n = table.image(&mut room)?;
    ///
    /// let mut other = Table::new();
    /// assert_eq!(other.load(&room[..n])?.bindings, 1);
    /// assert_eq!(other, table);
    /// assert_eq!(other.load(&room[..n - 1]), Err(Error::ImageEndedEarly(84)));
    /// # Ok::<(), klem::Error>(())
    /// ```
    ///
    /// # Errors
    ///
    /// 24 [`Error::BadTable`], 25 [`Error::OutTooSmall`].
    #[inline]
    pub fn image(&self, out: &mut [u8]) -> Result<usize, Error> {
        let t = self.words();
        // SAFETY: as above; `out` comes with its length, and may be written, since it is lent as `&mut`.
        let [bytes, _, _] = unsafe { raw::ask(|a| raw::klem_image_write(t.as_ptr(), t.len(), out.as_mut_ptr(), out.len(), a, RESULT)) }?;
        Ok(size(bytes))
    }
}

impl<M: AsRef<[u64]>> fmt::Debug for Table<M> {
    /// The words that are not 0, each by its index.
    fn fmt(&self, f: &mut fmt::Formatter<'_>) -> fmt::Result {
        f.debug_map().entries(self.words().iter().enumerate().filter(|(_, word)| **word != 0)).finish()
    }
}

impl<M: AsMut<[u64]>> Table<M> {
    /// Makes a fresh table in memory that is lent.
    ///
    /// # Errors
    ///
    /// 24 [`Error::BadTable`], where it has not 1,153 words.
    #[inline]
    pub fn fresh_in(memory: M) -> Result<Table<M>, Error> {
        let mut table = Table(memory);
        table.reset()?;
        Ok(table)
    }

    /// The words, for whoever saves and restores them. Whatever is written here, the next call tests it.
    #[inline]
    #[must_use]
    pub fn words_mut(&mut self) -> &mut [u64] {
        self.0.as_mut()
    }

    /// Makes the table fresh again: the root, and nothing else. What the words hold does not matter.
    ///
    /// # Errors
    ///
    /// 24 [`Error::BadTable`], where it has not 1,153 words.
    #[inline]
    pub fn reset(&mut self) -> Result<(), Error> {
        let t = self.words_mut();
        // SAFETY: one call, with the result's words as they are given here; the words come with their length, and may be written, since
        // they are lent as `&mut`.
        unsafe { raw::ask(|a| raw::klem_table_new(t.as_mut_ptr(), t.len(), a, RESULT)) }.map(|_| ())
    }

    /// Makes the table of an [image](Table::image), and gives what it held. What the words hold does not matter; a refusal leaves them as
    /// they were. Every byte of the image is tested before a word is written: an image that is read is what `image` writes of the table.
    ///
    /// # Errors
    ///
    /// 24 [`Error::BadTable`], where the table has not 1,153 words; then 32 [`Error::ImageEndedEarly`] to 44 [`Error::ImageBytesLeft`], the
    /// first fault from left to right, with the place of its field's first bit.
    #[inline]
    pub fn load(&mut self, image: &[u8]) -> Result<Counts, Error> {
        let t = self.words_mut();
        // SAFETY: as above; the image comes with its length, and is only read.
        let [levels, bindings, objects] =
            unsafe { raw::ask(|a| raw::klem_image_read(image.as_ptr(), image.len(), t.as_mut_ptr(), t.len(), a, RESULT)) }?;
        Ok(Counts { levels: size(levels), bindings: size(bindings), objects: size(objects) })
    }

    /// Adds a level at an absolute path; `\`, and a level that is there, are left as they are.
    ///
    /// # Errors
    ///
    /// 24 [`Error::BadTable`], 11 [`Error::NotAbsolute`], 10 [`Error::InvalidNormalizedName`], 15 [`Error::LevelDoesNotExist`],
    /// 18 [`Error::LevelsFull`].
    #[inline]
    pub fn add_level(&mut self, path: &Path, typ: LevelType) -> Result<(), Error> {
        let t = self.words_mut();
        // SAFETY: as above; the path comes with its length, and is only read.
        unsafe { raw::ask(|a| raw::klem_add_level(t.as_mut_ptr(), t.len(), path.ptr(), PATH, typ as u64, a, RESULT)) }.map(|_| ())
    }

    /// Removes a level with everything below it; objects stay readable by their handles.
    ///
    /// # Errors
    ///
    /// 24 [`Error::BadTable`], 11 [`Error::NotAbsolute`], 10 [`Error::InvalidNormalizedName`],
    /// 14 [`Error::TriedToRemoveRootNamespace`], 15 [`Error::LevelDoesNotExist`].
    #[inline]
    pub fn remove_level(&mut self, path: &Path) -> Result<(), Error> {
        let t = self.words_mut();
        // SAFETY: as above.
        unsafe { raw::ask(|a| raw::klem_remove_level(t.as_mut_ptr(), t.len(), path.ptr(), PATH, a, RESULT)) }.map(|_| ())
    }

    /// Adds a value under an absolute path, and gives its handle.
    ///
    /// # Errors
    ///
    /// 24 [`Error::BadTable`], 11 [`Error::NotAbsolute`], 10 [`Error::InvalidNormalizedName`], 13 [`Error::RootNotAllowed`],
    /// 15 [`Error::LevelDoesNotExist`], 17 [`Error::NameCollision`], 19 [`Error::BindingsFull`], 20 [`Error::ObjectsFull`].
    #[inline]
    pub fn add_value(&mut self, path: &Path, value: u64) -> Result<Handle, Error> {
        let t = self.words_mut();
        // SAFETY: as above.
        let [handle, _, _] = unsafe { raw::ask(|a| raw::klem_add_value(t.as_mut_ptr(), t.len(), path.ptr(), PATH, value, a, RESULT)) }?;
        Ok(Handle::of(handle))
    }

    /// Adds a value under a path as seen from a scope, and gives its handle.
    ///
    /// # Errors
    ///
    /// 24 [`Error::BadTable`], 11 [`Error::NotAbsolute`], 10 [`Error::InvalidNormalizedName`], 9 [`Error::TooManyComponents`],
    /// 13 [`Error::RootNotAllowed`], 15 [`Error::LevelDoesNotExist`], 17 [`Error::NameCollision`], 19 [`Error::BindingsFull`],
    /// 20 [`Error::ObjectsFull`].
    #[inline]
    pub fn add_value_at_resolved_path(&mut self, path: &Path, scope: &Path, value: u64) -> Result<Handle, Error> {
        let t = self.words_mut();
        // SAFETY: as above, and the scope as the path.
        let [handle, _, _] = unsafe {
            raw::ask(|a| raw::klem_add_value_at_resolved_path(t.as_mut_ptr(), t.len(), path.ptr(), PATH, scope.ptr(), PATH, value, a, RESULT))
        }?;
        Ok(Handle::of(handle))
    }

    /// Binds a path to what a target is bound to, both as seen from a scope, and gives that handle.
    ///
    /// # Errors
    ///
    /// 24 [`Error::BadTable`], 11 [`Error::NotAbsolute`], 10 [`Error::InvalidNormalizedName`], 9 [`Error::TooManyComponents`]; then of
    /// the target 13 [`Error::RootNotAllowed`], 15 [`Error::LevelDoesNotExist`], 16 [`Error::ValueDoesNotExist`]; then of the path
    /// 13, 15, 17 [`Error::NameCollision`], 19 [`Error::BindingsFull`].
    #[inline]
    pub fn add_alias_at_resolved_path(&mut self, path: &Path, scope: &Path, target: &Path) -> Result<Handle, Error> {
        let t = self.words_mut();
        let (path, scope, target) = (path.ptr(), scope.ptr(), target.ptr());
        // SAFETY: as above, and the target too.
        let [handle, _, _] =
            unsafe { raw::ask(|a| raw::klem_add_alias_at_resolved_path(t.as_mut_ptr(), t.len(), path, PATH, scope, PATH, target, PATH, a, RESULT)) }?;
        Ok(Handle::of(handle))
    }

    /// Sets the object of a handle.
    ///
    /// # Errors
    ///
    /// 24 [`Error::BadTable`], 21 [`Error::NoSuchHandle`].
    #[inline]
    pub fn set(&mut self, handle: Handle, value: u64) -> Result<(), Error> {
        let t = self.words_mut();
        // SAFETY: as above.
        unsafe { raw::ask(|a| raw::klem_set(t.as_mut_ptr(), t.len(), handle.0, value, a, RESULT)) }.map(|_| ())
    }

    /// Sets the object that an absolute path is bound to, exactly.
    ///
    /// # Errors
    ///
    /// As [`get_handle`](Table::get_handle).
    #[inline]
    pub fn set_by_path(&mut self, path: &Path, value: u64) -> Result<(), Error> {
        let t = self.words_mut();
        // SAFETY: as above.
        unsafe { raw::ask(|a| raw::klem_set_by_path(t.as_mut_ptr(), t.len(), path.ptr(), PATH, value, a, RESULT)) }.map(|_| ())
    }
}
