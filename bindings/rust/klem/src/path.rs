use crate::raw::{self, size, Answer, PATH, RESULT};
use crate::Error;
use core::{fmt, str};

/// Whether a byte may start a segment: A to Z, or `_`.
#[inline]
#[must_use]
pub fn is_lead_name_char(byte: u8) -> bool {
    // SAFETY: numbers alone.
    unsafe { raw::klem_is_lead_name_char(byte) }
}

/// Whether a byte is a digit.
#[inline]
#[must_use]
pub fn is_digit_char(byte: u8) -> bool {
    // SAFETY: numbers alone.
    unsafe { raw::klem_is_digit_char(byte) }
}

/// Whether a byte may stand in a segment: A to Z, `_` or a digit.
#[inline]
#[must_use]
pub fn is_name_char(byte: u8) -> bool {
    // SAFETY: numbers alone.
    unsafe { raw::klem_is_name_char(byte) }
}

/// Reads a `NameString` at the front of AML bytes. Gives the path and how many bytes it used.
///
/// # Errors
///
/// 1 [`Error::UnexpectedEndOfStream`] and 6 [`Error::BadNameByte`], whichever comes first; then 7 [`Error::EmptyNamesAreInvalid`],
/// 9 [`Error::TooManyComponents`].
#[inline]
pub fn name_string(input: &[u8]) -> Result<(Path, usize), Error> {
    // SAFETY: one call, with `out` and the result's words as they are given here; `input` comes with its length, and is only read.
    unsafe {
        given(
            (Path::EMPTY, 0),
            |(path, _)| path,
            |out, a| raw::klem_name_string(input.as_ptr(), input.len(), out, PATH, a, RESULT),
            |(_, used), [n, _, _]| *used = size(n),
        )
    }
}

/// A path: at most 32 components, each `\` (first alone), `^` or a segment of four characters. The empty path is a path.
///
/// A value of this type always holds a path, so no call on it is refused by 26. Equal paths are equal bytes, and the order is that
/// of the bytes.
#[derive(Clone, Copy, PartialEq, Eq, PartialOrd, Ord, Hash)]
pub struct Path([u8; PATH]);

/// One component of a path.
#[derive(Clone, Copy, PartialEq, Eq, Hash, Debug)]
pub enum Component {
    /// `\`
    Root,
    /// `^`
    Prefix,
    /// A segment, padded with `_`.
    Segment([u8; 4]),
}

// A call that writes a path into what is to be given: `blank` is that without the path and the values, `path` says where its path is, and
// `fill` puts the values in. The path is written where it is returned, since a copy of it right behind the call would wait for the
// call's own stores.
//
// # Safety
//
// `call` makes one call of the archive, with what it is given and `PATH` for `out`, with what it is given and `RESULT` for the result, and
// with memory that it may use for every other pointer and length. It gives back what that call returned.
//
// A call that refuses leaves `out` as it was, and one that does not writes a path there: so a `Path` always holds a path.
#[inline]
pub(crate) unsafe fn given<T>(
    blank: T,
    path: impl FnOnce(&mut T) -> &mut Path,
    call: impl FnOnce(*mut u8, *mut u64) -> u64,
    fill: impl FnOnce(&mut T, [u64; 3]),
) -> Result<T, Error> {
    let mut a = Answer::new();
    let mut said = Ok(blank);
    if let Ok(given) = &mut said {
        let n = call(path(given).0.as_mut_ptr(), a.ptr());
        // SAFETY: `n` is what the call returned that was given these words.
        match unsafe { a.read(n) } {
            Ok(values) => fill(given, values),
            Err(e) => said = Err(e),
        }
    }
    said
}

// A call that gives a path and nothing else.
//
// # Safety
//
// As for `given`.
#[inline]
unsafe fn given_path(call: impl FnOnce(*mut u8, *mut u64) -> u64) -> Result<Path, Error> {
    // SAFETY: the caller's promise.
    unsafe { given(Path::EMPTY, |path| path, call, |_, _| ()) }
}

// How many components two bytes say, low first.
#[inline]
const fn counted(low: u8, high: u8) -> usize {
    u16::from_le_bytes([low, high]) as usize
}

// One component, which is `\`.
const ROOT: Path = {
    let mut memory = [0; PATH];
    memory[0] = 1;
    memory[2] = b'\\';
    Path(memory)
};

impl Path {
    /// How many bytes a path's memory has.
    pub const BYTES: usize = PATH;

    /// The most bytes that a path's text has.
    pub const MOST_TEXT: usize = 159;

    /// The empty path: no components.
    pub const EMPTY: Path = Path([0; PATH]);

    /// The path `\`.
    #[inline]
    #[must_use]
    pub const fn root() -> Path {
        ROOT
    }

    /// The path of one segment alone.
    ///
    /// # Errors
    ///
    /// 26 [`Error::BadPath`], where the four bytes are no segment.
    #[inline]
    pub fn from_name_seg(seg: [u8; 4]) -> Result<Path, Error> {
        // SAFETY: one call, with `out` and the result's words as they are given here; `seg` comes with its length, and is only read.
        unsafe { given_path(|out, a| raw::klem_from_name_seg(seg.as_ptr(), seg.len(), out, PATH, a, RESULT)) }
    }

    /// The path that a count and 32 components of four bytes hold.
    ///
    /// # Errors
    ///
    /// 26 [`Error::BadPath`], where they hold none.
    #[inline]
    pub fn from_components(count: usize, bytes: &[u8; 128]) -> Result<Path, Error> {
        // SAFETY: as above, with `bytes`.
        unsafe { given_path(|out, a| raw::klem_from_components(count, bytes.as_ptr(), bytes.len(), out, PATH, a, RESULT)) }
    }

    /// The path that memory holds, as [`as_memory`](Path::as_memory) shows it.
    ///
    /// # Errors
    ///
    /// 26 [`Error::BadPath`], where it holds none.
    #[inline]
    pub fn from_memory(memory: &[u8; PATH]) -> Result<Path, Error> {
        let [low, high, rest @ ..] = memory;
        Path::from_components(counted(*low, *high), rest)
    }

    /// The path of a text, as `\_SB_.PCI0` or `^FOO`.
    ///
    /// # Errors
    ///
    /// 7 [`Error::EmptyNamesAreInvalid`], 8 [`Error::InvalidNameSeg`], 9 [`Error::TooManyComponents`].
    #[inline]
    pub fn from_text(text: &[u8]) -> Result<Path, Error> {
        // SAFETY: as above, with `text`.
        unsafe { given_path(|out, a| raw::klem_from_str(text.as_ptr(), text.len(), out, PATH, a, RESULT)) }
    }

    /// The path that a `NameString` spells, and how many of the bytes it used: [`name_string`].
    ///
    /// # Errors
    ///
    /// As [`name_string`].
    #[inline]
    pub fn from_bytes(input: &[u8]) -> Result<(Path, usize), Error> {
        name_string(input)
    }

    /// Writes the path's text to the start of `out`, and gives its length; what stands behind it stays.
    /// [`MOST_TEXT`](Path::MOST_TEXT) bytes always suffice.
    ///
    /// # Errors
    ///
    /// 25 [`Error::OutTooSmall`], where it does not fit; then nothing is written.
    #[inline]
    pub fn write_text(&self, out: &mut [u8]) -> Result<usize, Error> {
        // SAFETY: one call, with the result's words as they are given here; the path and `out` come with their lengths, and `out` may be
        // written, since it is lent as `&mut`.
        let [length, _, _] = unsafe { raw::ask(|a| raw::klem_as_string(self.0.as_ptr(), PATH, out.as_mut_ptr(), out.len(), a, RESULT)) }?;
        Ok(size(length))
    }

    /// The path's text, held by value; nothing is allocated.
    #[inline]
    #[must_use]
    pub fn text(&self) -> Text {
        let mut bytes = [0u8; Path::MOST_TEXT];
        // 159 bytes are enough for every path, so that nothing is refused here.
        let length = self.write_text(&mut bytes).unwrap_or(0);
        Text { length, bytes }
    }

    /// The path's memory: how many components, in two bytes, low first; then four bytes for each of 32. Spare bytes are zero.
    #[inline]
    #[must_use]
    pub const fn as_memory(&self) -> &[u8; PATH] {
        &self.0
    }

    /// How many components the path has.
    #[inline]
    #[must_use]
    pub const fn count(&self) -> usize {
        counted(self.0[0], self.0[1])
    }

    /// Whether the path has no component.
    #[inline]
    #[must_use]
    pub const fn is_empty(&self) -> bool {
        self.count() == 0
    }

    /// The components, from the first to the last.
    #[inline]
    #[must_use = "an iterator does nothing until it is asked"]
    pub fn components(&self) -> impl DoubleEndedIterator<Item = Component> + '_ {
        let [_, _, rest @ ..] = &self.0;
        rest.chunks_exact(4).take(self.count()).map(|c| match c {
            [b'\\', ..] => Component::Root,
            [a, b, c, d] if *a != b'^' => Component::Segment([*a, *b, *c, *d]),
            // `^`; no chunk has another length.
            _ => Component::Prefix,
        })
    }

    // A test that only 26 could refuse, and this is a path.
    //
    // # Safety
    //
    // `call` is a call of the archive that takes a path and a result.
    #[inline]
    unsafe fn flag(&self, call: unsafe extern "C" fn(*const u8, usize, *mut u64, usize) -> u64) -> bool {
        // SAFETY: one call, with the result's words as they are given here; the path comes with its length, and is only read.
        let said = unsafe { raw::ask(|a| call(self.0.as_ptr(), PATH, a, RESULT)) };
        matches!(said, Ok([1, _, _]))
    }

    /// Whether the path has no `^`.
    #[inline]
    #[must_use]
    pub fn is_normal(&self) -> bool {
        // SAFETY: the call takes a path and a result.
        unsafe { self.flag(raw::klem_is_normal) }
    }

    /// Whether the path starts with `\`.
    #[inline]
    #[must_use]
    pub fn is_absolute(&self) -> bool {
        // SAFETY: as above.
        unsafe { self.flag(raw::klem_is_absolute) }
    }

    /// Whether the search rules apply to the path: it is one bare segment.
    #[inline]
    #[must_use]
    pub fn search_rules_apply(&self) -> bool {
        // SAFETY: as above.
        unsafe { self.flag(raw::klem_search_rules_apply) }
    }

    /// The normal form: each `^` takes away the segment before it.
    ///
    /// # Errors
    ///
    /// 10 [`Error::InvalidNormalizedName`], where there is none.
    #[inline]
    pub fn normalize(&self) -> Result<Path, Error> {
        // SAFETY: one call, with `out` and the result's words as they are given here; the path comes with its length, and is only read.
        unsafe { given_path(|out, a| raw::klem_normalize(self.0.as_ptr(), PATH, out, PATH, a, RESULT)) }
    }

    /// The normal form without its last segment.
    ///
    /// # Errors
    ///
    /// 10 [`Error::InvalidNormalizedName`], 12 [`Error::RootHasNoParent`].
    #[inline]
    pub fn parent(&self) -> Result<Path, Error> {
        // SAFETY: as above.
        unsafe { given_path(|out, a| raw::klem_parent(self.0.as_ptr(), PATH, out, PATH, a, RESULT)) }
    }

    /// The path as seen from a scope, which must be absolute: a normal absolute path.
    ///
    /// # Errors
    ///
    /// 11 [`Error::NotAbsolute`], 10 [`Error::InvalidNormalizedName`], 9 [`Error::TooManyComponents`].
    #[inline]
    pub fn resolve(&self, scope: &Path) -> Result<Path, Error> {
        // SAFETY: as above, and the scope too.
        unsafe { given_path(|out, a| raw::klem_resolve(self.0.as_ptr(), PATH, scope.0.as_ptr(), PATH, out, PATH, a, RESULT)) }
    }

    #[inline]
    pub(crate) fn ptr(&self) -> *const u8 {
        self.0.as_ptr()
    }
}

impl Default for Path {
    /// The empty path.
    #[inline]
    fn default() -> Path {
        Path::EMPTY
    }
}

impl str::FromStr for Path {
    type Err = Error;

    #[inline]
    fn from_str(text: &str) -> Result<Path, Error> {
        Path::from_text(text.as_bytes())
    }
}

impl TryFrom<&str> for Path {
    type Error = Error;

    #[inline]
    fn try_from(text: &str) -> Result<Path, Error> {
        Path::from_text(text.as_bytes())
    }
}

impl fmt::Display for Path {
    fn fmt(&self, f: &mut fmt::Formatter<'_>) -> fmt::Result {
        f.pad(self.text().as_str())
    }
}

impl fmt::Debug for Path {
    fn fmt(&self, f: &mut fmt::Formatter<'_>) -> fmt::Result {
        write!(f, "Path({})", self.text().as_str())
    }
}

/// The text of a path, held by value.
#[derive(Clone, Copy)]
pub struct Text {
    length: usize,
    bytes: [u8; Path::MOST_TEXT],
}

impl Text {
    /// The text.
    #[inline]
    #[must_use]
    pub fn as_str(&self) -> &str {
        // A path's text is ASCII, and within its bytes.
        self.bytes.get(..self.length).and_then(|b| str::from_utf8(b).ok()).unwrap_or("")
    }
}

impl AsRef<str> for Text {
    #[inline]
    fn as_ref(&self) -> &str {
        self.as_str()
    }
}

impl core::ops::Deref for Text {
    type Target = str;

    #[inline]
    fn deref(&self) -> &str {
        self.as_str()
    }
}

impl fmt::Display for Text {
    fn fmt(&self, f: &mut fmt::Formatter<'_>) -> fmt::Result {
        f.pad(self.as_str())
    }
}

impl fmt::Debug for Text {
    fn fmt(&self, f: &mut fmt::Formatter<'_>) -> fmt::Result {
        fmt::Debug::fmt(self.as_str(), f)
    }
}
