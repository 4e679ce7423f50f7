use crate::raw::{self, size, RESULT};
use crate::Error;

/// A package length in a stream.
#[derive(Clone, Copy, PartialEq, Eq, Hash, Debug)]
pub struct PkgLength {
    /// The length as it is spelled; it counts the bytes that spell it.
    pub raw_length: usize,
    /// What is left of the stream where the package ends.
    pub end_offset: usize,
}

/// Reads a package length at the front of a part, and fits it to the part. Gives the length and how many bytes spell it.
///
/// # Errors
///
/// 5 [`Error::BlockTooLong`], 1 [`Error::UnexpectedEndOfStream`], 2 [`Error::InvalidPkgLength`].
#[inline]
pub fn pkg_length(input: &[u8]) -> Result<(PkgLength, usize), Error> {
    // SAFETY: one call, with the result's words as they are given here; `input` comes with its length, and is only read.
    let [raw_length, end_offset, used] = unsafe { raw::ask(|a| raw::klem_pkg_length(input.as_ptr(), input.len(), a, RESULT)) }?;
    Ok((PkgLength { raw_length: size(raw_length), end_offset: size(end_offset) }, size(used)))
}

/// Reads a package length at the front of a part, without fitting it. Gives the raw length and how many bytes spell it.
///
/// # Errors
///
/// 5 [`Error::BlockTooLong`], 1 [`Error::UnexpectedEndOfStream`].
#[inline]
pub fn raw_pkg_length(input: &[u8]) -> Result<(usize, usize), Error> {
    // SAFETY: as above.
    let [raw_length, used, _] = unsafe { raw::ask(|a| raw::klem_raw_pkg_length(input.as_ptr(), input.len(), a, RESULT)) }?;
    Ok((size(raw_length), size(used)))
}

impl PkgLength {
    /// Fits a raw length to a stream.
    ///
    /// # Errors
    ///
    /// 2 [`Error::InvalidPkgLength`], where the stream is shorter.
    #[inline]
    pub fn from_raw_length(stream: &[u8], raw_length: usize) -> Result<PkgLength, Error> {
        // SAFETY: as above, with `stream`.
        let [raw_length, end_offset, _] = unsafe { raw::ask(|a| raw::klem_from_raw_length(stream.as_ptr(), stream.len(), raw_length, a, RESULT)) }?;
        Ok(PkgLength { raw_length: size(raw_length), end_offset: size(end_offset) })
    }

    /// Whether the stream, of which the front is read, is still within the package.
    #[inline]
    #[must_use]
    pub fn still_parsing(&self, stream: &[u8]) -> bool {
        // SAFETY: the pointer comes with the length of what it points to, and that is only read.
        unsafe { raw::klem_still_parsing(self.raw_length, self.end_offset, stream.as_ptr(), stream.len()) }
    }
}
