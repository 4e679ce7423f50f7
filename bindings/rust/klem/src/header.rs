use crate::raw::{self, size, HEADER, RESULT};
use crate::{Error, Width};

/// Which of the two a whole table is.
#[derive(Clone, Copy, PartialEq, Eq, Hash, Debug)]
pub enum Signature {
    /// The table that there is one of: its revision decides the width of numbers, in its SSDTs too ([`Header::width`]).
    Dsdt = 0,
    /// One of the tables beside it.
    Ssdt = 1,
}

impl Signature {
    /// The four letters.
    #[must_use]
    pub const fn letters(self) -> [u8; 4] {
        match self {
            Signature::Dsdt => *b"DSDT",
            Signature::Ssdt => *b"SSDT",
        }
    }
}

/// What the header of a whole table says, and the body behind it.
///
/// ```
/// use klem::{write_table, Header, Signature};
///
/// let mut table = [0; 64];
/// let written = write_table(Signature::Dsdt.letters(), 2, &[0; 26], &[0xA4, 0x01], &mut table)?;
/// let header = Header::read(&table)?;
/// assert_eq!((written, header.signature, header.revision, header.body), (38, Signature::Dsdt, 2, &[0xA4, 0x01][..]));
/// # Ok::<(), klem::Error>(())
/// ```
#[derive(Clone, Copy, PartialEq, Eq, Hash, Debug)]
pub struct Header<'a> {
    /// Which of the two it is.
    pub signature: Signature,
    /// The revision.
    pub revision: u8,
    /// The body: what stands between the header and the stated length.
    pub body: &'a [u8],
}

impl<'a> Header<'a> {
    /// Reads the header at the front of any bytes. What stands after the stated length is not looked at.
    ///
    /// # Errors
    ///
    /// 27 [`Error::TableTooShort`], 28 [`Error::BadSignature`], 29 [`Error::BadTableLength`], 30 [`Error::BadChecksum`].
    #[inline]
    pub fn read(table: &'a [u8]) -> Result<Header<'a>, Error> {
        // SAFETY: one call, with the result's words as they are given here; `table` comes with its length, and is only read.
        let [kind, revision, end] = unsafe { raw::ask(|a| raw::klem_header_read(table.as_ptr(), table.len(), a, RESULT)) }?;
        let signature = if kind == 0 { Signature::Dsdt } else { Signature::Ssdt };
        // a header that was read has a body that is a part of what was given; the types do not know it
        let body = table.get(HEADER..size(end)).unwrap_or(&[]);
        Ok(Header { signature, revision: revision.to_le_bytes()[0], body })
    }

    /// The width of numbers in this DSDT and in its SSDTs, by its revision. An SSDT's header does not say it, and gives none: an SSDT
    /// counts in the width of its DSDT, whatever its own revision is.
    ///
    /// ```
    /// # use klem::{write_table, Header, Signature, Width};
    /// # let mut table = [0; 36];
    /// # write_table(Signature::Dsdt.letters(), 1, &[0; 26], &[], &mut table)?;
    /// assert_eq!(Header::read(&table)?.width(), Some(Width::Bits32)); // a DSDT of revision 1
    /// # write_table(Signature::Ssdt.letters(), 2, &[0; 26], &[], &mut table)?;
    /// assert_eq!(Header::read(&table)?.width(), None); // an SSDT of revision 2
    /// # Ok::<(), klem::Error>(())
    /// ```
    #[inline]
    #[must_use]
    pub fn width(&self) -> Option<Width> {
        match self.signature {
            Signature::Dsdt => Some(Width::of_revision(self.revision)),
            Signature::Ssdt => None,
        }
    }
}

/// Writes a header and then the body at the start of `out`, and gives the bytes written. `rest` is bytes 10 to 35 of the header; length and
/// checksum are worked out. What stands after them in `out` stays; a refusal leaves all of it.
///
/// # Errors
///
/// 28 [`Error::BadSignature`], 29 [`Error::BadTableLength`] (a body over 2^32 - 37 bytes), 25 [`Error::OutTooSmall`].
#[inline]
pub fn write_table(signature: [u8; 4], revision: u8, rest: &[u8; 26], body: &[u8], out: &mut [u8]) -> Result<usize, Error> {
    // SAFETY: one call, with the result's words as they are given here; each slice comes with its length, and `out`, which alone is
    // written, is borrowed by itself.
    let [written, _, _] = unsafe {
        raw::ask(|a| {
            raw::klem_header_write(
                signature.as_ptr(),
                signature.len(),
                revision,
                rest.as_ptr(),
                rest.len(),
                body.as_ptr(),
                body.len(),
                out.as_mut_ptr(),
                out.len(),
                a,
                RESULT,
            )
        })
    }?;
    Ok(size(written))
}
