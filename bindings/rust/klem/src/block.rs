use crate::raw::{self, Answer, FRAME, RESULT, WIDTH_AT};
use crate::Error;
use core::fmt;

/// How many bits numbers have in a run: all ones, wrapping and what a constant of eight bytes keeps follow from it.
#[derive(Clone, Copy, PartialEq, Eq, Hash, Debug)]
pub enum Width {
    /// 32: the revision of the DSDT is below 2.
    Bits32 = 32,
    /// 64: it is 2 or more.
    Bits64 = 64,
}

/// The cells of a run: 0 to 7 are Locals, 8 to 14 Args, each unset or a number; and the width of these numbers.
///
/// A cell may be set to any number. In a frame of 32 bits a larger one keeps its low 32 bits from the moment that a run begins to execute: so
/// also where the block is empty, or the budget is spent at once; a block that is refused leaves the frame as it was.
///
/// ```
/// use klem::{run, Ended, Error, Frame, Width};
///
/// let mut frame = Frame::new(Width::Bits32).with(0, 0x1_0000_0007)?;
/// assert_eq!(run(&[0x60], &mut frame, 9).end, Err(Error::BadOpcode(0)));
/// assert_eq!(frame.get(0), Ok(0x1_0000_0007));
/// assert_eq!(run(&[], &mut frame, 9).end, Ok(Ended::Finished));
/// assert_eq!(frame.get(0), Ok(7));
/// # Ok::<(), Error>(())
/// ```
#[derive(Clone, Copy, PartialEq, Eq, Hash)]
pub struct Frame([u64; FRAME]);

/// How a run ended, where it was not refused.
// These four are all that a block can do; what else stops a run is a refusal. So a caller may match them without a rest.
#[derive(Clone, Copy, PartialEq, Eq, Hash, Debug)]
pub enum Ended {
    /// The block came to its end.
    Finished,
    /// A Return gave this number.
    Returned(u64),
    /// A Break stood outside every While.
    BreakOut,
    /// A Continue stood outside every While.
    ContinueOut,
}

/// What a run gives.
#[derive(Clone, Copy, PartialEq, Eq, Hash, Debug)]
#[must_use = "a run may have been refused: `end` says so"]
pub struct Run {
    /// How it ended. 22 and 23 are given after part of the block has run, and leave the frame as the run left it; any other refusal
    /// is given before anything runs, and leaves the frame as it was.
    pub end: Result<Ended, Error>,
    /// The units used: one for each statement begun, and one for each time that a While's predicate is evaluated. A refusal has them too.
    pub units: u64,
}

/// Whether a block is well-formed: whether [`run`] would begin to execute it.
///
/// # Errors
///
/// 5 [`Error::BlockTooLong`]; then, from left to right, 1 [`Error::UnexpectedEndOfStream`], 2 [`Error::InvalidPkgLength`],
/// 3 [`Error::BadOpcode`], 4 [`Error::TooDeep`], 31 [`Error::PackageEndsEarly`].
#[inline]
pub fn check(block: &[u8]) -> Result<(), Error> {
    // SAFETY: one call, with the result's words as they are given here; `block` comes with its length, and is only read.
    unsafe { raw::ask(|a| raw::klem_check(block.as_ptr(), block.len(), a, RESULT)) }.map(|_| ())
}

/// Checks a whole block, then executes it over a frame within a budget of units.
///
/// What it refuses is in [`Run::end`]: what [`check`] refuses, before anything runs; then 22 [`Error::BudgetSpent`] or 23
/// [`Error::Unset`], whichever comes first in the run.
///
/// ```
/// use klem::{run, Ended, Frame, Width};
///
/// // Local0 := 3; while Local0, decrement it; return it
/// let mut frame = Frame::new(Width::Bits64);
/// let ran = run(&[0x70, 0x0A, 0x03, 0x60, 0xA2, 0x04, 0x60, 0x76, 0x60, 0xA4, 0x60], &mut frame, 100);
/// assert_eq!((ran.end, ran.units), (Ok(Ended::Returned(0)), 10));
/// ```
#[inline]
#[must_use = "a run may have been refused: `end` says so"]
pub fn run(block: &[u8], frame: &mut Frame, budget: u64) -> Run {
    let mut a = Answer::new();
    // SAFETY: every pointer comes with the length of what it points to. The frame and the result may be written: one is lent as
    // `&mut`, the other is this call's own.
    let n = unsafe { raw::klem_run(block.as_ptr(), block.len(), frame.0.as_mut_ptr(), FRAME, budget, a.ptr(), RESULT) };
    // SAFETY: `n` is what the call returned that was given these words.
    let (said, units) = unsafe { (a.read(n), a.units(n)) };
    let end = said.and_then(|[how, number, _]| match how {
        0 => Ok(Ended::Finished),
        1 => Ok(Ended::Returned(number)),
        2 => Ok(Ended::BreakOut),
        3 => Ok(Ended::ContinueOut),
        // The header has no other end.
        _ => Err(Error::NotInTable(0)),
    });
    Run { end, units }
}

impl Width {
    /// The width in a DSDT of that revision: 32 bits below 2, else 64.
    #[inline]
    #[must_use]
    pub fn of_revision(revision: u8) -> Width {
        // SAFETY: it takes any number, and no memory.
        Width::of_bits(unsafe { raw::klem_width_of(revision) })
    }

    /// The width in an SSDT of revision `ssdt` whose DSDT has revision `dsdt`: the DSDT's.
    #[inline]
    #[must_use]
    pub fn of_ssdt(dsdt: u8, ssdt: u8) -> Width {
        // SAFETY: as above.
        Width::of_bits(unsafe { raw::klem_width_of_ssdt(dsdt, ssdt) })
    }

    /// 32 or 64.
    #[inline]
    #[must_use]
    pub const fn bits(self) -> u32 {
        self as u32
    }

    /// The archive gives 32 or 64, and no frame holds anything else.
    #[inline]
    const fn of_bits(bits: u64) -> Width {
        if bits == Width::Bits32 as u64 {
            Width::Bits32
        } else {
            Width::Bits64
        }
    }
}

impl Frame {
    /// How many cells a frame has.
    pub const CELLS: usize = 15;

    /// The cell of the first Arg; the other Args follow it. Local `n` is cell `n`.
    pub const ARG0: usize = 8;

    /// A frame of that width whose cells are all unset.
    #[inline]
    #[must_use]
    pub const fn new(width: Width) -> Frame {
        let mut words = [0; FRAME];
        words[WIDTH_AT] = width as u64;
        Frame(words)
    }

    /// The width that it was made with. A run keeps it.
    #[inline]
    #[must_use]
    pub const fn width(&self) -> Width {
        Width::of_bits(self.0[WIDTH_AT])
    }

    /// What a cell holds.
    ///
    /// # Errors
    ///
    /// 23 [`Error::Unset`], where the cell is unset or is not there.
    #[inline]
    pub fn get(&self, cell: usize) -> Result<u64, Error> {
        // SAFETY: one call, with the result's words as they are given here; the frame comes with its length, and is only read.
        let [number, _, _] = unsafe { raw::ask(|a| raw::klem_frame_get(self.0.as_ptr(), FRAME, cell, a, RESULT)) }?;
        Ok(number)
    }

    /// Sets a cell, to any number: [`get`](Frame::get) gives it back as it is until a run begins to execute over the frame.
    ///
    /// # Errors
    ///
    /// 1003 [`Error::BadCell`], where the cell is not there (15 and more); then the frame stays as it was.
    #[inline]
    pub fn set(&mut self, cell: usize, number: u64) -> Result<(), Error> {
        // SAFETY: one call, with the result's words as they are given here; the frame comes with its length, and may be written, since
        // it is lent as `&mut`.
        unsafe { raw::ask(|a| raw::klem_frame_set(self.0.as_mut_ptr(), FRAME, cell, number, a, RESULT)) }.map(|_| ())
    }

    /// The frame with a cell set.
    ///
    /// # Errors
    ///
    /// As [`set`](Frame::set).
    #[inline]
    pub fn with(mut self, cell: usize, number: u64) -> Result<Frame, Error> {
        self.set(cell, number)?;
        Ok(self)
    }

    #[cfg(test)]
    pub(crate) const fn words(&self) -> &[u64; FRAME] {
        &self.0
    }
}

impl fmt::Debug for Frame {
    fn fmt(&self, f: &mut fmt::Formatter<'_>) -> fmt::Result {
        let cells: [Option<u64>; Frame::CELLS] = core::array::from_fn(|c| self.get(c).ok());
        f.debug_struct("Frame").field("width", &self.width()).field("cells", &cells).finish()
    }
}
