//! The calls as include/klem.h declares them, in its order and a line for each, and how an answer is read.
use crate::Error;
use core::mem::MaybeUninit;

pub(crate) const RESULT: usize = 8;
pub(crate) const PATH: usize = 130;
pub(crate) const TABLE: usize = 1153;
pub(crate) const FRAME: usize = 31;
/// The word of a frame that holds its width.
pub(crate) const WIDTH_AT: usize = 30;
pub(crate) const HEADER: usize = 36;

/// The last number of the table of refusals.
pub(crate) const REFUSALS: u64 = 44;

// The numbers of the archive's own. Slices of a fixed length, the type of a level and the width of a frame make all but the third impossible
// here, so that only the tests name them.
#[cfg(test)]
pub(crate) const BAD_SLICE: u64 = 1001;
#[cfg(test)]
pub(crate) const BAD_TYPE: u64 = 1002;
pub(crate) const BAD_CELL: u64 = 1003;
#[cfg(test)]
pub(crate) const BAD_WIDTH: u64 = 1004;

// One line for each, as in klem.h, so that the two can be read side by side.
#[rustfmt::skip]
extern "C" {
    pub(crate) fn klem_pkg_length(input: *const u8, input_len: usize, result: *mut u64, result_len: usize) -> u64;
    pub(crate) fn klem_raw_pkg_length(input: *const u8, input_len: usize, result: *mut u64, result_len: usize) -> u64;
    pub(crate) fn klem_from_raw_length(stream: *const u8, stream_len: usize, raw_length: usize, result: *mut u64, result_len: usize) -> u64;
    pub(crate) fn klem_still_parsing(raw_length: usize, end_offset: usize, stream: *const u8, stream_len: usize) -> bool;

    pub(crate) fn klem_header_read(table: *const u8, table_len: usize, result: *mut u64, result_len: usize) -> u64;
    pub(crate) fn klem_header_write(signature: *const u8, signature_len: usize, revision: u8, rest: *const u8, rest_len: usize, body: *const u8, body_len: usize, out: *mut u8, out_len: usize, result: *mut u64, result_len: usize) -> u64;

    pub(crate) fn klem_is_lead_name_char(byte: u8) -> bool;
    pub(crate) fn klem_is_digit_char(byte: u8) -> bool;
    pub(crate) fn klem_is_name_char(byte: u8) -> bool;
    pub(crate) fn klem_name_string(input: *const u8, input_len: usize, out: *mut u8, out_len: usize, result: *mut u64, result_len: usize) -> u64;

    #[cfg_attr(not(test), allow(dead_code))] // the crate has it as a constant; src/tests.rs holds the constant to this
    pub(crate) fn klem_root(out: *mut u8, out_len: usize, result: *mut u64, result_len: usize) -> u64;
    pub(crate) fn klem_from_name_seg(seg: *const u8, seg_len: usize, out: *mut u8, out_len: usize, result: *mut u64, result_len: usize) -> u64;
    pub(crate) fn klem_from_components(count: usize, bytes: *const u8, bytes_len: usize, out: *mut u8, out_len: usize, result: *mut u64, result_len: usize) -> u64;
    pub(crate) fn klem_from_str(text: *const u8, text_len: usize, out: *mut u8, out_len: usize, result: *mut u64, result_len: usize) -> u64;
    pub(crate) fn klem_as_string(path: *const u8, path_len: usize, text: *mut u8, text_len: usize, result: *mut u64, result_len: usize) -> u64;
    pub(crate) fn klem_is_normal(path: *const u8, path_len: usize, result: *mut u64, result_len: usize) -> u64;
    pub(crate) fn klem_is_absolute(path: *const u8, path_len: usize, result: *mut u64, result_len: usize) -> u64;
    pub(crate) fn klem_search_rules_apply(path: *const u8, path_len: usize, result: *mut u64, result_len: usize) -> u64;
    pub(crate) fn klem_normalize(path: *const u8, path_len: usize, out: *mut u8, out_len: usize, result: *mut u64, result_len: usize) -> u64;
    pub(crate) fn klem_parent(path: *const u8, path_len: usize, out: *mut u8, out_len: usize, result: *mut u64, result_len: usize) -> u64;
    pub(crate) fn klem_resolve(path: *const u8, path_len: usize, scope: *const u8, scope_len: usize, out: *mut u8, out_len: usize, result: *mut u64, result_len: usize) -> u64;

    pub(crate) fn klem_well_formed(table: *const u64, table_len: usize) -> bool;
    pub(crate) fn klem_table_new(table: *mut u64, table_len: usize, result: *mut u64, result_len: usize) -> u64;
    pub(crate) fn klem_add_level(table: *mut u64, table_len: usize, path: *const u8, path_len: usize, typ: u64, result: *mut u64, result_len: usize) -> u64;
    pub(crate) fn klem_remove_level(table: *mut u64, table_len: usize, path: *const u8, path_len: usize, result: *mut u64, result_len: usize) -> u64;
    pub(crate) fn klem_add_value(table: *mut u64, table_len: usize, path: *const u8, path_len: usize, value: u64, result: *mut u64, result_len: usize) -> u64;
    pub(crate) fn klem_add_value_at_resolved_path(table: *mut u64, table_len: usize, path: *const u8, path_len: usize, scope: *const u8, scope_len: usize, value: u64, result: *mut u64, result_len: usize) -> u64;
    pub(crate) fn klem_add_alias_at_resolved_path(table: *mut u64, table_len: usize, path: *const u8, path_len: usize, scope: *const u8, scope_len: usize, target: *const u8, target_len: usize, result: *mut u64, result_len: usize) -> u64;
    pub(crate) fn klem_get(table: *const u64, table_len: usize, handle: u32, result: *mut u64, result_len: usize) -> u64;
    pub(crate) fn klem_set(table: *mut u64, table_len: usize, handle: u32, value: u64, result: *mut u64, result_len: usize) -> u64;
    pub(crate) fn klem_get_handle(table: *const u64, table_len: usize, path: *const u8, path_len: usize, result: *mut u64, result_len: usize) -> u64;
    pub(crate) fn klem_get_by_path(table: *const u64, table_len: usize, path: *const u8, path_len: usize, result: *mut u64, result_len: usize) -> u64;
    pub(crate) fn klem_set_by_path(table: *mut u64, table_len: usize, path: *const u8, path_len: usize, value: u64, result: *mut u64, result_len: usize) -> u64;
    pub(crate) fn klem_search(table: *const u64, table_len: usize, path: *const u8, path_len: usize, scope: *const u8, scope_len: usize, out: *mut u8, out_len: usize, result: *mut u64, result_len: usize) -> u64;
    pub(crate) fn klem_search_for_level(table: *const u64, table_len: usize, path: *const u8, path_len: usize, scope: *const u8, scope_len: usize, out: *mut u8, out_len: usize, result: *mut u64, result_len: usize) -> u64;
    pub(crate) fn klem_levels(table: *const u64, table_len: usize, path: *const u8, path_len: usize, list: *mut u64, list_len: usize, result: *mut u64, result_len: usize) -> u64;
    pub(crate) fn klem_image_write(table: *const u64, table_len: usize, out: *mut u8, out_len: usize, result: *mut u64, result_len: usize) -> u64;
    pub(crate) fn klem_image_read(bytes: *const u8, bytes_len: usize, table: *mut u64, table_len: usize, result: *mut u64, result_len: usize) -> u64;

    pub(crate) fn klem_check(block: *const u8, block_len: usize, result: *mut u64, result_len: usize) -> u64;
    pub(crate) fn klem_run(block: *const u8, block_len: usize, frame: *mut u64, frame_len: usize, budget: u64, result: *mut u64, result_len: usize) -> u64;
    pub(crate) fn klem_width_of(revision: u8) -> u64;
    pub(crate) fn klem_width_of_ssdt(dsdt: u8, ssdt: u8) -> u64;
    #[cfg_attr(not(test), allow(dead_code))] // the crate has it as a constant; src/tests.rs holds the constant to this
    pub(crate) fn klem_frame_new(frame: *mut u64, frame_len: usize, width: u64, result: *mut u64, result_len: usize) -> u64;
    pub(crate) fn klem_frame_get(frame: *const u64, frame_len: usize, cell: usize, result: *mut u64, result_len: usize) -> u64;
    pub(crate) fn klem_frame_set(frame: *mut u64, frame_len: usize, cell: usize, number: u64, result: *mut u64, result_len: usize) -> u64;
}

/// The words that a call answers in. They are not set before the call: it writes all of them, or none of them and says so by the number
/// that it returns. So that number decides what may be read.
pub(crate) struct Answer(MaybeUninit<[u64; RESULT]>);

impl Answer {
    #[inline]
    pub(crate) const fn new() -> Answer {
        Answer(MaybeUninit::uninit())
    }

    /// What a call is given for its result, with `RESULT` for the length.
    #[inline]
    pub(crate) fn ptr(&mut self) -> *mut u64 {
        self.0.as_mut_ptr().cast()
    }

    /// The three values of a call that returned `number`, or its refusal.
    ///
    /// # Safety
    ///
    /// `number` is what the call returned that was given [`ptr`](Answer::ptr).
    #[inline]
    pub(crate) unsafe fn read(&self, number: u64) -> Result<[u64; 3], Error> {
        if number == 0 {
            // SAFETY: a call that returns 0 has written every word (klem.h, "Answers"); that it returned 0 is the caller's promise.
            let [_, _, a, b, c, ..] = *unsafe { self.0.assume_init_ref() };
            Ok([a, b, c])
        } else {
            // SAFETY: the caller's promise.
            Err(unsafe { self.refusal(number) })
        }
    }

    /// # Safety
    ///
    /// As for [`read`](Answer::read).
    #[cold]
    unsafe fn refusal(&self, number: u64) -> Error {
        match number {
            1..=REFUSALS | BAD_CELL => {
                // SAFETY: a call that returns one of these has written every word.
                let [_, place, ..] = *unsafe { self.0.assume_init_ref() };
                Error::numbered(number, size(place))
            }
            // KLEM_BAD_SLICE writes nothing, KLEM_BAD_TYPE has no place, no frame here has another width than the two, and of the words
            // behind any other number nothing is known.
            other => Error::NotInTable(other),
        }
    }

    /// What `klem_run` gives beside its end: the units, which stand there on a refusal too.
    ///
    /// # Safety
    ///
    /// As for [`read`](Answer::read), of a call of `klem_run`.
    #[inline]
    pub(crate) unsafe fn units(&self, number: u64) -> u64 {
        if number > REFUSALS {
            return 0;
        }
        // SAFETY: a call that returns 0 or a number of the table has written every word.
        let [_, _, _, _, units, ..] = *unsafe { self.0.assume_init_ref() };
        units
    }
}

/// Makes a call, and gives its three values or its refusal.
///
/// # Safety
///
/// `call` makes one call of the archive, with what it is given and `RESULT` for the result, and with memory that it may use for every other
/// pointer and length. It gives back what that call returned.
#[inline]
pub(crate) unsafe fn ask(call: impl FnOnce(*mut u64) -> u64) -> Result<[u64; 3], Error> {
    let mut a = Answer::new();
    let number = call(a.ptr());
    // SAFETY: the caller's promise.
    unsafe { a.read(number) }
}

/// A word that is a size for the archive.
// The archive's sizes have 64 bits, and so have those of every target that the build script lets pass.
#[allow(clippy::cast_possible_truncation)]
#[inline]
pub(crate) const fn size(word: u64) -> usize {
    word as usize
}
