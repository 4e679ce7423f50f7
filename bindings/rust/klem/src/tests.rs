//! What the crate takes for granted of the archive, asked of it.
// Tests may panic; and the calls stand below each other, one to a line, with short names for what they share.
#![allow(clippy::unwrap_used, clippy::indexing_slicing, clippy::many_single_char_names)]
use crate::raw::{self, BAD_CELL, BAD_SLICE, BAD_TYPE, BAD_WIDTH, FRAME, PATH, REFUSALS, RESULT, TABLE, WIDTH_AT};
use crate::{Error, Frame, Path, Table, Width};
use std::vec::Vec;

/// What a result's words hold before a call: no answer has it.
const BEFORE: u64 = 0xA5A5_A5A5_A5A5_A5A5;

/// Makes a call with a result of so many words, and gives what it returned and the words.
fn asked(call: impl Fn(*mut u64, usize) -> u64, length: usize) -> (u64, [u64; RESULT + 1]) {
    let mut words = [BEFORE; RESULT + 1];
    (call(words.as_mut_ptr(), length), words)
}

/// The number that a call returns. It must write all words of its result and no more, or, where the result has another length, none.
fn number(call: impl Fn(*mut u64, usize) -> u64) -> u64 {
    for length in [0, RESULT - 1, RESULT + 1] {
        assert_eq!(asked(&call, length), (BAD_SLICE, [BEFORE; RESULT + 1]));
    }
    let (number, words) = asked(&call, RESULT);
    assert_eq!(words[0], number);
    assert!(words[..RESULT].iter().all(|word| *word != BEFORE), "{words:x?}");
    assert_eq!(words[RESULT], BEFORE);
    number
}

/// The same of a call that must refuse, and its error, as the crate reads it.
fn refused(call: impl Fn(*mut u64, usize) -> u64) -> Error {
    let said = number(&call);
    let mut a = raw::Answer::new();
    let returned = call(a.ptr(), RESULT);
    assert_eq!(returned, said);
    // SAFETY: `returned` is what the call returned that was given these words.
    let error = unsafe { a.read(returned) }.unwrap_err();
    assert_eq!(error.number(), said);
    error
}

/// Each call, once so that it gives and once so that it refuses, where it can refuse at all.
#[test]
fn a_call_writes_its_whole_result_or_none_of_it() {
    let root = *Path::root().as_memory();
    let a: [u8; PATH] = *Path::from_text(b"\\A").unwrap().as_memory();
    let bare: [u8; PATH] = *Path::from_text(b"A").unwrap().as_memory();
    let (second, third) = (*Path::from_text(b"C").unwrap().as_memory(), *Path::from_text(b"D").unwrap().as_memory());
    let (r, a, b, c, d) = (root.as_ptr(), a.as_ptr(), bare.as_ptr(), second.as_ptr(), third.as_ptr());
    let none: [u8; 0] = [];
    let n = none.as_ptr();
    let block = [0xA4, 0x0A, 0x05];
    let components = [0u8; 128];
    let mut out = [0u8; PATH];
    let o = out.as_mut_ptr();
    let mut frame = *Frame::new(Width::Bits64).words();
    let f = frame.as_mut_ptr();
    let mut narrow = frame;
    narrow[WIDTH_AT] = 31;
    let g = narrow.as_mut_ptr();
    let mut table: Vec<u64> = Table::new().into_memory().into();
    let t = table.as_mut_ptr();
    // SAFETY: every pointer comes with the length of what it points to, or with a shorter one. What a call may write is used by no other
    // memory of the same call.
    unsafe {
        assert_eq!(number(|p, l| raw::klem_pkg_length([0].as_ptr(), 1, p, l)), 0);
        assert_eq!(refused(|p, l| raw::klem_pkg_length(n, 0, p, l)), Error::UnexpectedEndOfStream(0));
        assert_eq!(number(|p, l| raw::klem_raw_pkg_length([0x40, 4].as_ptr(), 2, p, l)), 0);
        assert_eq!(refused(|p, l| raw::klem_raw_pkg_length([0x40].as_ptr(), 1, p, l)), Error::UnexpectedEndOfStream(1));
        assert_eq!(number(|p, l| raw::klem_from_raw_length(n, 0, 0, p, l)), 0);
        assert_eq!(refused(|p, l| raw::klem_from_raw_length(n, 0, 1, p, l)), Error::InvalidPkgLength(0));
        let mut whole = [0u8; 40];
        let w = whole.as_mut_ptr();
        let rest = [0u8; 26];
        assert_eq!(number(|p, l| raw::klem_header_write(b"DSDT".as_ptr(), 4, 2, rest.as_ptr(), 26, block.as_ptr(), 3, w, 40, p, l)), 0);
        assert_eq!(refused(|p, l| raw::klem_header_write(b"XSDT".as_ptr(), 4, 2, rest.as_ptr(), 26, n, 0, w, 40, p, l)), Error::BadSignature);
        assert_eq!(number(|p, l| raw::klem_header_read(w, 40, p, l)), 0);
        assert_eq!(refused(|p, l| raw::klem_header_read(w, 35, p, l)), Error::TableTooShort);
        assert_eq!(number(|p, l| raw::klem_name_string(b"ABCD".as_ptr(), 4, o, PATH, p, l)), 0);
        assert_eq!(refused(|p, l| raw::klem_name_string(b"ABC0"[3..].as_ptr(), 1, o, PATH, p, l)), Error::BadNameByte(0));

        assert_eq!(number(|p, l| raw::klem_root(o, PATH, p, l)), 0);
        assert_eq!(number(|p, l| raw::klem_from_name_seg(b"ABCD".as_ptr(), 4, o, PATH, p, l)), 0);
        assert_eq!(refused(|p, l| raw::klem_from_name_seg(b"0BCD".as_ptr(), 4, o, PATH, p, l)), Error::BadPath);
        assert_eq!(number(|p, l| raw::klem_from_components(0, components.as_ptr(), 128, o, PATH, p, l)), 0);
        assert_eq!(refused(|p, l| raw::klem_from_components(1, components.as_ptr(), 128, o, PATH, p, l)), Error::BadPath);
        assert_eq!(number(|p, l| raw::klem_from_str(b"A".as_ptr(), 1, o, PATH, p, l)), 0);
        assert_eq!(refused(|p, l| raw::klem_from_str(n, 0, o, PATH, p, l)), Error::EmptyNamesAreInvalid);
        assert_eq!(number(|p, l| raw::klem_as_string(r, PATH, o, PATH, p, l)), 0);
        assert_eq!(refused(|p, l| raw::klem_as_string(r, PATH, o, 0, p, l)), Error::OutTooSmall(0));
        for flag in [raw::klem_is_normal, raw::klem_is_absolute, raw::klem_search_rules_apply] {
            let flag: unsafe extern "C" fn(*const u8, usize, *mut u64, usize) -> u64 = flag;
            assert_eq!(number(|p, l| flag(r, PATH, p, l)), 0);
            assert_eq!(refused(|p, l| flag([0xFF; PATH].as_ptr(), PATH, p, l)), Error::BadPath);
        }
        assert_eq!(number(|p, l| raw::klem_normalize(r, PATH, o, PATH, p, l)), 0);
        assert_eq!(refused(|p, l| raw::klem_normalize([0xFF; PATH].as_ptr(), PATH, o, PATH, p, l)), Error::BadPath);
        assert_eq!(number(|p, l| raw::klem_parent(a, PATH, o, PATH, p, l)), 0);
        assert_eq!(refused(|p, l| raw::klem_parent(r, PATH, o, PATH, p, l)), Error::RootHasNoParent);
        assert_eq!(number(|p, l| raw::klem_resolve(b, PATH, r, PATH, o, PATH, p, l)), 0);
        assert_eq!(refused(|p, l| raw::klem_resolve(b, PATH, b, PATH, o, PATH, p, l)), Error::NotAbsolute);

        assert_eq!(number(|p, l| raw::klem_table_new(t, TABLE, p, l)), 0);
        assert_eq!(refused(|p, l| raw::klem_table_new(t, 1, p, l)), Error::BadTable);
        assert_eq!(number(|p, l| raw::klem_add_level(t, TABLE, a, PATH, 5, p, l)), 0);
        // a type that LevelType does not have, told before all else; its words are not read
        assert_eq!(refused(|p, l| raw::klem_add_level(t, 0, b, PATH, 6, p, l)), Error::NotInTable(BAD_TYPE));
        assert_eq!(number(|p, l| raw::klem_remove_level(t, TABLE, a, PATH, p, l)), 0);
        assert_eq!(refused(|p, l| raw::klem_remove_level(t, TABLE, a, PATH, p, l)), Error::LevelDoesNotExist(1));
        assert_eq!(number(|p, l| raw::klem_add_value(t, TABLE, a, PATH, 7, p, l)), 0);
        assert_eq!(refused(|p, l| raw::klem_add_value(t, TABLE, a, PATH, 7, p, l)), Error::NameCollision);
        assert_eq!(number(|p, l| raw::klem_add_value_at_resolved_path(t, TABLE, c, PATH, r, PATH, 7, p, l)), 0);
        assert_eq!(refused(|p, l| raw::klem_add_value_at_resolved_path(t, TABLE, r, PATH, r, PATH, 7, p, l)), Error::RootNotAllowed);
        assert_eq!(number(|p, l| raw::klem_add_alias_at_resolved_path(t, TABLE, d, PATH, r, PATH, b, PATH, p, l)), 0);
        assert_eq!(refused(|p, l| raw::klem_add_alias_at_resolved_path(t, TABLE, d, PATH, b, PATH, b, PATH, p, l)), Error::NotAbsolute);
        assert_eq!(number(|p, l| raw::klem_get(t, TABLE, 0, p, l)), 0);
        assert_eq!(refused(|p, l| raw::klem_get(t, TABLE, 2, p, l)), Error::NoSuchHandle);
        assert_eq!(number(|p, l| raw::klem_set(t, TABLE, 0, 8, p, l)), 0);
        assert_eq!(refused(|p, l| raw::klem_set(t, TABLE, 2, 8, p, l)), Error::NoSuchHandle);
        assert_eq!(number(|p, l| raw::klem_get_handle(t, TABLE, a, PATH, p, l)), 0);
        assert_eq!(refused(|p, l| raw::klem_get_handle(t, TABLE, r, PATH, p, l)), Error::RootNotAllowed);
        assert_eq!(number(|p, l| raw::klem_get_by_path(t, TABLE, a, PATH, p, l)), 0);
        assert_eq!(refused(|p, l| raw::klem_get_by_path(t, TABLE, b, PATH, p, l)), Error::NotAbsolute);
        assert_eq!(number(|p, l| raw::klem_set_by_path(t, TABLE, a, PATH, 9, p, l)), 0);
        assert_eq!(refused(|p, l| raw::klem_set_by_path(t, TABLE, b, PATH, 9, p, l)), Error::NotAbsolute);
        assert_eq!(number(|p, l| raw::klem_search(t, TABLE, b, PATH, r, PATH, o, PATH, p, l)), 0);
        assert_eq!(refused(|p, l| raw::klem_search(t, 0, b, PATH, r, PATH, o, PATH, p, l)), Error::BadTable);
        assert_eq!(number(|p, l| raw::klem_search_for_level(t, TABLE, r, PATH, r, PATH, o, PATH, p, l)), 0);
        assert_eq!(refused(|p, l| raw::klem_search_for_level(t, TABLE, b, PATH, r, PATH, o, PATH, p, l)), Error::LevelDoesNotExist(1));
        let mut list = [7; 2];
        let q = list.as_mut_ptr();
        assert_eq!(refused(|p, l| raw::klem_levels(t, TABLE, r, PATH, q, 0, p, l)), Error::OutTooSmall(1));
        assert_eq!(number(|p, l| raw::klem_levels(t, TABLE, r, PATH, q, 2, p, l)), 0);
        assert_eq!(list, [0, 7]);
        // three names of two objects: 296 bits
        let mut image = [7; 38];
        let i = image.as_mut_ptr();
        assert_eq!(refused(|p, l| raw::klem_image_write(t, TABLE, i, 36, p, l)), Error::OutTooSmall(0));
        assert_eq!(image, [7; 38]);
        assert_eq!(refused(|p, l| raw::klem_image_write(t, 0, i, 38, p, l)), Error::BadTable);
        assert_eq!(number(|p, l| raw::klem_image_write(t, TABLE, i, 38, p, l)), 0);
        assert_eq!((&image[..4], image[37]), (&[0x10, 0, 0x0C, 2][..], 7));
        let i = image.as_ptr();
        assert_eq!(refused(|p, l| raw::klem_image_read(i, 38, t, TABLE, p, l)), Error::ImageBytesLeft(296));
        assert_eq!(refused(|p, l| raw::klem_image_read(n, 0, t, TABLE, p, l)), Error::ImageEndedEarly(0));
        assert_eq!(refused(|p, l| raw::klem_image_read(i, 37, t, 0, p, l)), Error::BadTable);
        assert_eq!(number(|p, l| raw::klem_image_read(i, 37, t, TABLE, p, l)), 0);

        assert_eq!(number(|p, l| raw::klem_check(block.as_ptr(), 3, p, l)), 0);
        assert_eq!(refused(|p, l| raw::klem_check(block.as_ptr(), 2, p, l)), Error::UnexpectedEndOfStream(2));
        assert_eq!(number(|p, l| raw::klem_run(block.as_ptr(), 3, f, FRAME, 1, p, l)), 0);
        assert_eq!(refused(|p, l| raw::klem_run(block.as_ptr(), 2, f, FRAME, 1, p, l)), Error::UnexpectedEndOfStream(2));
        assert_eq!(refused(|p, l| raw::klem_run(block.as_ptr(), 3, f, FRAME, 0, p, l)), Error::BudgetSpent);
        assert_eq!(number(|p, l| raw::klem_frame_new(f, FRAME, 32, p, l)), 0);
        assert_eq!(number(|p, l| raw::klem_frame_set(f, FRAME, 14, 1, p, l)), 0);
        assert_eq!(refused(|p, l| raw::klem_frame_set(f, FRAME, 15, 1, p, l)), Error::BadCell(15));
        assert_eq!(number(|p, l| raw::klem_frame_get(f, FRAME, 14, p, l)), 0);
        assert_eq!(refused(|p, l| raw::klem_frame_get(f, FRAME, 15, p, l)), Error::Unset(15));
        // a width that Width does not have, told before the block and the cell
        assert_eq!(refused(|p, l| raw::klem_run(block.as_ptr(), 2, g, FRAME, 1, p, l)), Error::NotInTable(BAD_WIDTH));
        assert_eq!(refused(|p, l| raw::klem_frame_new(g, FRAME, 31, p, l)), Error::NotInTable(BAD_WIDTH));
        assert_eq!(refused(|p, l| raw::klem_frame_get(g, FRAME, 15, p, l)), Error::NotInTable(BAD_WIDTH));
        assert_eq!(refused(|p, l| raw::klem_frame_set(g, FRAME, 15, 1, p, l)), Error::NotInTable(BAD_WIDTH));
    }
}

/// A slice of another length than is fixed: nothing is written, and the words are not read.
#[test]
fn a_slice_of_another_length() {
    let mut out = [0xA5; PATH + 1];
    let mut frame = [BEFORE; FRAME + 1];
    for length in [0, PATH - 1, PATH + 1] {
        let mut a = raw::Answer::new();
        // SAFETY: `out` has at least so many bytes; the result is this call's own, and `returned` what the call returned that was given it.
        let said = unsafe {
            let returned = raw::klem_root(out.as_mut_ptr(), length, a.ptr(), RESULT);
            a.read(returned)
        };
        assert_eq!(said, Err(Error::NotInTable(BAD_SLICE)));
    }
    for length in [0, FRAME - 1, FRAME + 1] {
        let mut a = raw::Answer::new();
        // SAFETY: as above, with `frame`.
        let (said, units) = unsafe {
            let returned = raw::klem_run([0xA3].as_ptr(), 1, frame.as_mut_ptr(), length, 9, a.ptr(), RESULT);
            (a.read(returned), a.units(returned))
        };
        assert_eq!((said, units), (Err(Error::NotInTable(BAD_SLICE)), 0));
    }
    assert_eq!((out, frame), ([0xA5; PATH + 1], [BEFORE; FRAME + 1]));
}

/// The constants are what the archive writes.
#[test]
fn constants() {
    let (mut out, mut table) = ([0xA5; PATH], std::vec![BEFORE; TABLE]);
    // SAFETY: every pointer comes with the length of what it points to, and the result's words as they are given here.
    unsafe {
        raw::ask(|a| raw::klem_root(out.as_mut_ptr(), PATH, a, RESULT)).unwrap();
        raw::ask(|a| raw::klem_table_new(table.as_mut_ptr(), TABLE, a, RESULT)).unwrap();
    }
    assert_eq!(&out, Path::root().as_memory());
    for width in [Width::Bits32, Width::Bits64] {
        let mut frame = [BEFORE; FRAME];
        // SAFETY: as above.
        unsafe { raw::ask(|a| raw::klem_frame_new(frame.as_mut_ptr(), FRAME, u64::from(width.bits()), a, RESULT)) }.unwrap();
        assert_eq!(&frame, Frame::new(width).words());
        assert_eq!(Frame::new(width).width(), width);
    }
    assert_eq!(table, Table::new().words());
}

// They can be had at compile time.
const _: (Frame, Width, usize, Table) = (Frame::new(Width::Bits32), Frame::new(Width::Bits64).width(), Path::root().count(), Table::new());

/// Every number of the table has its case, and the case its number.
#[test]
fn numbers() {
    for number in (1..=REFUSALS).chain([BAD_CELL]) {
        let error = Error::numbered(number, 3);
        assert_eq!(error.number(), number);
        assert_ne!(error, Error::NotInTable(number));
        assert!(error.place() == 3 || error.place() == 0);
    }
    for number in [0, REFUSALS + 1, BAD_SLICE, BAD_TYPE, BAD_WIDTH, BAD_WIDTH + 1, u64::MAX] {
        assert_eq!(Error::numbered(number, 3), Error::NotInTable(number));
        assert_eq!((Error::NotInTable(number).number(), Error::NotInTable(number).place()), (number, 0));
    }
}
