//! Document 01's worked cases, with the answers that it gives, through the archive; the twelve with a P are its proved ones.
use klem::{
    check, is_digit_char, is_lead_name_char, is_name_char, name_string, pkg_length, raw_pkg_length, run, Component, Counts, Ended, Error, Found,
    FoundLevel, Frame, Handle, Level, LevelType, Path, PkgLength, Run, Table, Width,
};
use klem::{write_table, Header, Signature};

fn p(text: &str) -> Path {
    text.parse().unwrap_or_else(|e| panic!("{text}: {e}"))
}

fn text(path: Result<Path, Error>) -> Result<String, Error> {
    path.map(|path| path.to_string())
}

#[test]
fn package_lengths() {
    let fits = |raw_length, end_offset, used| Ok((PkgLength { raw_length, end_offset }, used));
    // P
    assert_eq!(pkg_length(&[0x00]), fits(0, 1, 1));
    // P: 64 bytes, and 63
    let mut bytes = [0u8; 64];
    bytes[0] = 0x40;
    bytes[1] = 0x04;
    assert_eq!(pkg_length(&bytes), fits(64, 0, 2));
    assert_eq!(pkg_length(&bytes[..63]), Err(Error::InvalidPkgLength(0)));
    // P
    assert_eq!(pkg_length(&[0x41]), Err(Error::UnexpectedEndOfStream(1)));
    // bits 5-4 are ignored
    assert_eq!(raw_pkg_length(&[0x70, 0x04]), Ok((64, 2)));
    // the limit is tested first, and the bare reader shares it
    let long = vec![0u8; 65_537];
    assert_eq!(pkg_length(&long), Err(Error::BlockTooLong));
    assert_eq!(raw_pkg_length(&long), Err(Error::BlockTooLong));
    assert_eq!(pkg_length(&long[1..]), fits(0, 65_536, 1));
    // no bytes at all, by a slice that has none
    assert_eq!(pkg_length(&[]), Err(Error::UnexpectedEndOfStream(0)));

    let length = PkgLength::from_raw_length(&bytes, 60).unwrap();
    assert_eq!(length, PkgLength { raw_length: 60, end_offset: 4 });
    assert_eq!(PkgLength::from_raw_length(&bytes, 65), Err(Error::InvalidPkgLength(0)));
    // "still parsing": the remaining length is greater than the end offset
    assert!(length.still_parsing(&bytes[..5]));
    assert!(!length.still_parsing(&bytes[..4]));
    assert!(!length.still_parsing(&[]));
}

#[test]
fn names() {
    // P, P
    assert_eq!(name_string(&[0x5C, 0x00]), Ok((Path::root(), 2)));
    let (prefix, used) = name_string(&[0x5E, 0x00]).unwrap();
    assert_eq!((prefix.components().collect::<Vec<_>>(), used), (vec![Component::Prefix], 2));
    // P, and beside it
    assert_eq!(name_string(&[0x00]), Err(Error::EmptyNamesAreInvalid));
    assert_eq!(name_string(&[0x2F, 0x00]), Err(Error::EmptyNamesAreInvalid));
    assert_eq!(name_string(&[0x5C, 0x2F, 0x00]), Ok((Path::root(), 3)));
    assert_eq!(name_string(&[0x30]), Err(Error::BadNameByte(0)));
    assert_eq!(Path::from_bytes(b"\\.AB12_X__tail"), Ok((p("\\AB12._X__"), 10)));

    for byte in 0..=255u8 {
        let (lead, digit) = (byte.is_ascii_uppercase() || byte == b'_', byte.is_ascii_digit());
        assert_eq!((is_lead_name_char(byte), is_digit_char(byte), is_name_char(byte)), (lead, digit, lead || digit));
    }
}

#[test]
fn paths() {
    assert_eq!(p("\\"), Path::root());
    assert_eq!("^".parse::<Path>(), Err(Error::InvalidNameSeg(1)));
    assert_eq!("".parse::<Path>(), Err(Error::EmptyNamesAreInvalid));
    assert_eq!(text(p("\\_SB_.PCI0.^ISA_").normalize()), Ok("\\_SB_.ISA_".into()));
    // P
    assert_eq!(p("\\^ISA_").normalize(), Err(Error::InvalidNormalizedName));
    // resolving: an absolute scope is needed; an absolute path is normalised alone; 9 is judged on the result only
    assert_eq!(p("X").resolve(&p("Y")), Err(Error::NotAbsolute));
    assert_eq!(p("\\A.^B").resolve(&p("\\Q")), Ok(p("\\B")));
    let deep = format!("\\{}", ["ABCD"; 31].join("."));
    assert_eq!(p("^ABCD").resolve(&p(&deep)), Ok(p(&deep)));
    assert_eq!(p("ABCD").resolve(&p(&deep)), Err(Error::TooManyComponents));
    // the parent of a lone segment is the empty path
    assert_eq!(p("FOO").parent(), Ok(Path::EMPTY));
    assert_eq!(Path::root().parent(), Err(Error::RootHasNoParent));
    assert_eq!(Path::EMPTY.parent(), Err(Error::RootHasNoParent));
    assert_eq!(p("\\A.B").parent(), Ok(p("\\A")));

    // writing: at most 159 bytes, and what stands behind the text stays
    let mut out = [b'!'; 7];
    assert_eq!(p("\\A").write_text(&mut out[..4]), Err(Error::OutTooSmall(0)));
    assert_eq!(&out, b"!!!!!!!");
    assert_eq!(p("\\A").write_text(&mut out), Ok(5));
    assert_eq!(&out, b"\\A___!!");
    let longest = ["ABCD"; 32].join(".");
    assert_eq!(p(&longest).text().len(), Path::MOST_TEXT);
    assert_eq!(p(&longest).to_string(), longest);
    assert_eq!(Path::EMPTY.text().as_str(), "");
    assert_eq!(format!("{:?} {:>7}", p("\\A"), p("\\A")), "Path(\\A___)   \\A___");

    // memory: equal paths are equal bytes; what is no path is refused
    assert_eq!(Path::from_memory(p("\\A.^B").as_memory()), Ok(p("\\A.^B")));
    assert_eq!(p("\\A.^B").count(), 4);
    assert_eq!(p("\\A").components().last(), Some(Component::Segment(*b"A___")));
    assert_eq!(Path::from_name_seg(*b"AB12"), Ok(p("AB12")));
    assert_eq!(Path::from_name_seg(*b"1AB2"), Err(Error::BadPath));
    assert_eq!(Path::from_components(0, &[0; 128]), Ok(Path::EMPTY));
    assert_eq!(Path::from_components(33, &[0; 128]), Err(Error::BadPath));
    assert_eq!(Path::from_components(usize::MAX, &[0; 128]), Err(Error::BadPath));
    assert_eq!(Path::from_memory(&[0xFF; Path::BYTES]), Err(Error::BadPath));
    // the count has two bytes, low first
    assert_eq!(&p("\\A").as_memory()[..10], b"\x02\x00\\\0\0\0A___");
    let mut memory = *p("\\A").as_memory();
    memory[1] = 1;
    assert_eq!(Path::from_memory(&memory), Err(Error::BadPath));

    let kinds = |path: Path| (path.is_absolute(), path.is_normal(), path.search_rules_apply());
    assert_eq!(kinds(p("\\A")), (true, true, false));
    assert_eq!(kinds(p("^A")), (false, false, false));
    assert_eq!(kinds(p("A")), (false, true, true));
    assert_eq!(kinds(Path::EMPTY), (false, true, false));
}

#[test]
fn the_table() {
    let mut table = Table::new();
    table.add_level(&p("\\A"), LevelType::Scope).unwrap();
    table.add_level(&p("\\A.B"), LevelType::Device).unwrap();
    assert_eq!(table.add_value(&p("\\X"), 5), Ok(Handle(0)));
    assert_eq!(table.add_value(&p("\\A.X"), 6), Ok(Handle(1)));
    // P
    assert_eq!(table.search(&p("X"), &p("\\A.B.C")), Ok(Found { path: p("\\A.X"), handle: Handle(1), asked: 3 }));
    assert_eq!(table.search(&p("X"), &p("\\")), Ok(Found { path: p("\\X"), handle: Handle(0), asked: 1 }));
    assert_eq!(table.search(&p("Y"), &p("\\A.B")), Err(Error::ValueDoesNotExist));
    assert_eq!(table.search(&p("X"), &p("A")), Err(Error::NotAbsolute));
    assert_eq!(table.search(&p("X"), &p("\\^A")), Err(Error::InvalidNormalizedName));
    assert_eq!(table.search(&p("\\"), &p("\\")), Err(Error::RootNotAllowed));
    assert_eq!(table.search_for_level(&p("B"), &p("\\A.B.C")), Ok(FoundLevel { path: p("\\A.B"), asked: 3 }));
    assert_eq!(table.search_for_level(&p("Z"), &p("\\A")), Err(Error::LevelDoesNotExist(1)));
    assert_eq!(table.search_for_level(&p("^Z"), &p("A")), Ok(FoundLevel { path: p("^Z"), asked: 0 }));
    let level = |depth, typ, segment: &[u8; 4]| Level { depth, typ, segment: *segment };
    let all = [level(0, LevelType::Scope, &[0; 4]), level(1, LevelType::Scope, b"A___"), level(2, LevelType::Device, b"B___")];
    assert_eq!(table.levels(&p("\\")).map(|l| l.collect::<Vec<_>>()), Ok(all.to_vec()));
    assert_eq!(table.levels(&p("\\A")).map(|l| (l.len(), l.collect::<Vec<_>>())), Ok((2, all[1..].to_vec())));
    assert_eq!(table.levels(&p("\\A.Q")).map(|l| l.len()), Err(Error::LevelDoesNotExist(2)));
    assert_eq!(table.levels(&p("A")).map(|l| l.len()), Err(Error::NotAbsolute));

    // an image, and the same table of it
    let mut room = [7; 64];
    assert_eq!(table.image(&mut room[..44]), Err(Error::OutTooSmall(0)));
    assert_eq!(room, [7; 64]);
    assert_eq!(table.image(&mut room), Ok(45));
    assert_eq!((&room[..4], room[45]), (&[0x10, 0x20, 0x08, 0x02][..], 7));
    let mut other = Table::new();
    assert_eq!(other.load(&room[..46]), Err(Error::ImageBytesLeft(360)));
    assert_eq!(other.load(&room[..44]), Err(Error::ImageEndedEarly(292)));
    assert_eq!(other, Table::new());
    assert_eq!(other.load(&room[..45]), Ok(Counts { levels: 2, bindings: 2, objects: 2 }));
    assert_eq!(other, table);
    let mut short = Table::over(vec![0; Table::WORDS - 1]);
    assert_eq!(short.load(&room[..45]), Err(Error::BadTable));

    // a refused edit leaves the memory as it was
    let before = table.clone();
    assert_eq!(table.add_level(&p("\\A.Q.R"), LevelType::Scope), Err(Error::LevelDoesNotExist(2)));
    assert_eq!(table.add_value(&p("\\A.X"), 9), Err(Error::NameCollision));
    assert_eq!(table.remove_level(&p("\\")), Err(Error::TriedToRemoveRootNamespace));
    assert_eq!(table.set(Handle(2), 9), Err(Error::NoSuchHandle));
    assert_eq!(table, before);
    // `\`, and a level that is there, are left as they are, the old type kept
    table.add_level(&p("\\"), LevelType::MethodLocals).unwrap();
    table.add_level(&p("\\A.B"), LevelType::Processor).unwrap();
    assert_eq!(table, before);

    assert_eq!(table.add_alias_at_resolved_path(&p("Y"), &p("\\A"), &p("^X")), Ok(Handle(0)));
    assert_eq!(table.get_handle(&p("\\A.Y")), Ok(Handle(0)));
    assert_eq!(table.add_value_at_resolved_path(&p("^Z"), &p("\\A.B"), 7), Ok(Handle(2)));
    assert_eq!(table.set(Handle(2), 8), Ok(()));
    assert_eq!(table.get_by_path(&p("\\A.Z")), Ok(8));
    assert_eq!(table.set_by_path(&p("\\A.Z"), u64::MAX), Ok(()));
    assert_eq!(table.get(Handle(2)), Ok(u64::MAX));
    // removing frees levels and bindings; objects stay
    assert_eq!(table.remove_level(&p("\\A")), Ok(()));
    assert_eq!(table.get(Handle(1)), Ok(6));
    assert_eq!(table.get_handle(&p("\\A.X")), Err(Error::LevelDoesNotExist(1)));
}

#[test]
fn the_tables_memory() {
    // the constant is what the archive writes
    let mut words = [0xA5u64; Table::WORDS];
    assert_eq!(Table::fresh_in(&mut words).unwrap().words(), Table::new().words());
    assert!(Table::new().is_well_formed());
    // lent memory of a wrong length, and memory that holds no table
    assert_eq!(Table::fresh_in(&mut words[..Table::WORDS - 1]).err(), Some(Error::BadTable));
    assert!(!Table::over(&words[1..]).is_well_formed());
    assert_eq!(Table::over(&[][..]).get(Handle(0)), Err(Error::BadTable));
    assert_eq!(Table::over([0; Table::WORDS]).get(Handle(0)), Err(Error::BadTable));
    assert_eq!(Table::over(vec![u64::MAX; Table::WORDS]).add_value(&p("\\A"), 1), Err(Error::BadTable));

    // docs/TABLE.md's worked dump, in lent memory, read over a shared slice
    let mut table = Table::fresh_in(&mut words[..]).unwrap();
    table.add_level(&p("\\_SB_"), LevelType::Scope).unwrap();
    table.add_level(&p("\\_SB_.PCI0"), LevelType::Device).unwrap();
    table.add_level(&p("\\_PR_"), LevelType::Scope).unwrap();
    table.add_value(&p("\\_SB_.PCI0._ADR"), 0x1F_0000).unwrap();
    table.add_value(&p("\\_OS_"), 7).unwrap();
    table.add_alias_at_resolved_path(&p("\\_SB_.PCI0._UID"), &p("\\"), &p("\\_OS_")).unwrap();
    let dump: Vec<(usize, u64)> = words.iter().copied().enumerate().filter(|(_, w)| *w != 0).collect();
    assert_eq!(
        dump,
        [
            (0, 0x0000_2001_0000_0000),
            (1, 0x0000_4000_001c_5cd0),
            (2, 0x0000_4000_001c_6a8b),
            (3, 0x0000_6402_0013_955b),
            (128, 0x001c_579c_0000_0001),
            (129, 0x001c_0a8a_0000_0000),
            (130, 0x001c_7629_0000_0001),
            (640, 2),
            (641, 0x1f_0000),
            (642, 7)
        ]
    );
    assert_eq!(Table::over(&words[..]).get_by_path(&p("\\_SB_.PCI0._UID")), Ok(7));
}

fn ran(end: Result<Ended, Error>, units: u64) -> Run {
    Run { end, units }
}

#[test]
fn control_blocks() {
    let fresh = |block: &[u8], budget| run(block, &mut Frame::new(Width::Bits64), budget);
    // P, P, P, P
    assert_eq!(fresh(&[], 0), ran(Ok(Ended::Finished), 0));
    assert_eq!(fresh(&[0x70, 0x0A, 0x03, 0x60, 0xA2, 0x04, 0x60, 0x76, 0x60, 0xA4, 0x60], 100), ran(Ok(Ended::Returned(0)), 10));
    assert_eq!(fresh(&[0xA0, 0x04, 0x00, 0xA4, 0x01, 0xA1, 0x03, 0xA4, 0x00], 100), ran(Ok(Ended::Returned(0)), 2));
    assert_eq!(check(&[0xA0, 0x02, 0x0A, 0x05]), Err(Error::PackageEndsEarly(3)));
    assert_eq!(check(&[0xA0, 0x02, 0x00, 0xA1, 0x00]), Err(Error::PackageEndsEarly(4)));
    assert_eq!(check(&[0xA0, 0x03, 0x00]), Err(Error::InvalidPkgLength(1)));
    assert_eq!(check(&[0x60]), Err(Error::BadOpcode(0)));
    assert_eq!(check(&[0xA1, 0x01]), Err(Error::BadOpcode(0)));
    for budget in [0, 1, 2, 7, 1000] {
        assert_eq!(fresh(&[0xA2, 0x02, 0x01], budget), ran(Err(Error::BudgetSpent), budget));
    }
    assert_eq!(fresh(&[0xA4, 0x60], 1), ran(Err(Error::Unset(0)), 1));
    assert_eq!(fresh(&[0xA5], 9), ran(Ok(Ended::BreakOut), 1));
    assert_eq!(fresh(&[0x9F], 9), ran(Ok(Ended::ContinueOut), 1));
    assert_eq!(check(&vec![0xA3; 65_536]), Ok(()));
    assert_eq!(check(&vec![0xA3; 65_537]), Err(Error::BlockTooLong));
    assert_eq!(check(&[vec![0xA4], vec![0x92; 16], vec![0x01]].concat()), Err(Error::TooDeep(17)));

    // an unread branch is checked; a block that is refused leaves the frame as it was
    let with = |number| Frame::new(Width::Bits64).with(0, number).unwrap();
    let mut frame = with(5);
    assert_eq!(run(&[0x75, 0x60, 0xA0, 0x04, 0x00, 0x30, 0xA4, 0x00], &mut frame, 9), ran(Err(Error::BadOpcode(5)), 0));
    assert_eq!(frame, with(5));
    // 23 leaves what the effects before it made
    assert_eq!(run(&[0x75, 0x60, 0x75, 0x61], &mut frame, 9), ran(Err(Error::Unset(1)), 2));
    assert_eq!(frame, with(6));
    assert_eq!(format!("{frame:?}").matches("None").count(), 14);
}

#[test]
fn frames() {
    let mut frame = Frame::new(Width::Bits64);
    assert_eq!(frame.get(14), Err(Error::Unset(14)));
    assert_eq!(frame.set(14, 9), Ok(()));
    assert_eq!(frame.set(Frame::ARG0, u64::MAX), Ok(()));
    // a cell that is not there is refused, and the frame stays as it was
    let before = frame;
    assert_eq!(frame.set(Frame::CELLS, 1), Err(Error::BadCell(15)));
    assert_eq!(frame.set(usize::MAX, 1), Err(Error::BadCell(usize::MAX)));
    assert_eq!(frame.with(15, 1), Err(Error::BadCell(15)));
    assert_eq!(frame, before);
    assert_eq!(frame.get(14), Ok(9));
    assert_eq!(frame.get(8), Ok(u64::MAX));
    assert_eq!(frame.get(15), Err(Error::Unset(15)));
    assert_eq!(Frame::new(Width::Bits64).with(8, u64::MAX).and_then(|f| f.with(14, 9)), Ok(frame));
    // Return Arg0
    assert_eq!(run(&[0xA4, 0x68], &mut frame, 1), ran(Ok(Ended::Returned(u64::MAX)), 1));
}

/// Request R-2: old tables count in 32 bits.
#[test]
fn widths() {
    let (over, large, low) = (1u64 << 32, 0xFEDC_BA98_7654_3210u64, 0x7654_3210u64);
    let (ones32, ones64) = (u64::from(u32::MAX), u64::MAX);
    // the DSDT's revision decides, in its SSDTs too
    for revision in 0..=255u8 {
        let width = if revision < 2 { Width::Bits32 } else { Width::Bits64 };
        assert_eq!(Width::of_revision(revision), width);
        assert!((0..=255).all(|ssdt| Width::of_ssdt(revision, ssdt) == width));
        let mut table = [0; 36];
        for (letters, said) in [(*b"DSDT", Some(width)), (*b"SSDT", None)] {
            assert_eq!(write_table(letters, revision, &[0; 26], &[], &mut table), Ok(36));
            assert_eq!(Header::read(&table).map(|h| h.width()), Ok(said));
        }
    }
    assert_eq!((Width::Bits32.bits(), Width::Bits64.bits()), (32, 64));

    let with = |width, number| Frame::new(width).with(0, number).unwrap();
    // what `Return term` gives at both widths, with a number in Local0
    for (local0, term, narrow, wide) in [
        (0, &[0xFF][..], ones32, ones64),
        (5, &[0x93, 0x60, 0x0A, 0x05], ones32, ones64),
        (0, &[0x92, 0x60], ones32, ones64),
        (ones32, &[0x75, 0x60], 0, over),
        (ones64, &[0x75, 0x60], 0, 0),
        (0, &[0x76, 0x60], ones32, ones64),
        (over, &[0x76, 0x60], ones32, ones32),
        (ones32, &[0x72, 0x60, 0x01, 0x00], 0, over),
        (ones32, &[0x72, 0x60, 0x0A, 0x05, 0x60], 4, over + 4),
        (0, &[0x0E, 0x10, 0x32, 0x54, 0x76, 0x98, 0xBA, 0xDC, 0xFE], low, large),
        (0, &[0x0C, 0xFF, 0xFF, 0xFF, 0xFF], ones32, ones32),
        (large, &[0x60], low, large),
        (over, &[0x91, 0x60, 0x00], 0, ones64),
        (over, &[0x93, 0x60, 0x00], ones32, 0),
        (over, &[0x94, 0x60, 0x01], 0, ones64),
    ] {
        let block = [&[0xA4], term].concat();
        for (width, number) in [(Width::Bits32, narrow), (Width::Bits64, wide)] {
            let mut frame = with(width, local0);
            assert_eq!(run(&block, &mut frame, 1), ran(Ok(Ended::Returned(number)), 1), "{block:x?} over {local0} at {width:?}");
            assert_eq!(frame.width(), width);
        }
    }

    // a larger number keeps its low 32 bits from the moment that execution begins
    let mut frame = with(Width::Bits32, large);
    assert_eq!(frame.get(0), Ok(large));
    assert_eq!(run(&[0x75, 0x60, 0x30], &mut frame, 9), ran(Err(Error::BadOpcode(2)), 0));
    assert_eq!(frame, with(Width::Bits32, large));
    assert_eq!(run(&[], &mut frame, 0), ran(Ok(Ended::Finished), 0));
    assert_eq!(frame, with(Width::Bits32, low));
    frame = with(Width::Bits32, large);
    assert_eq!(run(&[0x75, 0x60], &mut frame, 0), ran(Err(Error::BudgetSpent), 0));
    assert_eq!(frame, with(Width::Bits32, low));
    frame = with(Width::Bits32, large);
    assert_eq!(run(&[0x75, 0x60, 0x75, 0x61], &mut frame, 9), ran(Err(Error::Unset(1)), 2));
    assert_eq!(frame, with(Width::Bits32, low + 1));
    frame = with(Width::Bits64, large);
    assert_eq!(run(&[], &mut frame, 0), ran(Ok(Ended::Finished), 0));
    assert_eq!(frame, with(Width::Bits64, large));
    // two frames of other widths are not the same frame
    assert_ne!(Frame::new(Width::Bits32), Frame::new(Width::Bits64));
}

#[test]
fn shown() {
    assert_eq!(Error::BadNameByte(3).to_string(), "refused 6 at 3 BadNameByte");
    assert_eq!(Error::BadCell(15).to_string(), "refused 1003 at 15 BadCell");
    assert_eq!(Error::NotInTable(1001).to_string(), "refused 1001 at 0 NotInTable");
    let unset = ["None"; 14].join(", ");
    assert_eq!(format!("{:?}", Frame::new(Width::Bits32).with(0, 7).unwrap()), format!("Frame {{ width: Bits32, cells: [Some(7), {unset}] }}"));
    // a table shows the words that are not 0
    assert_eq!(format!("{:x?}", Table::new()), "{0: 200000000000}");
}

#[cfg(any(klem_core_error, feature = "std"))]
#[test]
fn an_error_as_others_have_it() {
    fn parsed(text: &str) -> Result<Path, Box<dyn std::error::Error>> {
        Ok(text.parse()?)
    }
    assert_eq!(parsed("").map_err(|e| e.to_string()), Err("refused 7 at 0 EmptyNamesAreInvalid".into()));
}

/// Request R-1: each refusal of a whole table in its order, and reading what was written.
#[test]
fn whole_tables() {
    let rest = *b"ABCDEFGHIJKLMNOPQRSTUVWXYZ";
    let body = [0xA4, 0x0A, 0x05];
    let mut table = [0xEE; 64];
    assert_eq!(write_table(*b"SSDT", 7, &rest, &body, &mut table), Ok(39));
    assert!(table[39..].iter().all(|b| *b == 0xEE));
    assert_eq!(table[..39].iter().fold(0u8, |s, b| s.wrapping_add(*b)), 0);
    assert_eq!((&table[..8], &table[10..36]), (&b"SSDT\x27\0\0\0"[..], &rest[..]));
    assert_eq!(Header::read(&table), Ok(Header { signature: Signature::Ssdt, revision: 7, body: &body }));
    assert_eq!(Header::read(&table[..39]), Ok(Header { signature: Signature::Ssdt, revision: 7, body: &body }));

    assert_eq!(Header::read(&table[..35]), Err(Error::TableTooShort));
    assert_eq!(Header::read(&[0; 36]), Err(Error::BadSignature));
    assert_eq!(Header::read(&table[..38]), Err(Error::BadTableLength));
    for (at, said) in [(3, Error::BadSignature), (4, Error::BadTableLength), (9, Error::BadChecksum), (38, Error::BadChecksum)] {
        let mut damaged = table;
        damaged[at] ^= 0x20;
        assert_eq!(Header::read(&damaged), Err(said), "byte {at}");
    }

    let before = table;
    assert_eq!(write_table(*b"dsdt", 7, &rest, &body, &mut table), Err(Error::BadSignature));
    assert_eq!(write_table(*b"DSDT", 7, &rest, &[0; 29], &mut table), Err(Error::OutTooSmall(0)));
    assert_eq!(table, before);
    assert_eq!(write_table(*b"DSDT", 7, &rest, &[0; 28], &mut table), Ok(64));
    assert_eq!(Header::read(&table).map(|h| h.body.len()), Ok(28));
}
