//! What both sides are asked.

/// Package lengths of one to four bytes, each at the front of 300 bytes.
pub fn lengths() -> Vec<Vec<u8>> {
    (0..64usize)
        .map(|i| {
            let (extra, raw) = (i % 4, 4 + 4 * (i / 4));
            let mut bytes = vec![0u8; 300];
            if extra == 0 {
                bytes[0] = raw as u8;
            } else {
                bytes[0] = (extra as u8) << 6 | (raw as u8 & 15);
                bytes[1] = (raw >> 4) as u8;
            }
            bytes
        })
        .collect()
}

/// Names as a table of a board spells them.
pub fn names() -> Vec<Vec<u8>> {
    let names: [&[u8]; 12] = [
        b"_STA",
        b"\\_SB_",
        b"\\_OSI",
        b"^_CRS",
        b"^^PCI0",
        b"\\._SB_PCI0",
        b".PCI0RP01",
        b"\\/\x03_SB_PCI0LPCB",
        b"\\/\x04_SB_PCI0LPCBEC0_",
        b"/\x03RP01PXSX_ADR",
        b"\\/\x06_SB_PCI0LPCBEC0_BAT0CELL",
        b"\\\x00",
    ];
    // what follows a name in a block
    names.iter().map(|n| [n, &[0x70, 0x0A, 0x05, 0x60][..]].concat()).collect()
}

pub const TEXTS: [&str; 12] = [
    "_STA",
    "\\_SB_",
    "\\_OSI",
    "^_CRS",
    "^^PCI0",
    "\\_SB.PCI0",
    "PCI0.RP01",
    "\\_SB_.PCI0.LPCB",
    "\\_SB_.PCI0.LPCB.EC0",
    "RP01.PXSX._ADR",
    "\\_SB_.PCI0.LPCB.EC0_.BAT0.CELL",
    "\\",
];

/// Paths with a `^` that takes a segment away.
pub const BENT: [&str; 6] = [
    "\\_SB_.PCI0.^ISA_",
    "\\_SB_.PCI0.LPCB.^^_STA",
    "A.^B",
    "\\A.B.C.^^^D",
    "\\_SB_.PCI0.RP01.^RP02.PXSX.^PXSY",
    "\\_SB_.PCI0.LPCB.EC0_.BAT0.^BAT1.CELL",
];

/// Paths relative to a scope.
pub const SEEN: [(&str, &str); 6] = [
    ("_STA", "\\_SB_.PCI0"),
    ("^_CRS", "\\_SB_.PCI0.LPCB"),
    ("^^PCI0", "\\_SB_.PCI0.LPCB"),
    ("RP01.PXSX._ADR", "\\_SB_.PCI0"),
    ("CELL", "\\_SB_.PCI0.LPCB.EC0_.BAT0"),
    ("_OSI", "\\"),
];

/// The levels of a board, 100 below the root, in the order in which its tables make them; the deepest has six segments.
pub fn board_levels() -> Vec<String> {
    let mut levels: Vec<String> = ["\\_SB_", "\\_PR_", "\\_TZ_", "\\_GPE"].map(String::from).to_vec();
    levels.extend((0..16).map(|i| format!("\\_PR_.CP{i:02}")));
    levels.push("\\_SB_.PCI0".into());
    levels.extend((0..24).flat_map(|i| [format!("\\_SB_.PCI0.RP{i:02}"), format!("\\_SB_.PCI0.RP{i:02}.PXSX")]));
    levels.extend(
        ["LPCB", "LPCB.EC0_", "LPCB.EC0_.BAT0", "LPCB.EC0_.BAT1", "LPCB.EC0_.BAT0.CELL", "XHC_", "XHC_.RHUB"].map(|l| format!("\\_SB_.PCI0.{l}")),
    );
    levels.extend((1..15).map(|i| format!("\\_SB_.PCI0.XHC_.RHUB.HS{i:02}")));
    levels.extend((1..11).map(|i| format!("\\_SB_.PCI0.XHC_.RHUB.SS{i:02}")));
    assert_eq!(levels.len(), 100);
    levels
}

/// Four values to a level: three that every level has, and one that no other level has.
pub fn board_values(levels: &[String]) -> Vec<(String, u64)> {
    levels
        .iter()
        .enumerate()
        .flat_map(|(i, l)| {
            [("_ADR".to_string(), 1), ("_STA".to_string(), 15), ("_UID".to_string(), i as u64), (own(i), 7)].map(|(s, v)| (format!("{l}.{s}"), v))
        })
        .collect()
}

pub fn own(level: usize) -> String {
    format!("V{level:03}")
}

pub const DEEPEST: &str = "\\_SB_.PCI0.LPCB.EC0_.BAT0.CELL";

/// Bare segments that are found from the deepest level after asking 1, 2, .. 6 scopes.
pub fn board_searches(levels: &[String]) -> Vec<String> {
    let mut scope = DEEPEST.to_string();
    let mut names = vec![];
    while scope != "\\" {
        names.push(own(levels.iter().position(|l| *l == scope).unwrap()));
        scope.truncate(scope.rfind('.').unwrap_or(1));
        if scope.len() > 1 && !scope.contains('.') && scope.len() < 5 {
            break;
        }
    }
    names
}

/// A table of `n` levels, the root counted: a chain of six, and the rest beside it under `\_SB_`; four values to a level.
pub fn levels_of(n: usize) -> Vec<String> {
    let chain = ["\\_SB_", "\\_SB_.PCI0", "\\_SB_.PCI0.LPCB", "\\_SB_.PCI0.LPCB.EC0_", "\\_SB_.PCI0.LPCB.EC0_.BAT0", DEEPEST];
    let mut levels: Vec<String> = chain.map(String::from).to_vec();
    levels.extend((0..n - 7).map(|i| format!("\\_SB_.D{i:03}")));
    levels
}

/// The boards on which a call is measured beside the test of memory: how each is called, its levels, and its values' paths.
pub fn boards() -> Vec<(String, Vec<String>, Vec<String>)> {
    let four = |levels: Vec<String>| {
        let values = board_values(&levels).into_iter().map(|(p, _)| p).collect::<Vec<_>>();
        (levels, values)
    };
    let mut boards: Vec<(String, (Vec<String>, Vec<String>))> = [8, 32, 128].map(|n| (format!("{n} levels"), four(levels_of(n)))).to_vec();
    let chain = levels_of(7);
    let mut many: Vec<String> = chain.iter().enumerate().map(|(i, l)| format!("{l}.{}", own(i))).collect();
    many.extend((0..512 - many.len()).map(|i| format!("\\_SB_.W{i:03}")));
    boards.push(("512 values, 507 of them in one level".into(), (chain, many)));
    boards.push(("100 levels below the root, a board".into(), four(board_levels())));
    boards.push(("127 levels under one".into(), four((0..127).map(|i| format!("\\D{i:03}")).collect())));
    let mut scope = String::from("\\");
    let deep: Vec<String> = (0..31)
        .map(|i| {
            scope += &format!("{}C{i:03}", if i == 0 { "" } else { "." });
            scope.clone()
        })
        .collect();
    // a level of 32 components holds no value
    let values = four(deep[..30].to_vec()).1;
    boards.push(("a chain of 31".into(), (deep, values)));
    boards.into_iter().map(|(title, (levels, values))| (title, levels, values)).collect()
}

/// Bare segments that are bound at levels around the longest of them, each somewhere else.
pub fn sought(levels: &[String], values: &[String]) -> Vec<String> {
    let scope = levels.iter().max_by_key(|l| l.len()).unwrap();
    let mut names: Vec<String> = values
        .iter()
        .filter_map(|v| v.rsplit_once('.'))
        .filter(|(l, s)| s.starts_with('V') && (scope == l || scope.starts_with(&format!("{l}."))))
        .map(|(_, s)| s.to_string())
        .collect();
    names.truncate(31);
    names
}

/// The last segments of the longest level and of those around it.
pub fn sought_levels(levels: &[String]) -> Vec<String> {
    let scope = levels.iter().max_by_key(|l| l.len()).unwrap();
    scope[1..].split('.').map(String::from).collect()
}

/// A block of so many bytes without a loop of many turns: stores, sums, comparisons, an If with its else, a While of one turn.
pub fn block_of(size: usize) -> Vec<u8> {
    let unit: &[u8] = &[
        0x70, 0x0A, 0x05, 0x60, // Local0 := 5
        0x72, 0x60, 0x0B, 0x34, 0x12, 0x61, // Local1 := Local0 + 0x1234
        0xA0, 0x07, 0x93, 0x60, 0x0A, 0x05, 0x75, 0x61, // if Local0 == 5 increment Local1
        0xA1, 0x03, 0x76, 0x61, // else decrement it
        0x70, 0x01, 0x62, // Local2 := 1
        0xA2, 0x04, 0x62, 0x76, 0x62, // while Local2 decrement it
        0x7B, 0x61, 0x0C, 0xFF, 0x00, 0xFF, 0x00, 0x63, // Local3 := Local1 & 0x00FF00FF
        0xA3, // nothing
        0x70, 0x90, 0x94, 0x63, 0x00, 0x91, 0x60, 0x62, 0x64, // Local4 := (Local3 > 0) && (Local0 || Local2)
        0x70, 0x0E, 1, 2, 3, 4, 5, 6, 7, 8, 0x65, // Local5 := eight bytes
    ];
    let mut block: Vec<u8> = unit.iter().copied().cycle().take(size / unit.len() * unit.len()).collect();
    block.resize(size, 0xA3);
    block
}

/// Local0 := turns; while Local0 decrement it; return it.
pub fn turns(n: u32) -> Vec<u8> {
    let mut block = vec![0x70, 0x0C];
    block.extend(n.to_le_bytes());
    block.extend([0x60, 0xA2, 0x04, 0x60, 0x76, 0x60, 0xA4, 0x60]);
    block
}

/// A loop of `n` turns whose body has the six operators that request R-7 adds, or, for the Rust, which has none of them, Add and And in their stead.
pub fn six_operators(n: u32, added: bool) -> Vec<u8> {
    let operators: [&[u8]; 6] = if added {
        [&[0x74, 0x60, 0x01, 0x61], &[0x7D, 0x60, 0x61, 0x62], &[0x7F, 0x61, 0x62, 0x63], &[0x80, 0x63, 0x64], &[0x81, 0x64, 0x65], &[0x82, 0x64, 0x66]]
    } else {
        [&[0x72, 0x60, 0x01, 0x61], &[0x7B, 0x60, 0x61, 0x62], &[0x7B, 0x61, 0x62, 0x63], &[0x72, 0x63, 0x00, 0x64], &[0x72, 0x64, 0x00, 0x65], &[0x72, 0x64, 0x00, 0x66]]
    };
    let body: Vec<u8> = [0x60, 0x76, 0x60].into_iter().chain(operators.concat()).collect();
    let mut block = vec![0x70, 0x0C];
    block.extend(n.to_le_bytes());
    block.extend([0x60, 0xA2, body.len() as u8 + 1]);
    block.extend(body);
    block.extend([0xA4, 0x60]);
    block
}

/// Short blocks, as a method's body is.
pub fn short_blocks() -> Vec<Vec<u8>> {
    let blocks: [&[u8]; 8] = [
        &[0xA4, 0x0A, 0x0F],
        &[0xA0, 0x04, 0x00, 0xA4, 0x01, 0xA1, 0x03, 0xA4, 0x00],
        &[0x70, 0x0A, 0x03, 0x60, 0xA2, 0x04, 0x60, 0x76, 0x60, 0xA4, 0x60],
        &[0x70, 0x0B, 0x34, 0x12, 0x60, 0x7B, 0x60, 0x0A, 0xFF, 0x61, 0xA4, 0x61],
        &[0x70, 0x01, 0x60, 0xA2, 0x03, 0x60, 0xA5, 0xA4, 0x60],
        &[0xA4, 0x72, 0x0A, 0x02, 0x0A, 0x03, 0x00],
        &[0x70, 0x0A, 0x05, 0x60, 0xA0, 0x06, 0x93, 0x60, 0x0A, 0x05, 0xA3, 0xA1, 0x02, 0xA3, 0xA4, 0x60],
        &[0xA3],
    ];
    blocks.iter().map(|b| b.to_vec()).collect()
}

/// Short blocks with a fault that the Rust finds too: it comes to it as it runs.
pub fn short_faults() -> Vec<Vec<u8>> {
    let blocks: [&[u8]; 8] = [
        &[0xFE],                                                                                           // no opcode
        &[0xA4],                                                                                           // a Return that ends
        &[0xA4, 0x0B, 0x34],                                                                               // a word of one byte
        &[0xA0, 0x06, 0x01, 0xA3],                                                                         // an If longer than the block
        &[0x70, 0x0A, 0x03, 0x60, 0xA2, 0x0F, 0x60, 0x76, 0x60],                                           // a While longer than the block
        &[0x70, 0x0A, 0x03, 0x60, 0xA2, 0x04, 0x60, 0x76, 0x60, 0xFE],                                     // after a While
        &[0x70, 0x0B, 0x34, 0x12, 0x60, 0x7B, 0x60, 0x0A, 0xFF, 0x61, 0x70, 0x61],                         // a Store without its target
        &[0x70, 0x0A, 0x05, 0x60, 0xA0, 0x06, 0x93, 0x60, 0x0A, 0x05, 0xA3, 0xA1, 0x02, 0xA3, 0x75, 0xFE], // after an If with its else
    ];
    blocks.iter().map(|b| b.to_vec()).collect()
}

/// The block of so many bytes, with no opcode in its last byte.
pub fn late_fault(size: usize) -> Vec<u8> {
    let mut block = block_of(size);
    block[size - 1] = 0xFE;
    block
}
