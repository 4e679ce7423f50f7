//! A namespace in memory that is lent, as a kernel lends a page; values, an alias, searches, and what is refused.
//!
//!     cargo run --example load_and_search
use klem::{Error, LevelType, Path, Table};

fn main() -> Result<(), Error> {
    // Any 1,153 words do. What they held does not matter.
    let mut page = vec![0xA5A5_A5A5_A5A5_A5A5; Table::WORDS];
    let mut table = Table::fresh_in(&mut page[..])?;

    // A level's parent must be there before it.
    table.add_level(&"\\_SB_".parse()?, LevelType::Scope)?;
    table.add_level(&"\\_SB_.PCI0".parse()?, LevelType::Device)?;
    assert_eq!(table.add_level(&"\\_SB_.PCI1.LPCB".parse()?, LevelType::Device), Err(Error::LevelDoesNotExist(2)));

    // A value's handle stays good, whatever is added or removed later.
    let os = table.add_value(&"\\_OS_".parse()?, 7)?;
    let adr = table.add_value(&"\\_SB_.PCI0._ADR".parse()?, 0x001F_0000)?;
    let alias = table.add_alias_at_resolved_path(&"_UID".parse()?, &"\\_SB_.PCI0".parse()?, &"\\_OS_".parse()?)?;
    assert_eq!(alias, os);

    // A bare segment is looked for in the scope and in each one around it.
    let scope: Path = "\\_SB_.PCI0".parse()?;
    for text in ["_ADR", "_OS_", "^PCI0._UID"] {
        let found = table.search(&text.parse()?, &scope)?;
        println!("{text} from {scope}: {} holds {:#x}, {} scopes asked", found.path, table.get(found.handle)?, found.asked);
    }
    match table.search(&"_HID".parse()?, &scope) {
        Err(e @ Error::ValueDoesNotExist) => println!("_HID from {scope}: {e}"),
        other => panic!("{other:?}"),
    }

    // Levels go with all that is below them; objects stay.
    table.remove_level(&scope)?;
    assert_eq!(table.get_handle(&"\\_SB_.PCI0._ADR".parse()?), Err(Error::LevelDoesNotExist(2)));
    assert_eq!(table.get(adr)?, 0x001F_0000);

    // The words have no pointers: whoever has them has the namespace. Damage is refused, not followed.
    let mut copy = page.clone();
    assert_eq!(Table::over(&copy[..]).get_by_path(&"\\_OS_".parse()?)?, 7);
    copy[0] = 0;
    assert_eq!(Table::over(&copy[..]).get(os), Err(Error::BadTable));
    Ok(())
}
