//! A control block: checked, then run over a frame within a budget; and what a refused run leaves.
//!
//!     cargo run --example run_block
use klem::{check, run, Ended, Error, Frame, Width};

/// The sum of 1 to Arg0.
const SUM: &[u8] = &[
    0x70, 0x00, 0x60, // Local0 := 0
    0xA2, 0x08, 0x68, // while Arg0
    0x72, 0x60, 0x68, 0x60, // .. Local0 := Local0 + Arg0
    0x76, 0x68, // .. decrement Arg0
    0xA4, 0x60, // return Local0
];

fn main() -> Result<(), Error> {
    check(SUM)?;
    // The DSDT's revision says how many bits numbers have; `Header::width` gives it for a table that was read.
    let width = Width::of_revision(2);
    let mut frame = Frame::new(width).with(Frame::ARG0, 10)?;
    let ran = run(SUM, &mut frame, 1_000);
    println!("the sum of 1 to 10: {:?} in {} units", ran.end, ran.units);
    assert_eq!(ran.end, Ok(Ended::Returned(55)));

    // A budget that is too small stops the run, and the frame shows how far it came.
    let mut frame = Frame::new(width).with(Frame::ARG0, 10)?;
    let ran = run(SUM, &mut frame, 12);
    println!("with 12 units: {:?}, Local0 {}, Arg0 {}", ran.end, frame.get(0)?, frame.get(Frame::ARG0)?);
    assert_eq!((ran.end, ran.units), (Err(Error::BudgetSpent), 12));

    // A cell that was never set is not 0: it is refused.
    let ran = run(SUM, &mut Frame::new(width), 1_000);
    match ran.end {
        Err(e @ Error::Unset(Frame::ARG0)) => println!("without Arg0: {e}"),
        other => panic!("{other:?}"),
    }

    // A block that the check refuses never begins: the frame stays as it was.
    let cut = SUM.get(..SUM.len() - 1).unwrap_or(SUM);
    let mut frame = Frame::new(width).with(Frame::ARG0, 10)?;
    assert_eq!(check(cut), Err(Error::UnexpectedEndOfStream(13)));
    assert_eq!(run(cut, &mut frame, 1_000).end, check(cut).map(|()| Ended::Finished));
    assert_eq!(frame, Frame::new(width).with(Frame::ARG0, 10)?);

    // An old table's numbers have 32 bits: one more than all ones is 0, and a larger Arg keeps its low 32 bits.
    let mut frame = Frame::new(Width::of_revision(1)).with(Frame::ARG0, 0x1_0000_000A)?;
    assert_eq!(run(SUM, &mut frame, 1_000).end, Ok(Ended::Returned(55)));
    let ran = run(&[0xA4, 0x72, 0xFF, 0x01, 0x00], &mut frame, 1);
    println!("all ones and 1 at {} bits: {:?}", frame.width().bits(), ran.end);
    assert_eq!(ran.end, Ok(Ended::Returned(0)));

    // A frame has 15 cells.
    assert_eq!(frame.set(Frame::CELLS, 1), Err(Error::BadCell(15)));
    Ok(())
}
