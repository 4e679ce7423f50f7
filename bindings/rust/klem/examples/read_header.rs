//! The header of a table file, and how many bytes its body has.
//!
//!     cargo run --example read_header FILE        a DSDT or an SSDT; without FILE, a small table that is made here
use klem::{write_table, Error, Header, Signature};
use std::process::ExitCode;

fn told(table: &[u8]) -> Result<(), Error> {
    let header = Header::read(table)?;
    println!(
        "{:?} revision {}, a body of {} bytes, {} bytes after it",
        header.signature,
        header.revision,
        header.body.len(),
        table.len() - 36 - header.body.len()
    );
    match header.width() {
        Some(width) => println!("numbers have {} bits, in its SSDTs too", width.bits()),
        None => println!("numbers have as many bits as in its DSDT"),
    }
    Ok(())
}

fn main() -> ExitCode {
    let mut made = [0; 40];
    // a word that begins with -- is for whoever runs the examples as tests
    let read = match std::env::args_os().skip(1).find(|word| !word.to_string_lossy().starts_with("--")) {
        Some(file) => match std::fs::read(&file) {
            Ok(table) => told(&table),
            Err(why) => {
                eprintln!("{}: {why}", file.to_string_lossy());
                return ExitCode::FAILURE;
            }
        },
        None => write_table(Signature::Dsdt.letters(), 2, &[0; 26], &[0xA4, 0x01], &mut made).and_then(|_| told(&made)),
    };
    match read {
        Ok(()) => ExitCode::SUCCESS,
        Err(refused) => {
            eprintln!("{refused}");
            ExitCode::FAILURE
        }
    }
}
