//! klem as a kernel has it: `core` alone, a `static` table, no allocator, an entry of its own, and the functions that the archive wants.
//!
//! It is a program for Linux, so that it can be run and tested: it ends by the system's call `exit`, with 0 where every answer was the
//! right one. A kernel has its own entry and its own way to end; the rest is as it stands here.
#![no_std]
#![no_main]
#![deny(unsafe_op_in_unsafe_fn)]

use core::{arch::asm, arch::global_asm, cell::UnsafeCell, panic::PanicInfo};
use klem::{run, Ended, Error, Frame, LevelType, Path, Table, Width};

/// The namespace, made at compile time: no stack is needed for its 9,224 bytes.
struct Namespace(UnsafeCell<Table>);

// SAFETY: this program has one thread. A kernel has a lock here.
unsafe impl Sync for Namespace {}

static NAMESPACE: Namespace = Namespace(UnsafeCell::new(Table::new()));

fn load_and_search(table: &mut Table) -> Result<u64, Error> {
    table.add_level(&"\\_SB_".parse()?, LevelType::Scope)?;
    table.add_level(&"\\_SB_.PCI0".parse()?, LevelType::Device)?;
    table.add_value(&"\\_SB_._UID".parse()?, 7)?;
    let (name, _) = Path::from_bytes(b"_UID")?;
    let found = table.search(&name, &"\\_SB_.PCI0".parse()?)?;
    table.get(found.handle)
}

/// Return (Arg0 + 1)
fn run_block(number: u64) -> Result<Ended, Error> {
    run(&[0xA4, 0x72, 0x68, 0x01, 0x00], &mut Frame::new(Width::of_revision(2)).with(Frame::ARG0, number)?, 100).end
}

#[no_mangle]
extern "C" fn begin() -> ! {
    // SAFETY: nothing else has the table.
    let table = unsafe { &mut *NAMESPACE.0.get() };
    let right = load_and_search(table) == Ok(7) && run_block(41) == Ok(Ended::Returned(42)) && load_and_search(table) == Err(Error::NameCollision);
    exit(i32::from(!right))
}

// The stack is aligned to 16 bytes at a call, as the archive wants it.
global_asm!(".globl _start", "_start:", "xor ebp, ebp", "and rsp, -16", "call begin", "ud2");

fn exit(status: i32) -> ! {
    // SAFETY: `exit_group` does not return.
    unsafe { asm!("syscall", in("rax") 231, in("rdi") status, options(noreturn, nostack)) }
}

// What the archive wants, `nm -u libklem_c.a`: these two. Debian's `core` for Linux leaves them to the C library; that of
// `x86_64-unknown-none` has them. They are in assembly so that the compiler does not make calls of themselves of them.

/// # Safety
///
/// As in C.
#[no_mangle]
unsafe extern "C" fn memcpy(to: *mut u8, from: *const u8, length: usize) -> *mut u8 {
    // SAFETY: the caller's promise; the direction flag is clear at a call.
    unsafe { asm!("rep movsb", inout("rcx") length => _, inout("rdi") to => _, inout("rsi") from => _, options(nostack, preserves_flags)) };
    to
}

/// # Safety
///
/// As in C.
#[no_mangle]
unsafe extern "C" fn memset(to: *mut u8, byte: i32, length: usize) -> *mut u8 {
    // SAFETY: as above.
    unsafe { asm!("rep stosb", inout("rcx") length => _, inout("rdi") to => _, in("eax") byte, options(nostack, preserves_flags)) };
    to
}

/// Nothing unwinds, and nothing calls it: the `core` of rustup's compilers names it, and rust-lld, by which they link, keeps the name.
#[no_mangle]
extern "C" fn rust_eh_personality() {}

/// No call of klem comes here; `core` wants it all the same.
#[panic_handler]
fn panic(_: &PanicInfo<'_>) -> ! {
    exit(101)
}
