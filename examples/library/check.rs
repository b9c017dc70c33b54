// check SHEET: what Ragwashin says of a sheet. With the archive of tools/archive:
// rustc --edition 2021 examples/library/check.rs -L target/staticlib -l static=capi -o check

use std::{env, fs, process};

// As include/ragwashin.h has them. They take any bytes, and slices meet all that they ask of a caller.
extern "C" {
    fn ragwashin_read(sheet: *const u8, sheet_len: usize) -> u64;
    fn ragwashin_name(sheet: *const u8, sheet_len: usize, variable: u16) -> u64;
    fn ragwashin_check(sheet: *const u8, sheet_len: usize, room: *mut i16, room_len: usize) -> u64;
    fn ragwashin_tally(sheet: *const u8, sheet_len: usize) -> u64;
    fn ragwashin_script(sheet: *const u8, sheet_len: usize, room: *mut u8, room_len: usize) -> u64;
}

/// Rooms that always do, in numbers and in bytes.
const CHECK_ROOM: usize = 16;
const SCRIPT_ROOM: usize = 20_480;

/// What was asked for, or the refusal: the high 16 bits are its number, the low 48 bits its place.
fn answer(code: u64) -> Result<u64, String> {
    let low = code & ((1 << 48) - 1);
    match code >> 48 {
        0 => Ok(low),
        number => Err(format!("refused {} at {}", number, low)),
    }
}

fn read(sheet: &[u8]) -> Result<String, String> {
    answer(unsafe { ragwashin_read(sheet.as_ptr(), sheet.len()) }).map(|_| "accepted".to_string())
}

/// A variable's name is a part of the sheet.
fn name(sheet: &[u8], variable: u16) -> Option<&str> {
    let part = unsafe { ragwashin_name(sheet.as_ptr(), sheet.len(), variable) } as usize;
    std::str::from_utf8(&sheet[part / 65_536..][..part % 65_536]).ok().filter(|name| !name.is_empty())
}

fn check(sheet: &[u8]) -> Result<String, String> {
    let mut room = [0i16; CHECK_ROOM];
    let code = unsafe { ragwashin_check(sheet.as_ptr(), sheet.len(), room.as_mut_ptr(), room.len()) };
    if answer(code)? == 0 {
        return Ok("holds".to_string());
    }
    let values = (0u16..).zip(room).map_while(|(variable, value)| Some((name(sheet, variable)?, value)));
    Ok(values.fold("fails".to_string(), |said, (name, value)| format!("{} {}={}", said, name, value)))
}

fn tally(sheet: &[u8]) -> Result<String, String> {
    let counts = answer(unsafe { ragwashin_tally(sheet.as_ptr(), sheet.len()) })?;
    Ok(format!("held {} failed {}", counts >> 24, counts % (1 << 24)))
}

fn script(sheet: &[u8]) -> Result<String, String> {
    let mut room = [0u8; SCRIPT_ROOM];
    let code = unsafe { ragwashin_script(sheet.as_ptr(), sheet.len(), room.as_mut_ptr(), room.len()) };
    Ok(format!("{} bytes", answer(code)?))
}

fn main() {
    let sheet = env::args().nth(1).and_then(|file| fs::read(file).ok()).unwrap_or_else(|| {
        eprintln!("usage: check SHEET");
        process::exit(2)
    });
    for (call, said) in [
        ("read", read(&sheet)),
        ("check", check(&sheet)),
        ("tally", tally(&sheet)),
        ("script", script(&sheet)),
    ] {
        println!("{}: {}", call, said.unwrap_or_else(|refusal| refusal));
    }
}
