//! Damages a sheet in many ways, and compares what the library and plain Rust say of each damaged sheet.
//!
//! usage: damage SHEET COUNT
use deqibur_bench::check::{check, Check};
use deqibur_bench::draws::Draws;
use std::process::ExitCode;

#[path = "../../../include/deqibur.rs"]
mod library;

/// What the library says of a sheet.
fn library_check(sheet: &[u8]) -> Check {
    let found = library::check_sheet(sheet);
    Check {
        plans: found.plans,
        line: found.line,
        sites: found.sites,
        legs: found.legs,
        number: found.number,
    }
}

/// Bytes that matter in a sheet.
const BYTES: &[u8] = b"0123456789,\nnlp+ \r";

/// Changes, removes or adds a byte, cuts the sheet off, or writes a part of it twice.
fn damage(draws: &mut Draws, sheet: &mut Vec<u8>) {
    if sheet.is_empty() {
        return;
    }
    let last = sheet.len() as u32 - 1;
    let at = draws.between(0, last) as usize;
    let byte = BYTES[draws.between(0, BYTES.len() as u32 - 1) as usize];
    match draws.between(0, 9) {
        0 => sheet.truncate(at),
        1 => {
            let end = (at + draws.between(0, 40) as usize).min(sheet.len());
            let part = sheet[at..end].to_vec();
            sheet.splice(at..at, part);
        }
        2 | 3 => {
            sheet.remove(at);
        }
        4 | 5 => sheet.insert(at, byte),
        _ => sheet[at] = byte,
    }
}

fn run(path: &str, count: &str) -> Result<[u32; 8], String> {
    let count: u32 = count.parse().map_err(|_| "COUNT must be a number")?;
    let sound = std::fs::read(path).map_err(|why| format!("{path}: {why}"))?;
    let mut draws = Draws::new(1);
    let mut met = [0; 8];
    for _ in 0..count {
        let mut sheet = sound.clone();
        for _ in 0..draws.between(0, 3) {
            damage(&mut draws, &mut sheet);
        }
        let (ours, theirs): (Check, Check) = (check(&sheet), library_check(&sheet));
        if ours != theirs {
            let text = String::from_utf8_lossy(&sheet);
            return Err(format!(
                "the library says {theirs:?}, plain Rust {ours:?} of\n{text}"
            ));
        }
        met[ours.number as usize] += 1;
    }
    Ok(met)
}

fn main() -> ExitCode {
    let arguments: Vec<String> = std::env::args().skip(1).collect();
    let [path, count] = arguments.as_slice() else {
        eprintln!("usage: damage SHEET COUNT");
        return ExitCode::from(2);
    };
    match run(path, count) {
        Ok(met) => {
            println!("compared sheets={count} sound={} differences=0", met[0]);
            for (number, times) in met.iter().enumerate().skip(1) {
                println!("refused by {number}: {times}");
            }
            ExitCode::SUCCESS
        }
        Err(why) => {
            eprintln!("FAILED: {why}");
            ExitCode::FAILURE
        }
    }
}
