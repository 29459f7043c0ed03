//! The program `search`, named by BREAKWARP_SEARCH: the report, or the number and the place of a refusal, as it prints them.

use crate::cases::{damage, folder_sheets, odd_sheets, sheet};
use crate::{Run, Told};
use reference::sheet::bytes;
use std::env;
use std::io::Write;
use std::process::{Command, Stdio};

/// What the program prints on standard output for this sheet.
fn print(program: &str, sheet: &[u8]) -> std::io::Result<Vec<u8>> {
    let mut child = Command::new(program).stdin(Stdio::piped()).stdout(Stdio::piped()).spawn()?;
    // A program that has seen enough may close its end: that is no difference.
    let _ = child.stdin.take().unwrap().write_all(sheet);
    Ok(child.wait_with_output()?.stdout)
}

fn one(run: &mut Run, program: &str, sheet: &[u8]) -> Told {
    let due = run.expect.printed(sheet);
    let seen = print(program, sheet).map_err(|e| format!("{program}: {e}"))?;
    let same = if seen == due.bytes { Ok(()) } else { Err(format!("printed: \"{}\"", seen.escape_ascii())) };
    run.count("the program", &format_args!("sheet \"{}\"", sheet.escape_ascii()), &due, same)
}

pub fn program(run: &mut Run) -> Told {
    let program = env::var("BREAKWARP_SEARCH").map_err(|_| "BREAKWARP_SEARCH names no program".to_string())?;
    for given in folder_sheets()?.into_iter().chain(odd_sheets()) {
        one(run, &program, &given)?;
    }
    for _ in 0..run.times(4_000) {
        let mut sheet = bytes(&sheet(&mut run.random));
        for _ in 0..run.random.below(4) {
            damage(&mut run.random, &mut sheet);
        }
        one(run, &program, &sheet)?;
    }
    Ok(())
}
