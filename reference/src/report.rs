//! The report of a sheet, and what the program `search` prints.

use crate::engines::ENGINES;
use crate::letters::hits;
use crate::refusals::Refusal;
use crate::sheet::{read, Room};

/// The report of a sheet that the reader takes.
pub fn report(sheet: &[u8]) -> Result<Vec<u8>, Refusal> {
    let sheet = read(sheet, Room::AMPLE)?;
    Ok(report_of(&sheet.pattern, &sheet.text))
}

/// Total hits; each start; then engine, scan tests, shift tests, word steps.
pub fn report_of(pattern: &[u32], text: &[u32]) -> Vec<u8> {
    let hits = hits(pattern, text);
    let mut out = format!("hits {}\n", hits.len());
    for start in hits {
        out += &format!("{start}\n");
    }
    for engine in ENGINES {
        let work = engine.run(pattern, text).work;
        out += &format!("{} {} {} {}\n", engine.name(), work.scan, work.shift, work.words);
    }
    out.into_bytes()
}

/// The report, or the line of the refusal.
pub fn printed(sheet: &[u8]) -> Vec<u8> {
    report(sheet).unwrap_or_else(|r| format!("refused {} at {}\n", r.number, r.place).into_bytes())
}
