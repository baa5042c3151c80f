//! The functions on texts, and the reading of a set.

use crate::draw::Draw;
use crate::tally::Tally;
use reference::{table, text, Job};

pub fn compare(tally: &mut Tally, draw: &mut Draw, jobs: &[Job]) {
    let table = draw.text(jobs);
    compare_text(tally, &table);
    compare_text(tally, &draw.damaged_text(table::HEADER, &table));
    if draw.one_in(16) {
        let long = [table, vec![b'7'; draw.range(900, 4_000) as usize]].concat();
        compare_text(tally, &long);
    }
}

fn compare_text(tally: &mut Tally, table: &[u8]) {
    let given = String::from_utf8_lossy(table);
    tally.around("bounds", &given, (length(table, text::bounds_text), 0xa5), |side, out| (side.bounds)(table, out));
    compare_trace(tally, table);
    for algorithm in 0..=4 {
        tally.answers("verdict", &given, |side| (side.verdict)(table, algorithm));
    }
    tally.answers("rounds", &given, |side| (side.rounds)(table));
    tally.around("set_read", &given, (7 * table::read(table).map_or(1, |jobs| jobs.len()), u64::MAX), |side, out| (side.set_read)(table, out));
}

pub fn compare_trace(tally: &mut Tally, table: &[u8]) {
    let given = String::from_utf8_lossy(table);
    tally.around("trace", &given, (length(table, text::trace_text), 0xa5), |side, out| (side.trace)(table, out));
}

/// How long the text is that is written of a table, and any length where the table is refused.
fn length(table: &[u8], write: fn(&[Job]) -> String) -> usize {
    table::read(table).map_or(40, |jobs| write(&jobs).len())
}
