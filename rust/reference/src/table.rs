//! A job table's text.

use crate::{set, Job};

pub const HEADER: &str = "chain,job,release,priority,least,most,deadline";

/// The jobs of a table, or the number of its refusal.
pub fn read(text: &[u8]) -> Result<Vec<Job>, u8> {
    if text.len() > 4096 {
        return Err(1);
    }
    let mut lines = lines(text).into_iter();
    if lines.next() != Some(HEADER.as_bytes()) {
        return Err(2);
    }
    let mut jobs: Vec<Job> = Vec::new();
    for line in lines {
        let job = Job::of(&fields::<7>(line).ok_or(3)?);
        set::check_record(&jobs, &job)?;
        jobs.push(job);
    }
    set::any_record(&jobs)?;
    Ok(jobs)
}

/// The lines before each CR LF, and what is left after the last one, if anything.
pub fn lines(text: &[u8]) -> Vec<&[u8]> {
    let mut out = Vec::new();
    let mut rest = text;
    while !rest.is_empty() {
        match rest.windows(2).position(|w| w == b"\r\n") {
            Some(i) => {
                out.push(&rest[..i]);
                rest = &rest[i + 2..];
            }
            None => {
                out.push(rest);
                rest = &[];
            }
        }
    }
    out
}

/// The numbers of a line, where it is so many with single commas.
pub fn fields<const COLUMNS: usize>(line: &[u8]) -> Option<[u64; COLUMNS]> {
    let parts: Vec<&[u8]> = line.split(|b| *b == b',').collect();
    if parts.len() != COLUMNS {
        return None;
    }
    let mut values = [0; COLUMNS];
    for (value, part) in values.iter_mut().zip(parts) {
        *value = number(part)?;
    }
    Some(values)
}

fn number(part: &[u8]) -> Option<u64> {
    let canonical = part == b"0" || part.first().is_some_and(|b| *b != b'0');
    if !canonical || part.len() > 10 || !part.iter().all(u8::is_ascii_digit) {
        return None;
    }
    std::str::from_utf8(part).ok()?.parse().ok()
}
