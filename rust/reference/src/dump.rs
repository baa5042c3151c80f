//! A reader of value change dumps of one core whose wires are named after jobs, with one command or change to a line.

use crate::machine::Span;
use std::collections::HashMap;

/// A wire: the job of its name, its value where it has one yet, and since when it has it.
struct Wire {
    chain: u64,
    job: u64,
    value: Option<bool>,
    since: u64,
}

/// What has been read of a dump: its wires by their identifiers, the last time, and the spans that have ended.
struct Reader<'a> {
    wires: HashMap<&'a str, Wire>,
    time: Option<u64>,
    spans: Vec<Span>,
}

/// The spans in which wires are 1, in order of their ends; none where the text is no dump, or leaves a wire at 1.
pub fn spans(dump: &str) -> Option<Vec<Span>> {
    let (definitions, values) = dump.strip_suffix('\n')?.split_once("$enddefinitions $end\n")?;
    let mut reader = Reader { wires: wires(definitions)?, time: None, spans: Vec::new() };
    for line in values.split('\n') {
        reader.read(line)?;
    }
    reader.wires.values().all(|wire| wire.value == Some(false)).then_some(reader.spans)
}

/// The wires that the definitions declare, each by an identifier of its own.
fn wires(definitions: &str) -> Option<HashMap<&str, Wire>> {
    let mut wires = HashMap::new();
    for line in definitions.split_terminator('\n') {
        match line.split(' ').collect::<Vec<&str>>()[..] {
            ["$var", "wire", "1", identifier, name, "$end"] if !wires.contains_key(identifier) => {
                wires.insert(identifier, wire(name)?);
            }
            ["$timescale" | "$scope" | "$upscope", .., "$end"] => {}
            _ => return None,
        }
    }
    Some(wires)
}

/// The wire of a name such as `c1j1`.
fn wire(name: &str) -> Option<Wire> {
    let (chain, job) = name.strip_prefix('c')?.split_once('j')?;
    Some(Wire { chain: chain.parse().ok()?, job: job.parse().ok()?, value: None, since: 0 })
}

impl Reader<'_> {
    /// One line more, whose first byte decides.
    fn read(&mut self, line: &str) -> Option<()> {
        match line.split_at_checked(1)? {
            ("#", time) => self.go_on(time.parse().ok()?),
            ("0", identifier) => self.change(identifier, false),
            ("1", identifier) => self.change(identifier, true),
            _ => (line == "$dumpvars" || line == "$end").then_some(()),
        }
    }

    /// Time goes on, and never back.
    fn go_on(&mut self, time: u64) -> Option<()> {
        let later = self.time.is_none_or(|last| last < time);
        self.time = Some(time);
        later.then_some(())
    }

    /// A wire takes a value that it did not have, 1 only where no wire is 1; where it was 1, a span ends.
    fn change(&mut self, identifier: &str, value: bool) -> Option<()> {
        let taken = value && self.wires.values().any(|wire| wire.value == Some(true));
        let (wire, now) = (self.wires.get_mut(identifier)?, self.time?);
        let before = wire.value.replace(value);
        if before == Some(true) {
            self.spans.push(Span { chain: wire.chain, job: wire.job, from: wire.since, to: now });
        }
        wire.since = now;
        (!taken && before != Some(value)).then_some(())
    }
}

#[cfg(test)]
mod tests {
    use super::*;

    const DEFINITIONS: &str = "$timescale 100 us $end\n$var wire 1 0 c1j1 $end\n$var wire 1 # c2j1 $end\n$enddefinitions $end\n";

    fn read(values: &str) -> Option<Vec<Span>> {
        spans(&(DEFINITIONS.to_owned() + values))
    }

    #[test]
    fn wires_that_rise_and_fall() {
        let spans = [Span { chain: 1, job: 1, from: 0, to: 4 }, Span { chain: 2, job: 1, from: 4, to: 5 }];
        assert_eq!(read("#0\n$dumpvars\n10\n0#\n$end\n#4\n00\n1#\n#5\n0#\n"), Some(spans.to_vec()));
    }

    #[test]
    fn texts_that_are_no_dump() {
        assert_eq!(read("#0\n00\n0#\n"), Some(vec![]));
        let unended = ["#0\n00\n0#", "#0\n00\n", "#0\n10\n0#\n"];
        let at_once = ["#0\n10\n0#\n#4\n1#\n00\n#5\n0#\n"];
        let unchanged = ["#0\n00\n0#\n0#\n", "#0\n00\n0#\n#0\n"];
        let unknown = ["00\n#0\n0#\n", "#0\n00\n0$\n", "#0\n00\n0#\r\n"];
        assert!(unended.iter().chain(&at_once).chain(&unchanged).chain(&unknown).all(|values| read(values).is_none()));
    }
}
