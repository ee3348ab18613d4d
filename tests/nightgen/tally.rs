//! Counts of what occurred, held against a list of what must.

use std::collections::BTreeMap;
use std::io::{self, Write};

/// What must occur, by heading.
pub type Wanted = &'static [(&'static str, &'static [&'static str])];

#[derive(Default)]
pub struct Tally {
    counts: BTreeMap<(&'static str, &'static str), u64>,
}

impl Tally {
    pub fn hit(&mut self, wanted: Wanted, heading: &'static str, name: &'static str) {
        let known =
            wanted.iter().any(|(head, names)| *head == heading && names.contains(&name));
        assert!(known, "{}: {} is not on the list", heading, name);
        *self.counts.entry((heading, name)).or_insert(0) += 1;
    }

    fn count(&self, heading: &'static str, name: &'static str) -> u64 {
        self.counts.get(&(heading, name)).copied().unwrap_or(0)
    }

    /// Prints all counts, and of how many events they are; gives how many are 0.
    pub fn print(&self, wanted: Wanted, of: &str, to: &mut dyn Write) -> io::Result<usize> {
        let mut missing = 0;
        let mut all = 0;
        for (heading, names) in wanted {
            writeln!(to, "{}", heading)?;
            for name in names.iter() {
                let count = self.count(heading, name);
                all += 1;
                missing += (count == 0) as usize;
                let note = if count == 0 { "   <- never" } else { "" };
                writeln!(to, "  {:9}  {}{}", count, name, note)?;
            }
        }
        writeln!(to, "{} of {} things occurred, in {}", all - missing, all, of)?;
        Ok(missing)
    }
}
