//! Many journals with their answers in one stream of bytes.

use std::io::{self, Write};

use crate::replay;

/// A journal and the answer to it. The name is of `[a-z0-9_]+`.
pub struct Case {
    pub name: String,
    pub journal: Vec<u8>,
    pub answer: Vec<u8>,
}

impl Case {
    /// The case with the answer that this journal gets.
    pub fn new(name: impl Into<String>, journal: impl Into<Vec<u8>>) -> Self {
        let (name, journal) = (name.into(), journal.into());
        let answer = replay(&journal);
        Self {
            name,
            journal,
            answer,
        }
    }

    /// `J name n m` and a feed, n bytes of journal, m bytes of answer.
    pub fn write(&self, out: &mut impl Write) -> io::Result<()> {
        let (journal, answer) = (&self.journal, &self.answer);
        writeln!(out, "J {} {} {}", self.name, journal.len(), answer.len())?;
        out.write_all(journal)?;
        out.write_all(answer)
    }
}
