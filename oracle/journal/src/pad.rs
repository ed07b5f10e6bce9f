//! Brings a journal to a length.

/// Adds admissions until there are so many bytes, which must be 4 more or none.
pub fn pad(journal: &mut String, bytes: usize) {
    while journal.len() < bytes {
        let left = bytes - journal.len();
        // No rest is left that is shorter than a line.
        *journal += &admission(if left <= 23 { left } else { left.min(27) - 4 });
    }
}

/// An admission of 4 to 23 bytes.
fn admission(bytes: usize) -> String {
    format!("{} A\n", "1".repeat(bytes - 3))
}
