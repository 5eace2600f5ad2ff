//! How alike two texts are.
use crate::shim::alloc::AllocError;
use crate::shim::vec::Vec;

/// The least number of characters to insert, delete or replace from one text to the other.
pub fn levenshtein(from: &str, into: &str) -> Result<usize, AllocError> {
    // what it takes from the characters so far to each beginning of the other text
    let mut row = Vec::new();
    for distance in 0..=into.chars().count() {
        row.push(distance)?;
    }
    for character in from.chars() {
        let mut before = row[0];
        row[0] += 1;
        for (index, other) in into.chars().enumerate() {
            let replaced = before + usize::from(character != other);
            before = row[index + 1];
            row[index + 1] = replaced.min(before + 1).min(row[index] + 1);
        }
    }
    Ok(row[row.len() - 1])
}
