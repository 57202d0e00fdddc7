//! Counts of what was reached, and how they are added up and shown.

pub fn add_all(counts: &mut [u64], others: &[u64]) {
    for (count, other) in counts.iter_mut().zip(others) {
        *count += other;
    }
}

/// A count as wide as a column.
pub fn shown(count: u64) -> String {
    if count == 0 {
        format!("{:>8}", "-")
    } else {
        format!("{count:>8}")
    }
}
