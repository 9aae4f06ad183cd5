//! Bytes as text.

/// Bytes in hex, spaces between groups of this size.
pub fn hex(bytes: &[u8], group: usize) -> String {
    let groups: Vec<String> = bytes
        .chunks(group)
        .map(|chunk| chunk.iter().map(|byte| format!("{byte:02x}")).collect())
        .collect();
    groups.join(" ")
}
