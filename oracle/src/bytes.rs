//! Bytes as text, and bytes with a change.

/// Upper-case hexadecimal digits run together.
pub fn hex(bytes: &[u8]) -> String {
    bytes.iter().map(|byte| format!("{byte:02X}")).collect()
}

/// Eight bytes with another one at `index`.
pub fn with(mut bytes: [u8; 8], index: usize, byte: u8) -> [u8; 8] {
    bytes[index] = byte;
    bytes
}
