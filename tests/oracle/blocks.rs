// Blocks and their checks (document 01, "The sheet in 512-byte blocks").

use crate::limits::{BLOCK, CONTENT, MODULUS};

/// The content of block k: all but its check, if it lies wholly inside the lent bytes with the right check.
pub fn content(sheet: &[u8], k: u64) -> Option<&[u8]> {
    let start = usize::try_from(u128::from(k) * BLOCK as u128).ok()?;
    let block = sheet.get(start..)?.get(..BLOCK)?;
    let (content, stored) = block.split_at(CONTENT);
    let stored = u128::from(stored[0]) + 256 * u128::from(stored[1]);
    (stored == check(content, k)).then_some(content)
}

/// The whole block k with this content.
pub fn with_check(content: &[u8], k: u64) -> Vec<u8> {
    [content, &(check(content, k) as u16).to_le_bytes()].concat()
}

fn check(content: &[u8], k: u64) -> u128 {
    let sum: u64 = content.iter().zip(1..).map(|(&byte, weight)| weight * u64::from(byte)).sum();
    (u128::from(k) + 1 + u128::from(sum)) % u128::from(MODULUS)
}
