// Plain loops over a sheet's bytes that work out the checks of its blocks, as one would write them in Rust: the lowest
// block whose check is wrong. The compiler makes vectors of a sum in 32 bits; one in 64 bits has room to spare.

// No program uses all of it.
#![allow(dead_code)]

use crate::layout::number_at;
use crate::limits::*;

macro_rules! plain_loop {
    ($name:ident, $number:ty) => {
        #[inline(always)]
        pub fn $name(sheet: &[u8]) -> Option<usize> {
            for (k, block) in sheet.chunks_exact(BLOCK).enumerate() {
                let mut sum = k as $number + 1;
                for (i, &byte) in block[..CONTENT].iter().enumerate() {
                    sum += (i as $number + 1) * <$number>::from(byte);
                }
                if sum % <$number>::from(MODULUS) != number_at(block, CONTENT).into() {
                    return Some(k);
                }
            }
            None
        }
    };
}

plain_loop!(in_32_bits, u32);
plain_loop!(in_64_bits, u64);
