// The limits of document 01, as item 3 of document 02 has raised them, each once: the tests' programs and the benchmark
// take them from here, so that another limit is another line here. What a document or a test works out by hand keeps
// its own figures.

// No program uses all of them.
#![allow(dead_code)]

pub const BLOCK: usize = 512;
/// A block's bytes before its check.
pub const CONTENT: usize = BLOCK - 2;
/// Checks are compared modulo this.
pub const MODULUS: u32 = 65_521;

pub const MOST_VARIABLES: usize = 16;
pub const LONGEST_NAME: usize = 16;
pub const MOST_NODES: usize = 1_984;
pub const NODES_IN_BLOCK: usize = 31;
/// The first block has no nodes.
pub const MOST_BLOCKS: usize = 1 + (MOST_NODES + NODES_IN_BLOCK - 1) / NODES_IN_BLOCK;
pub const MOST_BYTES: usize = MOST_BLOCKS * BLOCK;

/// The ends of 16 bits.
pub const LOW: i64 = -32_768;
pub const HIGH: i64 = 32_767;

pub const MOST_CASES: u64 = 1_000_000;
/// Bytes that are enough for every script.
pub const ENOUGH_ROOM: usize = 20_480;
/// Bytes that are enough for every text of an accepted sheet, and the longest text's.
pub const LONGEST_TEXT: usize = 23_183;
