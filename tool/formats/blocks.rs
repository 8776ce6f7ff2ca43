//! Blocks of 512 bytes: 64 little-endian words, the last of which checks the others.

use crate::limits::{BLOCK_BYTES, PAYLOAD_WORDS};

/// Low and high, both included.
pub type Interval = (u64, u64);

/// Where a job's header and a path's first block have the lows and the highs of the inputs.
pub const LOWS: usize = 5;
pub const HIGHS: usize = 13;

/// The intervals in a header or a first block.
pub fn intervals(words: &[u64], inputs: usize) -> Vec<Interval> {
    (0..inputs).map(|input| (words[LOWS + input], words[HIGHS + input])).collect()
}

/// Low, high, low, high, as a call lends them.
pub fn flat(intervals: &[Interval]) -> Vec<u64> {
    intervals.iter().flat_map(|&(low, high)| [low, high]).collect()
}

/// The check word of a payload.
pub fn check(payload: &[u64]) -> u64 {
    payload.iter().fold(1, |sum: u64, word| sum.rotate_left(1).wrapping_add(*word))
}

/// The blocks that hold these words; the last one is filled up with zeros.
pub fn to_bytes(words: &[u64]) -> Vec<u8> {
    words.chunks(PAYLOAD_WORDS).flat_map(block).collect()
}

fn block(words: &[u64]) -> Vec<u8> {
    let mut payload = words.to_vec();
    payload.resize(PAYLOAD_WORDS, 0);
    payload.push(check(&payload));
    payload.iter().flat_map(|word| word.to_le_bytes()).collect()
}

/// The payload of a block, or none if the bytes are no block or its check does not agree.
pub fn payload(bytes: &[u8]) -> Option<Vec<u64>> {
    let mut words: Vec<u64> = bytes.chunks_exact(8).map(word).collect();
    let sum = words.pop()?;
    (bytes.len() == BLOCK_BYTES && check(&words) == sum).then_some(words)
}

/// A word of eight bytes.
pub fn word(bytes: &[u8]) -> u64 {
    bytes.iter().rev().fold(0, |value, byte| value << 8 | *byte as u64)
}

#[cfg(test)]
mod tests {
    use super::*;

    #[test]
    fn check_of_an_empty_payload() {
        assert_eq!(check(&[0; PAYLOAD_WORDS]), 0x8000000000000000);
    }

    #[test]
    fn words_come_back_from_their_blocks() {
        let words: Vec<u64> = (0..100).map(|k| 0x0123456789ABCDEF_u64.rotate_left(k)).collect();
        let bytes = to_bytes(&words);
        assert_eq!(bytes.len(), 2 * BLOCK_BYTES);
        let payloads: Vec<u64> =
            bytes.chunks(BLOCK_BYTES).flat_map(|block| payload(block).unwrap()).collect();
        assert_eq!(payloads[..100], words);
        assert!(payloads[100..].iter().all(|&word| word == 0));
    }

    #[test]
    fn a_wrong_length_is_no_block() {
        assert_eq!(payload(&[]), None);
        assert_eq!(payload(&to_bytes(&[1])[..BLOCK_BYTES - 8]), None);
        assert_eq!(payload(&to_bytes(&[1; PAYLOAD_WORDS + 1])), None);
    }
}
