//! Words as bytes, the low one first, and back: what is lent to one side in the form of the other.

/// The words of some bytes; a byte left over makes no word.
pub fn words_of(bytes: &[u8]) -> Vec<u16> {
    let (pairs, _) = bytes.as_chunks();
    pairs.iter().map(|&pair| u16::from_le_bytes(pair)).collect()
}

/// The bytes of some words.
pub fn bytes_of(words: &[u16]) -> Vec<u8> {
    words.iter().flat_map(|word| word.to_le_bytes()).collect()
}
