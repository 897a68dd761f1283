//! Encodes and decodes base64url without padding (RFC 4648, section 5).

const ALPHABET: &[u8; 64] = b"ABCDEFGHIJKLMNOPQRSTUVWXYZabcdefghijklmnopqrstuvwxyz0123456789-_";

/// Encodes bytes.
pub(crate) fn encode(bytes: &[u8]) -> String {
    let mut text = String::new();
    for chunk in bytes.chunks(3) {
        let number = (0..3).fold(0usize, |sum, index| (sum << 8) | usize::from(*chunk.get(index).unwrap_or(&0)));
        text.extend((0..=chunk.len()).map(|index| ALPHABET[(number >> (18 - 6 * index)) & 63] as char));
    }
    text
}

/// Returns the bytes that a base64url text encodes, or `None` if a character is not in the alphabet.
pub(crate) fn decode(text: &str) -> Option<Vec<u8>> {
    let (mut bytes, mut number, mut bits) = (Vec::new(), 0u32, 0);
    for character in text.bytes() {
        let value = ALPHABET.iter().position(|other| *other == character)?;
        number = ((number << 6) | value as u32) & 0xffff;
        bits += 6;
        if bits >= 8 {
            bits -= 8;
            bytes.push((number >> bits) as u8);
        }
    }
    Some(bytes)
}

#[cfg(test)]
mod tests {
    /// Encodes and decodes the test vectors of RFC 4648, section 10, without padding, and the two characters of the
    /// alphabet that differ from base64.
    #[test]
    fn matches_rfc_4648() {
        let rows = [("", ""), ("f", "Zg"), ("fo", "Zm8"), ("foo", "Zm9v"), ("foob", "Zm9vYg"), ("fooba", "Zm9vYmE")];
        for (text, encoded) in rows {
            assert_eq!(super::encode(text.as_bytes()), encoded);
            assert_eq!(super::decode(encoded).as_deref(), Some(text.as_bytes()));
        }
        assert_eq!(super::encode(&[0xfb, 0xff]), "-_8");
        assert_eq!(super::decode("+"), None);
    }
}
