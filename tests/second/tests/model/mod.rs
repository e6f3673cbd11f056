//! Where 5 stands in a text, by the standard library's UTF-8 check and a count of characters.

/// Whether this byte can begin a character: alone it is one, or one that the end cuts off.
fn begins(byte: u8) -> bool {
    std::str::from_utf8(&[byte]).map_or_else(|error| error.error_len().is_none(), |_| true)
}

/// The byte of this text at which no valid text can continue, or the lead byte of a sequence that its
/// end cuts off; and the text before the sequence that it belongs to.
fn not_utf8(text: &[u8]) -> (&str, Option<usize>) {
    let Err(error) = std::str::from_utf8(text) else {
        return (std::str::from_utf8(text).expect("a text"), None);
    };
    let lead = error.valid_up_to();
    let good = std::str::from_utf8(&text[..lead]).expect("good so far");
    match error.error_len() {
        Some(length) if begins(text[lead]) => (good, Some(lead + length)),
        _ => (good, Some(lead)),
    }
}

/// The offset in this text of the byte that 5 is about, None for a good text: the first byte after 255
/// characters, where it comes before the one that is not UTF-8.
pub fn bad_byte(text: &[u8]) -> Option<usize> {
    let (good, bad) = not_utf8(text);
    let ends = good.char_indices().map(|(at, character)| at + character.len_utf8());
    match ends.take(255).enumerate().last() {
        Some((254, end)) if end < text.len() => Some(end),
        _ => bad,
    }
}
