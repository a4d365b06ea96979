//! What a program says on standard error: only the place that it names is compared, not its words.

/// How a message differs from what a model asks for: a place that is named by a word and a number, or no message at all.
pub fn difference(message: &[u8], word: &str, place: Option<usize>) -> Option<String> {
    let message = String::from_utf8_lossy(message);
    match place {
        None if message.is_empty() => None,
        None => Some(format!("program says {message:?}, model nothing")),
        Some(place) if names(&message, word, place) => None,
        Some(place) => Some(format!("program says {message:?}, model names {word} {place}")),
    }
}

/// Whether the word stands there with just this number after it.
pub fn names(message: &str, word: &str, place: usize) -> bool {
    let named = format!("{word} {place}");
    let mut rests = message.match_indices(&named).map(|(at, _)| &message[at + named.len()..]);
    rests.any(|rest| !rest.starts_with(|next: char| next.is_ascii_digit()))
}

#[cfg(test)]
mod tests {
    use super::*;

    #[test]
    fn places() {
        assert_eq!(difference(b"", "byte", None), None);
        assert_eq!(difference(b"list: byte 12: bad", "byte", Some(12)), None);
        for message in ["", "list: byte 123: bad", "list: byte 1: bad", "list: line 12"] {
            assert!(difference(message.as_bytes(), "byte", Some(12)).is_some(), "{message}");
        }
        assert!(difference(b"list: byte 12: bad", "byte", None).is_some());
    }
}
