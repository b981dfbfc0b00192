//! The beginning and the end of a text that is too long to be kept.

/// How many bytes are kept of either end.
const KEPT: usize = 1024;

/// A text's first bytes and its last, and how many it has.
#[derive(Default)]
pub struct Ends {
    head: Vec<u8>,
    tail: Vec<u8>,
    length: u64,
}

impl Ends {
    /// The ends of a whole text.
    #[cfg(test)]
    pub fn of(text: &[u8]) -> Self {
        let mut ends = Self::default();
        ends.add(text);
        ends
    }

    /// More bytes of the text.
    pub fn add(&mut self, bytes: &[u8]) {
        self.length += bytes.len() as u64;
        let room = KEPT - self.head.len();
        self.head.extend(&bytes[..bytes.len().min(room)]);
        self.tail.extend(&bytes[bytes.len().saturating_sub(KEPT)..]);
        self.tail.drain(..self.tail.len().saturating_sub(KEPT));
    }

    /// Whether there was no byte.
    pub fn is_empty(&self) -> bool {
        self.head.is_empty()
    }

    /// How many bytes there were.
    pub fn length(&self) -> u64 {
        self.length
    }

    /// The bytes that the head of a RIFF file says it has in all, and those that there were; none of anything else.
    pub fn sound(&self) -> Option<(u64, u64)> {
        let size: [u8; 4] = self.head.strip_prefix(b"RIFF")?.get(..4)?.try_into().ok()?;
        Some((8 + u64::from(u32::from_le_bytes(size)), self.length))
    }

    /// The lines at the beginning; the last of them may be cut.
    pub fn first_lines(&self) -> impl Iterator<Item = &[u8]> {
        self.head.split(|&byte| byte == b'\n')
    }

    /// The last line without its line feed; none where the text doesn't end in one. The beginning of a long one may be cut off.
    pub fn last_line(&self) -> Option<&[u8]> {
        self.tail.strip_suffix(b"\n").and_then(|text| text.rsplit(|&byte| byte == b'\n').next())
    }
}

#[cfg(test)]
mod tests {
    use super::*;

    #[test]
    fn pieces_of_any_size_have_the_same_ends() {
        let text: Vec<u8> = (0..900).flat_map(|n| format!("level={n}:8074\n").into_bytes()).collect();
        for size in [1, 7, 1023, 1024, 1025, 5000, text.len()] {
            let mut ends = Ends::default();
            text.chunks(size).for_each(|piece| ends.add(piece));
            assert_eq!(ends.head, text[..KEPT]);
            assert_eq!(ends.tail, text[text.len() - KEPT..]);
            assert_eq!(ends.first_lines().next(), Some(&b"level=0:8074"[..]));
            assert_eq!(ends.last_line(), Some(&b"level=899:8074"[..]));
        }
    }

    #[test]
    fn sizes_of_sounds() {
        assert_eq!(Ends::of(b"RIFF\x04\x01\0\0WAVE").sound(), Some((268, 12)));
        assert_eq!(Ends::of(b"RIFF\x04\0\0").sound(), None);
        assert_eq!(Ends::of(b"refused=1:0\n").sound(), None);
    }

    #[test]
    fn last_lines() {
        assert_eq!(Ends::of(b"").last_line(), None);
        assert_eq!(Ends::of(b"a\nb").last_line(), None);
        assert_eq!(Ends::of(b"\n").last_line(), Some(&b""[..]));
        assert_eq!(Ends::of(b"stop=1\n").last_line(), Some(&b"stop=1"[..]));
    }
}
