//! Numbers and octets read one after another.

/// What is left to be read.
pub struct Reader<'a>(pub &'a [u8]);

impl<'a> Reader<'a> {
    /// The next octets, if there are so many.
    pub fn octets(&mut self, count: usize) -> Option<&'a [u8]> {
        let (front, rest) = self.0.split_at_checked(count)?;
        self.0 = rest;
        Some(front)
    }

    pub fn octet(&mut self) -> Option<u8> {
        Some(self.octets(1)?[0])
    }

    /// A number of four octets, high first.
    pub fn number(&mut self) -> Option<u32> {
        let octets = self.octets(4)?;
        Some(
            octets
                .iter()
                .fold(0, |sum, &octet| sum << 8 | u32::from(octet)),
        )
    }

    /// Three flags, an octet each.
    pub fn flags(&mut self) -> Option<[bool; 3]> {
        let octets = self.octets(3)?;
        Some([0, 1, 2].map(|index| octets[index] != 0))
    }
}
