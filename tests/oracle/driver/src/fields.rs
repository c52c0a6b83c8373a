//! The fields of a line, read from left to right. A field that is not what the call wants there makes the line no call,
//! which is what `None` says throughout.

/// What is left of a line: the fields are parted by single spaces.
pub struct Fields<'a> {
    rest: Option<&'a [u8]>,
}

impl<'a> Fields<'a> {
    pub fn of(line: &'a [u8]) -> Self {
        Self { rest: Some(line) }
    }

    pub fn word(&mut self) -> Option<&'a [u8]> {
        let rest = self.rest?;
        match rest.iter().position(|&byte| byte == b' ') {
            Some(at) => {
                self.rest = Some(&rest[at + 1..]);
                Some(&rest[..at])
            }
            None => {
                self.rest = None;
                Some(rest)
            }
        }
    }

    /// Whether the line ends here.
    pub fn end(&self) -> Option<()> {
        self.rest.is_none().then_some(())
    }

    /// A whole number of at most `most`.
    fn whole(&mut self, most: u64) -> Option<u64> {
        decimal(self.word()?).filter(|&value| value <= most)
    }

    pub fn u64(&mut self) -> Option<u64> {
        self.whole(u64::MAX)
    }

    pub fn u32(&mut self) -> Option<u32> {
        self.whole(u32::MAX as u64).map(|value| value as u32)
    }

    pub fn u16(&mut self) -> Option<u16> {
        self.whole(u16::MAX as u64).map(|value| value as u16)
    }

    pub fn flag(&mut self) -> Option<bool> {
        self.whole(1).map(|value| value == 1)
    }

    /// A whole number, or `none`.
    pub fn maybe_u64(&mut self) -> Option<Option<u64>> {
        match self.word()? {
            b"none" => Some(None),
            word => decimal(word).map(Some),
        }
    }

    pub fn f64(&mut self) -> Option<f64> {
        hexadecimal(self.word()?, 16).map(f64::from_bits)
    }

    /// An f64, or `none`.
    pub fn maybe_f64(&mut self) -> Option<Option<f64>> {
        match self.word()? {
            b"none" => Some(None),
            word => hexadecimal(word, 16).map(|bits| Some(f64::from_bits(bits))),
        }
    }

    pub fn f32(&mut self) -> Option<f32> {
        hexadecimal(self.word()?, 8).map(|bits| f32::from_bits(bits as u32))
    }

    /// Two hexadecimal digits for each byte, possibly for none.
    pub fn bytes(&mut self) -> Option<Vec<u8>> {
        let (pairs, odd) = self.word()?.as_chunks::<2>();
        let bytes = pairs.iter().map(|pair| hexadecimal(pair, 2).map(|byte| byte as u8));
        odd.is_empty().then(|| bytes.collect())?
    }
}

/// 1 to 20 decimal digits whose value is below 2^64.
fn decimal(word: &[u8]) -> Option<u64> {
    if word.is_empty() || word.len() > 20 {
        return None;
    }
    word.iter().try_fold(0u64, |value, &byte| {
        let digit = byte.is_ascii_digit().then(|| (byte - b'0') as u64)?;
        value.checked_mul(10)?.checked_add(digit)
    })
}

/// Exactly `digits` hexadecimal digits, the letters small.
fn hexadecimal(word: &[u8], digits: usize) -> Option<u64> {
    if word.len() != digits {
        return None;
    }
    word.iter().try_fold(0u64, |value, &byte| {
        let digit = match byte {
            b'0'..=b'9' => byte - b'0',
            b'a'..=b'f' => byte - b'a' + 10,
            _ => return None,
        };
        Some(value << 4 | digit as u64)
    })
}
