//! Takes the fields of a line from left to right.

/// What is left of a line. A step takes its field, or is `None`.
pub struct Fields<'a>(&'a [u8]);

impl<'a> Fields<'a> {
    pub fn of(line: &'a [u8]) -> Self {
        Self(line)
    }

    pub fn byte(&mut self) -> Option<u8> {
        let (&first, rest) = self.0.split_first()?;
        self.0 = rest;
        Some(first)
    }

    pub fn space(&mut self) -> Option<()> {
        (self.byte()? == b' ').then_some(())
    }

    /// A decimal below 2^64, without a leading zero.
    pub fn decimal(&mut self) -> Option<u64> {
        let is_digit = |byte: &&u8| byte.is_ascii_digit();
        let (digits, rest) = self.0.split_at(self.0.iter().take_while(is_digit).count());
        self.0 = rest;
        if digits.is_empty() || (digits.len() > 1 && digits[0] == b'0') {
            return None;
        }
        let grow = |sum: u64, &digit: &u8| sum.checked_mul(10)?.checked_add((digit - b'0').into());
        digits.iter().try_fold(0, grow)
    }

    /// A space and a number of 64 bits.
    pub fn wide(&mut self) -> Option<u64> {
        self.space()?;
        self.decimal()
    }

    /// A space and a number of 32 bits.
    pub fn narrow(&mut self) -> Option<u32> {
        u32::try_from(self.wide()?).ok()
    }

    /// A space and 16 lower-case hex digits.
    pub fn bits(&mut self) -> Option<u64> {
        self.space()?;
        let mut bits = 0;
        for _ in 0..16 {
            bits = bits << 4 | hex_digit(self.byte()?)?;
        }
        Some(bits)
    }

    /// A space and 0 or 1.
    pub fn flag(&mut self) -> Option<bool> {
        self.space()?;
        match self.byte()? {
            b'0' => Some(false),
            b'1' => Some(true),
            _ => None,
        }
    }

    pub fn end(self) -> Option<()> {
        self.0.is_empty().then_some(())
    }
}

fn hex_digit(byte: u8) -> Option<u64> {
    match byte {
        b'0'..=b'9' => Some((byte - b'0').into()),
        b'a'..=b'f' => Some((byte - b'a' + 10).into()),
        _ => None,
    }
}
