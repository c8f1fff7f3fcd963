//! Tokens of a text, left to right and line by line.

use super::{number, Fault, Place};

/// A longest row of visible bytes, with its place.
#[derive(Clone, Copy)]
pub struct Token<'t> {
    pub bytes: &'t [u8],
    pub place: Place,
}

impl Token<'_> {
    /// The value, if this is one to ten decimal digits that fit in 32 bits.
    pub fn number(self) -> Option<u32> {
        if self.bytes.len() > 10 || !self.bytes.iter().all(u8::is_ascii_digit) {
            return None;
        }
        let value = self.bytes.iter().fold(0u64, |value, digit| 10 * value + u64::from(digit - b'0'));
        value.try_into().ok()
    }
}

/// A reading position in a text.
pub struct Scanner<'t> {
    text: &'t [u8],
    at: usize,
    line: u32,
}

impl<'t> Scanner<'t> {
    pub fn new(text: &'t [u8]) -> Self {
        Scanner { text, at: 0, line: 1 }
    }

    /// Where the scanner stands: a line's end once its tokens are used up.
    pub fn place(&self) -> Place {
        Place { line: self.line, byte: self.at as u32 }
    }

    /// Goes to the first token from here on, over line ends; false at the text's end.
    pub fn seek_line(&mut self) -> Result<bool, Fault> {
        while !self.seek_token()? {
            if self.at == self.text.len() {
                return Ok(false);
            }
            self.at += 1;
            self.line += 1;
        }
        Ok(true)
    }

    /// Goes to the next token of this line, or to the line's end: then false.
    fn seek_token(&mut self) -> Result<bool, Fault> {
        while let Some(&byte) = self.text.get(self.at) {
            match byte {
                b'\n' => return Ok(false),
                b'\t' | b'\r' | b' ' => self.at += 1,
                b'!'..=b'~' => return Ok(true),
                _ => return Err(Fault::at(number::BYTE, self.place())),
            }
        }
        Ok(false)
    }

    /// Takes the next token of this line, if it has one more.
    pub fn token(&mut self) -> Result<Option<Token<'t>>, Fault> {
        if !self.seek_token()? {
            return Ok(None);
        }
        let place = self.place();
        let rest = &self.text[self.at..];
        let length = rest.iter().take_while(|byte| (b'!'..=b'~').contains(byte)).count();
        self.at += length;
        Ok(Some(Token { bytes: &rest[..length], place }))
    }

    /// Takes a number that is due, with its place.
    pub fn number(&mut self) -> Result<(u32, Place), Fault> {
        let Some(token) = self.token()? else {
            return Err(Fault::at(number::NO_NUMBER, self.place()));
        };
        match token.number() {
            Some(value) => Ok((value, token.place)),
            None => Err(Fault::at(number::NO_NUMBER, token.place)),
        }
    }

    /// Ends a line that must have no token more.
    pub fn end_line(&mut self) -> Result<(), Fault> {
        match self.token()? {
            None => Ok(()),
            Some(token) => Err(Fault::at(number::LEFT_OVER, token.place)),
        }
    }
}

#[cfg(test)]
mod tests {
    use super::*;

    fn number_of(text: &str) -> Option<u32> {
        Scanner::new(text.as_bytes()).number().ok().map(|(value, _)| value)
    }

    #[test]
    fn numbers_are_one_to_ten_digits_that_fit() {
        assert_eq!(number_of("0"), Some(0));
        assert_eq!(number_of("4294967295"), Some(u32::MAX));
        assert_eq!(number_of("0000000007"), Some(7));
        for text in ["", "4294967296", "9999999999", "00000000007", "+1", "-1", "1a", "0x1"] {
            assert_eq!(number_of(text), None, "{text}");
        }
    }

    #[test]
    fn lines_without_tokens_are_counted() {
        let mut scanner = Scanner::new(b"\n \t\r\n  ab\x7f");
        assert!(scanner.seek_line().unwrap());
        let token = scanner.token().unwrap().unwrap();
        assert_eq!((token.bytes, token.place), (&b"ab"[..], Place { line: 3, byte: 7 }));
        assert_eq!(scanner.token().err(), Some(Fault::at(2, Place { line: 3, byte: 9 })));
    }
}
