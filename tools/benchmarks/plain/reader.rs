//! Reads JSON without a tree of values: each value is read as what is due there, and anything else
//! is a fault.

use crate::faults::Fault;
use std::borrow::Cow;

pub type Read<T> = Result<T, Fault>;

pub struct Reader<'t> {
    text: &'t [u8],
    at: usize,
}

impl<'t> Reader<'t> {
    pub fn new(text: &'t [u8]) -> Reader<'t> {
        Reader { text, at: 0 }
    }

    /// The next byte that is no space, and 0 at the end. It is not passed.
    pub fn peek(&mut self) -> u8 {
        loop {
            match self.text.get(self.at) {
                Some(b' ' | b'\n' | b'\r' | b'\t') => self.at += 1,
                Some(byte) => return *byte,
                None => return 0,
            }
        }
    }

    /// Passes the next byte where it is this one.
    fn meets(&mut self, byte: u8) -> bool {
        let is_there = self.peek() == byte;
        self.at += usize::from(is_there);
        is_there
    }

    fn due(&mut self, byte: u8) -> Read<()> {
        if self.meets(byte) {
            Ok(())
        } else {
            Err(Fault::BAD_SHAPE)
        }
    }

    /// Nothing but spaces may be left.
    pub fn end(&mut self) -> Read<()> {
        self.peek();
        if self.at == self.text.len() {
            Ok(())
        } else {
            Err(Fault::BAD_SHAPE)
        }
    }

    /// A whole number of 64 bits.
    pub fn long(&mut self) -> Read<u64> {
        self.peek();
        let first = self.at;
        let mut value: u64 = 0;
        while let Some(digit @ b'0'..=b'9') = self.text.get(self.at) {
            value = value
                .checked_mul(10)
                .and_then(|v| v.checked_add(u64::from(digit - b'0')))
                .ok_or(Fault::BAD_NUMBER)?;
            self.at += 1;
        }
        let digits = self.at - first;
        if digits == 0 {
            return Err(if self.text.get(first) == Some(&b'-') {
                Fault::BAD_NUMBER
            } else {
                Fault::BAD_SHAPE
            });
        }
        if digits > 1 && self.text[first] == b'0' {
            return Err(Fault::BAD_SHAPE);
        }
        Ok(value)
    }

    /// A whole number of 32 bits.
    pub fn number(&mut self) -> Read<u32> {
        self.peek();
        let first = self.at;
        let mut value: u32 = 0;
        while let Some(digit @ b'0'..=b'9') = self.text.get(self.at) {
            value = value.wrapping_mul(10).wrapping_add(u32::from(digit - b'0'));
            self.at += 1;
        }
        let digits = self.at - first;
        if (digits == 1 || digits > 1 && self.text[first] != b'0') && digits < 10 {
            return Ok(value);
        }
        // no number, or one that may be too large
        self.at = first;
        u32::try_from(self.long()?).map_err(|_| Fault::BAD_NUMBER)
    }

    /// A text, without its escapes.
    pub fn text(&mut self) -> Read<Cow<'t, [u8]>> {
        self.due(b'"')?;
        let rest = &self.text[self.at..];
        let length = rest
            .iter()
            .position(|b| matches!(b, b'"' | b'\\'))
            .ok_or(Fault::BAD_SHAPE)?;
        self.at += length;
        if rest[length] == b'"' {
            self.at += 1;
            return Ok(Cow::Borrowed(&rest[..length]));
        }
        let mut bytes = rest[..length].to_vec();
        loop {
            let byte = self.next_byte()?;
            match byte {
                b'"' => return Ok(Cow::Owned(bytes)),
                b'\\' => bytes.push(self.escaped()?),
                _ => bytes.push(byte),
            }
        }
    }

    /// Passes a text where it is this one, without escapes.
    fn meets_text(&mut self, due: &str) -> bool {
        self.peek();
        let is_there = match self.text[self.at..].split_first() {
            Some((b'"', rest)) => {
                rest.starts_with(due.as_bytes()) && rest.get(due.len()) == Some(&b'"')
            }
            _ => false,
        };
        self.at += if is_there { due.len() + 2 } else { 0 };
        is_there
    }

    fn next_byte(&mut self) -> Read<u8> {
        let byte = *self.text.get(self.at).ok_or(Fault::BAD_SHAPE)?;
        self.at += 1;
        Ok(byte)
    }

    /// What stands behind a backslash. All texts that are due anywhere are ASCII, so another
    /// character may stand for all that are not.
    fn escaped(&mut self) -> Read<u8> {
        match self.next_byte()? {
            b'u' => {
                let digits = self
                    .text
                    .get(self.at..self.at + 4)
                    .ok_or(Fault::BAD_SHAPE)?;
                self.at += 4;
                let digits = std::str::from_utf8(digits).map_err(|_| Fault::BAD_SHAPE)?;
                let code = u32::from_str_radix(digits, 16).map_err(|_| Fault::BAD_SHAPE)?;
                Ok(u8::try_from(code).ok().filter(u8::is_ascii).unwrap_or(b'?'))
            }
            byte @ (b'"' | b'\\' | b'/') => Ok(byte),
            b'b' | b'f' | b'n' | b'r' | b't' => Ok(b'?'),
            _ => Err(Fault::BAD_SHAPE),
        }
    }

    /// The word `null`, where it is the next value.
    pub fn is_null(&mut self) -> bool {
        let is_there = self.peek() == b'n' && self.text[self.at..].starts_with(b"null");
        self.at += if is_there { 4 } else { 0 };
        is_there
    }

    /// An array, whose elements a function reads.
    pub fn array(&mut self, mut element: impl FnMut(&mut Self) -> Read<()>) -> Read<()> {
        self.due(b'[')?;
        if self.meets(b']') {
            return Ok(());
        }
        loop {
            element(self)?;
            if !self.meets(b',') {
                return self.due(b']');
            }
        }
    }

    /// An array of numbers, put behind a list.
    pub fn numbers(&mut self, list: &mut Vec<u32>) -> Read<()> {
        self.array(|reader| {
            list.push(reader.number()?);
            Ok(())
        })
    }

    /// The beginning of an array of fixed length; its elements are told apart by `comma`.
    pub fn open(&mut self) -> Read<()> {
        self.due(b'[')
    }

    pub fn comma(&mut self) -> Read<()> {
        self.due(b',')
    }

    pub fn close(&mut self) -> Read<()> {
        self.due(b']')
    }

    /// An object with no other keys than these, whose members a function reads by the place of the
    /// key. The answer has a bit for each key that was there.
    pub fn object(
        &mut self,
        keys: &[&str],
        mut member: impl FnMut(&mut Self, usize) -> Read<()>,
    ) -> Read<u32> {
        self.due(b'{')?;
        let mut seen = 0;
        if self.meets(b'}') {
            return Ok(seen);
        }
        let mut guess = 0;
        loop {
            // most objects have their keys in order
            let place = if guess < keys.len() && self.meets_text(keys[guess]) {
                guess
            } else {
                let name = self.text()?;
                keys.iter()
                    .position(|key| *name == *key.as_bytes())
                    .ok_or(Fault::BAD_SHAPE)?
            };
            guess = place + 1;
            self.due(b':')?;
            member(self, place)?;
            seen |= 1 << place;
            if !self.meets(b',') {
                self.due(b'}')?;
                return Ok(seen);
            }
        }
    }

    /// An object with all of these keys and no others.
    pub fn whole_object(
        &mut self,
        keys: &[&str],
        member: impl FnMut(&mut Self, usize) -> Read<()>,
    ) -> Read<()> {
        let seen = self.object(keys, member)?;
        if seen.count_ones() as usize == keys.len() {
            Ok(())
        } else {
            Err(Fault::BAD_SHAPE)
        }
    }
}
