//! The words of a line, and the numbers in them.

/// The words that are not yet taken.
pub(crate) struct Words<'a> {
    left: Vec<&'a str>,
}

impl<'a> Words<'a> {
    pub fn of(line: &'a str) -> Self {
        Words { left: line.split_ascii_whitespace().collect() }
    }

    /// The next word, left where it is.
    pub fn next(&self) -> Option<&'a str> {
        self.left.first().copied()
    }

    /// Takes the next word, which is to be this.
    pub fn take(&mut self, expected: &str) -> Result<&'a str, String> {
        match self.next() {
            Some(_) => Ok(self.left.remove(0)),
            None => Err(format!("{expected} is expected, and the line ends")),
        }
    }

    /// Takes one of two words: whether it is the second.
    pub fn second_of(&mut self, first: &str, second: &str) -> Result<bool, String> {
        let expected = format!("'{first}' or '{second}'");
        match self.take(&expected)? {
            word if word == first => Ok(false),
            word if word == second => Ok(true),
            word => Err(format!("{expected} is expected, not '{word}'")),
        }
    }

    /// Takes this word, wherever it stands: whether it was there.
    pub fn has(&mut self, name: &str) -> bool {
        let found = self.left.iter().position(|word| *word == name);
        found.map(|place| self.left.remove(place)).is_some()
    }

    /// Takes what stands behind `NAME=`, wherever it stands.
    pub fn value(&mut self, name: &str) -> Option<&'a str> {
        let place = self.left.iter().position(|word| behind(word, name).is_some())?;
        behind(self.left.remove(place), name)
    }

    /// Takes `NAME=` and a decimal number of a byte.
    pub fn byte(&mut self, name: &str) -> Result<u8, String> {
        match self.value(name) {
            Some(digits) => byte(name, digits),
            None => Err(format!("'{name}=' is missing: a number from 0 to 255")),
        }
    }

    /// Takes an address.
    pub fn address(&mut self) -> Result<u32, String> {
        let word = self.take("an address (up to eight hex digits)")?;
        long(word).ok_or_else(|| format!("an address (up to eight hex digits) is expected, not '{word}'"))
    }

    /// Takes two longs with this between them.
    pub fn two_longs(&mut self, between: char, form: &str) -> Result<(u32, u32), String> {
        let word = self.take(form)?;
        let found = word.split_once(between).and_then(|(one, other)| Some((long(one)?, long(other)?)));
        found.ok_or_else(|| format!("{form} (each up to eight hex digits) is expected, not '{word}'"))
    }

    /// That every word was taken.
    pub fn end(&self) -> Result<(), String> {
        match self.next() {
            None => Ok(()),
            Some(word) => Err(format!("'{word}' has no meaning here")),
        }
    }
}

/// What stands behind `NAME=` in a word.
fn behind<'a>(word: &'a str, name: &str) -> Option<&'a str> {
    word.strip_prefix(name)?.strip_prefix('=')
}

/// A long of up to eight hex digits.
pub(crate) fn long(digits: &str) -> Option<u32> {
    let fits = (1..=8).contains(&digits.len()) && digits.bytes().all(|digit| digit.is_ascii_hexdigit());
    if fits {
        u32::from_str_radix(digits, 16).ok()
    } else {
        None
    }
}

/// A decimal number of a byte.
pub(crate) fn byte(name: &str, digits: &str) -> Result<u8, String> {
    let number = if digits.bytes().all(|digit| digit.is_ascii_digit()) { digits.parse().ok() } else { None };
    number.ok_or_else(|| format!("'{name}=' has a number from 0 to 255, not '{digits}'"))
}
