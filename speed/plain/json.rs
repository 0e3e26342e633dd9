//! JSON texts, as far as a configuration has them.

/// How deep arrays and objects may be inside each other.
const DEEPEST: usize = 127;

pub enum Json {
    Null,
    Bool,
    /// A whole number without a sign, a fraction and an exponent, that has 64 bits; any other is none.
    Number(Option<u64>),
    Text(String),
    Array(Vec<Json>),
    /// Its fields in their order; of two with one name the last counts.
    Object(Vec<(String, Json)>),
}

impl Json {
    /// The field of this name; None where the value is no object or has no such field.
    pub fn field(&self, name: &str) -> Option<&Json> {
        match self {
            Json::Object(fields) => fields
                .iter()
                .rev()
                .find(|(it, _)| it == name)
                .map(|(_, value)| value),
            _ => None,
        }
    }
}

/// The value that a text is. None where it is none.
pub fn parse(text: &str) -> Option<Json> {
    let mut parser = Parser { text, at: 0 };
    let value = parser.value(0)?;
    parser.pass_blanks();
    (parser.at == text.len()).then_some(value)
}

struct Parser<'a> {
    text: &'a str,
    at: usize,
}

impl Parser<'_> {
    fn next(&self) -> Option<u8> {
        self.text.as_bytes().get(self.at).copied()
    }

    fn pass_blanks(&mut self) {
        while matches!(self.next(), Some(b' ' | b'\t' | b'\n' | b'\r')) {
            self.at += 1;
        }
    }

    /// Passes over a word, where it is next.
    fn takes(&mut self, word: &str) -> bool {
        let is_next = self.text.as_bytes()[self.at..].starts_with(word.as_bytes());
        if is_next {
            self.at += word.len();
        }
        is_next
    }

    fn value(&mut self, depth: usize) -> Option<Json> {
        self.pass_blanks();
        match self.next()? {
            b'n' => self.takes("null").then_some(Json::Null),
            b't' => self.takes("true").then_some(Json::Bool),
            b'f' => self.takes("false").then_some(Json::Bool),
            b'"' => self.string().map(Json::Text),
            b'[' | b'{' if depth == DEEPEST => None,
            b'[' => self
                .members(']', |parser| parser.value(depth + 1))
                .map(Json::Array),
            b'{' => self
                .members('}', |parser| parser.pair(depth + 1))
                .map(Json::Object),
            _ => self.number(),
        }
    }

    fn pair(&mut self, depth: usize) -> Option<(String, Json)> {
        self.pass_blanks();
        let name = self.string()?;
        self.pass_blanks();
        if !self.takes(":") {
            return None;
        }
        Some((name, self.value(depth)?))
    }

    /// What stands between the brackets of an array or an object, of which the first is next.
    fn members<T>(
        &mut self,
        end: char,
        mut member: impl FnMut(&mut Self) -> Option<T>,
    ) -> Option<Vec<T>> {
        let end = end.encode_utf8(&mut [0; 4]).to_string();
        self.at += 1;
        let mut members = Vec::new();
        self.pass_blanks();
        if self.takes(&end) {
            return Some(members);
        }
        loop {
            members.push(member(self)?);
            self.pass_blanks();
            if self.takes(&end) {
                return Some(members);
            }
            if !self.takes(",") {
                return None;
            }
        }
    }

    fn string(&mut self) -> Option<String> {
        if !self.takes("\"") {
            return None;
        }
        let mut string = String::new();
        loop {
            let character = self.text[self.at..].chars().next()?;
            self.at += character.len_utf8();
            match character {
                '"' => return Some(string),
                '\\' => string.push(self.escaped()?),
                '\0'..='\x1f' => return None,
                _ => string.push(character),
            }
        }
    }

    /// The character that stands behind a backslash.
    fn escaped(&mut self) -> Option<char> {
        let letter = self.next()?;
        self.at += 1;
        match letter {
            b'"' | b'\\' | b'/' => Some(char::from(letter)),
            b'b' => Some('\x08'),
            b'f' => Some('\x0c'),
            b'n' => Some('\n'),
            b'r' => Some('\r'),
            b't' => Some('\t'),
            b'u' => {
                let first = self.unit()?;
                if !(0xd800..0xdc00).contains(&first) {
                    return char::from_u32(first);
                }
                let second = if self.takes("\\u") {
                    self.unit()?
                } else {
                    return None;
                };
                let low = second.checked_sub(0xdc00).filter(|it| *it < 0x400)?;
                char::from_u32(0x1_0000 + ((first - 0xd800) << 10) + low)
            }
            _ => None,
        }
    }

    /// The four hex digits of a unit of UTF-16.
    fn unit(&mut self) -> Option<u32> {
        let digits = self.text.get(self.at..self.at + 4)?;
        self.at += 4;
        digits.bytes().try_fold(0, |unit, digit| {
            Some(unit << 4 | char::from(digit).to_digit(16)?)
        })
    }

    fn digits(&mut self) -> usize {
        let begin = self.at;
        while self.next().is_some_and(|it| it.is_ascii_digit()) {
            self.at += 1;
        }
        self.at - begin
    }

    fn number(&mut self) -> Option<Json> {
        let begin = self.at;
        self.takes("-");
        let zero = self.next() == Some(b'0');
        let count = self.digits();
        if count == 0 || zero && count > 1 {
            return None;
        }
        if self.takes(".") && self.digits() == 0 {
            return None;
        }
        if self.takes("e") || self.takes("E") {
            let _ = self.takes("+") || self.takes("-");
            if self.digits() == 0 {
                return None;
            }
        }
        let text = &self.text[begin..self.at];
        let finite = text.parse::<f64>().is_ok_and(f64::is_finite);
        let whole = if text.bytes().all(|it| it.is_ascii_digit()) {
            text.parse().ok()
        } else {
            None
        };
        finite.then_some(Json::Number(whole))
    }
}
