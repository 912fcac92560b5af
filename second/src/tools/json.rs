//! A small JSON parser, enough for the vector files: whole numbers, strings, rows, objects, null and the like.

#[derive(Clone, PartialEq, Debug)]
pub enum Json {
    Null,
    Bool(bool),
    Number(f64),
    Text(String),
    Row(Vec<Json>),
    Object(Vec<(String, Json)>),
}

impl Json {
    /// Parses one value with nothing behind it but space.
    pub fn parse(text: &str) -> Result<Json, String> {
        let mut parser = Parser { bytes: text.as_bytes(), at: 0 };
        let value = parser.value()?;
        parser.skip_space();
        match parser.at == parser.bytes.len() {
            true => Ok(value),
            false => parser.fail("something behind the value"),
        }
    }

    pub fn field(&self, name: &str) -> Option<&Json> {
        match self {
            Json::Object(fields) => fields.iter().find(|(key, _)| key == name).map(|(_, v)| v),
            _ => None,
        }
    }

    pub fn text(&self) -> Option<&str> {
        match self {
            Json::Text(text) => Some(text),
            _ => None,
        }
    }

    pub fn row(&self) -> Option<&[Json]> {
        match self {
            Json::Row(values) => Some(values),
            _ => None,
        }
    }

    /// A whole number of 32 bits.
    pub fn number(&self) -> Option<u32> {
        match self {
            Json::Number(number) if *number >= 0.0 && *number <= u32::MAX as f64 => {
                (number.fract() == 0.0).then_some(*number as u32)
            }
            _ => None,
        }
    }
}

struct Parser<'a> {
    bytes: &'a [u8],
    at: usize,
}

impl Parser<'_> {
    fn fail<T>(&self, why: &str) -> Result<T, String> {
        Err(format!("{why} at byte {}", self.at))
    }

    fn peek(&self) -> Option<u8> {
        self.bytes.get(self.at).copied()
    }

    fn skip_space(&mut self) {
        while matches!(self.peek(), Some(b' ' | b'\t' | b'\n' | b'\r')) {
            self.at += 1;
        }
    }

    fn expect(&mut self, byte: u8) -> Result<(), String> {
        self.skip_space();
        if self.peek() != Some(byte) {
            return self.fail(&format!("no {:?}", byte as char));
        }
        self.at += 1;
        Ok(())
    }

    fn value(&mut self) -> Result<Json, String> {
        self.skip_space();
        match self.peek() {
            Some(b'{') => self.object(),
            Some(b'[') => self.row(),
            Some(b'"') => self.text().map(Json::Text),
            Some(b'n') => self.word("null", Json::Null),
            Some(b't') => self.word("true", Json::Bool(true)),
            Some(b'f') => self.word("false", Json::Bool(false)),
            _ => self.number(),
        }
    }

    fn word(&mut self, word: &str, value: Json) -> Result<Json, String> {
        if !self.bytes[self.at..].starts_with(word.as_bytes()) {
            return self.fail("no value");
        }
        self.at += word.len();
        Ok(value)
    }

    fn number(&mut self) -> Result<Json, String> {
        let begin = self.at;
        while matches!(self.peek(), Some(b'0'..=b'9' | b'-' | b'+' | b'.' | b'e' | b'E')) {
            self.at += 1;
        }
        let digits = String::from_utf8_lossy(&self.bytes[begin..self.at]);
        match digits.parse() {
            Ok(number) => Ok(Json::Number(number)),
            Err(_) => self.fail("no value"),
        }
    }

    fn row(&mut self) -> Result<Json, String> {
        let mut values = Vec::new();
        self.list(b'[', b']', |parser| {
            values.push(parser.value()?);
            Ok(())
        })?;
        Ok(Json::Row(values))
    }

    fn object(&mut self) -> Result<Json, String> {
        let mut fields = Vec::new();
        self.list(b'{', b'}', |parser| {
            parser.skip_space();
            let key = parser.text()?;
            parser.expect(b':')?;
            fields.push((key, parser.value()?));
            Ok(())
        })?;
        Ok(Json::Object(fields))
    }

    /// Elements between two brackets, with commas between them.
    fn list(
        &mut self,
        open: u8,
        close: u8,
        mut element: impl FnMut(&mut Self) -> Result<(), String>,
    ) -> Result<(), String> {
        self.expect(open)?;
        self.skip_space();
        if self.peek() == Some(close) {
            self.at += 1;
            return Ok(());
        }
        loop {
            element(self)?;
            self.skip_space();
            if self.peek() == Some(close) {
                self.at += 1;
                return Ok(());
            }
            self.expect(b',')?;
        }
    }

    fn text(&mut self) -> Result<String, String> {
        self.expect(b'"')?;
        let mut bytes = Vec::new();
        loop {
            let Some(byte) = self.peek() else {
                return self.fail("text without end");
            };
            self.at += 1;
            match byte {
                b'"' => break,
                b'\\' => {
                    let meant = self.escaped()?;
                    bytes.extend(meant.to_string().as_bytes());
                }
                _ => bytes.push(byte),
            }
        }
        String::from_utf8(bytes).or_else(|_| self.fail("text is not UTF-8"))
    }

    /// The character behind a backslash; halves of a surrogate pair are not taken.
    fn escaped(&mut self) -> Result<char, String> {
        let Some(byte) = self.peek() else {
            return self.fail("text without end");
        };
        self.at += 1;
        match byte {
            b'"' | b'\\' | b'/' => Ok(byte as char),
            b'n' => Ok('\n'),
            b't' => Ok('\t'),
            b'r' => Ok('\r'),
            b'b' => Ok('\u{8}'),
            b'f' => Ok('\u{c}'),
            b'u' => self.escaped_number(),
            _ => self.fail("unknown escape"),
        }
    }

    fn escaped_number(&mut self) -> Result<char, String> {
        let digits = self.bytes.get(self.at..self.at + 4).unwrap_or(&[]);
        let digits = String::from_utf8_lossy(digits).into_owned();
        let meant = u32::from_str_radix(&digits, 16).ok().and_then(char::from_u32);
        match meant {
            Some(meant) => {
                self.at += 4;
                Ok(meant)
            }
            None => self.fail("wrong escape"),
        }
    }
}
