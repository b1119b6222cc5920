//! As much of JSON as the compiler's own notes need.

#[derive(Debug)]
pub enum Json {
    Text(String),
    Number(usize),
    /// `null`, `true` or `false`, which no size depends on.
    Word,
    List(Vec<Json>),
    Object(Vec<(String, Json)>),
}

pub fn parse(text: &str) -> Option<Json> {
    let mut reader = Reader { bytes: text.as_bytes(), at: 0 };
    reader.value()
}

impl Json {
    /// What an object has under a name.
    pub fn get(&self, name: &str) -> Option<&Json> {
        match self {
            Json::Object(members) => {
                members.iter().find(|(key, _)| key == name).map(|(_, value)| value)
            }
            _ => None,
        }
    }

    pub fn list(&self) -> Option<&[Json]> {
        match self {
            Json::List(values) => Some(values),
            _ => None,
        }
    }

    pub fn text(&self) -> Option<&str> {
        match self {
            Json::Text(text) => Some(text),
            _ => None,
        }
    }

    pub fn number(&self) -> Option<usize> {
        match self {
            Json::Number(number) => Some(*number),
            _ => None,
        }
    }
}

struct Reader<'a> {
    bytes: &'a [u8],
    at: usize,
}

impl Reader<'_> {
    fn value(&mut self) -> Option<Json> {
        match self.peek()? {
            b'"' => self.text().map(Json::Text),
            b'[' => self.sequence(b']', Reader::value).map(Json::List),
            b'{' => self.sequence(b'}', Reader::member).map(Json::Object),
            b'a'..=b'z' => self.word(),
            _ => self.number().map(Json::Number),
        }
    }

    /// The next byte that is not white space.
    fn peek(&mut self) -> Option<u8> {
        while self.bytes.get(self.at)?.is_ascii_whitespace() {
            self.at += 1;
        }
        Some(self.bytes[self.at])
    }

    fn skip(&mut self, byte: u8) -> Option<()> {
        if self.peek()? != byte {
            return None;
        }
        self.at += 1;
        Some(())
    }

    fn text(&mut self) -> Option<String> {
        self.skip(b'"')?;
        let rest = &self.bytes[self.at..];
        let length = rest.iter().position(|&byte| byte == b'"')?;
        self.at += length + 1;
        String::from_utf8(rest[..length].to_vec()).ok()
    }

    /// null, true or false.
    fn word(&mut self) -> Option<Json> {
        let rest = &self.bytes[self.at..];
        self.at += rest.iter().position(|byte| !byte.is_ascii_lowercase())?;
        Some(Json::Word)
    }

    fn number(&mut self) -> Option<usize> {
        let rest = &self.bytes[self.at..];
        let length = rest.iter().position(|byte| !byte.is_ascii_digit())?;
        self.at += length;
        std::str::from_utf8(&rest[..length]).ok()?.parse().ok()
    }

    fn member(&mut self) -> Option<(String, Json)> {
        let name = self.text()?;
        self.skip(b':')?;
        Some((name, self.value()?))
    }

    /// The parts between an opening byte and its closing one.
    fn sequence<T>(&mut self, end: u8, part: fn(&mut Self) -> Option<T>) -> Option<Vec<T>> {
        self.at += 1;
        let mut parts = Vec::new();
        if self.peek()? != end {
            parts.push(part(self)?);
            while self.skip(b',').is_some() {
                parts.push(part(self)?);
            }
        }
        self.skip(end)?;
        Some(parts)
    }
}
