//! A reader for the little JSON of the vectors: whole numbers, plain strings, lists, objects.

/// A value.
#[derive(Clone, Debug, PartialEq)]
pub enum Json {
    Number(u64),
    Text(String),
    Truth(bool),
    List(Vec<Json>),
    Object(Vec<(String, Json)>),
}

impl Json {
    /// The value of a whole text.
    pub fn parse(text: &str) -> Json {
        let mut reader = Reader { bytes: text.as_bytes(), at: 0 };
        let value = reader.value();
        reader.blanks();
        assert!(reader.at == reader.bytes.len(), "bytes after the value");
        value
    }

    /// A member that may be missing.
    pub fn find(&self, name: &str) -> Option<&Json> {
        match self {
            Json::Object(members) => members.iter().find(|member| member.0 == name).map(|member| &member.1),
            _ => None,
        }
    }

    /// A member that must be there.
    pub fn get(&self, name: &str) -> &Json {
        self.find(name).unwrap_or_else(|| panic!("no {name} in {self:?}"))
    }

    pub fn number(&self) -> u64 {
        match self {
            Json::Number(number) => *number,
            Json::Truth(truth) => *truth as u64,
            other => panic!("no number: {other:?}"),
        }
    }

    pub fn text(&self) -> &str {
        match self {
            Json::Text(text) => text,
            other => panic!("no text: {other:?}"),
        }
    }

    pub fn list(&self) -> &[Json] {
        match self {
            Json::List(list) => list,
            other => panic!("no list: {other:?}"),
        }
    }

    /// A list of numbers.
    pub fn numbers(&self) -> Vec<u64> {
        self.list().iter().map(Json::number).collect()
    }

    pub fn bytes(&self) -> Vec<u8> {
        self.numbers().into_iter().map(|number| number as u8).collect()
    }

    pub fn words(&self) -> Vec<u32> {
        self.numbers().into_iter().map(|number| number as u32).collect()
    }
}

struct Reader<'a> {
    bytes: &'a [u8],
    at: usize,
}

impl Reader<'_> {
    fn blanks(&mut self) {
        while self.bytes.get(self.at).is_some_and(u8::is_ascii_whitespace) {
            self.at += 1;
        }
    }

    /// Takes a mark if it stands next.
    fn takes(&mut self, mark: &str) -> bool {
        self.blanks();
        let there = self.bytes[self.at..].starts_with(mark.as_bytes());
        self.at += if there { mark.len() } else { 0 };
        there
    }

    fn must(&mut self, mark: &str) {
        assert!(self.takes(mark), "{mark} is missing at byte {}", self.at);
    }

    fn value(&mut self) -> Json {
        if self.takes("{") {
            Json::Object(self.members("}", |reader| {
                let name = reader.string();
                reader.must(":");
                (name, reader.value())
            }))
        } else if self.takes("[") {
            Json::List(self.members("]", Reader::value))
        } else if self.takes("true") {
            Json::Truth(true)
        } else if self.takes("false") {
            Json::Truth(false)
        } else if self.bytes[self.at] == b'"' {
            Json::Text(self.string())
        } else {
            self.digits()
        }
    }

    /// Members with commas between, up to the end mark.
    fn members<T>(&mut self, end: &str, member: impl Fn(&mut Self) -> T) -> Vec<T> {
        let mut members = Vec::new();
        if self.takes(end) {
            return members;
        }
        loop {
            members.push(member(self));
            if self.takes(end) {
                return members;
            }
            self.must(",");
        }
    }

    fn digits(&mut self) -> Json {
        let start = self.at;
        while self.bytes.get(self.at).is_some_and(u8::is_ascii_digit) {
            self.at += 1;
        }
        let text = std::str::from_utf8(&self.bytes[start..self.at]).expect("digits");
        Json::Number(text.parse().expect("a whole number"))
    }

    /// A string. The only escape is \n.
    fn string(&mut self) -> String {
        self.must("\"");
        let mut text = Vec::new();
        while self.bytes[self.at] != b'"' {
            match self.bytes[self.at] {
                b'\\' => {
                    assert!(self.bytes[self.at + 1] == b'n', "an escape that is not read");
                    text.push(b'\n');
                    self.at += 2;
                }
                byte => {
                    text.push(byte);
                    self.at += 1;
                }
            }
        }
        self.at += 1;
        String::from_utf8(text).expect("text")
    }
}
