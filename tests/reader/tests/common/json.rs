//! A parser for the vectors' JSON lines: objects, lists, texts, whole numbers, true and false.

/// A JSON value.
#[derive(Clone, Debug, PartialEq, Eq)]
pub enum Json {
    Bool(bool),
    Number(u64),
    Text(String),
    List(Vec<Json>),
    Object(Vec<(String, Json)>),
}

impl Json {
    /// The member of an object, if it has it.
    pub fn get(&self, key: &str) -> Option<&Json> {
        let Json::Object(members) = self else {
            panic!("no object: {self:?}");
        };
        let found = members.iter().find(|(name, _)| name == key);
        found.map(|(_, value)| value)
    }

    pub fn text(&self, key: &str) -> &str {
        match self.get(key) {
            Some(Json::Text(text)) => text,
            other => panic!("{key}: no text: {other:?}"),
        }
    }

    pub fn number(&self, key: &str) -> u64 {
        match self.get(key) {
            Some(Json::Number(number)) => *number,
            other => panic!("{key}: no number: {other:?}"),
        }
    }

    pub fn is(&self, key: &str) -> bool {
        match self.get(key) {
            Some(Json::Bool(is)) => *is,
            other => panic!("{key}: not true or false: {other:?}"),
        }
    }

    pub fn bytes(&self, key: &str) -> Vec<u8> {
        reader::from_hex(self.text(key)).expect(key)
    }

    pub fn list(&self, key: &str) -> &[Json] {
        match self.get(key) {
            Some(Json::List(items)) => items,
            other => panic!("{key}: no list: {other:?}"),
        }
    }

    /// A list of lists of numbers.
    pub fn rows(&self, key: &str) -> Vec<Vec<u64>> {
        self.list(key).iter().map(Json::numbers).collect()
    }

    /// A list of texts.
    pub fn texts(&self, key: &str) -> Vec<String> {
        let text = |item: &Json| match item {
            Json::Text(text) => text.clone(),
            other => panic!("no text: {other:?}"),
        };
        self.list(key).iter().map(text).collect()
    }

    fn numbers(&self) -> Vec<u64> {
        let Json::List(items) = self else {
            panic!("no list: {self:?}");
        };
        let number = |item: &Json| match item {
            Json::Number(number) => *number,
            other => panic!("no number: {other:?}"),
        };
        items.iter().map(number).collect()
    }
}

/// The value of a whole line.
pub fn parse(line: &str) -> Json {
    let mut parser = Parser { rest: line };
    let value = parser.value();
    assert_eq!(parser.rest.trim(), "");
    value
}

struct Parser<'a> {
    rest: &'a str,
}

impl Parser<'_> {
    fn next(&mut self) -> char {
        let first = self.rest.chars().next().expect("more text");
        self.rest = &self.rest[first.len_utf8()..];
        first
    }

    fn take(&mut self, wanted: char) -> bool {
        self.rest = self.rest.trim_start();
        let taken = self.rest.starts_with(wanted);
        if taken {
            self.next();
        }
        taken
    }

    fn word(&mut self, wanted: &str) -> bool {
        let behind = self.rest.strip_prefix(wanted);
        self.rest = behind.unwrap_or(self.rest);
        behind.is_some()
    }

    fn value(&mut self) -> Json {
        if self.take('{') {
            Json::Object(self.items('}', Parser::member))
        } else if self.take('[') {
            Json::List(self.items(']', Parser::value))
        } else if self.take('"') {
            Json::Text(self.text())
        } else if self.word("true") {
            Json::Bool(true)
        } else if self.word("false") {
            Json::Bool(false)
        } else {
            Json::Number(self.number())
        }
    }

    fn items<T>(&mut self, close: char, item: fn(&mut Self) -> T) -> Vec<T> {
        let mut items = Vec::new();
        while !self.take(close) {
            items.push(item(self));
            self.take(',');
        }
        items
    }

    fn member(&mut self) -> (String, Json) {
        assert!(self.take('"'));
        let key = self.text();
        assert!(self.take(':'));
        (key, self.value())
    }

    /// What stands after an opening quote.
    fn text(&mut self) -> String {
        let mut text = String::new();
        loop {
            match self.next() {
                '"' => return text,
                '\\' => text.push(match self.next() {
                    'n' => '\n',
                    't' => '\t',
                    same @ ('"' | '\\' | '/') => same,
                    other => panic!("escape {other}"),
                }),
                plain => text.push(plain),
            }
        }
    }

    fn number(&mut self) -> u64 {
        let digits = self.rest.bytes().take_while(u8::is_ascii_digit).count();
        let (number, rest) = self.rest.split_at(digits);
        self.rest = rest;
        number.parse().expect("a whole number")
    }
}
