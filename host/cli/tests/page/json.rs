//! A reader of JSON.

#[derive(Clone, Debug, PartialEq)]
pub enum Json {
    Null,
    Number(i64),
    String(String),
    List(Vec<Json>),
    Object(Vec<(String, Json)>),
}

impl Json {
    pub fn read(text: &str) -> Json {
        let mut reader = Reader { rest: text };
        let value = reader.value();
        reader.space();
        assert!(
            reader.rest.is_empty(),
            "JSON ends before {:.40}",
            reader.rest
        );
        value
    }

    pub fn get(&self, key: &str) -> Option<&Json> {
        match self {
            Json::Object(pairs) => pairs
                .iter()
                .find(|(name, _)| name == key)
                .map(|pair| &pair.1),
            _ => panic!("{self:?} is no object"),
        }
    }

    /// The list under a key, empty where there is none.
    pub fn list_at(&self, key: &str) -> &[Json] {
        self.get(key).map_or(&[], Json::list)
    }

    pub fn list(&self) -> &[Json] {
        match self {
            Json::List(items) => items,
            _ => panic!("{self:?} is no list"),
        }
    }

    pub fn number(&self) -> i64 {
        match self {
            Json::Number(number) => *number,
            _ => panic!("{self:?} is no number"),
        }
    }

    pub fn string(&self) -> &str {
        match self {
            Json::String(string) => string,
            _ => panic!("{self:?} is no string"),
        }
    }

    /// What is not null.
    pub fn some(&self) -> Option<&Json> {
        Some(self).filter(|value| **value != Json::Null)
    }
}

struct Reader<'a> {
    rest: &'a str,
}

impl Reader<'_> {
    fn space(&mut self) {
        self.rest = self.rest.trim_start_matches([' ', '\n']);
    }

    /// Whether this comes next; then it is read.
    fn comes(&mut self, text: &str) -> bool {
        self.space();
        let rest = self.rest.strip_prefix(text);
        self.rest = rest.unwrap_or(self.rest);
        rest.is_some()
    }

    fn expect(&mut self, text: &str) {
        assert!(
            self.comes(text),
            "{text} is expected before {:.40}",
            self.rest
        );
    }

    /// Items up to an end.
    fn items<T>(&mut self, end: &str, item: impl Fn(&mut Self) -> T) -> Vec<T> {
        let mut items = Vec::new();
        while !self.comes(end) {
            if !items.is_empty() {
                self.expect(",");
            }
            items.push(item(self));
        }
        items
    }

    fn value(&mut self) -> Json {
        if self.comes("null") {
            Json::Null
        } else if self.comes("[") {
            Json::List(self.items("]", Self::value))
        } else if self.comes("{") {
            Json::Object(self.items("}", |reader| {
                reader.expect("\"");
                let key = reader.string();
                reader.expect(":");
                (key, reader.value())
            }))
        } else if self.comes("\"") {
            Json::String(self.string())
        } else {
            let digits = |letter: char| !letter.is_ascii_digit() && letter != '-';
            let (number, rest) = self.rest.split_at(self.rest.find(digits).unwrap_or(0));
            self.rest = rest;
            Json::Number(number.parse().expect("a number"))
        }
    }

    /// A string from after its first quote. The page escapes by four digits alone.
    fn string(&mut self) -> String {
        let (text, rest) = self.rest.split_once('"').expect("a string ends");
        self.rest = rest;
        let mut parts = text.split('\\');
        let mut string = parts.next().unwrap_or("").to_string();
        for part in parts {
            let digits = part.strip_prefix('u').expect("only \\u");
            let code = u32::from_str_radix(&digits[..4], 16).expect("four digits");
            string.push(char::from_u32(code).expect("a letter"));
            string.push_str(&digits[4..]);
        }
        string
    }
}
