//! A reader of JSON, as much of it as a view can have: no escapes, no fractions, no exponents.

#[derive(Debug, PartialEq, Eq)]
pub enum Json {
    Null,
    Number(i64),
    Text(String),
    List(Vec<Json>),
    /// In the order of the text.
    Object(Vec<(String, Json)>),
}

pub fn read(text: &str) -> Json {
    let mut reader = Reader(text.trim_start());
    let value = reader.value();
    assert!(
        reader.0.is_empty(),
        "{:?} stands behind the value",
        reader.0
    );
    value
}

struct Reader<'a>(&'a str);

impl Reader<'_> {
    /// Whether the sign comes next, which is passed then.
    fn passes(&mut self, sign: &str) -> bool {
        match self.0.strip_prefix(sign) {
            Some(rest) => self.0 = rest.trim_start(),
            None => return false,
        }
        true
    }

    fn pass(&mut self, sign: &str) {
        assert!(self.passes(sign), "{sign} expected at {:?}", self.0);
    }

    fn value(&mut self) -> Json {
        if self.passes("null") {
            Json::Null
        } else if self.passes("[") {
            Json::List(self.items("]", Reader::value))
        } else if self.passes("{") {
            Json::Object(self.items("}", Reader::member))
        } else if self.0.starts_with('"') {
            Json::Text(self.text())
        } else {
            self.number()
        }
    }

    fn items<T>(&mut self, end: &str, item: impl Fn(&mut Self) -> T) -> Vec<T> {
        let mut items = Vec::new();
        if self.passes(end) {
            return items;
        }
        loop {
            items.push(item(self));
            if self.passes(end) {
                return items;
            }
            self.pass(",");
        }
    }

    fn member(&mut self) -> (String, Json) {
        let name = self.text();
        self.pass(":");
        (name, self.value())
    }

    fn text(&mut self) -> String {
        let rest = self.0.strip_prefix('"').expect("a string");
        let (text, rest) = rest.split_once('"').expect("the string's end");
        let plain = |sign: char| sign.is_ascii() && !sign.is_ascii_control() && sign != '\\';
        assert!(text.chars().all(plain), "{text:?} has to be escaped");
        self.0 = rest.trim_start();
        text.to_string()
    }

    fn number(&mut self) -> Json {
        let end = self.0.find(|sign: char| !sign.is_ascii_digit());
        let (digits, rest) = self.0.split_at(end.unwrap_or(self.0.len()));
        assert!(digits == "0" || !digits.starts_with('0'), "a zero in front");
        let number = digits.parse().expect("a number");
        assert!(number < 1 << 53, "{number} is not exact as a float");
        self.0 = rest.trim_start();
        Json::Number(number)
    }
}
