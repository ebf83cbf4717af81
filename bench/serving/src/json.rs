//! Texts of JSON (RFC 8259), read whole.

#[derive(Debug)]
pub enum Value {
    Text(String),
    /// A whole number.
    Number(u64),
    List(Vec<Value>),
    Object(Vec<(String, Value)>),
    Other,
}

struct Reader<'a> {
    octets: &'a [u8],
    place: usize,
}

/// The object that a text is.
pub fn object(octets: &[u8]) -> Option<Vec<(String, Value)>> {
    let mut reader = Reader { octets, place: 0 };
    let Value::Object(members) = reader.value(0)? else {
        return None;
    };
    reader.blanks();
    (reader.place == octets.len()).then_some(members)
}

/// The value of a member.
pub fn member<'a>(object: &'a [(String, Value)], name: &str) -> Option<&'a Value> {
    object.iter().find(|member| member.0 == name).map(|member| &member.1)
}

impl Reader<'_> {
    fn blanks(&mut self) {
        while matches!(self.octets.get(self.place), Some(b' ' | b'\t' | b'\n' | b'\r')) {
            self.place += 1;
        }
    }

    /// Goes past a letter, if it is next.
    fn eat(&mut self, octet: u8) -> Option<()> {
        self.blanks();
        (self.octets.get(self.place) == Some(&octet)).then(|| self.place += 1)
    }

    fn value(&mut self, depth: u32) -> Option<Value> {
        self.blanks();
        match *self.octets.get(self.place)? {
            _ if depth > 64 => None,
            b'"' => self.text().map(Value::Text),
            b'{' => self.members(depth).map(Value::Object),
            b'[' => self.items(depth).map(Value::List),
            b'-' | b'0'..=b'9' => self.number(),
            _ => self.word(),
        }
    }

    fn members(&mut self, depth: u32) -> Option<Vec<(String, Value)>> {
        let mut members = Vec::new();
        self.eat(b'{')?;
        if self.eat(b'}').is_some() {
            return Some(members);
        }
        loop {
            self.blanks();
            let name = self.text()?;
            self.eat(b':')?;
            members.push((name, self.value(depth + 1)?));
            if self.eat(b',').is_none() {
                self.eat(b'}')?;
                return Some(members);
            }
        }
    }

    fn items(&mut self, depth: u32) -> Option<Vec<Value>> {
        let mut items = Vec::new();
        self.eat(b'[')?;
        if self.eat(b']').is_some() {
            return Some(items);
        }
        loop {
            items.push(self.value(depth + 1)?);
            if self.eat(b',').is_none() {
                self.eat(b']')?;
                return Some(items);
            }
        }
    }

    /// A text without escapes, which no name of the interface needs.
    fn text(&mut self) -> Option<String> {
        self.eat(b'"')?;
        let start = self.place;
        let length = self.octets[start..].iter().position(|&octet| octet == b'"')?;
        self.place = start + length + 1;
        let text = std::str::from_utf8(&self.octets[start..start + length]).ok()?;
        (!text.contains(|c: char| c == '\\' || c < ' ')).then(|| text.to_owned())
    }

    fn number(&mut self) -> Option<Value> {
        let start = self.place;
        while matches!(self.octets.get(self.place), Some(b'-' | b'+' | b'.' | b'e' | b'E' | b'0'..=b'9')) {
            self.place += 1;
        }
        let text = std::str::from_utf8(&self.octets[start..self.place]).ok()?;
        text.parse::<f64>().ok()?;
        Some(text.parse().map_or(Value::Other, Value::Number))
    }

    fn word(&mut self) -> Option<Value> {
        let rest = &self.octets[self.place..];
        let word = ["true", "false", "null"].into_iter().find(|word| rest.starts_with(word.as_bytes()))?;
        self.place += word.len();
        Some(Value::Other)
    }
}
