// A general JSON parser and the members of a call, for the plain programs that the benches measure with.
use std::collections::BTreeMap;

pub enum Json {
    Null,
    Bool,
    Number(Option<u64>),
    Text(String),
    List(Vec<Json>),
    Object(BTreeMap<String, Json>),
}

pub struct Parser<'a> {
    pub text: &'a [u8],
    pub at: usize,
}

impl Parser<'_> {
    pub fn space(&mut self) {
        while matches!(self.text.get(self.at), Some(b' ' | b'\t' | b'\r')) {
            self.at += 1;
        }
    }

    fn eat(&mut self, byte: u8) -> Option<()> {
        self.space();
        (self.text.get(self.at) == Some(&byte)).then(|| self.at += 1)
    }

    fn word(&mut self, word: &[u8], value: Json) -> Option<Json> {
        self.text[self.at..].starts_with(word).then(|| {
            self.at += word.len();
            value
        })
    }

    pub fn value(&mut self, depth: usize) -> Option<Json> {
        self.space();
        match *self.text.get(self.at)? {
            b'n' => self.word(b"null", Json::Null),
            b't' => self.word(b"true", Json::Bool),
            b'f' => self.word(b"false", Json::Bool),
            b'"' => Some(Json::Text(self.string()?)),
            b'[' => self.list(depth.checked_sub(1)?),
            b'{' => self.object(depth.checked_sub(1)?),
            _ => self.number(),
        }
    }

    fn number(&mut self) -> Option<Json> {
        let begin = self.at;
        while matches!(self.text.get(self.at), Some(b'0'..=b'9' | b'-' | b'+' | b'.' | b'e' | b'E')) {
            self.at += 1;
        }
        let text = std::str::from_utf8(&self.text[begin..self.at]).ok()?;
        match text.parse::<u64>() {
            Ok(number) => Some(Json::Number(Some(number))),
            Err(_) => text.parse::<f64>().ok().filter(|number| number.is_finite()).map(|_| Json::Number(None)),
        }
    }

    fn string(&mut self) -> Option<String> {
        self.at += 1;
        let mut text = String::new();
        loop {
            let begin = self.at;
            while !matches!(self.text.get(self.at)?, b'"' | b'\\' | 0..=0x1F) {
                self.at += 1;
            }
            text.push_str(std::str::from_utf8(&self.text[begin..self.at]).ok()?);
            self.at += 1;
            match self.text[self.at - 1] {
                b'"' => return Some(text),
                b'\\' => text.push(self.escape()?),
                _ => return None,
            }
        }
    }

    fn escape(&mut self) -> Option<char> {
        self.at += 1;
        Some(match self.text.get(self.at - 1)? {
            b'n' => '\n',
            b't' => '\t',
            b'r' => '\r',
            b'b' => '\u{8}',
            b'f' => '\u{c}',
            b'u' => {
                let digits = std::str::from_utf8(self.text.get(self.at..self.at + 4)?).ok()?;
                self.at += 4;
                char::from_u32(u32::from_str_radix(digits, 16).ok()?)?
            }
            byte @ (b'"' | b'\\' | b'/') => *byte as char,
            _ => return None,
        })
    }

    fn list(&mut self, depth: usize) -> Option<Json> {
        self.at += 1;
        let mut list = Vec::new();
        if self.eat(b']').is_some() {
            return Some(Json::List(list));
        }
        loop {
            list.push(self.value(depth)?);
            if self.eat(b',').is_none() {
                self.eat(b']')?;
                return Some(Json::List(list));
            }
        }
    }

    fn object(&mut self, depth: usize) -> Option<Json> {
        self.at += 1;
        let mut members = BTreeMap::new();
        if self.eat(b'}').is_some() {
            return Some(Json::Object(members));
        }
        loop {
            self.space();
            if self.text.get(self.at) != Some(&b'"') {
                return None;
            }
            let key = self.string()?;
            self.eat(b':')?;
            let value = self.value(depth)?;
            members.insert(key, value);
            if self.eat(b',').is_none() {
                self.eat(b'}')?;
                return Some(Json::Object(members));
            }
        }
    }
}

pub type Members = BTreeMap<String, Json>;

pub fn name_in(members: &Members, key: &'static str) -> Result<String, (u8, &'static str)> {
    match members.get(key) {
        Some(Json::Text(text)) if text.len() <= 64 && !text.is_empty() && text.bytes().all(|b| (0x21..=0x7E).contains(&b) && b != b'/') => {
            Ok(text.clone())
        }
        Some(Json::Text(_)) => Err((2, key)),
        _ => Err((1, key)),
    }
}

pub fn number_in(members: &Members, key: &'static str) -> Result<u64, (u8, &'static str)> {
    match members.get(key) {
        Some(Json::Number(Some(number))) => Ok(*number),
        _ => Err((1, key)),
    }
}

pub fn devices_in(members: &Members) -> Result<Vec<String>, (u8, &'static str)> {
    let Some(Json::List(list)) = members.get("devices") else {
        return Err((1, "devices"));
    };
    list.iter()
        .map(|item| match item {
            Json::Text(path) if path.starts_with('/') && path.len() <= 255 => Ok(path.clone()),
            _ => Err((1, "devices")),
        })
        .collect()
}
