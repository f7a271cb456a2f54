/// A value of a payload. Numbers are exact, as their text: a minus sign, digits, and digits after a point.
#[derive(Clone, Debug, PartialEq, Eq)]
pub enum Value {
    /// A number.
    Number(String),
    /// A text.
    Text(String),
    /// `true` or `false`.
    Truth(bool),
    /// A point, by `x` and `y`.
    Point(String, String),
}

impl Value {
    /// The values of a JSON array of numbers, texts, truth values and points; none where the text is no such array.
    ///
    /// ```
    /// # use kuvteleg::Value;
    /// let values = Value::read_all(r#"[0.17,"a \"b\"",true,{"x":1,"y":-2}]"#).unwrap();
    /// assert_eq!(values[1], Value::Text("a \"b\"".into()));
    /// assert_eq!(values[3], Value::Point("1".into(), "-2".into()));
    /// assert_eq!(Value::read_all("[1,]"), None);
    /// ```
    pub fn read_all(json: &str) -> Option<Vec<Value>> {
        let mut text = Text { rest: json };
        let mut values = Vec::new();
        text.take('[')?;
        if text.take(']').is_none() {
            values.push(text.value()?);
            while text.take(',').is_some() {
                values.push(text.value()?);
            }
            text.take(']')?;
        }
        text.rest.trim_start().is_empty().then_some(values)
    }

    /// The values at the end of a line of a reply, each behind a space.
    pub(crate) fn read_line(line: &str) -> Option<Vec<Value>> {
        let mut text = Text { rest: line };
        let mut values = Vec::new();
        while let Some(rest) = text.rest.strip_prefix(' ') {
            text.rest = rest;
            values.push(if rest.starts_with('(') { text.pair()? } else { text.value()? });
        }
        text.rest.is_empty().then_some(values)
    }
}

/// The text that a line of a reply has in quotes.
pub(crate) fn unquoted(line: &str) -> Option<String> {
    let mut text = Text { rest: line };
    let read = text.text()?;
    text.rest.is_empty().then_some(read)
}

/// The values of a state, as the text of a JSON array that the reader's last answer holds.
#[derive(Clone, Copy, Debug, PartialEq, Eq)]
pub struct Values<'a>(pub(crate) &'a str);

impl<'a> Values<'a> {
    /// The JSON array.
    pub fn as_json(self) -> &'a str {
        self.0
    }

    /// The values one by one.
    pub fn read(self) -> Vec<Value> {
        Value::read_all(self.0).expect("the library's own array")
    }
}

/// What is left of a JSON text, or of a line's values.
struct Text<'a> {
    rest: &'a str,
}

impl<'a> Text<'a> {
    fn take(&mut self, mark: char) -> Option<()> {
        self.rest = self.rest.trim_start().strip_prefix(mark)?;
        Some(())
    }

    fn value(&mut self) -> Option<Value> {
        self.rest = self.rest.trim_start();
        match self.rest.chars().next()? {
            '"' => Some(Value::Text(self.text()?)),
            '{' => self.point(),
            't' => self.word("true", Value::Truth(true)),
            'f' => self.word("false", Value::Truth(false)),
            _ => Some(Value::Number(self.number()?.into())),
        }
    }

    fn word(&mut self, word: &str, value: Value) -> Option<Value> {
        self.rest = self.rest.strip_prefix(word)?;
        Some(value)
    }

    fn number(&mut self) -> Option<&'a str> {
        self.rest = self.rest.trim_start();
        let end = self.rest.find(|it: char| !matches!(it, '0'..='9' | '-' | '+' | '.' | 'e' | 'E')).unwrap_or(self.rest.len());
        let (number, rest) = self.rest.split_at(end);
        self.rest = rest;
        number.ends_with(|it: char| it.is_ascii_digit()).then_some(number)
    }

    fn member(&mut self, name: &str) -> Option<String> {
        self.rest = self.rest.trim_start();
        if self.text()? != name {
            return None;
        }
        self.take(':')?;
        self.number().map(str::to_owned)
    }

    fn point(&mut self) -> Option<Value> {
        self.take('{')?;
        let x = self.member("x")?;
        self.take(',')?;
        let y = self.member("y")?;
        self.take('}')?;
        Some(Value::Point(x, y))
    }

    /// A point as a line of a reply has it.
    fn pair(&mut self) -> Option<Value> {
        self.take('(')?;
        let x = self.number()?;
        self.take(',')?;
        let y = self.number()?;
        self.take(')')?;
        Some(Value::Point(x.into(), y.into()))
    }

    fn text(&mut self) -> Option<String> {
        let mut read = String::new();
        self.rest = self.rest.strip_prefix('"')?;
        loop {
            let mut letters = self.rest.chars();
            let letter = letters.next()?;
            self.rest = letters.as_str();
            match letter {
                '"' => return Some(read),
                '\\' => read.push(self.escape()?),
                other => read.push(other),
            }
        }
    }

    fn escape(&mut self) -> Option<char> {
        let mut letters = self.rest.chars();
        let letter = letters.next()?;
        self.rest = letters.as_str();
        Some(match letter {
            'b' => '\u{8}',
            'f' => '\u{c}',
            'n' => '\n',
            'r' => '\r',
            't' => '\t',
            'u' => return self.code(),
            '"' | '\\' | '/' => letter,
            _ => return None,
        })
    }

    /// The character of an escape, or of a pair of them.
    fn code(&mut self) -> Option<char> {
        let high = self.unit()?;
        if !(0xd800..0xdc00).contains(&high) {
            return char::from_u32(high);
        }
        self.rest = self.rest.strip_prefix("\\u")?;
        let low = self.unit()?;
        char::decode_utf16([high as u16, low as u16]).next()?.ok()
    }

    fn unit(&mut self) -> Option<u32> {
        let digits = self.rest.get(..4)?;
        self.rest = &self.rest[4..];
        digits.bytes().all(|it| it.is_ascii_hexdigit()).then(|| u32::from_str_radix(digits, 16).ok())?
    }
}
