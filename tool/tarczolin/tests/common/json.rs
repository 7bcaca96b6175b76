//! Reads JSON, and holds it to docs/schema.json.
use tarczolin_tests::files::read;

#[derive(Clone, Debug, PartialEq)]
pub enum Value {
    Null,
    Bool(bool),
    Number(i64),
    Text(String),
    List(Vec<Value>),
    Object(Vec<(String, Value)>),
}

impl Value {
    pub fn get(&self, name: &str) -> Option<&Value> {
        match self {
            Value::Object(fields) => fields.iter().find(|(known, _)| known == name).map(|(_, value)| value),
            _ => None,
        }
    }

    fn kind(&self) -> &'static str {
        match self {
            Value::Null => "null",
            Value::Bool(_) => "boolean",
            Value::Number(_) => "integer",
            Value::Text(_) => "string",
            Value::List(_) => "array",
            Value::Object(_) => "object",
        }
    }

    fn items(&self) -> &[Value] {
        match self {
            Value::List(values) => values,
            one => std::slice::from_ref(one),
        }
    }
}

/// The value of a text, which must be whole.
pub fn parse(text: &str) -> Value {
    let mut reader = Reader { left: text.trim_start() };
    let value = reader.value();
    assert!(reader.left.is_empty(), "too much: {}", reader.left);
    value
}

struct Reader<'a> {
    left: &'a str,
}

impl Reader<'_> {
    fn take(&mut self, sign: &str) -> bool {
        let rest = self.left.strip_prefix(sign);
        if let Some(rest) = rest {
            self.left = rest.trim_start();
        }
        rest.is_some()
    }

    fn value(&mut self) -> Value {
        for (word, value) in [("null", Value::Null), ("true", Value::Bool(true)), ("false", Value::Bool(false))] {
            if self.take(word) {
                return value;
            }
        }
        if self.take("[") {
            return Value::List(self.until("]", Reader::value));
        }
        if self.take("{") {
            return Value::Object(self.until("}", |reader| {
                let name = reader.text();
                assert!(reader.take(":"), "a colon in front of {}", reader.left);
                (name, reader.value())
            }));
        }
        if self.left.starts_with('"') {
            return Value::Text(self.text());
        }
        let end = self.left.find(|c: char| !c.is_ascii_digit() && c != '-').unwrap_or(self.left.len());
        let number = self.left[..end].parse().unwrap_or_else(|_| panic!("no value: {}", self.left));
        self.left = self.left[end..].trim_start();
        Value::Number(number)
    }

    fn until<T>(&mut self, end: &str, each: impl Fn(&mut Self) -> T) -> Vec<T> {
        let mut all = Vec::new();
        while !self.take(end) {
            assert!(all.is_empty() || self.take(","), "a comma in front of {}", self.left);
            all.push(each(self));
        }
        all
    }

    fn text(&mut self) -> String {
        let mut text = String::new();
        let mut inside = self.left.strip_prefix('"').expect("a quotation mark").char_indices();
        while let Some((at, c)) = inside.next() {
            match c {
                '"' => {
                    self.left = self.left[at + 2..].trim_start();
                    return text;
                }
                '\\' => match inside.next().expect("a character").1 {
                    'n' => text.push('\n'),
                    'u' => {
                        let code: String = (0..4).map(|_| inside.next().expect("a digit").1).collect();
                        text.push(char::from_u32(u32::from_str_radix(&code, 16).expect("digits")).expect("a character"));
                    }
                    other => text.push(other),
                },
                other => text.push(other),
            }
        }
        panic!("a text without end")
    }
}

/// Does a value fit docs/schema.json?
pub fn fits_the_schema(value: &Value) -> bool {
    let schema = parse(&String::from_utf8(read("docs/schema.json")).expect("text"));
    fits(value, &schema, schema.get("$defs").expect("definitions"))
}

/// Does a value fit a schema, by the words of JSON Schema that docs/schema.json uses?
fn fits(value: &Value, schema: &Value, definitions: &Value) -> bool {
    if let Some(Value::Text(name)) = schema.get("$ref") {
        let name = name.strip_prefix("#/$defs/").expect("a definition's place");
        return fits(value, definitions.get(name).expect("a definition"), definitions);
    }
    if let Some(Value::List(all)) = schema.get("oneOf") {
        return all.iter().filter(|one| fits(value, one, definitions)).count() == 1;
    }
    if let Some(Value::List(all)) = schema.get("enum") {
        return all.contains(value);
    }
    let kinds = schema.get("type").expect("a type").items();
    if !kinds.contains(&Value::Text(value.kind().to_string())) {
        return false;
    }
    match value {
        Value::List(values) => values.iter().all(|one| fits(one, schema.get("items").expect("items"), definitions)),
        Value::Object(fields) => {
            let required = schema.get("required").map_or(&[][..], Value::items);
            let there = |name: &Value| matches!(name, Value::Text(name) if value.get(name).is_some());
            required.iter().all(there)
                && fields.iter().all(|(name, one)| {
                    let known = schema.get("properties").and_then(|all| all.get(name));
                    match known.or(schema.get("additionalProperties")).expect("every object says what else it may have") {
                        Value::Bool(allowed) => *allowed,
                        inner => fits(one, inner, definitions),
                    }
                })
        }
        _ => true,
    }
}
