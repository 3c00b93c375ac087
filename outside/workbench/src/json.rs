//! JSON, written by hand.

use std::fmt::Write;

/// An object that is being written.
pub struct Json(String);

impl Json {
    pub fn object() -> Json {
        Json("{".to_string())
    }

    /// A list of values.
    pub fn list(values: impl IntoIterator<Item = String>) -> String {
        let values: Vec<String> = values.into_iter().collect();
        format!("[{}]", values.join(","))
    }

    /// One more member, whose value is JSON.
    pub fn with(mut self, name: &str, value: impl ToString) -> Json {
        if self.0.len() > 1 {
            self.0.push(',');
        }
        let _ = write!(self.0, "{}:{}", string(name), value.to_string());
        self
    }

    /// One more member, a string.
    pub fn text(self, name: &str, value: &str) -> Json {
        self.with(name, string(value))
    }

    pub fn end(mut self) -> String {
        self.0.push('}');
        self.0
    }
}

/// A string, with no character in it that could end a script in a page.
pub fn string(text: &str) -> String {
    let mut out = "\"".to_string();
    for letter in text.chars() {
        match letter {
            '"' | '\\' => {
                out.push('\\');
                out.push(letter);
            }
            '<' | '>' | '&' | '\0'..='\x1F' | '\x7F' | '\u{2028}' | '\u{2029}' => {
                let _ = write!(out, "\\u{:04x}", u32::from(letter));
            }
            letter => out.push(letter),
        }
    }
    out.push('"');
    out
}

#[cfg(test)]
mod tests {
    use super::{string, Json};

    #[test]
    fn strings_are_escaped() {
        assert_eq!(string("a\"b\\c"), r#""a\"b\\c""#);
        assert_eq!(string("</x>\n"), r#""\u003c/x\u003e\u000a""#);
    }

    #[test]
    fn objects_and_lists() {
        let inner = Json::object().with("n", 1).text("s", "x").end();
        assert_eq!(inner, r#"{"n":1,"s":"x"}"#);
        assert_eq!(Json::list(Vec::new()), "[]");
        assert_eq!(
            Json::list(vec![inner.clone(), "2".to_string()]),
            format!("[{inner},2]")
        );
    }
}
