//! Answers for other programs.

use std::fmt;

/// A value of JSON.
#[derive(Clone, Debug, PartialEq, Eq)]
pub enum Json {
    Null,
    Bool(bool),
    Number(u64),
    Text(String),
    List(Vec<Json>),
    Object(Vec<(&'static str, Json)>),
}

impl Json {
    /// An object with these fields.
    pub fn object<const N: usize>(fields: [(&'static str, Json); N]) -> Json {
        Json::Object(fields.into())
    }

    /// A list of what each item makes.
    pub fn list<T>(items: impl IntoIterator<Item = T>, one: impl Fn(T) -> Json) -> Json {
        Json::List(items.into_iter().map(one).collect())
    }

    /// Objects in a list stand in a line each, the deeper the further in; all else stands in one line.
    fn write(&self, depth: usize, f: &mut fmt::Formatter<'_>) -> fmt::Result {
        match self {
            Json::Null => write!(f, "null"),
            Json::Bool(value) => write!(f, "{value}"),
            Json::Number(number) => write!(f, "{number}"),
            Json::Text(text) => write!(f, "{}", string(text)),
            Json::List(items) => write_list(items, depth, f),
            Json::Object(fields) => {
                write!(f, "{{")?;
                for (n, (name, value)) in fields.iter().enumerate() {
                    write!(f, "{}{}: ", if n == 0 { "" } else { ", " }, string(name))?;
                    value.write(depth, f)?;
                }
                write!(f, "}}")
            }
        }
    }
}

fn write_list(items: &[Json], depth: usize, f: &mut fmt::Formatter<'_>) -> fmt::Result {
    let depth = depth + 1;
    write!(f, "[")?;
    for (n, item) in items.iter().enumerate() {
        match (item, n) {
            (Json::Object(_), _) => write!(f, "{}\n{}", if n == 0 { "" } else { "," }, "  ".repeat(depth))?,
            (_, 0) => {}
            _ => write!(f, ", ")?,
        }
        item.write(depth, f)?;
    }
    write!(f, "]")
}

impl fmt::Display for Json {
    fn fmt(&self, f: &mut fmt::Formatter<'_>) -> fmt::Result {
        self.write(0, f)
    }
}

/// A string of JSON.
fn string(text: &str) -> String {
    let mut quoted = String::from("\"");
    for c in text.chars() {
        match c {
            '"' | '\\' => quoted.extend(['\\', c]),
            c if c < ' ' || c == '\u{7f}' => quoted.push_str(&format!("\\u{:04x}", u32::from(c))),
            c => quoted.push(c),
        }
    }
    quoted.push('"');
    quoted
}

impl From<bool> for Json {
    fn from(value: bool) -> Json {
        Json::Bool(value)
    }
}

impl From<u32> for Json {
    fn from(number: u32) -> Json {
        Json::Number(number.into())
    }
}

impl From<usize> for Json {
    fn from(number: usize) -> Json {
        Json::Number(number as u64)
    }
}

impl From<&str> for Json {
    fn from(text: &str) -> Json {
        Json::Text(text.into())
    }
}

impl From<&std::path::Path> for Json {
    fn from(path: &std::path::Path) -> Json {
        Json::Text(path.to_string_lossy().into_owned())
    }
}

#[cfg(test)]
mod tests {
    use super::Json;

    #[test]
    fn objects_of_a_list_have_a_line_each() {
        let inner = |n: u32| Json::object([("n", n.into()), ("of", Json::List(vec![Json::object([]), Json::Null]))]);
        let text = Json::object([("a\"b", true.into()), ("list", Json::list([1, 2], inner))]).to_string();
        let shown = "{\"a\\\"b\": true, \"list\": [\n  {\"n\": 1, \"of\": [\n    {}, null]},\n  \
                     {\"n\": 2, \"of\": [\n    {}, null]}]}";
        assert_eq!(text, shown);
        assert_eq!(Json::list([1u32, 2], Json::from).to_string(), "[1, 2]");
        assert_eq!(Json::from("\n\u{7f}").to_string(), "\"\\u000a\\u007f\"");
    }
}
