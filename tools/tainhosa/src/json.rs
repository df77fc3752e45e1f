//! JSON to print.
use std::fmt::{self, Write};
use tainhosa::{meaning, Header, Inner, Refusal};

/// A value.
pub enum Json {
    Null,
    Bool(bool),
    Number(u64),
    Text(String),
    List(Vec<Json>),
    Object(Vec<(&'static str, Json)>),
}

impl Json {
    pub fn object<const N: usize>(fields: [(&'static str, Json); N]) -> Json {
        Json::Object(fields.into_iter().collect())
    }

    pub fn text(text: impl Into<String>) -> Json {
        Json::Text(text.into())
    }

    pub fn hex(bytes: &[u8]) -> Json {
        Json::Text(hex(bytes))
    }

    /// A refusal: its number, place, words and advice, and of 12 and 13 the one behind it.
    pub fn refusal(refusal: &Refusal) -> Json {
        let mut fields = vec![
            ("number", Json::Number(refusal.number.into())),
            ("place", Json::Number(refusal.place)),
            ("words", Json::text(refusal.words())),
            ("advice", Json::text(refusal.advice())),
        ];
        if let Some(Inner { number, place }) = refusal.inner {
            let words = meaning(number).map_or(String::new(), |m| m.sentence(Some(place)));
            let inner = [("number", Json::Number(number.into())), ("place", Json::Number(place)), ("words", Json::text(words))];
            fields.push(("inner", Json::object(inner)));
        }
        Json::Object(fields)
    }

    /// The values of a header, by the names of the listing and the sheet.
    pub fn header(header: &Header) -> Vec<(&'static str, Json)> {
        vec![
            ("size", Json::Number(header.size.into())),
            ("version", Json::Number(header.version.into())),
            ("timestamp", Json::Number(header.timestamp)),
            ("auth", Json::Number(header.auth_type.into())),
            ("hint", header.hint.map_or(Json::Null, |hint| Json::hex(&hint))),
            ("digest", Json::hex(&header.digest)),
            ("signature", Json::hex(&header.signature)),
        ]
    }
}

/// Bytes as hex digits.
pub fn hex(bytes: &[u8]) -> String {
    bytes.iter().map(|b| format!("{b:02x}")).collect()
}

fn quoted(f: &mut fmt::Formatter<'_>, text: &str) -> fmt::Result {
    f.write_char('"')?;
    for c in text.chars() {
        match c {
            '"' | '\\' => write!(f, "\\{c}")?,
            c if (c as u32) < 0x20 => write!(f, "\\u{:04x}", c as u32)?,
            c => f.write_char(c)?,
        }
    }
    f.write_char('"')
}

impl fmt::Display for Json {
    fn fmt(&self, f: &mut fmt::Formatter<'_>) -> fmt::Result {
        match self {
            Json::Null => f.write_str("null"),
            Json::Bool(b) => write!(f, "{b}"),
            Json::Number(n) => write!(f, "{n}"),
            Json::Text(text) => quoted(f, text),
            Json::List(all) => {
                f.write_char('[')?;
                for (i, item) in all.iter().enumerate() {
                    write!(f, "{}{item}", if i == 0 { "" } else { "," })?;
                }
                f.write_char(']')
            }
            Json::Object(fields) => {
                f.write_char('{')?;
                for (i, (name, value)) in fields.iter().enumerate() {
                    f.write_str(if i == 0 { "" } else { "," })?;
                    quoted(f, name)?;
                    write!(f, ":{value}")?;
                }
                f.write_char('}')
            }
        }
    }
}
