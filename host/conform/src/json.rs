//! JSON, written by hand: as much of it as the commands need.

/// A text in quotes.
pub fn text(text: &str) -> String {
    let mut quoted = String::from("\"");
    for character in text.chars() {
        match character {
            '"' | '\\' => quoted.extend(['\\', character]),
            control if control < ' ' => quoted += &format!("\\u{:04x}", control as u32),
            other => quoted.push(other),
        }
    }
    quoted + "\""
}

/// Names with values that are JSON already.
pub fn object(fields: &[(&str, String)]) -> String {
    let one = |(name, value): &(&str, String)| format!("{}: {value}", text(name));
    let fields: Vec<String> = fields.iter().map(one).collect();
    format!("{{{}}}", fields.join(", "))
}

/// Values that are JSON already.
pub fn array(values: impl IntoIterator<Item = String>) -> String {
    let values: Vec<String> = values.into_iter().collect();
    format!("[{}]", values.join(", "))
}

pub fn numbers(counts: &[usize]) -> String {
    array(counts.iter().map(usize::to_string))
}

/// Null where there is nothing.
pub fn optional(value: Option<String>) -> String {
    value.unwrap_or("null".into())
}

#[cfg(test)]
mod tests {
    use super::{array, numbers, object, optional, text};

    #[test]
    fn quotes_and_control_characters_are_escaped() {
        assert_eq!(text("a \"b\" \\ \n é"), r#""a \"b\" \\ \u000a é""#);
    }

    #[test]
    fn values_stand_in_order() {
        let inner = object(&[("x", numbers(&[1, 2])), ("y", optional(None))]);
        assert_eq!(array([inner]), r#"[{"x": [1, 2], "y": null}]"#);
    }
}
