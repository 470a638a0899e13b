//! JSON as it stands in a page: no `<` ends its script.

/// A text in quotes.
pub fn text(words: &str) -> String {
    let mut out = String::from("\"");
    for letter in words.chars() {
        match letter {
            '"' => out += "\\\"",
            '\\' => out += "\\\\",
            '<' | '\u{2028}' | '\u{2029}' => out += &format!("\\u{:04x}", u32::from(letter)),
            control if control < ' ' => out += &format!("\\u{:04x}", u32::from(control)),
            letter => out.push(letter),
        }
    }
    out + "\""
}

pub fn list(items: impl IntoIterator<Item = String>) -> String {
    format!("[{}]", items.into_iter().collect::<Vec<_>>().join(","))
}

pub fn texts<'a>(items: impl IntoIterator<Item = &'a String>) -> String {
    list(items.into_iter().map(|item| text(item)))
}

/// Names with values that are JSON already.
pub fn object(pairs: &[(&str, String)]) -> String {
    let pairs = pairs.iter().map(|(name, value)| format!("{}:{value}", text(name)));
    format!("{{{}}}", pairs.collect::<Vec<_>>().join(","))
}

#[cfg(test)]
mod tests {
    use super::*;

    #[test]
    fn a_text_ends_no_script() {
        assert_eq!(text("a\"b\\c</script>\n"), "\"a\\\"b\\\\c\\u003c/script>\\u000a\"");
        assert_eq!(object(&[("a", list([text("x"), "1".to_string()]))]), "{\"a\":[\"x\",1]}");
    }
}
