//! Numbers and lines in words.

/// A number with commas.
pub fn grouped(number: usize) -> String {
    let digits = number.to_string();
    let mut text = String::new();
    for (place, digit) in digits.chars().enumerate() {
        if place > 0 && (digits.len() - place).is_multiple_of(3) {
            text.push(',');
        }
        text.push(digit);
    }
    text
}

#[cfg(test)]
mod tests {
    use super::grouped;

    #[test]
    fn commas_stand_between_thousands() {
        let told = [0, 999, 1000, 44_906_645].map(grouped);
        assert_eq!(told, ["0", "999", "1,000", "44,906,645"]);
    }
}
