//! Decimal numbers, read exactly or not at all.

/// The number that a plain decimal is: an optional sign, digits, and perhaps a point and more digits. Nothing if the text is no such
/// decimal, or if the number kept would show other digits than were written.
pub fn read(text: &str) -> Option<f64> {
    let unsigned = text.strip_prefix(['+', '-']).unwrap_or(text);
    let (whole, fraction) = unsigned.split_once('.').unwrap_or((unsigned, ""));
    let plain = |digits: &str| digits.bytes().all(|digit| digit.is_ascii_digit());
    if whole.is_empty() || !plain(whole) || !plain(fraction) || unsigned.ends_with('.') {
        return None;
    }
    let number: f64 = text.parse().ok()?;
    let shown = format!("{:.*}", fraction.len(), number.abs());
    let zeros = whole.len() - whole.trim_start_matches('0').len();
    let written = &unsigned[zeros.min(whole.len() - 1)..];
    (shown == written).then_some(number)
}

#[cfg(test)]
mod tests {
    use super::*;

    #[test]
    fn plain_decimals_are_read() {
        let numbers = ["1000", "-970.5", "+0.25", "007", "0", "-0.0", "0.1", "16777216.0000"].map(read);
        assert_eq!(numbers, [1000.0, -970.5, 0.25, 7.0, 0.0, 0.0, 0.1, 16_777_216.0].map(Some));
    }

    #[test]
    fn a_number_that_would_be_rounded_is_not_read() {
        for text in ["1000.00000000000000001", "16777216.0000000001", "9007199254740993"] {
            assert_eq!(read(text), None, "{text}");
        }
    }

    #[test]
    fn anything_else_is_not_read() {
        for text in ["", "-", ".", "1.", ".5", "1e3", "nan", "inf", "0x10", "1,000", " 1", "--1", "1.2.3", "\u{661}"] {
            assert_eq!(read(text), None, "{text}");
        }
    }
}
