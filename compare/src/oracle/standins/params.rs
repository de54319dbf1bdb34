//! Stand-in for the parameters: a number's text, and document 01's colour rule.

pub fn fmt_num(value: f64) -> String {
    value.to_string()
}

/// All leading `#` dropped, then exactly six bytes: three hexadecimal pairs.
pub fn parse_hex(text: &str) -> Option<[u8; 3]> {
    let digits: &[u8; 6] = text.trim_start_matches('#').as_bytes().try_into().ok()?;
    Some([
        pair(digits[0], digits[1])?,
        pair(digits[2], digits[3])?,
        pair(digits[4], digits[5])?,
    ])
}

/// Two hexadecimal digits, or `+` and one.
fn pair(high: u8, low: u8) -> Option<u8> {
    let high = if high == b'+' { 0 } else { digit(high)? };
    Some(16 * high + digit(low)?)
}

fn digit(byte: u8) -> Option<u8> {
    char::from(byte).to_digit(16).map(|value| value as u8)
}
