//! Numbers in the fields of a line, none where the form is wrong.

/// "k an optional minus and one to four digits, no leading zero and no minus
/// zero".
pub fn numeral(field: &[u8]) -> Option<i32> {
    match field {
        b"-0" => None,
        [b'-', size @ ..] => Some(-(number(size, 4)? as i32)),
        size => Some(number(size, 4)? as i32),
    }
}

/// One digit up to so many, without "a leading zero but for 0 itself".
pub fn number(field: &[u8], most: usize) -> Option<u64> {
    let digits = (1..=most).contains(&field.len()) && field.iter().all(u8::is_ascii_digit);
    if !digits || field[0] == b'0' && field.len() > 1 {
        return None;
    }
    let number = |number, digit: &u8| number * 10 + u64::from(digit - b'0');
    Some(field.iter().fold(0, number))
}
