//! Lines of numbers, as document 01 has them in every text.

/// The numbers of a line, or nothing where the line has another form: decimal, no leading zeros, at most 65,535,
/// one space between.
pub(crate) fn numbers<const N: usize>(line: &[u8]) -> Option<[u16; N]> {
    let mut values = line.split(|&byte| byte == b' ').map(value);
    let mut numbers = [0; N];
    for number in &mut numbers {
        *number = values.next()??;
    }
    values.next().is_none().then_some(numbers)
}

fn value(text: &[u8]) -> Option<u16> {
    let leading_zero = text.len() > 1 && text[0] == b'0';
    if text.is_empty() || leading_zero {
        return None;
    }
    text.iter().try_fold(0u16, |value, byte| {
        let digit = byte.is_ascii_digit().then(|| u16::from(byte - b'0'))?;
        value.checked_mul(10)?.checked_add(digit)
    })
}

/// Numbers with a space between, and byte 10.
pub(crate) fn line(text: &mut String, numbers: &[u16]) {
    for &number in numbers {
        let digits = [10_000, 1000, 100, 10, 1].into_iter().filter(|&place| number >= place || place == 1);
        text.extend(digits.map(|place| (b'0' + (number / place % 10) as u8) as char));
        text.push(' ');
    }
    text.pop();
    text.push('\n');
}
