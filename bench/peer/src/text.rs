//! Hexadecimal and decimal text.

const DIGITS: &[u8; 16] = b"0123456789abcdef";
const NO_DIGIT: u8 = 0xff;

const VALUES: [u8; 256] = {
    let mut values = [NO_DIGIT; 256];
    let mut i = 0;
    while i < 16 {
        values[DIGITS[i] as usize] = i as u8;
        i += 1;
    }
    values
};

/// Adds the bytes as lowercase hexadecimal, two digits a byte.
pub fn push_hex(out: &mut Vec<u8>, bytes: &[u8]) {
    out.reserve(2 * bytes.len());
    for byte in bytes {
        out.extend_from_slice(&[DIGITS[(byte >> 4) as usize], DIGITS[(byte & 15) as usize]]);
    }
}

/// Fills `into` with the bytes that the field spells, `-` being no bytes. False if it spells none.
pub fn read_hex(field: &[u8], into: &mut Vec<u8>) -> bool {
    into.clear();
    if field == b"-" {
        return true;
    }
    let (pairs, rest) = field.as_chunks::<2>();
    if pairs.is_empty() || !rest.is_empty() {
        return false;
    }
    // Values are below 16, so any high bit that is left tells of a wrong digit.
    let mut wrong = 0;
    into.extend(pairs.iter().map(|[high, low]| {
        let (high, low) = (VALUES[*high as usize], VALUES[*low as usize]);
        wrong |= high | low;
        (high << 4) | (low & 15)
    }));
    wrong < 16
}

/// The number that the field spells, if it is all digits and at most `most`.
pub fn read_number(field: &[u8], most: u32) -> Option<u32> {
    if field.is_empty() {
        return None;
    }
    let mut number: u64 = 0;
    for byte in field {
        let digit = byte.wrapping_sub(b'0');
        if digit > 9 {
            return None;
        }
        // Never above 10 * 2^32 + 9, since a number above the range is left at once.
        number = number * 10 + u64::from(digit);
        if number > u64::from(most) {
            return None;
        }
    }
    u32::try_from(number).ok()
}

/// Adds the number in decimal digits.
pub fn push_number(out: &mut Vec<u8>, mut number: u64) {
    let mut digits = [0; 20];
    let mut at = digits.len();
    loop {
        at -= 1;
        digits[at] = b'0' + (number % 10) as u8;
        number /= 10;
        if number == 0 {
            break;
        }
    }
    out.extend_from_slice(&digits[at..]);
}

pub fn hex_string(bytes: &[u8]) -> String {
    let mut out = Vec::new();
    push_hex(&mut out, bytes);
    out.into_iter().map(char::from).collect()
}

#[cfg(test)]
mod tests {
    use super::*;

    #[test]
    fn hexadecimal() {
        let mut bytes = vec![1];
        assert!(read_hex(b"-", &mut bytes) && bytes.is_empty());
        assert!(read_hex(b"00ff1a", &mut bytes) && bytes == [0, 255, 26]);
        for wrong in [&b""[..], b"0", b"000", b"0g", b"FF", b"--", b" 0"] {
            assert!(!read_hex(wrong, &mut bytes));
        }
    }

    #[test]
    fn numbers() {
        assert_eq!(
            read_number(b"000000000000000000000000000255", 255),
            Some(255)
        );
        assert_eq!(read_number(b"256", 255), None);
        assert_eq!(read_number(b"4294967295", u32::MAX), Some(u32::MAX));
        assert_eq!(read_number(b"4294967296", u32::MAX), None);
        for wrong in [&b""[..], b"-1", b"+1", b"1 ", b"a"] {
            assert_eq!(read_number(wrong, u32::MAX), None);
        }
        let mut out = Vec::new();
        push_number(&mut out, 0);
        push_number(&mut out, 9_999_999_999);
        assert_eq!(out, b"09999999999");
    }
}
