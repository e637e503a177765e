//! Capital hex digits and byte fields, as every line has them.

/// The characters of a byte field: a space and two hex digits.
pub const BYTE_FIELD: usize = 3;

/// The capital hex digits by value.
const HEX_DIGITS: &[u8; 16] = b"0123456789ABCDEF";

/// Prints a hex digit.
pub fn print_digit(value: u8, text: &mut Vec<u8>) {
    text.push(HEX_DIGITS[usize::from(value & 0x0F)]);
}

/// Prints a byte as two hex digits.
pub fn print_byte(byte: u8, text: &mut Vec<u8>) {
    print_digit(byte >> 4, text);
    print_digit(byte, text);
}

/// Prints bytes as byte fields.
pub fn print_fields(bytes: &[u8], text: &mut Vec<u8>) {
    for byte in bytes {
        text.push(b' ');
        print_byte(*byte, text);
    }
}

/// Reads byte fields to the end of the line, putting the bytes into `space`, which must hold them.
pub fn read_fields<'b>(fields: &[u8], space: &'b mut [u8]) -> Option<&'b [u8]> {
    let count = fields.len() / BYTE_FIELD;
    let whole = fields.len().is_multiple_of(BYTE_FIELD);
    let bytes = space.get_mut(..count).filter(|_| whole)?;
    for (byte, field) in bytes.iter_mut().zip(fields.chunks_exact(BYTE_FIELD)) {
        let [b' ', high, low] = *field else {
            return None;
        };
        *byte = hex_value(high)? << 4 | hex_value(low)?;
    }
    Some(bytes)
}

/// The value of a capital hex digit.
pub fn hex_value(digit: u8) -> Option<u8> {
    match digit {
        b'0'..=b'9' => Some(digit - b'0'),
        b'A'..=b'F' => Some(digit - b'A' + 10),
        _ => None,
    }
}
