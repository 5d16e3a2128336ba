//! Numbers and bodies as texts. FORMATS.md, "Formats": numbers are decimal without a sign or a leading zero, bodies are lower-case
//! hexadecimal, two digits a byte.

/// The limit of epochs, serials, txids and each other number. FORMATS.md, "Limits".
pub const LARGEST: u64 = 1 << 62;

/// The longest body of an edit. FORMATS.md, "Limits".
pub const LONGEST_BODY: usize = 4096;

/// How many digits a number in a name or a number file has. FILES.md, "Files of a node".
pub const PADDED_DIGITS: usize = 19;

const HEX_DIGITS: &[u8; 16] = b"0123456789abcdef";

/// Each byte's two digits, made once.
static HEX_PAIRS: [[u8; 2]; 256] = hex_pairs();

const fn hex_pairs() -> [[u8; 2]; 256] {
    let mut pairs = [[0; 2]; 256];
    let mut byte = 0;
    while byte < 256 {
        pairs[byte] = [HEX_DIGITS[byte >> 4], HEX_DIGITS[byte & 15]];
        byte += 1;
    }
    pairs
}

/// A decimal number of at most 2^64 - 1, if the word is one. FORMATS.md, "Formats".
pub fn read_number(word: &[u8]) -> Option<u64> {
    match word {
        [] => None,
        [b'0'] => Some(0),
        [b'0', ..] => None,
        digits => read_digits(digits),
    }
}

/// A decimal number of at most 2^62.
pub fn read_small_number(word: &[u8]) -> Option<u64> {
    read_number(word).filter(|&number| number <= LARGEST)
}

fn read_digits(digits: &[u8]) -> Option<u64> {
    let mut number = 0_u64;
    for &digit in digits {
        if !digit.is_ascii_digit() {
            return None;
        }
        number = number.checked_mul(10)?.checked_add(u64::from(digit - b'0'))?;
    }
    Some(number)
}

/// An octal number of one to four digits without a leading zero. EDITS.md, "Edit records": PERM.
pub fn read_octal(word: &[u8]) -> Option<u16> {
    let plain = word == b"0" || (word.len() <= 4 && matches!(word, [b'1'..=b'7', ..]));
    if !plain || !word.iter().all(|digit| (b'0'..=b'7').contains(digit)) {
        return None;
    }
    Some(word.iter().fold(0, |number, digit| number * 8 + u16::from(digit - b'0')))
}

/// A number of 19 digits that is at most 2^62. FILES.md, "Files of a node".
pub fn read_padded(word: &[u8]) -> Option<u64> {
    if word.len() != PADDED_DIGITS {
        return None;
    }
    read_digits(word).filter(|&number| number <= LARGEST)
}

/// Appends the number in decimal.
pub fn push_number(text: &mut Vec<u8>, mut number: u64) {
    let mut digits = [0; 20];
    let mut place = digits.len();
    loop {
        place -= 1;
        digits[place] = b'0' + (number % 10) as u8;
        number /= 10;
        if number == 0 {
            break;
        }
    }
    text.extend_from_slice(&digits[place..]);
}

/// Appends a space and the number.
pub fn push_next_number(text: &mut Vec<u8>, number: u64) {
    text.push(b' ');
    push_number(text, number);
}

/// Appends the number in 19 digits, with leading zeros.
pub fn push_padded(text: &mut Vec<u8>, mut number: u64) {
    let mut digits = [b'0'; PADDED_DIGITS];
    for digit in digits.iter_mut().rev() {
        *digit = b'0' + (number % 10) as u8;
        number /= 10;
    }
    text.extend_from_slice(&digits);
}

/// Appends the number in octal.
pub fn push_octal(text: &mut Vec<u8>, number: u16) {
    text.extend_from_slice(format!("{number:o}").as_bytes());
}

/// Appends two digits for each byte.
pub fn push_hex(text: &mut Vec<u8>, bytes: &[u8]) {
    let start = text.len();
    text.resize(start + bytes.len() * 2, 0);
    for (pair, &byte) in text[start..].chunks_exact_mut(2).zip(bytes) {
        pair.copy_from_slice(&HEX_PAIRS[usize::from(byte)]);
    }
}

/// The value of each lower-case hexadecimal digit, and 255 for any other byte.
static HEX_VALUES: [u8; 256] = hex_values();

const fn hex_values() -> [u8; 256] {
    let mut values = [255; 256];
    let mut digit = 0;
    while digit < 16 {
        values[HEX_DIGITS[digit] as usize] = digit as u8;
        digit += 1;
    }
    values
}

/// Appends the bytes that the digits tell; false where the word isn't lower-case hexadecimal of whole bytes.
pub fn read_hex(word: &[u8], bytes: &mut Vec<u8>) -> bool {
    if word.len() % 2 != 0 {
        return false;
    }
    let mut seen = 0;
    bytes.extend(word.chunks_exact(2).map(|pair| {
        let (high, low) = (HEX_VALUES[usize::from(pair[0])], HEX_VALUES[usize::from(pair[1])]);
        seen |= high | low;
        (high << 4) | (low & 15)
    }));
    seen < 16
}

/// Appends the body's bytes; false where the word isn't 1 to 4,096 bytes in hexadecimal. FORMATS.md, "Requests", rule 8.
pub fn read_body(word: &[u8], bytes: &mut Vec<u8>) -> bool {
    !word.is_empty() && word.len() <= 2 * LONGEST_BODY && read_hex(word, bytes)
}

/// The words of a line. FORMATS.md, "Scripts": words are separated by one space.
pub fn split_words(line: &[u8]) -> impl Iterator<Item = &[u8]> + Clone {
    line.split(|&byte| byte == b' ')
}

/// The first run of bytes that aren't spaces. FORMATS.md, "Scripts", rule 2.
pub fn first_word(line: &[u8]) -> &[u8] {
    line.split(|&byte| byte == b' ').find(|word| !word.is_empty()).unwrap_or(b"")
}

/// Whether a line has a double, leading or trailing space. FORMATS.md, "Scripts", rule 3.
pub fn has_stray_space(line: &[u8]) -> bool {
    line.first() == Some(&b' ') || line.last() == Some(&b' ') || line.windows(2).any(|pair| pair == b"  ")
}
