//! EICs and ids: the two kinds of sixteen-byte field that share one alphabet.

/// The entry of a byte that may not occur.
pub const NO_VALUE: u8 = 255;

/// One entry for each of the 256 byte values: digits 0 to 9, letters 10 to 35, hyphen 36.
pub const VALUES: [u8; 256] = values();

const fn values() -> [u8; 256] {
    let mut table = [NO_VALUE; 256];
    let mut byte = 0;
    while byte < 256 {
        let character = byte as u8;
        if character >= b'0' && character <= b'9' {
            table[byte] = character - b'0';
        } else if character >= b'A' && character <= b'Z' {
            table[byte] = character - b'A' + 10;
        } else if character == b'-' {
            table[byte] = 36;
        }
        byte += 1;
    }
    table
}

/// The value the sixteenth character must have, from the first fifteen. Nothing if one of them is
/// outside the alphabet, or if they are all the character 0: then the weighted sum is 0 and the
/// paper refuses the code. (The result 36 stands for a hyphen, which no last character may be.)
pub fn check_value(first_fifteen: &[u8; 15]) -> Option<u8> {
    let mut sum: u32 = 0;
    for (place, &character) in first_fifteen.iter().enumerate() {
        let value = VALUES[usize::from(character)];
        if value == NO_VALUE {
            return None;
        }
        // The weights fall from 16 at the first character to 2 at the fifteenth.
        sum += (16 - place as u32) * u32::from(value);
    }
    if sum == 0 {
        None
    } else {
        Some(36 - ((sum - 1) % 37) as u8)
    }
}

/// The number of a code's sixteenth character, which is also told for fifteen zeros and for a code
/// that is too long.
pub const LAST_CHARACTER: u8 = 16;

/// Which character of a code is wrong: 0 for a valid EIC. A missing character is one that is not
/// allowed, so a code that is too short is wrong at the character behind its end, if not before.
pub fn wrong_character(code: &[u8]) -> u8 {
    let allowed = |character: u8| VALUES[usize::from(character)] != NO_VALUE;
    for number in 1..LAST_CHARACTER {
        if !code.get(usize::from(number) - 1).copied().map_or(false, allowed) {
            return number;
        }
    }
    let first_fifteen = code[..15].try_into().expect("fifteen characters");
    let last = match code[15..] {
        [last] => VALUES[usize::from(last)],
        _ => NO_VALUE,
    };
    // 36 is the hyphen, and a byte outside the alphabet has 255: both fall out here.
    if last < 36 && check_value(first_fifteen) == Some(last) {
        0
    } else {
        LAST_CHARACTER
    }
}

/// Whether the bytes are a valid EIC.
pub fn is_valid_eic(bytes: &[u8]) -> bool {
    wrong_character(bytes) == 0
}

/// Whether the bytes would be a valid EIC, were a hyphen allowed as its sixteenth character.
pub fn fails_by_hyphen_alone(bytes: &[u8]) -> bool {
    let first_fifteen: Option<&[u8; 15]> = bytes.get(..15).and_then(|part| part.try_into().ok());
    bytes.get(15..) == Some(b"-") && first_fifteen.and_then(check_value) == Some(36)
}

/// Whether the bytes are a well-formed id field: one to sixteen characters of the EIC alphabet,
/// then zero bytes only.
pub fn is_well_formed_id(bytes: &[u8]) -> bool {
    if bytes.len() != 16 {
        return false;
    }
    let text = bytes.iter().take_while(|&&byte| VALUES[usize::from(byte)] != NO_VALUE).count();
    text > 0 && bytes[text..].iter().all(|&byte| byte == 0)
}

/// The characters of an id without the zero bytes that fill its field.
pub fn id_text(id: &[u8]) -> &[u8] {
    let length = id.iter().position(|&byte| byte == 0).unwrap_or(id.len());
    &id[..length]
}

#[cfg(test)]
mod tests {
    use super::*;

    #[test]
    fn the_table_holds_exactly_the_alphabet() {
        for byte in 0..=255u8 {
            let expected = match byte {
                b'0'..=b'9' => byte - 48,
                b'A'..=b'Z' => byte - 55,
                b'-' => 36,
                _ => 255,
            };
            assert_eq!(VALUES[usize::from(byte)], expected);
        }
    }

    #[test]
    fn a_hyphen_never_ends_an_eic_and_zeros_are_none() {
        // A sum that leaves 1 when divided by 37 asks for a hyphen. 38 is such a sum: the weight 2
        // of the fifteenth place times 19, the value of J.
        assert_eq!(check_value(b"00000000000000J"), Some(36));
        assert!(!is_valid_eic(b"00000000000000J-"));
        assert!(fails_by_hyphen_alone(b"00000000000000J-"));
        assert!(!fails_by_hyphen_alone(b"00000000000000K-"));
        for last in 0..=255u8 {
            let mut code = *b"0000000000000000";
            code[15] = last;
            assert!(!is_valid_eic(&code));
        }
    }

    #[test]
    fn the_first_character_that_is_not_allowed_is_told() {
        let valid = b"10XAT-APG------Z";
        assert_eq!(wrong_character(valid), 0);
        for number in 1..=16u8 {
            for byte in 0..=255u8 {
                let mut code = *valid;
                code[usize::from(number) - 1] = byte;
                // One changed character that is allowed moves the sum, unless it is the same again.
                let expected = match VALUES[usize::from(byte)] {
                    NO_VALUE => number,
                    _ if code == *valid => 0,
                    _ => 16,
                };
                assert_eq!(wrong_character(&code), expected);
                code[15] = b'a';
                assert_eq!(wrong_character(&code), if expected == 0 { 16 } else { expected });
            }
        }
        for length in 0..16 {
            assert_eq!(usize::from(wrong_character(&valid[..length])), length + 1);
            assert_eq!(wrong_character(&[&[b'a'], &valid[..length]].concat()), 1);
        }
    }

    #[test]
    fn the_sixteenth_is_told_for_all_that_the_first_fifteen_leave() {
        for code in [
            &b"10XAT-APG------Y"[..],
            b"10XAT-APG-------",
            b"10XAT-APG------z",
            b"00000000000000J-",
            b"10XAT-APG------Z0",
            b"10XAT-APG------Za",
            b"10XAT-APG------",
            b"000000000000000",
        ] {
            assert_eq!(wrong_character(code), 16);
        }
        for last in 0..=255u8 {
            assert_eq!(wrong_character(&[&[b'0'; 15][..], &[last]].concat()), 16);
        }
        assert_eq!(wrong_character(b"0000000000000_00"), 14);
        assert_eq!(wrong_character(b"10XAT-APG-----_Z0"), 15);
    }

    #[test]
    fn ids() {
        assert!(is_well_formed_id(b"A\0\0\0\0\0\0\0\0\0\0\0\0\0\0\0"));
        assert!(is_well_formed_id(b"ABCDEFGHIJKLMN-9"));
        assert!(!is_well_formed_id(&[0; 16]));
        assert!(!is_well_formed_id(b"A\0B\0\0\0\0\0\0\0\0\0\0\0\0\0"));
        assert!(!is_well_formed_id(b"a\0\0\0\0\0\0\0\0\0\0\0\0\0\0\0"));
        assert!(!is_well_formed_id(b"A"));
    }
}
