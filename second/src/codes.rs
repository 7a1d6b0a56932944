//! The one table from an answer's number to its reason code.

/// Code A53 stands here as 53 and so on; 0 where the paper gives none. Number 0, an acceptance,
/// has A01. The code A02, which goes beside every refusal, belongs to the reply and not here.
pub const REASON_CODES: [u8; 33] = [
    1, // accepted
    0, 0, 53, 78, 4, 51, 55, 22, 23, 62, 46, 42, 49, 57, 50, 52, 0, // rules 1 to 17
    59, 59, // rules 18 and 19
    0, 0, 0, 0, 0, 0, 0, // 20 to 26
    0, 0, 0, // 27 to 29 are not used
    42, 46, 0, // quantity text
];

/// The code of a number; numbers beyond the table have none.
pub fn reason_code(number: u8) -> u8 {
    REASON_CODES.get(usize::from(number)).copied().unwrap_or(0)
}
