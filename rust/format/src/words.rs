//! Marks, counts and numbers as words.

use std::fmt::Display;

/// A mark as text, whatever its bytes are: a printable character of ASCII as
/// itself, but for blank, `\` and `#`; another byte as `\x` and two hexadecimal
/// digits.
///
/// ```
/// use barfigol_format::words::spelled;
///
/// assert_eq!(spelled(*b"ND"), "ND");
/// assert_eq!(spelled([0, 88]), "\\x00X");
/// assert_eq!(spelled(*b" #"), "\\x20\\x23");
/// ```
pub fn spelled(mark: [u8; 2]) -> String {
    mark.iter()
        .map(|&byte| match byte {
            b'\\' | b'#' => format!("\\x{byte:02x}"),
            _ if byte.is_ascii_graphic() => char::from(byte).to_string(),
            _ => format!("\\x{byte:02x}"),
        })
        .collect()
}

/// A count and what is counted.
///
/// ```
/// use barfigol_format::words::numbered;
///
/// assert_eq!(numbered(1, "step"), "1 step");
/// assert_eq!(numbered(2, "step"), "2 steps");
/// ```
pub fn numbered(count: impl Display, what: &str) -> String {
    let count = count.to_string();
    let ending = if count == "1" { "" } else { "s" };
    format!("{count} {what}{ending}")
}

/// A number with commas between its thousands.
///
/// ```
/// use barfigol_format::words::grouped;
///
/// assert_eq!(grouped(999), "999");
/// assert_eq!(grouped(2_000_000_001), "2,000,000,001");
/// ```
pub fn grouped(number: u64) -> String {
    if number < 1_000 {
        return number.to_string();
    }
    format!("{},{:03}", grouped(number / 1_000), number % 1_000)
}
