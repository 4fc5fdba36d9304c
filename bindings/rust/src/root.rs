//! Digests that stand for a whole level.

use std::fmt;
use std::str::FromStr;

/// The root of a tree: the digest by which a deposit is known. It is written as 64 hexadecimal digits.
///
/// ```
/// use dequmlo::Root;
/// let root: Root = "af1349b9f5f9a1a6a0404dea36dcc9499bcb25c9adc112b7cc9a93cae41f3262".parse().unwrap();
/// assert_eq!(root, Root(dequmlo::digest(b"").unwrap()));
/// assert!("af13".parse::<Root>().is_err());
/// ```
#[derive(Clone, Copy, Debug, PartialEq, Eq, Hash)]
pub struct Root(pub [u8; 32]);

/// The text is not 64 hexadecimal digits.
#[derive(Clone, Copy, Debug, PartialEq, Eq)]
#[non_exhaustive]
pub struct ParseRootError;

impl fmt::Display for ParseRootError {
    fn fmt(&self, f: &mut fmt::Formatter) -> fmt::Result {
        write!(f, "a root is 64 hexadecimal digits")
    }
}

impl std::error::Error for ParseRootError {}

impl fmt::Display for Root {
    fn fmt(&self, f: &mut fmt::Formatter) -> fmt::Result {
        self.0.iter().try_for_each(|byte| write!(f, "{byte:02x}"))
    }
}

impl FromStr for Root {
    type Err = ParseRootError;
    fn from_str(text: &str) -> Result<Root, Self::Err> {
        if text.len() != 64 || !text.bytes().all(|b| b.is_ascii_hexdigit()) {
            return Err(ParseRootError);
        }
        let mut root = [0; 32];
        for (byte, digits) in root.iter_mut().zip(text.as_bytes().chunks_exact(2)) {
            let digits = std::str::from_utf8(digits).expect("hexadecimal digits are ASCII");
            *byte = u8::from_str_radix(digits, 16).expect("two hexadecimal digits are a byte");
        }
        Ok(Root(root))
    }
}
