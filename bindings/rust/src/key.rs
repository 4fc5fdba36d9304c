//! The key of a deposit's trees.

use crate::raw;
use crate::refusal::Refusal;
use std::fmt;
use std::ptr;
use std::sync::atomic::{compiler_fence, Ordering};

/// A key of trees: 32 bytes that nobody else knows. Under a key every digest of a tree is made in BLAKE3's keyed mode, so that nobody without it makes a
/// root or checks a record. It hides nothing that a record shows, and the gammas and the codeword are the same under every key and under none.
///
/// Whatever depends on the key takes it as an `Option<&Key>`, first of what names the deposit: there is no default, and `None` says in so many words that there
/// is no key. What lasts longer than a call is told once and keeps a copy, since a deposit is of one key from its first tree to its last:
///
/// | is told | keeps it for |
/// |---|---|
/// | [`crate::Deposit::commit`] and its like | its folds, and the [`crate::HalfFolded`] that comes of it |
/// | [`crate::HalfFolded::take_up`] | the folds that are left; [`crate::Kept`], which is stored, does not have it |
/// | [`crate::Statement::new`] | its checks and comparisons |
/// | the functions of [`crate::tree`] | nothing |
///
/// [`crate::Folded`] has none: records are built without it.
///
/// A key is moved and not copied, is not printed by `Debug`, is compared in constant time and is overwritten when it is dropped. What it was made from is the caller's to
/// overwrite; and a call passes it by value, so that copies of it stay on the stack until something else is written there: the library does not overwrite
/// its stack.
///
/// ```
/// use dequmlo::{Deposit, Key, Widths, Word};
/// let table = [Word(5), Word(9)];
/// let root = |key: Option<&Key>| Deposit::commit(key, b"example", Widths::Present, 1, &table).map(|deposit| deposit.root());
/// let key = Key::derive("example.org 2026-11-17 deposits of the north branch", b"what the two branches share")?;
/// assert_ne!(root(Some(&key))?, root(None)?);
/// assert_ne!(root(Some(&key))?, root(Some(&Key::new([7; 32])))?);
/// assert_eq!(format!("{key:?}"), "Key(not shown)");
/// # Ok::<(), dequmlo::Refusal>(())
/// ```
///
/// ```compile_fail,E0382
/// let key = dequmlo::Key::new([7; 32]);
/// let moved = key;
/// assert_eq!(key.bytes(), moved.bytes());
/// ```
#[derive(Clone)]
pub struct Key(Box<Secret>);

/// The bytes, in one place in memory however the key is moved, and overwritten when they are dropped.
#[derive(Clone)]
struct Secret([u8; 32]);

impl Drop for Secret {
    fn drop(&mut self) {
        overwrite(&mut self.0);
    }
}

/// Zeros in place of these bytes, by writes that the compiler may not leave out though nothing reads them.
fn overwrite(bytes: &mut [u8]) {
    for byte in bytes {
        unsafe { ptr::write_volatile(byte, 0) };
    }
    compiler_fence(Ordering::SeqCst);
}

impl Key {
    /// The key of these bytes. They must be as hard to guess as 32 random ones.
    #[must_use]
    pub fn new(mut bytes: [u8; 32]) -> Key {
        let mut secret = Box::new(Secret([0; 32]));
        secret.0 = bytes;
        overwrite(&mut bytes);
        Key(secret)
    }

    /// The same of a slice; refused with 5 where it has another length.
    ///
    /// ```
    /// use dequmlo::Key;
    /// assert!(Key::from_bytes(&[7; 32])? == Key::new([7; 32]));
    /// assert_eq!(Key::from_bytes(&[7; 31]).unwrap_err().number, 5);
    /// # Ok::<(), dequmlo::Refusal>(())
    /// ```
    pub fn from_bytes(bytes: &[u8]) -> Result<Key, Refusal> {
        bytes.try_into().map(Key::new).map_err(|_| Refusal::of(5))
    }

    /// The key that BLAKE3's key derivation mode gives for a context and key material. The context says which program derives it and what for: a constant text
    /// that no other use has. The material is the secret. Refused with 13 where one of them has more than 2^24 bytes.
    pub fn derive(context: &str, material: &[u8]) -> Result<Key, Refusal> {
        let mut answer = unsafe {
            raw::dequmlo_derive_key(
                context.as_ptr(),
                context.len(),
                material.as_ptr(),
                material.len(),
            )
        };
        Refusal::unless_done(answer.number)?;
        let key = Key::from_bytes(&answer.bytes);
        overwrite(&mut answer.bytes);
        key
    }

    /// The bytes, for a program that stores the key; it is for that program then to keep them from others.
    #[must_use]
    pub fn bytes(&self) -> &[u8; 32] {
        &self.0 .0
    }
}

/// Neither the bytes nor anything made from them.
impl fmt::Debug for Key {
    fn fmt(&self, f: &mut fmt::Formatter) -> fmt::Result {
        f.write_str("Key(not shown)")
    }
}

/// In constant time: every byte is looked at, wherever the first difference is.
impl PartialEq for Key {
    fn eq(&self, other: &Key) -> bool {
        let mut differing = 0;
        for (a, b) in self.bytes().iter().zip(other.bytes()) {
            // Read so that the compiler cannot know when nothing can change any more.
            differing |= unsafe { ptr::read_volatile(a) ^ ptr::read_volatile(b) };
        }
        differing == 0
    }
}

impl Eq for Key {}

/// A key or none, as the archive takes it.
pub(crate) fn raw(key: Option<&Key>) -> raw::Key {
    raw::Key {
        keyed: u32::from(key.is_some()),
        bytes: key.map_or([0; 32], |key| *key.bytes()),
    }
}

/// The BLAKE3 digest of at most 2^24 bytes in keyed mode; refused with 13 where there are more.
///
/// ```
/// let key = dequmlo::Key::new(*b"whats the Elvish word for friend");
/// assert_eq!(dequmlo::keyed_digest(&key, b"")?[..4], [0x92, 0xb2, 0xb7, 0x56]);
/// # Ok::<(), dequmlo::Refusal>(())
/// ```
pub fn keyed_digest(key: &Key, input: &[u8]) -> Result<[u8; 32], Refusal> {
    let key = key.bytes();
    let answer =
        unsafe { raw::dequmlo_keyed_digest(key.as_ptr(), key.len(), input.as_ptr(), input.len()) };
    Refusal::unless_done(answer.number)?;
    Ok(answer.bytes)
}

#[cfg(test)]
mod tests {
    use super::Secret;
    use std::mem::MaybeUninit;
    use std::ptr;

    /// The place outlives the key, so that what is left there can be read.
    #[test]
    fn nothing_is_left_where_a_key_was() {
        let mut place = MaybeUninit::new(Secret([7; 32]));
        let at = place.as_mut_ptr();
        let left: [u8; 32] = unsafe {
            ptr::drop_in_place(at);
            ptr::read_volatile(at.cast())
        };
        assert_eq!(left, [0; 32]);
    }
}
