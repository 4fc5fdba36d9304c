//! The digest of a part of a project, which its manifest keeps beside the part's root (SPECIFICATION 16.2): BLAKE3's, by the proved library. Under a key it is that
//! of keyed mode, under a key of its own, so that nobody without the key tries a guess at a file on it.

use dequmlo::{Key, Root};

/// The context under which the key of digests is derived, and nothing else.
pub const DIGEST_CONTEXT: &str = "dequmlo 2026-11-18 part digest";

/// What digests parts: with the key of digests, where the project is under a key.
pub struct Digester(Option<Key>);

impl Digester {
    /// That of a project under this key, or under none.
    pub fn of(key: Option<&Key>) -> Digester {
        let derived = |key: &Key| Key::derive(DIGEST_CONTEXT, key.bytes()).expect("both are short");
        Digester(key.map(derived))
    }

    /// The digest of a part, which has no more bytes than the library takes.
    pub fn digest(&self, part: &[u8]) -> Root {
        let digest = match &self.0 {
            None => dequmlo::digest(part),
            Some(key) => dequmlo::keyed_digest(key, part),
        };
        Root(digest.expect("a part has fewer than 2^24 bytes"))
    }
}
