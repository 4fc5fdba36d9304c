//! Blocks: words in the order of NIST SP 800-38D (GCM), one by one and in runs, and GHASH over them.

use crate::raw;
use crate::refusal::Refusal;
use crate::word::{halves, words, Word};
use std::fmt;

/// A word as GCM keeps it: 16 bytes, of which the leftmost bit of the first is the coefficient of x^0 and the rightmost bit of the last that of
/// x^127. It is written as 32 hexadecimal digits, byte after byte.
///
/// ```
/// use dequmlo::block::Block;
/// use dequmlo::Word;
///
/// let mut one = Block::default();
/// one.0[0] = 0x80;
/// assert_eq!(one.to_word(), Word(1));
/// assert_eq!(Block::from(Word(1)), one);
/// assert_eq!(Block::from(Word(0x87)).to_string(), "e1000000000000000000000000000000");
/// ```
#[derive(Clone, Copy, Debug, Default, PartialEq, Eq, Hash)]
pub struct Block(pub [u8; 16]);

impl Block {
    /// The word of this block.
    #[must_use]
    pub fn to_word(self) -> Word {
        Word::of(unsafe { raw::dequmlo_import_block(self.raw()) })
    }

    fn raw(self) -> raw::Block {
        let number = u128::from_le_bytes(self.0);
        raw::Block {
            first: number as u64,
            second: (number >> 64) as u64,
        }
    }

    fn of(raw: raw::Block) -> Block {
        Block((u128::from(raw.second) << 64 | u128::from(raw.first)).to_le_bytes())
    }
}

impl From<[u8; 16]> for Block {
    fn from(bytes: [u8; 16]) -> Block {
        Block(bytes)
    }
}

impl From<Word> for Block {
    fn from(word: Word) -> Block {
        Block::of(unsafe { raw::dequmlo_export_block(word.raw()) })
    }
}

impl From<Block> for Word {
    fn from(block: Block) -> Word {
        block.to_word()
    }
}

impl fmt::Display for Block {
    fn fmt(&self, f: &mut fmt::Formatter) -> fmt::Result {
        self.0.iter().try_for_each(|byte| write!(f, "{byte:02x}"))
    }
}

/// The words of a run of blocks, 16 bytes each. Refused with 5 where they are not whole blocks.
///
/// Words that a vault holds as blocks are sealed as any others:
///
/// ```
/// use dequmlo::{block, Deposit, Parameters, Statement, Widths, Word};
///
/// // The vault's bytes: 8 blocks.
/// let vault: Vec<u8> = (0..128).collect();
/// let table = block::import(&vault)?;
///
/// // The holder commits them and keeps the table; the office keeps the root.
/// let (parameters, widths) = (Parameters::balanced(), Widths::Present);
/// let deposit = Deposit::commit(None, &parameters.domain, widths, parameters.k, &table)?;
/// let root = deposit.root();
///
/// // The checker draws challenges; the holder folds by them and opens position 5.
/// let challenges = [Word(7), Word(11), Word(13)];
/// let folded = deposit.fold(&challenges)?;
/// let record = folded.query(5)?;
///
/// // The checker checks the record under its own root, and finds block 5 of the vault in it: b, since 5 is odd.
/// let mut roots = folded.roots();
/// roots[0] = root;
/// let statement = Statement::new(None, &parameters.domain, widths, 3, parameters.k, &challenges, &roots)?;
/// statement.check_query(5, &record)?;
/// let shown = &record.levels().unwrap()[0];
/// assert_eq!(block::export(&[shown.b]), vault[80..96]);
/// # Ok::<(), dequmlo::Refusal>(())
/// ```
pub fn import(blocks: &[u8]) -> Result<Vec<Word>, Refusal> {
    let mut out = vec![0u64; 2 * (blocks.len() / 16)];
    Refusal::unless_done(unsafe {
        raw::dequmlo_import_blocks(blocks.as_ptr(), blocks.len(), out.as_mut_ptr(), out.len())
    })?;
    Ok(words(&out))
}

/// The blocks of a run of words, 16 bytes each.
///
/// ```
/// use dequmlo::{block, Word};
/// let bytes = block::export(&[Word(1), Word(3)]);
/// assert_eq!((bytes.len(), bytes[0], bytes[16]), (32, 0x80, 0xc0));
/// assert_eq!(block::import(&bytes)?, [Word(1), Word(3)]);
/// assert_eq!(block::import(&bytes[1..]).unwrap_err().number, 5);
/// # Ok::<(), dequmlo::Refusal>(())
/// ```
#[must_use]
pub fn export(words: &[Word]) -> Vec<u8> {
    let words = halves(words);
    let mut out = vec![0u8; 8 * words.len()];
    let number = unsafe {
        raw::dequmlo_export_blocks(words.as_ptr(), words.len(), out.as_mut_ptr(), out.len())
    };
    assert_eq!(number, 0, "whole words, and 16 bytes for each");
    out
}

/// GHASH of a run of blocks, 16 bytes each, by a hash key: from zero on, the next block is added and the sum is multiplied by the key. Refused
/// with 5 where they are not whole blocks. What GCM hashes ends with a block of lengths, which the caller writes. Its time may show something of
/// the key and the blocks.
///
/// ```
/// use dequmlo::block::{ghash, Block};
///
/// // Test case 2 of NIST's examples of GCM: one block of ciphertext, and the lengths.
/// let key = Block(0x66e94bd4ef8a2c3b884cfa59ca342b2e_u128.to_be_bytes());
/// let mut blocks = 0x0388dace60b6a392f328c2b971b2fe78_u128.to_be_bytes().to_vec();
/// blocks.extend(128_u128.to_be_bytes());
/// assert_eq!(ghash(key, &blocks)?.to_string(), "f38cbb1ad69223dcc3457ae5b6b0f885");
/// assert_eq!(ghash(key, &[])?, Block::default());
/// assert_eq!(ghash(key, &blocks[1..]).unwrap_err().number, 5);
/// # Ok::<(), dequmlo::Refusal>(())
/// ```
pub fn ghash(key: Block, blocks: &[u8]) -> Result<Block, Refusal> {
    let answer = unsafe { raw::dequmlo_ghash(key.raw(), blocks.as_ptr(), blocks.len()) };
    Refusal::unless_done(answer.number)?;
    Ok(Block::of(answer.block))
}
