//! The algorithms on lent buffers: the lengths that they take, which the device's commands share, and the routines themselves.

use crate::aes::{Aes, Block};
use crate::answer::{demand, exactly, Answer, Refusal};
use crate::modes::{self, blocks_of_bits};

pub const MAX_BLOCKS: usize = 4096;
pub const MAX_BITS: u64 = 524_288;

#[derive(Clone, Copy)]
pub enum Way {
    Encrypt,
    Decrypt,
}

pub fn one_block(way: Way, key: &Block, block: &Block) -> Block {
    match way {
        Way::Encrypt => Aes::new(key).encrypt(block),
        Way::Decrypt => Aes::new(key).decrypt(block),
    }
}

pub fn many_blocks(way: Way, key: &Block, iv: &Block, input: &[u8]) -> Vec<u8> {
    match way {
        Way::Encrypt => modes::cbc_encrypt(key, iv, input),
        Way::Decrypt => modes::cbc_decrypt(key, iv, input),
    }
}

/// CBC: an IV of 16 bytes, 1 to 4,096 whole blocks, an output as long as the input.
pub fn check_cbc(iv: &[u8], input: &[u8], output: &[u8]) -> Answer<Block> {
    let whole = input.len() % 16 == 0;
    demand(whole && (1..=MAX_BLOCKS).contains(&(input.len() / 16)), Refusal::GeneralError)?;
    demand(output.len() == input.len(), Refusal::GeneralError)?;
    exactly(iv)
}

/// MAC: 0 to 524,288 bits, a message of exactly the blocks that these need, a MAC of 16 bytes.
pub fn check_mac(bits: u64, message: &[u8], mac: &[u8]) -> Answer<()> {
    demand(bits <= MAX_BITS, Refusal::GeneralError)?;
    demand(message.len() as u64 == 16 * blocks_of_bits(bits), Refusal::GeneralError)?;
    demand(mac.len() == 16, Refusal::GeneralError)
}

pub fn aes(way: Way, key: &[u8], block: &[u8], output: &mut [u8]) -> Answer<()> {
    let (key, block) = (exactly(key)?, exactly(block)?);
    demand(output.len() == 16, Refusal::GeneralError)?;
    output.copy_from_slice(&one_block(way, &key, &block));
    Ok(())
}

pub fn cbc(way: Way, key: &[u8], iv: &[u8], input: &[u8], output: &mut [u8]) -> Answer<()> {
    let key = exactly(key)?;
    let iv = check_cbc(iv, input, output)?;
    output.copy_from_slice(&many_blocks(way, &key, &iv, input));
    Ok(())
}

pub fn cmac(key: &[u8], bits: u64, message: &[u8], output: &mut [u8]) -> Answer<()> {
    let key = exactly(key)?;
    check_mac(bits, message, output)?;
    output.copy_from_slice(&modes::cmac(&key, bits, message));
    Ok(())
}

pub fn kdf(key: &[u8], constant: &[u8], output: &mut [u8]) -> Answer<()> {
    let (key, constant) = (exactly(key)?, exactly(constant)?);
    demand(output.len() == 16, Refusal::GeneralError)?;
    output.copy_from_slice(&modes::kdf(&key, &constant));
    Ok(())
}

/// The compression carried on from an earlier output, over whole blocks or none.
pub fn compression(earlier: &[u8], text: &[u8], output: &mut [u8]) -> Answer<()> {
    let earlier = exactly(earlier)?;
    demand(text.len() % 16 == 0 && output.len() == 16, Refusal::GeneralError)?;
    output.copy_from_slice(&modes::compress_on(&earlier, text));
    Ok(())
}
