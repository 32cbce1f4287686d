//! Holds the second program's AES, CBC and CMAC to the OpenSSL command line, on random inputs from a seed.
//!
//! One process of OpenSSL takes many blocks under one key, so that the whole ends in a few seconds.

use crate::aes::{Aes, Block};
use crate::modes;
use crate::process::written_by;
use crate::random::Random;
use crate::text::hex;

const KEYS: usize = 40;
const BLOCKS: usize = 500;

/// What OpenSSL makes of an input must be ours, or it is told.
fn hold(what: &str, key: &Block, ours: &[u8], words: &[&str], input: &[u8]) -> Result<(), String> {
    let theirs = written_by(&[&["openssl"], words].concat(), input)?;
    if ours == theirs {
        Ok(())
    } else {
        Err(format!("DIFFERENCE: {what} under {}", hex(key)))
    }
}

fn each_block(text: &[u8], step: impl Fn(&Block) -> Block) -> Vec<u8> {
    text.chunks(16).flat_map(|chunk| step(chunk.try_into().unwrap())).collect()
}

fn hold_ecb(key: &Block, text: &[u8]) -> Result<(), String> {
    let aes = Aes::new(key);
    for (way, ours) in [("-e", each_block(text, |b| aes.encrypt(b))), ("-d", each_block(text, |b| aes.decrypt(b)))] {
        hold(&format!("ECB {way}"), key, &ours, &["enc", way, "-aes-128-ecb", "-nopad", "-K", &hex(key)], text)?;
    }
    Ok(())
}

fn hold_cbc(key: &Block, iv: &Block, text: &[u8]) -> Result<(), String> {
    for (way, ours) in [("-e", modes::cbc_encrypt(key, iv, text)), ("-d", modes::cbc_decrypt(key, iv, text))] {
        let words = ["enc", way, "-aes-128-cbc", "-nopad", "-K", &hex(key), "-iv", &hex(iv)];
        hold(&format!("CBC {way}"), key, &ours, &words, text)?;
    }
    Ok(())
}

/// Ours takes whole blocks and a length in bits; the bytes after the text are there to be ignored.
fn hold_cmac(random: &mut Random, length: usize) -> Result<(), String> {
    let key = random.block();
    let bits = 8 * length as u64;
    let message = random.bytes(16 * modes::blocks_of_bits(bits) as usize);
    let words = ["mac", "-cipher", "AES-128-CBC", "-macopt", &format!("hexkey:{}", hex(&key)), "-binary", "-in", "-", "CMAC"];
    hold(&format!("CMAC of {length} bytes"), &key, &modes::cmac(&key, bits, &message), &words, &message[..length])
}

/// Says what was compared, or where there was a difference.
pub fn compare(seed: u64) -> Result<String, String> {
    let mut random = Random::new(seed);
    for _ in 0..KEYS {
        let (key, iv, text) = (random.block(), random.block(), random.bytes(16 * BLOCKS));
        hold_ecb(&key, &text)?;
        hold_cbc(&key, &iv, &text)?;
    }
    let lengths: Vec<usize> = (0..=50).chain([63, 64, 65, 127, 128, 129, 1000, 4095, 4096, 65535, 65536, 65552]).collect();
    for length in &lengths {
        hold_cmac(&mut random, *length)?;
    }
    Ok(format!(
        "seed {seed}: ECB and CBC agree on {} blocks each, both ways, under {KEYS} keys; CMAC agrees on {} texts",
        KEYS * BLOCKS,
        lengths.len()
    ))
}
