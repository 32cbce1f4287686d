//! CBC (SP 800-38A), CMAC (SP 800-38B), and SHE's compression and key derivation (001, 4.3.3).

use crate::aes::{xor, Aes, Block};

/// SP 800-38A, 6.2, over whole blocks.
pub fn cbc_encrypt(key: &Block, iv: &Block, plain: &[u8]) -> Vec<u8> {
    let aes = Aes::new(key);
    let mut chained = *iv;
    let mut cipher = Vec::with_capacity(plain.len());
    for block in blocks(plain) {
        chained = aes.encrypt(&xor(&chained, &block));
        cipher.extend(chained);
    }
    cipher
}

pub fn cbc_decrypt(key: &Block, iv: &Block, cipher: &[u8]) -> Vec<u8> {
    let aes = Aes::new(key);
    let mut chained = *iv;
    let mut plain = Vec::with_capacity(cipher.len());
    for block in blocks(cipher) {
        plain.extend(xor(&chained, &aes.decrypt(&block)));
        chained = block;
    }
    plain
}

fn blocks(text: &[u8]) -> impl Iterator<Item = Block> + '_ {
    text.chunks_exact(16).map(|chunk| chunk.try_into().unwrap())
}

/// How many blocks a message of this many bits has: that of its last bit and those before it. SP 800-38B, 6.2, step 2: the empty
/// message has one.
pub fn blocks_of_bits(bits: u64) -> u64 {
    bits.saturating_sub(1) / 128 + 1
}

/// SP 800-38B, 6.2. The message lent has `blocks_of_bits(bits)` whole blocks; what it holds after `bits` doesn't count.
pub fn cmac(key: &Block, bits: u64, message: &[u8]) -> Block {
    let aes = Aes::new(key);
    let (before, last) = message.split_at(message.len() - 16);
    let chained = blocks(before).fold([0; 16], |c, block| aes.encrypt(&xor(&c, &block)));
    let last = last_block(&aes, bits - 8 * before.len() as u64, last.try_into().unwrap());
    aes.encrypt(&xor(&chained, &last))
}

/// SP 800-38B, 6.2, step 4: a complete last block is masked with K1, another is ended by a 1 and zeros and masked with K2.
fn last_block(aes: &Aes, bits: u64, block: Block) -> Block {
    let [subkey_1, subkey_2] = subkeys(aes);
    if bits == 128 {
        return xor(&block, &subkey_1);
    }
    let kept = !(u128::MAX >> bits);
    let one = 1 << 127 >> bits;
    xor(&(u128::from_be_bytes(block) & kept | one).to_be_bytes(), &subkey_2)
}

/// SP 800-38B, 6.1.
pub fn subkeys(aes: &Aes) -> [Block; 2] {
    let subkey_1 = double(aes.encrypt(&[0; 16]));
    [subkey_1, double(subkey_1)]
}

/// A shift to the left, and R(128) = 0...010000111 added if a 1 fell out.
fn double(block: Block) -> Block {
    let number = u128::from_be_bytes(block);
    let carry = if number >> 127 == 1 { 0b1000_0111 } else { 0 };
    (number << 1 ^ carry).to_be_bytes()
}

/// The CMAC of whole bytes, which need not fill their last block.
pub fn cmac_of_bytes(key: &Block, message: &[u8]) -> Block {
    let bits = 8 * message.len() as u64;
    let mut blocks = message.to_vec();
    blocks.resize(16 * blocks_of_bits(bits) as usize, 0);
    cmac(key, bits, &blocks)
}

/// 4.3.3: out(i) = AES under out(i-1) of x(i), xor x(i), xor out(i-1), carried on from an earlier output.
pub fn compress_on(earlier: &Block, text: &[u8]) -> Block {
    blocks(text).fold(*earlier, |out, x| xor(&xor(&Aes::new(&out).encrypt(&x), &x), &out))
}

/// 4.3.3: out(0) = 0.
fn compress(chunks: &[Block]) -> Block {
    compress_on(&[0; 16], &chunks.concat())
}

/// 4.3.3.1: the constants of 4.12 are padded already, so that nothing is left but to compress key and constant.
pub fn kdf(key: &Block, constant: &Block) -> Block {
    compress(&[*key, *constant])
}

/// 4.3.3.1: 01, a number, "SHE", 00; and then the padding of 4.3.3 for 128 + 48 = B0 bits: a 1, zeros, and the length in 40 bits.
const fn derivation_constant(number: u8) -> Block {
    [0x01, number, b'S', b'H', b'E', 0x00, 0x80, 0, 0, 0, 0, 0, 0, 0, 0, 0xB0]
}

pub const KEY_UPDATE_ENC_C: Block = derivation_constant(1);
pub const KEY_UPDATE_MAC_C: Block = derivation_constant(2);
pub const DEBUG_KEY_C: Block = derivation_constant(3);
pub const PRNG_KEY_C: Block = derivation_constant(4);
pub const PRNG_SEED_KEY_C: Block = derivation_constant(5);

/// 4.5.3: the padding of 4.3.3 for 256 bits, as a block of its own.
const PRNG_EXTENSION_C: Block = [0x80, 0, 0, 0, 0, 0, 0, 0, 0, 0, 0, 0, 0, 0, 0x01, 0x00];

/// 4.5.3, of the seed and of the state alike.
pub fn extend(seed: &Block, entropy: &Block) -> Block {
    compress(&[*seed, *entropy, PRNG_EXTENSION_C])
}
