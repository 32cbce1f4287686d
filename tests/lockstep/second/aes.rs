//! AES-128 by FIPS 197, from the arithmetic of its field.
//!
//! The only numbers written here are those by which FIPS 197 defines the cipher: the field's polynomial, the affine map's matrix
//! row and constant, and the polynomial of MixColumns. Every table is computed from them when it is first asked for.

pub type Block = [u8; 16];

const ROUNDS: usize = 10;

/// FIPS 197, 4.2: the product in GF(2^8), modulo x^8 + x^4 + x^3 + x + 1.
pub fn times(a: u8, b: u8) -> u8 {
    let mut product = 0;
    let mut shifted = a;
    for bit in 0..8 {
        if b >> bit & 1 == 1 {
            product ^= shifted;
        }
        shifted = times_x(shifted);
    }
    product
}

/// FIPS 197, 4.2.1: multiplication by x.
fn times_x(a: u8) -> u8 {
    let overflow = a >> 7 == 1;
    a << 1 ^ if overflow { 0b0001_1011 } else { 0 }
}

/// The inverse in the field, with 0 for 0: every element but 0 has a^255 = 1, so a^254 undoes a.
pub fn inverse(a: u8) -> u8 {
    (0..254).fold(1, |power, _| times(power, a))
}

/// FIPS 197, 5.1.1, equation (5.2): bit i of the result is b(i) + b(i+4) + b(i+5) + b(i+6) + b(i+7) + c(i), with c = 63.
fn affine(b: u8) -> u8 {
    let bit = |i: u32| b >> (i % 8) & 1;
    (0..8).fold(0x63, |sum, i| sum ^ (bit(i) ^ bit(i + 4) ^ bit(i + 5) ^ bit(i + 6) ^ bit(i + 7)) << i)
}

pub fn sub_byte(a: u8) -> u8 {
    affine(inverse(a))
}

/// One row of the matrix of MixColumns and of its inverse (5.1.3 and 5.3.3); the other rows are this one turned.
const MIX: [u8; 4] = [2, 3, 1, 1];
const UNMIX: [u8; 4] = [14, 11, 13, 9];

type Table = [u8; 256];

struct Tables {
    sub: Table,
    unsub: Table,
    mix: [Table; 4],
    unmix: [Table; 4],
}

fn tables() -> &'static Tables {
    thread_local!(static TABLES: &'static Tables = Box::leak(Box::new(compute_tables())));
    TABLES.with(|tables| *tables)
}

fn compute_tables() -> Tables {
    let sub = table(sub_byte);
    let mut unsub = [0; 256];
    for a in 0..=255u8 {
        unsub[sub[a as usize] as usize] = a;
    }
    Tables { sub, unsub, mix: MIX.map(multiples), unmix: UNMIX.map(multiples) }
}

fn table(rule: impl Fn(u8) -> u8) -> Table {
    std::array::from_fn(|a| rule(a as u8))
}

fn multiples(factor: u8) -> Table {
    table(|a| times(factor, a))
}

/// A key with its schedule.
pub struct Aes {
    pub round_keys: [Block; ROUNDS + 1],
    tables: &'static Tables,
}

impl Aes {
    /// FIPS 197, 5.2. A round key is four words; the state holds them as its four columns, one after the other.
    pub fn new(key: &Block) -> Aes {
        let tables = tables();
        let mut round_keys = [*key; ROUNDS + 1];
        let mut round_constant = 1;
        for round in 1..=ROUNDS {
            round_keys[round] = next_round_key(&round_keys[round - 1], round_constant, &tables.sub);
            round_constant = times_x(round_constant);
        }
        Aes { round_keys, tables }
    }

    /// FIPS 197, 5.1: Cipher.
    pub fn encrypt(&self, input: &Block) -> Block {
        let t = self.tables;
        let mut state = xor(input, &self.round_keys[0]);
        for round_key in &self.round_keys[1..ROUNDS] {
            state = xor(&mix_columns(&shift_rows(&substitute(&state, &t.sub)), &t.mix), round_key);
        }
        xor(&shift_rows(&substitute(&state, &t.sub)), &self.round_keys[ROUNDS])
    }

    /// FIPS 197, 5.3: InvCipher, by the inverse steps in the inverse order.
    pub fn decrypt(&self, input: &Block) -> Block {
        let t = self.tables;
        let mut state = xor(input, &self.round_keys[ROUNDS]);
        for round_key in self.round_keys[1..ROUNDS].iter().rev() {
            state = mix_columns(&xor(&substitute(&unshift_rows(&state), &t.unsub), round_key), &t.unmix);
        }
        xor(&substitute(&unshift_rows(&state), &t.unsub), &self.round_keys[0])
    }
}

/// FIPS 197, 5.2: the first word is the word four back, plus SubWord of RotWord of the word before, plus the round constant;
/// each later one is the word four back plus the word before.
fn next_round_key(last: &Block, round_constant: u8, sub: &Table) -> Block {
    let mut next = *last;
    for i in 0..4 {
        next[i] ^= sub[last[12 + (i + 1) % 4] as usize];
    }
    next[0] ^= round_constant;
    for i in 4..16 {
        next[i] ^= next[i - 4];
    }
    next
}

pub fn xor(a: &Block, b: &Block) -> Block {
    std::array::from_fn(|i| a[i] ^ b[i])
}

fn substitute(state: &Block, table: &Table) -> Block {
    std::array::from_fn(|i| table[state[i] as usize])
}

/// FIPS 197, 5.1.2: row r turns left by r. Byte i of a block stands in row i mod 4 and column i / 4.
fn shift_rows(state: &Block) -> Block {
    std::array::from_fn(|i| state[(i + 4 * (i % 4)) % 16])
}

fn unshift_rows(state: &Block) -> Block {
    std::array::from_fn(|i| state[(i + 16 - 4 * (i % 4)) % 16])
}

/// FIPS 197, 5.1.3 and 5.3.3: each column times the matrix whose row r is the given one turned right by r.
fn mix_columns(state: &Block, by: &[Table; 4]) -> Block {
    std::array::from_fn(|i| {
        let (row, column) = (i % 4, i - i % 4);
        let product = |k: usize| by[k][state[column + (row + k) % 4] as usize];
        product(0) ^ product(1) ^ product(2) ^ product(3)
    })
}
