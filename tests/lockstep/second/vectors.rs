//! The lines of the proved program `vectors`, answered by the second program. What a line says, and what is written for it, is
//! explained at the head of that program.

use crate::aes::{Aes, Block};
use crate::algorithms::{self, one_block, Way, MAX_BLOCKS};
use crate::answer::{exactly, number, Answer};
use crate::device::Role;
use crate::messages::*;
use crate::modes::*;
use crate::programs::Account;
use crate::text::hex;

/// By their numbers, which are counted from 1.
const CONSTANTS: [Block; 5] = [KEY_UPDATE_ENC_C, KEY_UPDATE_MAC_C, DEBUG_KEY_C, PRNG_KEY_C, PRNG_SEED_KEY_C];

/// Of each operand its digits; what else stands there is passed over.
struct Operands(Vec<Vec<u8>>);

impl Operands {
    fn of(text: &str) -> Operands {
        Operands(text.split('/').map(digits).collect())
    }

    fn digits(&self, n: usize) -> &[u8] {
        self.0.get(n).map_or(&[], |digits| digits)
    }

    /// The bytes of a lent buffer, of any length. A digit too many is left out.
    fn bytes(&self, n: usize) -> Vec<u8> {
        self.digits(n).chunks_exact(2).map(|pair| pair[0] << 4 | pair[1]).collect()
    }

    fn block(&self, n: usize) -> Option<Block> {
        if self.digits(n).len() == 32 {
            exactly(&self.bytes(n)).ok()
        } else {
            None
        }
    }

    /// A number has at most 8 bytes.
    fn number(&self, n: usize) -> u64 {
        self.bytes(n).iter().take(8).fold(0, |value, &byte| value << 8 | u64::from(byte))
    }

    /// A slot or flags: a number that is too large for its parameter is taken as the largest there is.
    fn word(&self, n: usize) -> u32 {
        self.number(n).try_into().unwrap_or(u32::MAX)
    }

    /// A text that is so many times a block. One block more than any routine takes stands for all that are more.
    fn repeated(&self, block: usize, count: usize) -> Option<Vec<u8>> {
        let count = self.number(count).min(MAX_BLOCKS as u64 + 1);
        Some(self.block(block)?.repeat(count as usize))
    }
}

/// Capital letters are no digits.
fn digits(text: &str) -> Vec<u8> {
    text.chars().filter(|c| !c.is_ascii_uppercase()).filter_map(|c| c.to_digit(16)).map(|digit| digit as u8).collect()
}

/// Bytes as they are written, 16 a line.
fn rows(bytes: &[u8]) -> String {
    bytes.chunks(16).map(|row| hex(row) + "\n").collect()
}

fn without_answer(text: String) -> Account {
    Account { text, answer: None }
}

fn bytes(bytes: &[u8]) -> Account {
    without_answer(rows(bytes))
}

/// An answer, and the buffers as the routine leaves them.
fn outcome(answer: Answer<()>, buffers: &[&[u8]]) -> Account {
    let answer = number(&answer);
    let left: String = buffers.iter().map(|buffer| rows(buffer)).collect();
    Account { text: rows(&[answer]) + &left, answer: Some(answer) }
}

/// Of a routine that has one buffer for its result.
fn lent(mut output: Vec<u8>, routine: impl FnOnce(&mut [u8]) -> Answer<()>) -> Account {
    let answer = routine(&mut output);
    outcome(answer, &[&output])
}

pub fn account(line: &str) -> Account {
    let mut characters = line.chars();
    match characters.next() {
        None | Some('#') => without_answer(format!("{line}\n")),
        Some(routine) => {
            let vector = run(routine, &Operands::of(characters.as_str()));
            vector.unwrap_or_else(|| without_answer("no such vector\n".to_string()))
        }
    }
}

fn run(routine: char, o: &Operands) -> Option<Account> {
    Some(match routine {
        'K' => bytes(&Aes::new(&o.block(0)?).round_keys.concat()),
        'S' => bytes(&subkeys(&Aes::new(&o.block(0)?)).concat()),
        'N' => bytes(&kdf(&o.block(0)?, CONSTANTS.get((o.number(1) as usize).checked_sub(1)?)?)),
        'E' => bytes(&one_block(Way::Encrypt, &o.block(0)?, &o.block(1)?)),
        'D' => bytes(&one_block(Way::Decrypt, &o.block(0)?, &o.block(1)?)),
        'X' => bytes(&extend(&o.block(0)?, &o.block(1)?)),
        'e' => lent(o.bytes(2), |out| algorithms::aes(Way::Encrypt, &o.bytes(0), &o.bytes(1), out)),
        'd' => lent(o.bytes(2), |out| algorithms::aes(Way::Decrypt, &o.bytes(0), &o.bytes(1), out)),
        'H' => lent(o.bytes(2), |out| algorithms::compression(&o.bytes(0), &o.bytes(1), out)),
        'F' => lent(o.bytes(2), |out| algorithms::kdf(&o.bytes(0), &o.bytes(1), out)),
        'C' => lent(o.bytes(3), |out| algorithms::cbc(Way::Encrypt, &o.bytes(0), &o.bytes(1), &o.bytes(2), out)),
        'c' => lent(o.bytes(3), |out| algorithms::cbc(Way::Decrypt, &o.bytes(0), &o.bytes(1), &o.bytes(2), out)),
        'L' => long_cbc(o, &o.repeated(2, 3)?),
        'M' => lent(o.bytes(3), |out| algorithms::cmac(&o.bytes(0), o.number(1), &o.bytes(2), out)),
        'R' => {
            let message = o.repeated(2, 3)?;
            lent(o.bytes(4), |out| algorithms::cmac(&o.bytes(0), o.number(1), &message, out))
        }
        'W' => key_message(write_key, o),
        'w' => key_message(write_key_short, o),
        'f' => key_message(fleet_sheet, o),
        'A' => key_proof(o),
        'O' => opening(o),
        'P' => slot_rules(o.word(0), o.word(1)),
        'B' => slot_byte(o.number(0).min(255) as u8),
        _ => return None,
    })
}

/// The output begins as the text, and only its last block is written.
fn long_cbc(o: &Operands, text: &[u8]) -> Account {
    let mut output = text.to_vec();
    let answer = algorithms::cbc(Way::Encrypt, &o.bytes(0), &o.bytes(1), text, &mut output);
    outcome(answer, &[&output[text.len().saturating_sub(16)..]])
}

fn key_message(form: impl Fn(&Order, &mut UpdateRoom) -> Answer<()>, o: &Operands) -> Account {
    let order = Order {
        uid: &o.bytes(0),
        target: o.word(1),
        authority: o.word(2),
        authority_key: &o.bytes(3),
        counter: o.number(4),
        flags: o.word(5),
        new_key: &o.bytes(6),
    };
    let (mut m1, mut m2, mut m3) = (o.bytes(7), o.bytes(8), o.bytes(9));
    let answer = form(&order, &mut UpdateRoom { m1: &mut m1, m2: &mut m2, m3: &mut m3 });
    outcome(answer, &[&m1, &m2, &m3])
}

fn key_proof(o: &Operands) -> Account {
    let (mut m4, mut m5) = (o.bytes(5), o.bytes(6));
    let mut room = ProofRoom { m4: &mut m4, m5: &mut m5 };
    let answer = write_proof(&o.bytes(0), o.word(1), o.word(2), o.number(3), &o.bytes(4), &mut room);
    outcome(answer, &[&m4, &m5])
}

/// What M2 says, if M3 is right.
fn opened(o: &Operands) -> Option<(FirstBlock, Block)> {
    let authority_key = exactly(&o.bytes(0)).ok()?;
    let (m1, m2): (Block, TwoBlocks) = (exactly(&o.bytes(1)).ok()?, exactly(&o.bytes(2)).ok()?);
    (seal(&authority_key, &m1, &m2)[..] == o.bytes(3)).then(|| open(&authority_key, &m2))
}

fn opening(o: &Operands) -> Account {
    let (genuine, counter, flags, zero, key) = match opened(o) {
        Some((first, key)) => (1, first.counter, first.flags, u8::from(first.filler == 0), key),
        None => (0, 0, 0, 0, [0; 16]),
    };
    without_answer(rows(&[genuine]) + &rows(&counter.to_be_bytes()) + &rows(&[flags, zero]) + &rows(&key))
}

/// The kinds of Table 4.1, counted from 0. KEY_1 to KEY_10 are one kind, and the last are no slots.
fn kind(slot: u32) -> u8 {
    match slot {
        SECRET_KEY..=BOOT_MAC => slot as u8,
        KEY_1..=KEY_10 => 4,
        RAM_KEY => 5,
        _ => 6,
    }
}

fn slot_rules(target: u32, authority: u32) -> Account {
    let [cipher, generate, verify] = [Role::Cipher, Role::Generate, Role::Verify].map(|role| role.is_open_to(target).into());
    let (counter, _) = as_kept(target, 1, 0);
    bytes(&[kind(target), cipher, generate, verify, flags_of(target), counter as u8, is_allowed(target, authority).into()])
}

fn slot_byte(byte: u8) -> Account {
    let mut m1 = [0; 16];
    m1[15] = byte;
    let head = Head::unpack(&m1);
    bytes(&[head.target as u8, head.authority as u8])
}
