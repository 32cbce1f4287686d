//! The C side: for each `she_NAME` of the headers a `second_NAME`, and for each `garage_NAME` a `second_garage_NAME`, with the same
//! parameters.
//!
//! What the caller owes is what the headers say: pointers valid for the length beside them and never null, and nothing that is
//! written to overlaps anything else. A length has 64 bits there and is a `usize` here, so that this is for machines of 64 bits.

use crate::algorithms::{self, Way};
use crate::answer::{number, Answer};
use crate::book::{Book, Page};
use crate::device::{Device, Record};
use crate::messages::{self, Order, ProofRoom, UpdateRoom};
use std::slice::{from_raw_parts as lent, from_raw_parts_mut as room};

const _: () = assert!(usize::BITS == 64);

/// The number, and a verdict or a status beside it, which is 0 where the call is refused.
unsafe fn number_and_byte(answer: Answer<u8>, byte: *mut u8) -> u8 {
    *byte = answer.unwrap_or(0);
    number(&answer)
}

// ---- algorithms

#[no_mangle]
pub unsafe extern "C" fn second_aes_encrypt(
    key: *const u8, key_len: usize, block: *const u8, block_len: usize, out: *mut u8, out_len: usize,
) -> u8 {
    number(&algorithms::aes(Way::Encrypt, lent(key, key_len), lent(block, block_len), room(out, out_len)))
}

#[no_mangle]
pub unsafe extern "C" fn second_aes_decrypt(
    key: *const u8, key_len: usize, block: *const u8, block_len: usize, out: *mut u8, out_len: usize,
) -> u8 {
    number(&algorithms::aes(Way::Decrypt, lent(key, key_len), lent(block, block_len), room(out, out_len)))
}

#[no_mangle]
pub unsafe extern "C" fn second_cbc_encrypt(
    key: *const u8, key_len: usize, iv: *const u8, iv_len: usize, input: *const u8, input_len: usize, out: *mut u8,
    out_len: usize,
) -> u8 {
    number(&algorithms::cbc(Way::Encrypt, lent(key, key_len), lent(iv, iv_len), lent(input, input_len), room(out, out_len)))
}

#[no_mangle]
pub unsafe extern "C" fn second_cbc_decrypt(
    key: *const u8, key_len: usize, iv: *const u8, iv_len: usize, input: *const u8, input_len: usize, out: *mut u8,
    out_len: usize,
) -> u8 {
    number(&algorithms::cbc(Way::Decrypt, lent(key, key_len), lent(iv, iv_len), lent(input, input_len), room(out, out_len)))
}

#[no_mangle]
pub unsafe extern "C" fn second_cmac(
    key: *const u8, key_len: usize, bits: u64, message: *const u8, message_len: usize, out: *mut u8, out_len: usize,
) -> u8 {
    number(&algorithms::cmac(lent(key, key_len), bits, lent(message, message_len), room(out, out_len)))
}

#[no_mangle]
pub unsafe extern "C" fn second_kdf(
    key: *const u8, key_len: usize, constant: *const u8, constant_len: usize, out: *mut u8, out_len: usize,
) -> u8 {
    number(&algorithms::kdf(lent(key, key_len), lent(constant, constant_len), room(out, out_len)))
}

// ---- key messages, for the sender

type Form = for<'a> fn(&Order<'a>, &mut UpdateRoom<'a>) -> Answer<()>;

/// The writer in one of its forms. Which of the order a form looks at is the form's to say.
unsafe fn write(form: Form, order: Order, [m1, m2, m3]: [(*mut u8, usize); 3]) -> u8 {
    number(&form(&order, &mut UpdateRoom { m1: room(m1.0, m1.1), m2: room(m2.0, m2.1), m3: room(m3.0, m3.1) }))
}

#[no_mangle]
pub unsafe extern "C" fn second_write_key(
    uid: *const u8, uid_len: usize, target: u32, authority: u32, authority_key: *const u8, authority_key_len: usize, counter: u64,
    flags: u32, new_key: *const u8, new_key_len: usize, m1: *mut u8, m1_len: usize, m2: *mut u8, m2_len: usize, m3: *mut u8,
    m3_len: usize,
) -> u8 {
    let (uid, authority_key, new_key) = (lent(uid, uid_len), lent(authority_key, authority_key_len), lent(new_key, new_key_len));
    let order = Order { uid, target, authority, authority_key, counter, flags, new_key };
    write(messages::write_key, order, [(m1, m1_len), (m2, m2_len), (m3, m3_len)])
}

#[no_mangle]
pub unsafe extern "C" fn second_write_key_short(
    uid: *const u8, uid_len: usize, target: u32, authority: u32, authority_key: *const u8, authority_key_len: usize, counter: u64,
    new_key: *const u8, new_key_len: usize, m1: *mut u8, m1_len: usize, m2: *mut u8, m2_len: usize, m3: *mut u8, m3_len: usize,
) -> u8 {
    let (uid, authority_key, new_key) = (lent(uid, uid_len), lent(authority_key, authority_key_len), lent(new_key, new_key_len));
    let order = Order { uid, target, authority, authority_key, counter, flags: 0, new_key };
    write(messages::write_key_short, order, [(m1, m1_len), (m2, m2_len), (m3, m3_len)])
}

#[no_mangle]
pub unsafe extern "C" fn second_fleet_sheet(
    target: u32, authority: u32, authority_key: *const u8, authority_key_len: usize, counter: u64, new_key: *const u8,
    new_key_len: usize, m1: *mut u8, m1_len: usize, m2: *mut u8, m2_len: usize, m3: *mut u8, m3_len: usize,
) -> u8 {
    let (authority_key, new_key) = (lent(authority_key, authority_key_len), lent(new_key, new_key_len));
    let order = Order { uid: &[], target, authority, authority_key, counter, flags: 0, new_key };
    write(messages::fleet_sheet, order, [(m1, m1_len), (m2, m2_len), (m3, m3_len)])
}

#[no_mangle]
pub unsafe extern "C" fn second_write_proof(
    uid: *const u8, uid_len: usize, target: u32, authority: u32, counter: u64, new_key: *const u8, new_key_len: usize,
    m4: *mut u8, m4_len: usize, m5: *mut u8, m5_len: usize,
) -> u8 {
    let mut proof = ProofRoom { m4: room(m4, m4_len), m5: room(m5, m5_len) };
    let (uid, new_key) = (lent(uid, uid_len), lent(new_key, new_key_len));
    number(&messages::write_proof(uid, target, authority, counter, new_key, &mut proof))
}

// ---- the device

#[no_mangle]
pub unsafe extern "C" fn second_make(
    device: &mut Record, uid: *const u8, uid_len: usize, secret_key: *const u8, secret_key_len: usize, seed: *const u8,
    seed_len: usize,
) -> u8 {
    let made = Device::make(lent(uid, uid_len), lent(secret_key, secret_key_len), lent(seed, seed_len));
    if let Ok(new) = &made {
        new.write(device);
    }
    number(&made)
}

#[no_mangle]
pub unsafe extern "C" fn second_reset(device: &mut Record) -> u8 {
    number(&device.command(|d| d.reset()))
}

#[no_mangle]
pub unsafe extern "C" fn second_attach_debugger(device: &mut Record) -> u8 {
    number(&device.command(|d| d.attach_debugger()))
}

#[no_mangle]
pub unsafe extern "C" fn second_enc_ecb(
    device: &mut Record, slot: u32, input: *const u8, input_len: usize, out: *mut u8, out_len: usize,
) -> u8 {
    number(&device.command(|d| d.ecb(Way::Encrypt, slot, lent(input, input_len), room(out, out_len))))
}

#[no_mangle]
pub unsafe extern "C" fn second_dec_ecb(
    device: &mut Record, slot: u32, input: *const u8, input_len: usize, out: *mut u8, out_len: usize,
) -> u8 {
    number(&device.command(|d| d.ecb(Way::Decrypt, slot, lent(input, input_len), room(out, out_len))))
}

#[no_mangle]
pub unsafe extern "C" fn second_enc_cbc(
    device: &mut Record, slot: u32, iv: *const u8, iv_len: usize, input: *const u8, input_len: usize, out: *mut u8,
    out_len: usize,
) -> u8 {
    number(&device.command(|d| d.cbc(Way::Encrypt, slot, lent(iv, iv_len), lent(input, input_len), room(out, out_len))))
}

#[no_mangle]
pub unsafe extern "C" fn second_dec_cbc(
    device: &mut Record, slot: u32, iv: *const u8, iv_len: usize, input: *const u8, input_len: usize, out: *mut u8,
    out_len: usize,
) -> u8 {
    number(&device.command(|d| d.cbc(Way::Decrypt, slot, lent(iv, iv_len), lent(input, input_len), room(out, out_len))))
}

#[no_mangle]
pub unsafe extern "C" fn second_generate_mac(
    device: &mut Record, slot: u32, bits: u64, message: *const u8, message_len: usize, mac: *mut u8, mac_len: usize,
) -> u8 {
    number(&device.command(|d| d.generate_mac(slot, bits, lent(message, message_len), room(mac, mac_len))))
}

#[no_mangle]
pub unsafe extern "C" fn second_verify_mac(
    device: &mut Record, slot: u32, bits: u64, message: *const u8, message_len: usize, mac: *const u8, mac_len: usize,
    mac_bits: u32, verdict: *mut u8,
) -> u8 {
    let answer = device.command(|d| d.verify_mac(slot, bits, lent(message, message_len), lent(mac, mac_len), mac_bits));
    number_and_byte(answer.map(u8::from), verdict)
}

#[no_mangle]
pub unsafe extern "C" fn second_load_key(
    device: &mut Record, m1: *const u8, m1_len: usize, m2: *const u8, m2_len: usize, m3: *const u8, m3_len: usize, m4: *mut u8,
    m4_len: usize, m5: *mut u8, m5_len: usize,
) -> u8 {
    let mut proof = ProofRoom { m4: room(m4, m4_len), m5: room(m5, m5_len) };
    number(&device.command(|d| d.load_key(lent(m1, m1_len), lent(m2, m2_len), lent(m3, m3_len), &mut proof)))
}

#[no_mangle]
pub unsafe extern "C" fn second_load_plain_key(device: &mut Record, key: *const u8, key_len: usize) -> u8 {
    number(&device.command(|d| d.load_plain_key(lent(key, key_len))))
}

#[no_mangle]
pub unsafe extern "C" fn second_export_ram_key(
    device: &mut Record, m1: *mut u8, m1_len: usize, m2: *mut u8, m2_len: usize, m3: *mut u8, m3_len: usize, m4: *mut u8,
    m4_len: usize, m5: *mut u8, m5_len: usize,
) -> u8 {
    let mut update = UpdateRoom { m1: room(m1, m1_len), m2: room(m2, m2_len), m3: room(m3, m3_len) };
    let mut proof = ProofRoom { m4: room(m4, m4_len), m5: room(m5, m5_len) };
    number(&device.command(|d| d.export_ram_key(&mut update, &mut proof)))
}

#[no_mangle]
pub unsafe extern "C" fn second_init_rng(device: &mut Record) -> u8 {
    number(&device.command(|d| d.init_rng()))
}

#[no_mangle]
pub unsafe extern "C" fn second_extend_seed(device: &mut Record, entropy: *const u8, entropy_len: usize) -> u8 {
    number(&device.command(|d| d.extend_seed(lent(entropy, entropy_len))))
}

#[no_mangle]
pub unsafe extern "C" fn second_rnd(device: &mut Record, out: *mut u8, out_len: usize) -> u8 {
    number(&device.command(|d| d.rnd(room(out, out_len))))
}

#[no_mangle]
pub unsafe extern "C" fn second_secure_boot(device: &mut Record, bootloader: *const u8, bootloader_len: usize) -> u8 {
    number(&device.command(|d| d.secure_boot(lent(bootloader, bootloader_len))))
}

#[no_mangle]
pub unsafe extern "C" fn second_boot_failure(device: &mut Record) -> u8 {
    number(&device.command(|d| d.boot_failure()))
}

#[no_mangle]
pub unsafe extern "C" fn second_boot_ok(device: &mut Record) -> u8 {
    number(&device.command(|d| d.boot_ok()))
}

#[no_mangle]
pub unsafe extern "C" fn second_get_status(device: &mut Record, status: *mut u8) -> u8 {
    number_and_byte(device.command(|d| Ok(d.status())), status)
}

#[no_mangle]
pub unsafe extern "C" fn second_get_id(
    device: &mut Record, challenge: *const u8, challenge_len: usize, out: *mut u8, out_len: usize,
) -> u8 {
    number(&device.command(|d| d.get_id(lent(challenge, challenge_len), room(out, out_len))))
}

// ---- the book

/// A refusal leaves the blank book.
#[no_mangle]
pub unsafe extern "C" fn second_garage_open(
    book: &mut Page, uid: *const u8, uid_len: usize, keys: *const u8, keys_len: usize, held: *const u8, held_len: usize,
    counters: *const u32, counters_len: usize,
) -> u8 {
    let opened = Book::open(lent(uid, uid_len), lent(keys, keys_len), lent(held, held_len), lent(counters, counters_len));
    *book = Page::BLANK;
    if let Ok(new) = &opened {
        new.write(book);
    }
    number(&opened)
}

#[no_mangle]
pub unsafe extern "C" fn second_garage_write(
    book: &mut Page, target: u32, authority: u32, flags: u32, new_key: *const u8, new_key_len: usize, m1: *mut u8, m1_len: usize,
    m2: *mut u8, m2_len: usize, m3: *mut u8, m3_len: usize,
) -> u8 {
    let mut update = UpdateRoom { m1: room(m1, m1_len), m2: room(m2, m2_len), m3: room(m3, m3_len) };
    number(&book.call(|b| b.write_key(target, authority, flags, lent(new_key, new_key_len), &mut update)))
}

#[no_mangle]
pub unsafe extern "C" fn second_garage_judge(
    book: &mut Page, target: u32, m4: *const u8, m4_len: usize, m5: *const u8, m5_len: usize, verdict: *mut u8,
) -> u8 {
    let answer = book.call(|b| b.judge(target, lent(m4, m4_len), lent(m5, m5_len)));
    number_and_byte(answer.map(u8::from), verdict)
}

// ---- a rule by itself, for those who draw records and messages

#[no_mangle]
pub extern "C" fn second_flags_of(slot: u32) -> u8 {
    messages::flags_of(slot)
}
