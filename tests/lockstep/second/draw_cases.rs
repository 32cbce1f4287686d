//! Random lines for `cases`: devices one after the other, from new ones with no key to such with all keys.

use crate::draw::{self, allowed_pair};
use crate::messages::MAX_COUNTER;
use crate::modes::blocks_of_bits;
use crate::random::Random;

/// A bit that no text has.
const NONE: u64 = 999_999;

/// The largest counter.
const MOST: u64 = MAX_COUNTER as u64;

/// The right lengths.
const M1_TO_M5: [u64; 5] = [16, 32, 16, 32, 16];

pub fn portion(seed: u64, number: u64) -> String {
    let mut random = Random::of_part(seed, number);
    draw::portion(std::iter::from_fn(|| Some(day(&mut random))))
}

/// All lines of one device, with a look at it in the end.
fn day(random: &mut Random) -> String {
    let mut lines = vec![beginning(random)];
    if !random.one_in(4) {
        lines.push(book(random));
    }
    if random.one_in(4) {
        lines.extend((0..random.below(8)).map(|_| line(random)));
        lines.push(damage(random));
        lines.extend((0..6).map(|_| line(random)));
    } else {
        lines.extend((0..20 + random.below(100)).map(|_| line(random)));
    }
    lines.push(random.one_of(&["RECORD rows 0 to 36", "ROLES of the slots below 18", "PAIRS that are taken:"]).to_string());
    lines.join("\n")
}

fn beginning(random: &mut Random) -> String {
    if random.one_in(6) {
        let (uid, bit) = (random.one_of(&[1, 2, 2]), random.below(140));
        let [id, secret, seed] = [15, 16, 16].map(|right| length(right, random));
        return format!("MAKE UID {uid} of {id} bytes, SECRET_KEY of {secret}, seed of {seed}, bit {bit} changed");
    }
    let (last, flags) = (random.one_of(&[0, 1, 2, 2, 5, 13]), random.one_of(&[0, 0, 2, 4, 6, 8, 10]));
    format!("DEVICE with slots up to {last}, flags {flags}")
}

/// Something of the record set: mostly it no longer counts as made then. A field or a place may lie past the last.
fn damage(random: &mut Random) -> String {
    let (field, place, any) = (random.below(10), random.below(260), random.below(256));
    let value = random.one_of(&[0, 1, 1, 2, 255, 256, any, MOST, MOST + 1, 1 << 32, (1 << 32) + 1]);
    format!("SET field {field}, place {place}, to {value}")
}

fn line(random: &mut Random) -> String {
    match random.below(56) {
        0..=2 => one_block("ENC_ECB", random),
        3..=4 => one_block("DEC_ECB", random),
        5..=6 => chain("ENC_CBC", random),
        7..=8 => chain("DEC_CBC", random),
        9..=11 => mac(random),
        12..=27 => load(random),
        28..=29 => format!("LOAD_PLAIN_KEY of slot {}, {} bytes", random.below(15), length(16, random)),
        30..=31 => export(random),
        32..=33 => "INIT_RNG".to_string(),
        34..=35 => format!("EXTEND_SEED with {} bytes", length(16, random)),
        36..=37 => format!("RND of {} bytes", length(16, random)),
        38..=39 => format!("GET_ID with {} bytes into {}", length(16, random), length(32, random)),
        40 => "GET_STATUS".to_string(),
        41 => "RESET".to_string(),
        42 => "DEBUGGER attached".to_string(),
        43..=45 => boot(random),
        46 => random.one_of(&["BOOT_FAILURE", "BOOT_OK"]).to_string(),
        47..=48 => book(random),
        49..=54 => round(random),
        _ => strange(random),
    }
}

fn slot(random: &mut Random) -> u64 {
    let (few, any) = (random.below(16), random.below(256));
    random.one_of(&[4, 5, 6, 14, 14, few, any])
}

/// Mostly the right one.
fn length(right: u64, random: &mut Random) -> u64 {
    if random.one_in(14) {
        random.one_of(&[0, right - 1, right + 1, right + 16])
    } else {
        right
    }
}

fn one_block(name: &str, random: &mut Random) -> String {
    format!("{name} with slot {}, {} bytes into {}", slot(random), length(16, random), length(16, random))
}

fn chain(name: &str, random: &mut Random) -> String {
    let size = 16 * random.one_of(&[1, 1, 2, 3]);
    let (slot, input, output) = (slot(random), length(size, random), length(size, random));
    format!("{name} with slot {slot}, {input} bytes into {output}, IV of {}", length(16, random))
}

/// A MAC, and then that it is asked for: as it is, or with a bit changed at the edge of what is compared.
fn mac(random: &mut Random) -> String {
    let (by, other) = (slot(random), slot(random));
    let bits = random.one_of(&[0, 1, 7, 8, 127, 128, 129, 255, 256, 257]);
    let size = 16 * blocks_of_bits(bits);
    let made = format!("GENERATE_MAC with slot {by}, {} bytes into {}", length(size, random), length(16, random));
    let compared = random.one_of(&[0, 0, 1, 8, 9, 127, 128, 255]);
    let (last, any) = (if compared == 0 { 127 } else { compared - 1 }, random.below(128));
    let changed = random.one_of(&[NONE, NONE, compared, last, any]);
    let changed_late = random.one_of(&[NONE, NONE, bits, bits.max(1) - 1]);
    let by = random.one_of(&[by, by, by, other]);
    let asked = format!("VERIFY_MAC with slot {by}, {} bytes, MAC of {}", length(size, random), length(16, random));
    let asked = format!("{asked}, {bits} bits, MAC length {compared}, bit {changed} changed, bit {changed_late} of the message");
    format!("{made}, {bits} bits\n{asked}")
}

/// A boot, mostly after a reset and with the same bootloader, so that what was learnt agrees; and how its later stages went.
fn boot(random: &mut Random) -> String {
    let short = random.one_of(&[40, 40, 40, 40, 1, 15, 16, 17]);
    let size = if random.one_in(12) { random.one_of(&[0, 65_535, 65_536, 65_537]) } else { short };
    let any = random.below(8 * short);
    let changed = random.one_of(&[NONE, NONE, NONE, any]);
    let before = random.one_of(&["RESET\n", "RESET\n", ""]);
    let after = random.one_of(&["\nBOOT_FAILURE", "\nBOOT_OK", ""]);
    format!("{before}SECURE_BOOT with {size} bytes, bit {changed} changed{after}")
}

/// How much of each buffer is lent, mostly left out.
fn lengths<const BUFFERS: usize>(right: [u64; BUFFERS], random: &mut Random) -> String {
    if random.one_in(5) {
        right.map(|right| format!(" {}", length(right, random))).concat()
    } else {
        String::new()
    }
}

fn load(random: &mut Random) -> String {
    if random.one_in(10) {
        return "LOAD_KEY again".to_string();
    }
    let (target, authority) =
        if random.one_in(10) { (random.below(16) as u32, random.below(16) as u32) } else { allowed_pair(random) };
    let (low, any) = (random.below(40), random.below(32));
    let counter = random.one_of(&[0, 1, 2, 3, low, low, MOST]);
    let flags = random.one_of(&[0, 0, 2, 3, 1, 4, 6, 13, 16, any]);
    let uid = random.one_of(&[1, 1, 1, 0, 0, 2]);
    let [first, sent] = [128, 512].map(|bits| if random.one_in(5) { random.below(bits) } else { NONE });
    let asked = format!("LOAD_KEY {target} by {authority}, counter {counter}, flags {flags}, UID {uid}");
    format!("{asked}, bits {first} and {sent} changed{}", lengths(M1_TO_M5, random))
}

/// A book opened with what the device holds, or sometimes with a byte or a counter told otherwise.
fn book(random: &mut Random) -> String {
    let [uid, keys, marks, counters] = [15, 240, 15, 13].map(|right| length(right, random));
    let asked = format!("BOOK with UID of {uid}, keys of {keys}, {marks} marks, {counters} counters");
    if random.one_in(3) {
        let (field, place) = (random.one_of(&[0, 1, 1, 1, 3, 3, 3, 4]), random.below(15));
        let value = random.one_of(&[0, 1, 1, 3, MOST - 1, MOST, MOST + 1]);
        return format!("{asked}, field {field}, place {place}, told as {value}");
    }
    asked
}

/// A letter, mostly given to the device, and its receipt, which comes twice: for another target at times, or with a bit changed.
/// A letter for the target before it, by the target itself, is lost at times.
fn round(random: &mut Random) -> String {
    let (target, authority) = allowed_pair(random);
    let (wide, wide_too, any_slot, any_bit) = (random.below(300), random.below(300), random.below(17), random.below(384));
    let (target, authority) = if random.one_in(8) { (wide, wide_too) } else { (target.into(), authority.into()) };
    let flags = random.one_of(&[0, 0, 0, 0, 2, 3, 31, 32, 256]);
    let lost = if random.one_in(6) { format!("LETTER {target} by {target}, flags 0\n") } else { String::new() };
    let sent = format!("{lost}LETTER {target} by {authority}, flags {flags}{}", lengths([16, 16, 32, 16], random));
    let loaded = random.one_of(&["LOAD_KEY\n", "LOAD_KEY\n", "LOAD_KEY\n", ""]);
    let named = random.one_of(&[target, target, target, any_slot]);
    let changed = random.one_of(&[NONE, NONE, any_bit]);
    let judged = format!("RECEIPT of {named}, bit {changed} changed{}", lengths([32, 16], random));
    format!("{sent}\n{loaded}{judged}\nRECEIPT of {target}")
}

fn export(random: &mut Random) -> String {
    format!("EXPORT_RAM_KEY{}", lengths(M1_TO_M5, random))
}

/// Lines that nobody should write, but that both must read alike: no command, a row that isn't there, a number for which 64 bits
/// have no room, more than twelve numbers, and none.
fn strange(random: &mut Random) -> String {
    let digit = random.below(10);
    let almost_all = u64::MAX / 10 - 6 + digit;
    let choices = [
        "RESET, and no more".to_string(),
        "DEBUG".to_string(),
        format!(" RND of {digit} bytes"),
        format!("RECORD rows 3{digit} to 40"),
        format!("# {digit}"),
        String::new(),
        "LOAD_KEY 14".to_string(),
        "GENERATE_MAC".to_string(),
        format!("GENERATE_MAC with slot 14, 16 bytes into 16, {almost_all}{digit} bits"),
        format!("GENERATE_MAC with slot 14, 16 bytes into 16, {}{digit} bits", u64::MAX),
        format!("ENC_ECB with slot 1, 16 bytes into 16, 4 5 6 7 8 9 10 11 12, {digit}"),
    ];
    random.one_of(&choices)
}
