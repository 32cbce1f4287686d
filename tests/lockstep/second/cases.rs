//! The lines of the proved program `cases`, played on a device of our own. What a line says, and what is written after it, is
//! explained at the head of that program.
//!
//! What is written here is what must be: after every refusal that nothing changed, since the paper lets none change anything.

use crate::aes::{Aes, Block};
use crate::algorithms::{Way, MAX_BLOCKS};
use crate::answer::{number, Answer};
use crate::book::{Book, Page};
use crate::device::{Device, Record};
use crate::messages::{update, FirstBlock, Head, ProofRoom, Uid, UpdateRoom, ALL_FLAGS, MAX_COUNTER, SECRET_KEY, SLOTS};
use crate::programs::Account;
use crate::text::hex;

/// 001, 4.13.2.6 and 4.13.2.9.
const SECRET: Block = 0x2b7e_1516_28ae_d2a6_abf7_1588_09cf_4f3c_u128.to_be_bytes();
const SEED: Block = 0x6bc1_bee2_2e40_9f96_e93d_7e11_7393_172a_u128.to_be_bytes();
const ENTROPY: Block = 0xae2d_8a57_1e03_ac9c_9eb7_6fac_45af_8e51_u128.to_be_bytes();

/// What is enciphered and signed, and what a buffer holds before a call.
const TEXT: u8 = 0xA5;
const FILLER: u8 = 0x5A;

/// A block more than CBC takes and a MAC covers: nothing longer is lent.
const MOST: usize = 16 * (MAX_BLOCKS + 1);

/// The numbers of a line. One that is left out is larger than any.
type Numbers = [u64; 12];
const ABSENT: u64 = u64::MAX;

/// The commands that use a slot and put something out.
const SLOT_USERS: [&str; 5] = ["ENC_ECB", "DEC_ECB", "ENC_CBC", "DEC_CBC", "GENERATE_MAC"];

/// What a line leaves to the next: the record, the book, the last M1 to M3, the last M4 and M5, and the last block that one of the
/// five above put out.
pub struct Bench {
    record: Record,
    page: Page,
    sent: Vec<u8>,
    proof: Vec<u8>,
    block: Block,
}

/// What stands after a line, and the answer in it, if it has one.
type End = (Option<u8>, String);

// ---- numbers

/// After the twelfth, digits go on where the first number ends.
fn numbers_of(line: &str) -> Numbers {
    let mut numbers = [ABSENT; 12];
    let found = line.split(|c: char| !c.is_ascii_digit()).filter(|digits| !digits.is_empty());
    for (place, digits) in (0..12).cycle().zip(found) {
        numbers[place] = digits.bytes().fold(numbers[place], longer);
    }
    numbers
}

/// A number that has no room for another digit begins anew, as one that was absent does.
fn longer(number: u64, digit: u8) -> u64 {
    let has_room = number < u64::MAX / 10 - 1;
    u64::from(digit - b'0') + if has_room { 10 * number } else { 0 }
}

/// Of a line that has only these.
fn only(numbers: &[u64]) -> Numbers {
    std::array::from_fn(|place| numbers.get(place).copied().unwrap_or(ABSENT))
}

/// For a parameter of 8 bits: too large a number is the largest.
fn byte(number: u64) -> u8 {
    number.min(255) as u8
}

/// For one of 32 bits likewise.
fn word(number: u64) -> u32 {
    number.min(u32::MAX.into()) as u32
}

// ---- what is lent

/// The first of a buffer, or all.
fn front<T>(items: &[T], length: u64) -> &[T] {
    &items[..length.min(items.len() as u64) as usize]
}

fn front_mut(bytes: &mut [u8], length: u64) -> &mut [u8] {
    let end = length.min(bytes.len() as u64) as usize;
    &mut bytes[..end]
}

/// Bytes with one more after them, so that they can be lent too long.
fn lent(bytes: &[u8], length: u64) -> Vec<u8> {
    front(&[bytes, b"+"].concat(), length).to_vec()
}

fn text(length: u64) -> Vec<u8> {
    front(&[TEXT; MOST], length).to_vec()
}

/// All of the text, with a bit changed.
fn text_with(bit: u64) -> Vec<u8> {
    let mut changed = text(ABSENT);
    flip(&mut changed, bit);
    changed
}

fn filler(length: u64) -> Vec<u8> {
    front(&[FILLER; MOST], length).to_vec()
}

/// Changes a bit, where there is one of this number.
fn flip(bytes: &mut [u8], bit: u64) {
    if let Some(byte) = bytes.get_mut((bit / 8) as usize) {
        *byte ^= 0x80 >> (bit % 8);
    }
}

/// Filled up with zeros at its end.
fn last_block(bytes: &[u8]) -> Block {
    let last = &bytes[bytes.len().saturating_sub(16)..];
    std::array::from_fn(|i| last.get(i).copied().unwrap_or(0))
}

fn uid(number: u64) -> Uid {
    match number {
        0 => [0; 15],
        2 => std::array::from_fn(|i| u8::from(i == 14)),
        _ => std::array::from_fn(|i| 0xA0 + i as u8),
    }
}

/// The key that the lines give to a slot.
fn slot_key(slot: u8) -> Block {
    Aes::new(&SEED).encrypt(&[slot; 16])
}

// ---- the record by the names of what it holds

fn fields(record: &Record) -> Vec<(String, Vec<u8>)> {
    let mut fields = Vec::new();
    for slot in 0..SLOTS {
        let [flags, empty] = [record.flags[slot], record.empty[slot]];
        fields.push((format!("key {slot}"), record.keys[16 * slot..16 * slot + 16].to_vec()));
        fields.push((format!("slot {slot}"), [&record.counters[slot].to_be_bytes()[..], &[flags, empty]].concat()));
    }
    fields.push(("UID".to_string(), record.uid.to_vec()));
    fields.push(("seed".to_string(), record.seed.to_vec()));
    fields.push(("state".to_string(), record.state.to_vec()));
    fields.push(("random key".to_string(), record.rngkey.to_vec()));
    fields.push(("marks".to_string(), record.marks.to_vec()));
    fields
}

/// The rows from one on to another, which is left out. A row that the record hasn't is zero.
fn rows(record: &Record, from: u8, to: u8) -> String {
    let fields = fields(record);
    let row = |row: u8| {
        let mut bytes = fields.get(row as usize).map_or(Vec::new(), |(_, bytes)| bytes.clone());
        bytes.resize(16, 0);
        format!("\nrow {row}: {}", hex(&bytes))
    };
    (from..to).map(row).collect()
}

/// The fields in which a record differs from the one before.
fn changes(before: &Record, after: &Record) -> String {
    let both = fields(before).into_iter().zip(fields(after));
    let new = both.filter(|(old, new)| old != new).map(|(_, (name, bytes))| format!(", {name} {}", hex(&bytes)));
    match new.collect::<String>() {
        none if none.is_empty() => ", no change".to_string(),
        some => some,
    }
}

// ---- what stands after a command

fn named<T>(answer: &Answer<T>) -> String {
    let name = match answer {
        Ok(_) => "NO_ERROR",
        Err(refusal) => refusal.name(),
    };
    format!(": {} {name}", number(answer))
}

fn kept<T>(answer: &Answer<T>) -> &'static str {
    if answer.is_ok() {
        ""
    } else {
        ", nothing changed"
    }
}

/// With what the command gave, as it is to be written.
fn end(answer: Answer<String>) -> End {
    let end = named(&answer) + kept(&answer);
    (Some(number(&answer)), end + &answer.unwrap_or_default())
}

/// With the number that the command gave, and 0 where it is refused.
fn number_end(answer: Answer<u8>) -> End {
    (Some(number(&answer)), format!("{}, gives {}{}", named(&answer), answer.unwrap_or(0), kept(&answer)))
}

fn shown(output: &[u8]) -> String {
    if output.is_empty() {
        String::new()
    } else {
        format!(", {}", hex(output))
    }
}

// ---- the commands that use a slot

fn use_slot(device: &Device, name: &str, n: &Numbers, output: &mut [u8]) -> Answer<()> {
    let (slot, input, iv) = (byte(n[0]).into(), text(n[1]), text(n[3]));
    match name {
        "ENC_ECB" => device.ecb(Way::Encrypt, slot, &input, output),
        "DEC_ECB" => device.ecb(Way::Decrypt, slot, &input, output),
        "ENC_CBC" => device.cbc(Way::Encrypt, slot, &iv, &input, output),
        "DEC_CBC" => device.cbc(Way::Decrypt, slot, &iv, &input, output),
        _ => device.generate_mac(slot, n[3], &input, output),
    }
}

/// Asks for the MAC that a block is, each with a bit changed.
fn verify(device: &Device, block: &Block, n: &Numbers) -> Answer<bool> {
    let mut mac = [*block, [TEXT; 16]].concat();
    let message = text_with(n[6]);
    flip(&mut mac, n[5]);
    device.verify_mac(byte(n[0]).into(), n[3], front(&message, n[1]), front(&mac, n[2]), byte(n[4]).into())
}

/// The answers of the six commands for one slot.
fn roles(record: &mut Record, slot: u8) -> String {
    let n = only(&[slot.into(), 16, 16, 16, 0]);
    let mut answers: Vec<u8> =
        SLOT_USERS.iter().map(|name| number(&record.command(|d| use_slot(d, name, &n, &mut filler(16))))).collect();
    answers.push(number(&record.command(|d| verify(d, &[TEXT; 16], &n))));
    let answers: String = answers.iter().map(|answer| format!(" {answer}")).collect();
    format!("\nslot {slot}{answers}")
}

// ---- key messages

/// The sender knows whether the authority is still empty.
fn sender_key(record: &Record, authority: u8) -> Block {
    let is_empty = record.empty.get(authority as usize) == Some(&1);
    match u32::from(authority) {
        _ if is_empty => [0xFF; 16],
        SECRET_KEY => SECRET,
        _ => slot_key(authority),
    }
}

/// M1 to M3 as a line asks for them, with a bit of the first block changed before and one of them after they are sealed.
fn message(record: &Record, n: &Numbers) -> Vec<u8> {
    let (target, authority) = (byte(n[0]) % 16, byte(n[1]) % 16);
    let head = Head { uid: uid(n[4]), target: target.into(), authority: authority.into() };
    let first = FirstBlock { counter: n[2] as u32 & MAX_COUNTER, flags: n[3] as u8 & ALL_FLAGS, filler: 0 };
    let mut first = first.pack();
    flip(&mut first, n[5]);
    let sent = update(&head, &sender_key(record, authority), &FirstBlock::unpack(first), &slot_key(target));
    let mut sent = [&sent.m1[..], &sent.m2, &sent.m3].concat();
    flip(&mut sent, n[6]);
    sent
}

/// LOAD_KEY with so much of M1 to M5 as a line lends. Gives M4 and M5.
fn load(record: &mut Record, sent: &[u8], n: &Numbers) -> Answer<Vec<u8>> {
    let (m1, m2, m3) = (front(&sent[..16], n[7]), front(&sent[16..48], n[8]), front(&sent[48..], n[9]));
    let (mut m4, mut m5) = (filler(32), filler(16));
    let mut room = ProofRoom { m4: front_mut(&mut m4, n[10]), m5: front_mut(&mut m5, n[11]) };
    record.command(|d| d.load_key(m1, m2, m3, &mut room))?;
    Ok([m4, m5].concat())
}

fn is_taken(record: &Record, slots: u64) -> bool {
    let n = only(&[slots / 16, slots % 16, 2, 0]);
    load(&mut record.clone(), &message(record, &n), &n).is_ok()
}

fn pairs(record: &Record) -> String {
    (0..256).filter(|&slots| is_taken(record, slots)).map(|slots| format!(" {slots:02x}")).collect()
}

// ---- making

fn made(n: &Numbers) -> Answer<Record> {
    let mut secret = SECRET;
    flip(&mut secret, n[4]);
    let device = Device::make(&lent(&uid(n[0]), n[1]), &lent(&secret, n[2]), &lent(&SEED, n[3]))?;
    let mut record = Record::BLANK;
    device.write(&mut record);
    Ok(record)
}

/// A made device with slots 1 to the last loaded by slot 1. Where that is refused, the slot stays as it is.
fn prepared(last: u8, flags: u64) -> Record {
    let mut record = made(&only(&[1, 15, 16, 16])).unwrap_or(Record::BLANK);
    for slot in 1..=last {
        let n = only(&[slot.into(), 1, 1, flags]);
        let sent = message(&record, &n);
        let _ = load(&mut record, &sent, &n);
    }
    record
}

/// A place past the end of a field is counted from its front again, and a field past the last is the last.
fn set(record: &mut Record, [field, place, value]: [u64; 3]) {
    if field == 1 {
        record.counters[place as usize % SLOTS] = value as u32;
        return;
    }
    let bytes: &mut [u8] = match field {
        0 => &mut record.keys,
        2 => &mut record.flags,
        3 => &mut record.empty,
        4 => &mut record.uid,
        5 => &mut record.seed,
        6 => &mut record.state,
        7 => &mut record.rngkey,
        _ => &mut record.marks,
    };
    bytes[place as usize % bytes.len()] = byte(value);
}

// ---- the book

/// A book with what a record holds, so much of it as a line lends, and past that what stands behind it or zeros. Empty marks are
/// turned, so that one that is neither on nor off gives another such.
fn opened(record: &Record, n: &Numbers) -> Answer<Book> {
    let keys = [&record.keys[..], &[0; 16]].concat();
    let held: Vec<u8> = record.empty.iter().map(|empty| empty ^ 1).chain([1]).collect();
    let uid = [&record.uid[..], &[0]].concat();
    Book::open(front(&uid, n[0]), front(&keys, n[1]), front(&held, n[2]), front(&record.counters[1..], n[3]))
}

// ---- lines

impl Bench {
    pub fn new() -> Bench {
        Bench { record: Record::BLANK, page: Page::BLANK, sent: vec![0; 64], proof: vec![0; 48], block: [0; 16] }
    }

    /// What must be written for a line.
    pub fn play(&mut self, line: &str) -> Account {
        let (answer, end) = match line.chars().next() {
            None | Some('#') => (None, String::new()),
            Some(_) => self.run(line.split(' ').next().unwrap_or(""), &numbers_of(line)),
        };
        Account { text: format!("{line}{end}\n"), answer }
    }

    fn run(&mut self, name: &str, n: &Numbers) -> End {
        match name {
            "RESET" => self.change(|d| d.reset()),
            "DEBUGGER" => self.change(|d| d.attach_debugger()),
            "INIT_RNG" => self.change(|d| d.init_rng()),
            "SECURE_BOOT" => self.change(|d| d.secure_boot(front(&text_with(n[1]), n[0]))),
            "BOOT_FAILURE" => self.change(|d| d.boot_failure()),
            "BOOT_OK" => self.change(|d| d.boot_ok()),
            "EXTEND_SEED" => self.change(|d| d.extend_seed(&lent(&ENTROPY, n[0]))),
            "LOAD_PLAIN_KEY" => self.change(|d| d.load_plain_key(&lent(&slot_key(byte(n[0])), n[1]))),
            "RND" => self.rnd(n[0]),
            "GET_STATUS" => number_end(self.record.command(|d| Ok(d.status()))),
            "GET_ID" => self.get_id(n[0], n[1]),
            "VERIFY_MAC" => self.verify_mac(n),
            "LOAD_KEY" => self.load_key(n),
            "EXPORT_RAM_KEY" => self.export_ram_key(n),
            "MAKE" => self.make(n),
            "DEVICE" => (None, ": made".to_string() + &self.renew(prepared(byte(n[0]), n[1]))),
            "SET" => {
                set(&mut self.record, [n[0], n[1], n[2]]);
                (None, String::new())
            }
            "BOOK" => self.open_book(n),
            "LETTER" => self.letter(n),
            "RECEIPT" => self.receipt(n),
            _ if SLOT_USERS.contains(&name) => self.use_slot(name, n),
            _ => (None, self.show(name, n)),
        }
    }

    /// A line that shows something of the device.
    fn show(&mut self, name: &str, n: &Numbers) -> String {
        match name {
            "RECORD" => rows(&self.record, byte(n[0]), byte(n[1])),
            "ROLES" => (0..byte(n[0])).map(|slot| roles(&mut self.record, slot)).collect(),
            "PAIRS" => "\n".to_string() + &pairs(&self.record),
            _ => "\nno such command".to_string(),
        }
    }

    fn change(&mut self, act: impl FnOnce(&mut Device) -> Answer<()>) -> End {
        self.change_and_give(|record| record.command(act).map(|()| Vec::new()))
    }

    /// What a command puts out comes before what it changes.
    fn change_and_give(&mut self, act: impl FnOnce(&mut Record) -> Answer<Vec<u8>>) -> End {
        let before = self.record.clone();
        let given = act(&mut self.record);
        end(given.map(|output| shown(&output) + &changes(&before, &self.record)))
    }

    fn rnd(&mut self, length: u64) -> End {
        let mut output = filler(length);
        self.change_and_give(|record| record.command(|d| d.rnd(&mut output)).map(|()| output))
    }

    fn get_id(&mut self, length: u64, room: u64) -> End {
        let mut output = filler(room);
        end(self.record.command(|d| d.get_id(&text(length), &mut output)).map(|()| shown(&output)))
    }

    fn use_slot(&mut self, name: &str, n: &Numbers) -> End {
        let mut output = filler(n[2]);
        let answer = self.record.command(|d| use_slot(d, name, n, &mut output));
        self.block = last_block(&output);
        end(answer.map(|()| shown(&self.block)))
    }

    fn verify_mac(&mut self, n: &Numbers) -> End {
        let block = self.block;
        number_end(self.record.command(|d| verify(d, &block, n)).map(u8::from))
    }

    /// Without a number the last messages come again.
    fn load_key(&mut self, n: &Numbers) -> End {
        if n[0] != ABSENT {
            self.sent = message(&self.record, n);
        }
        let (sent, mut proof) = (self.sent.clone(), filler(48));
        let end = self.change_and_give(|record| {
            proof = load(record, &sent, n)?;
            Ok(proof.clone())
        });
        self.proof = proof;
        end
    }

    /// The buffers are the last messages also where they are as they were.
    fn export_ram_key(&mut self, n: &Numbers) -> End {
        let mut rooms = [16, 32, 16, 32, 16].map(filler);
        let [m1, m2, m3, m4, m5] = &mut rooms;
        let mut update = UpdateRoom { m1: front_mut(m1, n[0]), m2: front_mut(m2, n[1]), m3: front_mut(m3, n[2]) };
        let mut proof = ProofRoom { m4: front_mut(m4, n[3]), m5: front_mut(m5, n[4]) };
        let answer = self.record.command(|d| d.export_ram_key(&mut update, &mut proof));
        self.sent = rooms[..3].concat();
        self.proof = rooms[3..].concat();
        end(answer.map(|()| shown(&rooms.concat())))
    }

    fn make(&mut self, n: &Numbers) -> End {
        let made = made(n);
        (Some(number(&made)), named(&made) + &self.renew(made.unwrap_or(Record::BLANK)))
    }

    /// Another record instead: in what it differs.
    fn renew(&mut self, record: Record) -> String {
        let changes = changes(&self.record, &record);
        self.record = record;
        changes
    }

    fn open_book(&mut self, n: &Numbers) -> End {
        let mut told = self.record.clone();
        if n[4] != ABSENT {
            set(&mut told, [n[4], n[5], n[6]]);
        }
        let opened = opened(&told, n);
        self.page = Page::BLANK;
        if let Ok(book) = &opened {
            book.write(&mut self.page);
        }
        let end = if opened.is_ok() { format!(", held {}", hex(&self.page.held)) } else { ", blank book".to_string() };
        (Some(number(&opened)), named(&opened) + &end)
    }

    /// A refusal leaves the last messages, and a letter takes the place of M1 to M3 alone.
    fn letter(&mut self, n: &Numbers) -> End {
        let (key, target) = (slot_key(byte(n[0])), word(n[0]));
        let mut rooms = [16, 32, 16].map(filler);
        let [m1, m2, m3] = &mut rooms;
        let mut room = UpdateRoom { m1: front_mut(m1, n[4]), m2: front_mut(m2, n[5]), m3: front_mut(m3, n[6]) };
        let answer = self.page.call(|book| book.write_key(target, word(n[1]), word(n[2]), front(&key, n[3]), &mut room));
        end(answer.map(|()| {
            self.sent = rooms.concat();
            format!("{}, counter {}", shown(&self.sent), self.page.new_counters[target as usize])
        }))
    }

    fn receipt(&mut self, n: &Numbers) -> End {
        let (mut proof, target) = (self.proof.clone(), word(n[0]));
        flip(&mut proof, n[1]);
        let answer = self.page.call(|book| book.judge(target, front(&proof[..32], n[2]), front(&proof[32..], n[3])));
        let end = match answer {
            Ok(true) => {
                let (held, counter) = (self.page.held[target as usize], self.page.counters[target as usize]);
                format!(", gives 1, held {held}, counter {counter}")
            }
            _ => ", gives 0, nothing changed".to_string(),
        };
        (Some(number(&answer)), named(&answer) + &end)
    }
}
