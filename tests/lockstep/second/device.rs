//! The device and its commands (001, 4.7).
//!
//! A `Device` is a made one: what a record must fulfil to count as made is either built into the type (a random state exists only
//! while initialised, RAM_KEY alone can be plain, an empty slot has nothing in it) or checked in `Device::read`.

use crate::aes::{Aes, Block};
use crate::algorithms::{check_cbc, check_mac, many_blocks, one_block, Way};
use crate::answer::{demand, exactly, Answer, Refusal};
use crate::messages::*;
use crate::modes::{cmac, cmac_of_bytes, extend, kdf, PRNG_KEY_C, PRNG_SEED_KEY_C};

const UNNAMED: usize = 2;
const MARKS: usize = 9 + UNNAMED;

/// Bytes of the longest bootloader (house).
const MAX_BOOTLOADER: usize = 65_536;

/// The record as it is lent and stored: the layout of the C header, without a byte between its parts or after them.
#[repr(C)]
#[derive(Clone)]
pub struct Record {
    pub keys: [u8; 16 * SLOTS],
    pub counters: [u32; SLOTS],
    pub flags: [u8; SLOTS],
    pub empty: [u8; SLOTS],
    pub uid: Uid,
    pub seed: Block,
    pub state: Block,
    pub rngkey: Block,
    pub marks: [u8; MARKS],
}

const _: () = assert!(std::mem::size_of::<Record>() == 404);

/// What a slot that isn't empty holds.
#[derive(Clone, Copy)]
struct Key {
    bytes: Block,
    counter: u32,
    flags: u8,
    plain: bool,
}

#[derive(Clone, Copy)]
struct Random {
    state: Block,
    key: Block,
}

/// What became of booting since the last reset (4.10). `booted` says that SECURE_BOOT succeeded, and the others are bits of the
/// status. A record may hold any of them: no rule ties one to another.
#[derive(Clone, Copy, Default)]
struct Boot {
    booted: bool,
    secure_boot: bool,
    init: bool,
    finished: bool,
    ok: bool,
}

impl Boot {
    /// The bootloader was checked, and either it or a later stage was found bad.
    fn has_failed(&self) -> bool {
        self.secure_boot && !self.ok
    }
}

#[derive(Clone)]
pub struct Device {
    slots: [Option<Key>; SLOTS],
    uid: Uid,
    seed: Block,
    random: Option<Random>,
    debugger: bool,
    boot: Boot,
    /// The marks that mean nothing yet (house). They are off in a new device and after a reset, and else stay whatever they are.
    unnamed: [bool; UNNAMED],
}

/// A mark is a byte, 1 for on and 0 for off (house); another byte is none.
pub fn mark(byte: u8) -> Option<bool> {
    match byte {
        0 => Some(false),
        1 => Some(true),
        _ => None,
    }
}

impl Record {
    /// All zero, and not made.
    pub const BLANK: Record = Record {
        keys: [0; 16 * SLOTS],
        counters: [0; SLOTS],
        flags: [0; SLOTS],
        empty: [0; SLOTS],
        uid: [0; 15],
        seed: [0; 16],
        state: [0; 16],
        rngkey: [0; 16],
        marks: [0; MARKS],
    };

    /// A command works on a copy, which goes into the record only where the command succeeds.
    pub fn command<T>(&mut self, act: impl FnOnce(&mut Device) -> Answer<T>) -> Answer<T> {
        let mut device = Device::read(self).ok_or(Refusal::GeneralError)?;
        let given = act(&mut device)?;
        device.write(self);
        Ok(given)
    }

    fn key_bytes(&self, slot: usize) -> Block {
        std::array::from_fn(|i| self.keys[16 * slot + i])
    }

    /// The marks in their order, or nothing if one of the bytes is none.
    fn marks(&self) -> Option<[bool; MARKS]> {
        let mut marks = [false; MARKS];
        for (on, &byte) in marks.iter_mut().zip(&self.marks) {
            *on = mark(byte)?;
        }
        Some(marks)
    }

    /// One slot, or nothing at all if no made device has it. The plain mark is slot 14's; to every other slot it is off.
    fn slot(&self, slot: usize, plain_mark: bool) -> Option<Option<Key>> {
        let number = slot as u32;
        let (bytes, counter, flags) = (self.key_bytes(slot), self.counters[slot], self.flags[slot]);
        let plain = plain_mark && number == RAM_KEY;
        if mark(self.empty[slot])? {
            let blank = bytes == [0; 16] && counter == 0 && flags == 0 && !plain;
            return (number != SECRET_KEY && blank).then_some(None);
        }
        let sound = counter <= if has_counter(number) { MAX_COUNTER } else { 0 } && flags & !flags_of(number) == 0;
        sound.then_some(Some(Key { bytes, counter, flags, plain }))
    }

    fn random(&self, is_on: bool) -> Option<Option<Random>> {
        if is_on {
            return Some(Some(Random { state: self.state, key: self.rngkey }));
        }
        (self.state == [0; 16] && self.rngkey == [0; 16]).then_some(None)
    }
}

impl Device {
    /// The device that a record holds, if it counts as made.
    pub fn read(record: &Record) -> Option<Device> {
        let [random, plain, debugger, made, booted, secure_boot, init, finished, ok, unnamed @ ..] = record.marks()?;
        if !made || record.uid == [0; 15] {
            return None;
        }
        let mut slots = [None; SLOTS];
        for (number, slot) in slots.iter_mut().enumerate() {
            *slot = record.slot(number, plain)?;
        }
        let random = record.random(random)?;
        let boot = Boot { booted, secure_boot, init, finished, ok };
        Some(Device { slots, uid: record.uid, seed: record.seed, random, debugger, boot, unnamed })
    }

    pub fn write(&self, record: &mut Record) {
        for (number, slot) in self.slots.iter().enumerate() {
            let key = slot.unwrap_or(Key { bytes: [0; 16], counter: 0, flags: 0, plain: false });
            record.keys[16 * number..16 * number + 16].copy_from_slice(&key.bytes);
            record.counters[number] = key.counter;
            record.flags[number] = key.flags;
            record.empty[number] = slot.is_none().into();
        }
        let random = self.random.unwrap_or(Random { state: [0; 16], key: [0; 16] });
        record.uid = self.uid;
        record.seed = self.seed;
        record.state = random.state;
        record.rngkey = random.key;
        record.marks = self.marks().map(u8::from);
    }

    /// In their order.
    fn marks(&self) -> [bool; MARKS] {
        let random = self.random.is_some();
        let plain = self.slots[RAM_KEY as usize].map_or(false, |key| key.plain);
        let Boot { booted, secure_boot, init, finished, ok } = self.boot;
        let [tenth, eleventh] = self.unnamed;
        [random, plain, self.debugger, true, booted, secure_boot, init, finished, ok, tenth, eleventh]
    }

    /// 4.4.4.2: a UID is never zero, for zero is the wildcard.
    pub fn make(uid: &[u8], secret_key: &[u8], seed: &[u8]) -> Answer<Device> {
        let uid: Uid = exactly(uid)?;
        let bytes = exactly(secret_key)?;
        let seed = exactly(seed)?;
        demand(uid != [0; 15], Refusal::GeneralError)?;
        let mut slots = [None; SLOTS];
        slots[SECRET_KEY as usize] = Some(Key { bytes, counter: 0, flags: 0, plain: false });
        Ok(Device { slots, uid, seed, random: None, debugger: false, boot: Boot::default(), unnamed: [false; UNNAMED] })
    }

    /// 4.4.3: what is volatile goes.
    pub fn reset(&mut self) -> Answer<()> {
        self.slots[RAM_KEY as usize] = None;
        self.random = None;
        self.debugger = false;
        self.boot = Boot::default();
        self.unnamed = [false; UNNAMED];
        Ok(())
    }

    /// The bench call.
    pub fn attach_debugger(&mut self) -> Answer<()> {
        self.debugger = true;
        Ok(())
    }

    fn is_locked(&self, key: &Key) -> bool {
        self.debugger && key.flags & DEBUGGER != 0 || self.boot.has_failed() && key.flags & BOOT != 0
    }

    /// The key of a slot for a use, once lengths are right. Order: a slot that can never have the role (3), empty (4),
    /// locked (2), KEY_USAGE (3).
    fn key_for(&self, slot: u32, role: Role) -> Answer<Block> {
        demand(role.is_open_to(slot), Refusal::KeyInvalid)?;
        let key = self.slots[slot as usize].ok_or(Refusal::KeyEmpty)?;
        demand(!self.is_locked(&key), Refusal::KeyNotAvailable)?;
        let for_macs = key.flags & KEY_USAGE != 0;
        demand(!is_key_n(slot) || for_macs == role.is_mac(), Refusal::KeyInvalid)?;
        Ok(key.bytes)
    }

    /// 4.7.1 and 4.7.3.
    pub fn ecb(&self, way: Way, slot: u32, input: &[u8], output: &mut [u8]) -> Answer<()> {
        let block = exactly(input)?;
        demand(output.len() == 16, Refusal::GeneralError)?;
        let key = self.key_for(slot, Role::Cipher)?;
        output.copy_from_slice(&one_block(way, &key, &block));
        Ok(())
    }

    /// 4.7.2 and 4.7.4.
    pub fn cbc(&self, way: Way, slot: u32, iv: &[u8], input: &[u8], output: &mut [u8]) -> Answer<()> {
        let iv = check_cbc(iv, input, output)?;
        let key = self.key_for(slot, Role::Cipher)?;
        output.copy_from_slice(&many_blocks(way, &key, &iv, input));
        Ok(())
    }

    /// 4.7.5.
    pub fn generate_mac(&self, slot: u32, bits: u64, message: &[u8], output: &mut [u8]) -> Answer<()> {
        check_mac(bits, message, output)?;
        let key = self.key_for(slot, Role::Generate)?;
        output.copy_from_slice(&cmac(&key, bits, message));
        Ok(())
    }

    /// 4.7.6: the first `mac_bits` bits are compared, and all 128 for 0.
    pub fn verify_mac(&self, slot: u32, bits: u64, message: &[u8], mac: &[u8], mac_bits: u32) -> Answer<bool> {
        check_mac(bits, message, mac)?;
        demand(mac_bits <= 127, Refusal::GeneralError)?;
        let key = self.key_for(slot, Role::Verify)?;
        let compared = if mac_bits == 0 { 128 } else { mac_bits };
        let first_bits = |mac: &[u8]| u128::from_be_bytes(mac.try_into().unwrap()) >> (128 - compared);
        Ok(first_bits(&cmac(&key, bits, message)) == first_bits(mac))
    }

    /// 4.7.7 and 4.9. Nothing of the device and no buffer is touched before the last check is passed.
    pub fn load_key(&mut self, m1: &[u8], m2: &[u8], m3: &[u8], room: &mut ProofRoom) -> Answer<()> {
        let (m1, m2, m3) = (exactly(m1)?, exactly(m2)?, exactly(m3)?);
        room.check()?;
        let head = Head::unpack(&m1);
        let authority_key = self.authority_key(&head)?;
        demand(seal(&authority_key, &m1, &m2) == m3, Refusal::KeyUpdateError)?;
        demand(self.is_addressed(&head), Refusal::KeyUpdateError)?;
        let (first, new_key) = open(&authority_key, &m2);
        demand(first.filler == 0, Refusal::KeyUpdateError)?;
        demand(self.is_newer(&head, first.counter), Refusal::KeyUpdateError)?;
        let (counter, flags) = as_kept(head.target, first.counter, first.flags);
        self.slots[head.target as usize] = Some(Key { bytes: new_key, counter, flags, plain: false });
        room.fill(&proof(&Head { uid: self.uid, ..head }, counter, &new_key));
        Ok(())
    }

    /// The checks that need no key, in their order: pair (3), WRITE (6), authority empty (4) and locked (2). Gives the
    /// authority's key; an empty slot that authorises itself counts as 16 bytes of FF (house).
    fn authority_key(&self, head: &Head) -> Answer<Block> {
        demand(is_allowed(head.target, head.authority), Refusal::KeyInvalid)?;
        demand(self.flags(head.target) & WRITE == 0, Refusal::KeyWriteProtected)?;
        let authority = self.slots[head.authority as usize];
        if authority.is_none() && head.authority == head.target {
            return Ok([0xFF; 16]);
        }
        let key = authority.ok_or(Refusal::KeyEmpty)?;
        demand(!self.is_locked(&key), Refusal::KeyNotAvailable)?;
        Ok(key.bytes)
    }

    fn flags(&self, slot: u32) -> u8 {
        self.slots[slot as usize].map_or(0, |key| key.flags)
    }

    /// The identity is the device's own, or the wildcard where the target allows it. RAM_KEY has no flag that could forbid it.
    fn is_addressed(&self, head: &Head) -> bool {
        head.uid == self.uid || head.uid == [0; 15] && self.flags(head.target) & WILDCARD == 0
    }

    fn is_newer(&self, head: &Head, counter: u32) -> bool {
        head.target == RAM_KEY || counter > self.slots[head.target as usize].map_or(0, |key| key.counter)
    }

    /// 4.7.8.
    pub fn load_plain_key(&mut self, key: &[u8]) -> Answer<()> {
        let bytes = exactly(key)?;
        self.slots[RAM_KEY as usize] = Some(Key { bytes, counter: 0, flags: 0, plain: true });
        Ok(())
    }

    /// 4.7.9: a key message to this device itself.
    pub fn export_ram_key(&self, update_room: &mut UpdateRoom, proof_room: &mut ProofRoom) -> Answer<()> {
        update_room.check()?;
        proof_room.check()?;
        let key = self.slots[RAM_KEY as usize].ok_or(Refusal::KeyEmpty)?;
        demand(key.plain, Refusal::KeyInvalid)?;
        let head = Head { uid: self.uid, target: RAM_KEY, authority: SECRET_KEY };
        let first = FirstBlock { counter: 0, flags: 0, filler: 0 };
        update_room.fill(&update(&head, &self.secret_key(), &first, &key.bytes));
        proof_room.fill(&proof(&head, 0, &key.bytes));
        Ok(())
    }

    /// `read` and `make` leave no device without one.
    fn secret_key(&self) -> Block {
        self.slots[SECRET_KEY as usize].unwrap().bytes
    }

    /// 4.5.1.1 and 4.7.10; a second time before a reset is out of sequence (house).
    pub fn init_rng(&mut self) -> Answer<()> {
        demand(self.random.is_none(), Refusal::SequenceError)?;
        let secret_key = self.secret_key();
        self.seed = Aes::new(&kdf(&secret_key, &PRNG_SEED_KEY_C)).encrypt(&self.seed);
        self.random = Some(Random { state: self.seed, key: kdf(&secret_key, &PRNG_KEY_C) });
        Ok(())
    }

    /// 4.5.3 and 4.7.11: the state and the seed are extended alike.
    pub fn extend_seed(&mut self, entropy: &[u8]) -> Answer<()> {
        let entropy = exactly(entropy)?;
        let random = self.random.as_mut().ok_or(Refusal::RngSeed)?;
        random.state = extend(&random.state, &entropy);
        self.seed = extend(&self.seed, &entropy);
        Ok(())
    }

    /// 4.5.2 and 4.7.12.
    pub fn rnd(&mut self, output: &mut [u8]) -> Answer<()> {
        demand(output.len() == 16, Refusal::GeneralError)?;
        let random = self.random.as_mut().ok_or(Refusal::RngSeed)?;
        random.state = Aes::new(&random.key).encrypt(&random.state);
        output.copy_from_slice(&random.state);
        Ok(())
    }

    /// 4.7.13: a board without a BOOT_MAC learns its bootloader, and another compares. Once between resets (house).
    pub fn secure_boot(&mut self, bootloader: &[u8]) -> Answer<()> {
        demand((1..=MAX_BOOTLOADER).contains(&bootloader.len()), Refusal::GeneralError)?;
        demand(!self.boot.booted, Refusal::SequenceError)?;
        let mac_key = self.slots[BOOT_MAC_KEY as usize].ok_or(Refusal::NoSecureBoot)?;
        let boot_mac = self.slots[BOOT_MAC as usize];
        let is_free = |key: &Key| !self.is_locked(key);
        demand(is_free(&mac_key) && boot_mac.iter().all(is_free), Refusal::KeyNotAvailable)?;
        let mac = measure(&mac_key.bytes, bootloader);
        self.boot.booted = true;
        match boot_mac {
            None => self.learn(mac),
            Some(key) => self.judge(mac == key.bytes),
        }
        Ok(())
    }

    fn learn(&mut self, mac: Block) {
        self.slots[BOOT_MAC as usize] = Some(Key { bytes: mac, counter: 0, flags: 0, plain: false });
        self.boot.init = true;
    }

    /// Both of the last are written, whatever the record held.
    fn judge(&mut self, agrees: bool) {
        self.boot.secure_boot = true;
        self.boot.ok = agrees;
        self.boot.finished = !agrees;
    }

    /// 4.7.14: a later stage was found bad, which is as if the bootloader had been.
    pub fn boot_failure(&mut self) -> Answer<()> {
        self.finish_boot()?;
        self.boot.ok = false;
        Ok(())
    }

    /// 4.7.15: all later stages were found good.
    pub fn boot_ok(&mut self) -> Answer<()> {
        self.finish_boot()
    }

    /// After a check alone, and once.
    fn finish_boot(&mut self) -> Answer<()> {
        demand(self.boot.secure_boot, Refusal::NoSecureBoot)?;
        demand(!self.boot.finished, Refusal::SequenceError)?;
        self.boot.finished = true;
        Ok(())
    }

    /// 4.6: bit 0 would be BUSY; bit 5 is RND_INIT and bit 6 EXT_DEBUGGER.
    pub fn status(&self) -> u8 {
        let Boot { secure_boot, init, finished, ok, .. } = self.boot;
        let bits = [false, secure_boot, init, finished, ok, self.random.is_some(), self.debugger];
        bits.iter().enumerate().map(|(place, &is_on)| u8::from(is_on) << place).sum()
    }

    /// 4.7.17: the MAC is zero while there is no MASTER_ECU_KEY.
    pub fn get_id(&self, challenge: &[u8], output: &mut [u8]) -> Answer<()> {
        let challenge: Block = exactly(challenge)?;
        demand(output.len() == 32, Refusal::GeneralError)?;
        let identity = [&self.uid[..], &[self.status()]].concat();
        let mac = match self.slots[MASTER_ECU_KEY as usize] {
            None => [0; 16],
            Some(key) => {
                demand(!self.is_locked(&key), Refusal::KeyNotAvailable)?;
                cmac_of_bytes(&key.bytes, &[&challenge[..], &identity].concat())
            }
        };
        output.copy_from_slice(&[&identity[..], &mac].concat());
        Ok(())
    }
}

/// 4.10: the MAC of 96 zero bits, SIZE in 32 and the bootloader. SIZE counts bytes (house), and as a number of 128 bits it has the
/// zeros before it.
fn measure(key: &Block, bootloader: &[u8]) -> Block {
    let size = (bootloader.len() as u128).to_be_bytes();
    cmac_of_bytes(key, &[&size, bootloader].concat())
}

/// Table 4.4, for the commands that name a slot.
#[derive(Clone, Copy, PartialEq)]
pub enum Role {
    Cipher,
    Generate,
    Verify,
}

impl Role {
    fn is_mac(self) -> bool {
        self != Role::Cipher
    }

    /// Whether the slot, whatever its flags, can have this role at all.
    pub fn is_open_to(self, slot: u32) -> bool {
        is_key_n(slot) || slot == RAM_KEY || self == Role::Verify && slot == BOOT_MAC_KEY
    }
}
