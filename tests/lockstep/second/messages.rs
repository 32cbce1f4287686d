//! Slots, allowed pairs, and the messages M1 to M5 of the memory update protocol (001, 4.9), for both sides.

use crate::aes::{Aes, Block};
use crate::answer::{demand, exactly, Answer, Refusal};
use crate::modes::{cbc_decrypt, cbc_encrypt, cmac_of_bytes, kdf, KEY_UPDATE_ENC_C, KEY_UPDATE_MAC_C};

pub type Uid = [u8; 15];
pub type TwoBlocks = [u8; 32];

/// Table 4.1. Slot numbers are as wide as they come and never masked, so that 104 hex is no slot and not KEY_1.
pub const SECRET_KEY: u32 = 0;
pub const MASTER_ECU_KEY: u32 = 1;
pub const BOOT_MAC_KEY: u32 = 2;
pub const BOOT_MAC: u32 = 3;
pub const KEY_1: u32 = 4;
pub const KEY_10: u32 = 13;
pub const RAM_KEY: u32 = 14;
pub const SLOTS: usize = 15;

/// 4.4: the counter has 2^28 states.
pub const MAX_COUNTER: u32 = (1 << 28) - 1;

/// 4.9.1 gives the order of the flags; read as a number of five bits they have these values.
pub const WRITE: u8 = 16;
pub const BOOT: u8 = 8;
pub const DEBUGGER: u8 = 4;
pub const KEY_USAGE: u8 = 2;
pub const WILDCARD: u8 = 1;
pub const ALL_FLAGS: u8 = WRITE | BOOT | DEBUGGER | KEY_USAGE | WILDCARD;

pub fn is_key_n(slot: u32) -> bool {
    (KEY_1..=KEY_10).contains(&slot)
}

/// 4.4: SECRET_KEY has no counter, and neither has RAM_KEY.
pub fn has_counter(slot: u32) -> bool {
    (MASTER_ECU_KEY..=KEY_10).contains(&slot)
}

/// Table 4.3: the flags that a slot has. Others are accepted in a message and stored as 0.
pub fn flags_of(slot: u32) -> u8 {
    match slot {
        MASTER_ECU_KEY => WRITE | BOOT | DEBUGGER | WILDCARD,
        BOOT_MAC_KEY | BOOT_MAC => WRITE | DEBUGGER | WILDCARD,
        KEY_1..=KEY_10 => ALL_FLAGS,
        _ => 0,
    }
}

/// Table 4.5: who may authorise the update of whom.
pub fn is_allowed(target: u32, authority: u32) -> bool {
    match target {
        MASTER_ECU_KEY => authority == MASTER_ECU_KEY,
        BOOT_MAC_KEY | BOOT_MAC => authority == MASTER_ECU_KEY || authority == BOOT_MAC_KEY,
        KEY_1..=KEY_10 => authority == MASTER_ECU_KEY || authority == target,
        RAM_KEY => is_key_n(authority) || authority == SECRET_KEY,
        _ => false,
    }
}

/// The counter and the flags with which a slot is left by a message that says these. RAM_KEY has neither (4.9.1, last sentence).
pub fn as_kept(target: u32, counter: u32, flags: u8) -> (u32, u8) {
    (if has_counter(target) { counter } else { 0 }, flags & flags_of(target))
}

/// What the first block of M2 says (4.9.1): 28 bits counter, five flags, and 95 bits that ought to be zero.
#[derive(Clone, Copy)]
pub struct FirstBlock {
    pub counter: u32,
    pub flags: u8,
    pub filler: u128,
}

impl FirstBlock {
    pub fn pack(&self) -> Block {
        ((self.counter as u128) << 100 | (self.flags as u128) << 95 | self.filler).to_be_bytes()
    }

    pub fn unpack(block: Block) -> FirstBlock {
        let number = u128::from_be_bytes(block);
        FirstBlock { counter: (number >> 100) as u32, flags: (number >> 95) as u8 & ALL_FLAGS, filler: number & ((1 << 95) - 1) }
    }
}

/// M1: an identity, and the two slots in four bits each.
pub struct Head {
    pub uid: Uid,
    pub target: u32,
    pub authority: u32,
}

impl Head {
    pub fn pack(&self) -> Block {
        let mut m1 = [0; 16];
        m1[..15].copy_from_slice(&self.uid);
        m1[15] = (16 * self.target + self.authority) as u8;
        m1
    }

    pub fn unpack(m1: &Block) -> Head {
        Head { uid: exactly(&m1[..15]).unwrap(), target: (m1[15] / 16).into(), authority: (m1[15] % 16).into() }
    }
}

/// M3: the CMAC of M1 and M2 under K2.
pub fn seal(authority_key: &Block, m1: &Block, m2: &TwoBlocks) -> Block {
    cmac_of_bytes(&kdf(authority_key, &KEY_UPDATE_MAC_C), &[&m1[..], m2].concat())
}

/// The clear text of M2.
pub fn open(authority_key: &Block, m2: &TwoBlocks) -> (FirstBlock, Block) {
    let clear = cbc_decrypt(&kdf(authority_key, &KEY_UPDATE_ENC_C), &[0; 16], m2);
    (FirstBlock::unpack(exactly(&clear[..16]).unwrap()), exactly(&clear[16..]).unwrap())
}

/// M1, M2 and M3.
pub struct Update {
    pub m1: Block,
    pub m2: TwoBlocks,
    pub m3: Block,
}

pub fn update(head: &Head, authority_key: &Block, first: &FirstBlock, new_key: &Block) -> Update {
    let m1 = head.pack();
    let clear = [first.pack(), *new_key].concat();
    let m2 = exactly(&cbc_encrypt(&kdf(authority_key, &KEY_UPDATE_ENC_C), &[0; 16], &clear)).unwrap();
    Update { m1, m2, m3: seal(authority_key, &m1, &m2) }
}

/// M4 and M5.
pub struct Proof {
    pub m4: TwoBlocks,
    pub m5: Block,
}

/// 4.9.2. The head names the board's own UID, also after a wildcard, and the counter is the one that the slot keeps.
pub fn proof(head: &Head, counter: u32, new_key: &Block) -> Proof {
    let clear = ((counter as u128) << 100 | 1 << 99).to_be_bytes();
    let hidden = Aes::new(&kdf(new_key, &KEY_UPDATE_ENC_C)).encrypt(&clear);
    let m4: TwoBlocks = exactly(&[head.pack(), hidden].concat()).unwrap();
    Proof { m4, m5: cmac_of_bytes(&kdf(new_key, &KEY_UPDATE_MAC_C), &m4) }
}

/// The buffers for M1 to M3 or for M4 and M5, as they are lent: of any length.
pub struct UpdateRoom<'a> {
    pub m1: &'a mut [u8],
    pub m2: &'a mut [u8],
    pub m3: &'a mut [u8],
}

pub struct ProofRoom<'a> {
    pub m4: &'a mut [u8],
    pub m5: &'a mut [u8],
}

impl UpdateRoom<'_> {
    pub fn check(&self) -> Answer<()> {
        demand((self.m1.len(), self.m2.len(), self.m3.len()) == (16, 32, 16), Refusal::GeneralError)
    }

    /// Only after `check`: this is the last step of a call that succeeds.
    pub fn fill(&mut self, update: &Update) {
        self.m1.copy_from_slice(&update.m1);
        self.m2.copy_from_slice(&update.m2);
        self.m3.copy_from_slice(&update.m3);
    }
}

impl ProofRoom<'_> {
    pub fn check(&self) -> Answer<()> {
        demand((self.m4.len(), self.m5.len()) == (32, 16), Refusal::GeneralError)
    }

    pub fn fill(&mut self, proof: &Proof) {
        self.m4.copy_from_slice(&proof.m4);
        self.m5.copy_from_slice(&proof.m5);
    }
}

/// What the sender says to the writer, as it comes: nothing is looked at yet.
pub struct Order<'a> {
    pub uid: &'a [u8],
    pub target: u32,
    pub authority: u32,
    pub authority_key: &'a [u8],
    pub counter: u64,
    pub flags: u32,
    pub new_key: &'a [u8],
}

fn narrow_counter(counter: u64) -> Answer<u32> {
    demand(counter <= MAX_COUNTER.into(), Refusal::GeneralError)?;
    Ok(counter as u32)
}

/// The writer. Refusals in the order 12 (lengths, counter, flags), 3 (pair).
pub fn write_key(order: &Order, room: &mut UpdateRoom) -> Answer<()> {
    let uid = exactly(order.uid)?;
    let authority_key = exactly(order.authority_key)?;
    let new_key = exactly(order.new_key)?;
    room.check()?;
    let counter = narrow_counter(order.counter)?;
    demand(order.flags <= ALL_FLAGS.into(), Refusal::GeneralError)?;
    demand(is_allowed(order.target, order.authority), Refusal::KeyInvalid)?;
    let head = Head { uid, target: order.target, authority: order.authority };
    let first = FirstBlock { counter, flags: order.flags as u8, filler: 0 };
    room.fill(&update(&head, &authority_key, &first, &new_key));
    Ok(())
}

/// The short form: no flags.
pub fn write_key_short(order: &Order, room: &mut UpdateRoom) -> Answer<()> {
    write_key(&Order { flags: 0, ..*order }, room)
}

/// The fleet sheet: the short form with the wildcard for an identity.
pub fn fleet_sheet(order: &Order, room: &mut UpdateRoom) -> Answer<()> {
    write_key_short(&Order { uid: &[0; 15], ..*order }, room)
}

/// The proof that the board will give of such a message, with the counter as the target keeps it. Refusals in the same order.
pub fn write_proof(uid: &[u8], target: u32, authority: u32, counter: u64, new_key: &[u8], room: &mut ProofRoom) -> Answer<()> {
    let (uid, new_key) = (exactly(uid)?, exactly(new_key)?);
    room.check()?;
    let counter = narrow_counter(counter)?;
    demand(is_allowed(target, authority), Refusal::KeyInvalid)?;
    let (kept, _) = as_kept(target, counter, 0);
    room.fill(&proof(&Head { uid, target, authority }, kept, &new_key));
    Ok(())
}
