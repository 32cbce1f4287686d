//! The foreman's book about one bus: what he knows of its keys and counters, and which of his messages wait for their proof.
//!
//! A `Book` is an open one. What a record must fulfil to count as open is built into the type (a key or none, a message or none) or
//! checked in `Book::read`, which asks of a message that waits what `Book::write_key` asks of a new one.

use crate::aes::Block;
use crate::answer::{demand, exactly, Answer, Refusal};
use crate::device::mark;
use crate::messages::*;

const MARKS: usize = 4;
const OPEN: [u8; MARKS] = [1, 0, 0, 0];

/// MASTER_ECU_KEY to KEY_10.
const COUNTERS: usize = 13;

/// The book as it is lent and stored: the layout of the C header, without a byte between its parts or after them.
#[repr(C)]
pub struct Page {
    keys: [u8; 16 * SLOTS],
    new_keys: [u8; 16 * SLOTS],
    pub counters: [u32; SLOTS],
    pub new_counters: [u32; SLOTS],
    pub held: [u8; SLOTS],
    waits: [u8; SLOTS],
    authorities: [u8; SLOTS],
    uid: Uid,
    marks: [u8; MARKS],
}

const _: () = assert!(std::mem::size_of::<Page>() == 664);

/// A message on its way, as far as its proof will show it.
#[derive(Clone, Copy, PartialEq)]
struct Sent {
    authority: u32,
    counter: u32,
    new_key: Block,
}

/// What stands on the page where no message waits.
const NOTHING_SENT: Sent = Sent { authority: 0, counter: 0, new_key: [0; 16] };

#[derive(Clone, Copy)]
struct Line {
    key: Option<Block>,
    counter: u32,
    sent: Option<Sent>,
}

pub struct Book {
    uid: Uid,
    lines: [Line; SLOTS],
}

fn block_of(blocks: &[u8; 16 * SLOTS], slot: usize) -> Block {
    exactly(&blocks[16 * slot..][..16]).unwrap()
}

impl Page {
    /// All zero, and not open.
    pub const BLANK: Page = Page {
        keys: [0; 16 * SLOTS],
        new_keys: [0; 16 * SLOTS],
        counters: [0; SLOTS],
        new_counters: [0; SLOTS],
        held: [0; SLOTS],
        waits: [0; SLOTS],
        authorities: [0; SLOTS],
        uid: [0; 15],
        marks: [0; MARKS],
    };

    /// A call works on a copy, which goes onto the page only where the call succeeds.
    pub fn call<T>(&mut self, act: impl FnOnce(&mut Book) -> Answer<T>) -> Answer<T> {
        let mut book = Book::read(self).ok_or(Refusal::GeneralError)?;
        let given = act(&mut book)?;
        book.write(self);
        Ok(given)
    }

    /// What is known of a slot, or nothing at all if no open book says so. SECRET_KEY and RAM_KEY have no counter.
    fn known(&self, slot: usize) -> Option<Line> {
        let (key, counter) = (block_of(&self.keys, slot), self.counters[slot]);
        let is_held = mark(self.held[slot])?;
        let has_right_counter = if has_counter(slot as u32) { counter <= MAX_COUNTER } else { counter == 0 };
        let has_right_key = is_held || key == [0; 16];
        let line = Line { key: is_held.then_some(key), counter, sent: None };
        (has_right_counter && has_right_key).then_some(line)
    }

    /// The message that waits for a slot, or nothing at all if the book could not have sent it.
    fn sent(&self, slot: usize, book: &Book) -> Option<Option<Sent>> {
        let (authority, counter) = (self.authorities[slot].into(), self.new_counters[slot]);
        let sent = Sent { authority, counter, new_key: block_of(&self.new_keys, slot) };
        if mark(self.waits[slot])? {
            let (_, next) = book.terms(slot as u32, authority).ok()?;
            return (counter == next).then_some(Some(sent));
        }
        (sent == NOTHING_SENT).then_some(None)
    }
}

impl Book {
    /// The book that a page holds, if it counts as open. What waits is looked at last: it depends on what is known of other slots.
    fn read(page: &Page) -> Option<Book> {
        if page.marks != OPEN || page.uid == [0; 15] {
            return None;
        }
        let mut book = Book { uid: page.uid, lines: [Line { key: None, counter: 0, sent: None }; SLOTS] };
        for slot in 0..SLOTS {
            book.lines[slot] = page.known(slot)?;
        }
        for slot in 0..SLOTS {
            book.lines[slot].sent = page.sent(slot, &book)?;
        }
        Some(book)
    }

    pub fn write(&self, page: &mut Page) {
        for (slot, line) in self.lines.iter().enumerate() {
            let sent = line.sent.unwrap_or(NOTHING_SENT);
            page.keys[16 * slot..][..16].copy_from_slice(&line.key.unwrap_or([0; 16]));
            page.new_keys[16 * slot..][..16].copy_from_slice(&sent.new_key);
            page.counters[slot] = line.counter;
            page.new_counters[slot] = sent.counter;
            page.held[slot] = line.key.is_some().into();
            page.waits[slot] = line.sent.is_some().into();
            page.authorities[slot] = sent.authority as u8;
        }
        page.uid = self.uid;
        page.marks = OPEN;
    }

    /// A mark for each slot says whether its key is held; what is lent in the place of one that isn't doesn't count.
    pub fn open(uid: &[u8], keys: &[u8], held: &[u8], counters: &[u32]) -> Answer<Book> {
        let (uid, keys) = (exactly(uid)?, exactly(keys)?);
        let held: [u8; SLOTS] = exactly(held)?;
        let counters: [u32; COUNTERS] = exactly(counters)?;
        demand(uid != [0; 15], Refusal::GeneralError)?;
        demand(counters.iter().all(|&counter| counter <= MAX_COUNTER), Refusal::GeneralError)?;
        let mut lines = [Line { key: None, counter: 0, sent: None }; SLOTS];
        for (slot, line) in lines.iter_mut().enumerate() {
            let is_held = mark(held[slot]).ok_or(Refusal::GeneralError)?;
            line.key = is_held.then_some(block_of(&keys, slot));
        }
        for (line, counter) in lines[MASTER_ECU_KEY as usize..].iter_mut().zip(counters) {
            line.counter = counter;
        }
        Ok(Book { uid, lines })
    }

    /// The key and the counter that a message is written with. Refusals in their order: pair (3), a key that isn't held (4), a
    /// counter past the largest (7). A slot that isn't held counts as 16 bytes of FF to itself.
    fn terms(&self, target: u32, authority: u32) -> Answer<(Block, u32)> {
        demand(is_allowed(target, authority), Refusal::KeyInvalid)?;
        let otherwise = if authority == target { Ok([0xFF; 16]) } else { Err(Refusal::KeyEmpty) };
        let key = self.lines[authority as usize].key.map_or(otherwise, Ok)?;
        let (counter, _) = as_kept(target, self.lines[target as usize].counter + 1, 0);
        demand(counter <= MAX_COUNTER, Refusal::KeyUpdateError)?;
        Ok((key, counter))
    }

    /// M1 to M3 for this bus. The message waits from now on, and none before it for the same target.
    pub fn write_key(&mut self, target: u32, authority: u32, flags: u32, new_key: &[u8], room: &mut UpdateRoom) -> Answer<()> {
        let new_key = exactly(new_key)?;
        room.check()?;
        demand(flags <= ALL_FLAGS.into(), Refusal::GeneralError)?;
        let (key, counter) = self.terms(target, authority)?;
        let head = Head { uid: self.uid, target, authority };
        let first = FirstBlock { counter, flags: flags as u8, filler: 0 };
        room.fill(&update(&head, &key, &first, &new_key));
        self.lines[target as usize].sent = Some(Sent { authority, counter, new_key });
        Ok(())
    }

    /// Whether these are the proof of the message that waits; if so, what it brought is known.
    pub fn judge(&mut self, target: u32, m4: &[u8], m5: &[u8]) -> Answer<bool> {
        let (m4, m5): (TwoBlocks, Block) = (exactly(m4)?, exactly(m5)?);
        demand((MASTER_ECU_KEY..=RAM_KEY).contains(&target), Refusal::KeyInvalid)?;
        let awaited = self.lines[target as usize].sent.filter(|sent| {
            let expected = proof(&Head { uid: self.uid, target, authority: sent.authority }, sent.counter, &sent.new_key);
            expected.m4 == m4 && expected.m5 == m5
        });
        if let Some(Sent { counter, new_key, .. }) = awaited {
            self.lines[target as usize] = Line { key: Some(new_key), counter, sent: None };
        }
        Ok(awaited.is_some())
    }
}
