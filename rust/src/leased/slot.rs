//! The bytes of a slot: two copies of one record, each with a checksum.

use crate::engine::Stored;
use crate::leased::uptime::{Boot, Window};
use crate::system::read_whole;
use std::fs::File;

/// How many bytes a slot has, and each of its copies.
pub(crate) const SIZE: usize = 2 * COPY;
const COPY: usize = 512;

const MAGIC: &[u8; 16] = b"hikebox slot 1\n\0";
const TURN: usize = 16;
const WINDOW: usize = 24;
const GIVEN: usize = 32;
const ASKED: usize = 40;
const BOOT: usize = 48;
const LENGTH: usize = 84;
const KEY: usize = 88;
const FILE: usize = 504;
const CHECK: usize = 508;
/// How many bytes there are for a key.
const MAX_KEY: usize = 416;

/// What a slot keeps: what it is of, its counts, and how often they changed.
#[derive(Clone, Debug, PartialEq, Eq)]
pub(crate) struct Record {
    key: String,
    turn: u64,
    boot: Boot,
    window: u64,
    given: u64,
    asked: u64,
    /// A random number that the file is made with: one that is made anew has another.
    file: u32,
}

impl Record {
    /// One of this key, which has at most 416 bytes, with nothing counted, in a file of this number.
    pub(crate) fn new(key: &str, window: Option<&Window>, file: u32) -> Self {
        debug_assert!(key.len() <= MAX_KEY);
        let mut record = Self { key: key.to_owned(), turn: 0, boot: [0; 36], window: 0, given: 0, asked: 0, file };
        record.be_of(window);
        record
    }

    /// The copy of the slot that was written last, of those that are right: of this key, where one is named. `None`
    /// where neither is, or the file is not as long as a slot.
    pub(crate) fn read(slot: &File, key: Option<&str>) -> Option<Self> {
        let mut bytes = [0; SIZE + 1];
        if read_whole(slot, &mut bytes).ok()? != SIZE {
            return None;
        }
        let copies = bytes.chunks_exact(COPY).filter_map(Self::of_bytes);
        copies.filter(|copy| key.map_or(true, |key| copy.key == key)).max_by_key(|copy| copy.turn)
    }

    fn of_bytes(copy: &[u8]) -> Option<Self> {
        let number = |at: usize| copy.get(at..at + 8)?.try_into().map(u64::from_le_bytes).ok();
        let check = u32::from_le_bytes(copy.get(CHECK..)?.try_into().ok()?);
        if !copy.starts_with(MAGIC) || crc32fast::hash(&copy[..CHECK]) != check {
            return None;
        }
        let length = usize::from(u16::from_le_bytes(copy[LENGTH..LENGTH + 2].try_into().ok()?));
        let key = std::str::from_utf8(copy[KEY..KEY + MAX_KEY].get(..length)?).ok()?.to_owned();
        let boot = copy[BOOT..LENGTH].try_into().ok()?;
        Some(Self {
            key,
            turn: number(TURN)?,
            boot,
            window: number(WINDOW)?,
            given: number(GIVEN)?,
            asked: number(ASKED)?,
            file: u32::from_le_bytes(copy[FILE..CHECK].try_into().ok()?),
        })
    }

    /// The whole slot.
    pub(crate) fn to_bytes(&self) -> [u8; SIZE] {
        let mut slot = [0; SIZE];
        let (copy, other) = slot.split_at_mut(COPY);
        let mut put = |at: usize, bytes: &[u8]| copy[at..at + bytes.len()].copy_from_slice(bytes);
        put(0, MAGIC);
        for (at, number) in [(TURN, self.turn), (WINDOW, self.window), (GIVEN, self.given), (ASKED, self.asked)] {
            put(at, &number.to_le_bytes());
        }
        put(BOOT, &self.boot);
        put(LENGTH, &(self.key.len() as u16).to_le_bytes());
        put(KEY, self.key.as_bytes());
        put(FILE, &self.file.to_le_bytes());
        let check = crc32fast::hash(&copy[..CHECK]);
        copy[CHECK..].copy_from_slice(&check.to_le_bytes());
        other.copy_from_slice(copy);
        slot
    }

    /// What is stored as a whole, or of the window that was counted last: nothing where that is of another start of the
    /// machine.
    pub(crate) fn stored(&self, window: Option<&Window>) -> Stored {
        if window.map_or(true, |window| window.boot == self.boot) {
            Stored { window: self.window, given: self.given, asked: self.asked }
        } else {
            Stored::default()
        }
    }

    /// The number of its file.
    pub(crate) fn file(&self) -> u32 {
        self.file
    }

    /// Whether there is no turn after its own: something else wrote it then.
    pub(crate) fn is_last(&self) -> bool {
        self.turn == u64::MAX
    }

    /// The next turn, with these counts, as a whole or of a window.
    pub(crate) fn set(&mut self, window: Option<&Window>, stored: Stored) {
        self.turn += 1;
        self.be_of(window);
        (self.window, self.given, self.asked) = (stored.window, stored.given, stored.asked);
    }

    fn be_of(&mut self, window: Option<&Window>) {
        if let Some(Window { boot, number, .. }) = window {
            (self.boot, self.window) = (*boot, *number);
        }
    }

    /// Whether its window is over for good at this moment, and the next one is: of another start of the machine each
    /// is. What has no windows is never over.
    pub(crate) fn is_over(&self, boot: &Boot, now: u64) -> bool {
        match self.period() {
            Some(period) => self.boot != *boot || self.window.saturating_add(2).saturating_mul(period) <= now,
            None => false,
        }
    }

    /// How many milliseconds its windows are long, as its key says.
    fn period(&self) -> Option<u64> {
        let key = self.key.strip_prefix("windows of ").or_else(|| self.key.strip_prefix("quota of "))?;
        key.split_once(" ms of ")?.0.parse().ok()
    }
}
