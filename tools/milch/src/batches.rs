//! Records that are played in one thread and shown in another, since both take
//! about as long.

use std::mem;
use std::sync::mpsc::{self, Receiver as Channel, SyncSender};

use milchkompass::{Played, Replay};

use crate::failure::Outcome;
use crate::line::Shown;
use crate::words::{start_of, Reading};
use crate::RECORD;

/// How many records go over at once, and how many times that may wait.
const BATCH: usize = 128;
const WAITING: usize = 8;

/// A record that was played, and the session after it.
struct Item {
    number: u64,
    record: [u8; RECORD],
    length: usize,
    played: Played,
    after: Replay,
}

/// The session before the first item, the items in use, and behind them old ones,
/// whose memory is used again.
struct Batch {
    before: Replay,
    items: Vec<Item>,
    used: usize,
}

/// The player's end. What is left is sent when it is dropped.
pub struct Sender {
    full: SyncSender<Batch>,
    empty: Channel<Batch>,
    batch: Batch,
    /// The other end is gone.
    cut_off: bool,
}

/// The end of who shows.
pub struct Receiver {
    full: Channel<Batch>,
    empty: mpsc::Sender<Batch>,
}

/// Both ends, for records that are played from here on.
pub fn exchange(replay: &Replay) -> (Sender, Receiver) {
    let (full, filled) = mpsc::sync_channel(WAITING);
    let (emptied, empty) = mpsc::channel();
    let sender = Sender {
        full,
        empty,
        batch: Batch::new(replay),
        cut_off: false,
    };
    let receiver = Receiver {
        full: filled,
        empty: emptied,
    };
    (sender, receiver)
}

impl Batch {
    fn new(replay: &Replay) -> Batch {
        Batch {
            before: replay.clone(),
            items: Vec::with_capacity(BATCH),
            used: 0,
        }
    }

    /// An item behind those in use. What it holds is old.
    fn spare(&mut self, replay: &Replay) -> &mut Item {
        if self.used == self.items.len() {
            let mut after = replay.clone();
            self.items.push(Item {
                number: 0,
                record: [0; RECORD],
                length: 0,
                played: after.next(&[]),
                after,
            });
        }
        &mut self.items[self.used]
    }

    /// What is shown of an item. The reason of a start that was accepted is asked
    /// for here; then all records before it in the batch are items too.
    fn shown(&self, place: usize) -> Shown<'_> {
        let item = &self.items[place];
        let before = match place {
            0 => &self.before,
            _ => &self.items[place - 1].after,
        };
        let record = &item.record[..item.length];
        let start = start_of(record).filter(|_| item.played.refusal().is_none());
        Shown {
            record,
            reading: Reading::Player,
            played: item.played,
            before,
            after: &item.after,
            reason: start.and_then(|(screen, flags)| before.why(screen, flags).ok()),
        }
    }
}

impl Sender {
    /// Plays the record at the start of these bytes, and sends it: each, or each
    /// that is refused. Gives how many bytes it took.
    pub fn play(&mut self, number: u64, replay: &mut Replay, bytes: &[u8], refused: bool) -> usize {
        if self.batch.used == 0 {
            self.batch.before.clone_from(replay);
        }
        let item = self.batch.spare(replay);
        item.played = replay.next(bytes);
        let used = item.played.used();
        if !refused || item.played.refusal().is_some() {
            item.number = number;
            item.record[..used].copy_from_slice(&bytes[..used]);
            item.length = used;
            item.after.clone_from(replay);
            self.batch.used += 1;
        }
        if self.batch.used == BATCH {
            self.send();
        }
        used
    }

    /// Whether nobody takes what is sent.
    pub fn is_cut_off(&self) -> bool {
        self.cut_off
    }

    fn send(&mut self) {
        let next = self.empty.try_recv();
        let mut next = next.unwrap_or_else(|_| Batch::new(&self.batch.before));
        next.used = 0;
        let full = mem::replace(&mut self.batch, next);
        self.cut_off = self.full.send(full).is_err();
    }
}

impl Drop for Sender {
    fn drop(&mut self) {
        self.send();
    }
}

impl Receiver {
    /// Does something with each record, in their order, up to the first failure.
    pub fn each(self, mut show: impl FnMut(u64, &Shown) -> Outcome) -> Outcome {
        while let Ok(batch) = self.full.recv() {
            for place in 0..batch.used {
                show(batch.items[place].number, &batch.shown(place))?;
            }
            // The player may have ended.
            let _ = self.empty.send(batch);
        }
        Ok(())
    }
}
