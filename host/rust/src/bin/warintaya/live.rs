//! An input that may pause: a thread of its own reads it, and a frame waits for packets no longer than its time on the air.

use std::sync::atomic::{AtomicU64, Ordering};
use std::sync::mpsc::{sync_channel, Receiver, RecvTimeoutError, SyncSender};
use std::sync::Arc;
use std::thread;
use std::time::{Duration, Instant};

use warintaya::PACKET;

use crate::failure::{Failure, Outcome};
use crate::files::Input;
use crate::packets::{Notes, Packets};
use crate::signals;

/// What the thread has read: a packet and the place behind it, what there is to say, or why it can't go on.
enum Item {
    Packet([u8; PACKET], u64),
    Noted(Notes),
    Failed(Failure),
}

/// The end of the thread's channel that frames are filled from.
pub struct Live {
    items: Receiver<Item>,
    pub notes: Notes,
    /// How far the thread has read, and the place behind the last packet that was filled in.
    read: Arc<AtomicU64>,
    taken: u64,
    /// The time of a frame, and when the next one goes out at the latest.
    time: Duration,
    due: Instant,
}

/// Reads packets until the input ends, fails, or nobody wants more.
fn read(mut input: Input, mut packets: Packets, items: &SyncSender<Item>) {
    let mut more = true;
    while more {
        let mut packet = [0; PACKET];
        let read = match packets.fill(&mut input, &mut packet) {
            Ok(PACKET) => Some(Item::Packet(packet, packets.place())),
            Ok(_) => None,
            Err(failure) => Some(Item::Failed(failure)),
        };
        more = matches!(read, Some(Item::Packet(..)));
        let noted = !more || !packets.notes.lines.is_empty();
        let noted = noted.then(|| Item::Noted(packets.notes.clone()));
        packets.notes.lines.clear();
        let wanted = |item| items.send(item).is_ok();
        more &= noted.into_iter().chain(read).all(wanted);
    }
}

impl Live {
    /// Begins to read. As many packets as a frame has may wait, so that the layers do not wait for each other.
    pub fn start(input: &Input, packets: Packets, count: usize, time: Duration) -> Outcome<Live> {
        let (sender, items) = sync_channel(count);
        let (input, read_so_far) = input.elsewhere()?;
        let taken = input.place;
        // nobody waits for the thread: it ends with the command, also where its input goes on
        thread::spawn(move || read(input, packets, &sender));
        Ok(Live {
            items,
            notes: Notes::default(),
            read: read_so_far,
            taken,
            time,
            due: Instant::now() + time,
        })
    }

    /// Fills an area with packets until it is full, a frame is due, or the input ends. Says how many bytes that are, and whether
    /// it has ended.
    pub fn fill(&mut self, area: &mut [u8]) -> Outcome<(usize, bool)> {
        let mut filled = 0;
        while filled < area.len() {
            signals::check()?;
            let left = self.due.saturating_duration_since(Instant::now());
            match self.items.recv_timeout(left) {
                Ok(Item::Packet(packet, place)) => {
                    self.taken = place;
                    area[filled..filled + PACKET].copy_from_slice(&packet);
                    filled += PACKET;
                }
                Ok(Item::Noted(notes)) => self.note(notes),
                Ok(Item::Failed(failure)) => return Err(failure),
                Err(RecvTimeoutError::Timeout) => break,
                Err(RecvTimeoutError::Disconnected) => return Ok((filled, true)),
            }
        }
        self.next_due();
        Ok((filled, false))
    }

    /// How far has been read, and how much of it is ahead of the packets that were filled in.
    pub fn places(&self) -> (u64, u64) {
        let read = self.read.load(Ordering::SeqCst);
        (read, read - self.taken)
    }

    /// Takes over what there is to say, and keeps what has not been told yet.
    fn note(&mut self, notes: Notes) {
        let lines = std::mem::take(&mut self.notes.lines);
        self.notes = notes;
        self.notes.lines.splice(0..0, lines);
    }

    /// The next frame is due a frame's time behind this one. A frame that went out a little late does not shift those behind it.
    fn next_due(&mut self) {
        let now = Instant::now();
        let late = now.saturating_duration_since(self.due);
        let on_time = now >= self.due && late < self.time;
        self.due = if on_time { self.due } else { now } + self.time;
    }
}
