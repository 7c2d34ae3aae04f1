//! Document 01's question and reply, by definition: collect the visible bays, sort, filter, take.
use crate::floor::{self, Slot};
use crate::measures::{in_range, mindist};

#[derive(Clone, Copy)]
pub struct Question {
    pub x: i32,
    pub y: i32,
    pub k: u32,
    pub badge: u32,
    pub mark: (u64, u32),
}

/// A bay as it is listed: squared distance, then number, then zone; a list of them sorts as document 01 has it.
pub type Listed = (u64, u32, u8);

/// A map with what document 01 says of it.
pub struct Hall {
    pub bytes: Vec<u8>,
    pub verdict: (u32, usize),
    pub entries: Vec<Slot>,
}

impl Hall {
    pub fn new(bytes: Vec<u8>) -> Hall {
        let verdict = floor::check(&bytes);
        let entries = if verdict.0 == 0 { floor::entries(&bytes) } else { vec![] };
        Hall { bytes, verdict, entries }
    }

    /// Every bay that a badge sees from a point, in order.
    pub fn whole_list(&self, x: i32, y: i32, badge: u32) -> Vec<Listed> {
        let visible = self.entries.iter().filter(|s| badge >> s.zone & 1 == 1);
        let mut list: Vec<Listed> = visible.map(|s| (mindist([x, y], [s.x, s.y]), s.reference, s.zone)).collect();
        list.sort();
        list
    }

    /// The answer's number for a room of so many bytes.
    fn answer(&self, q: &Question, room: usize) -> u32 {
        let zones = q.badge.count_ones();
        if !in_range(q.x) || !in_range(q.y) {
            1
        } else if !(1..=100).contains(&q.k) {
            2
        } else if zones == 0 || (9..=31).contains(&zones) {
            3
        } else if room < 16 * q.k as usize {
            4
        } else if self.verdict.0 != 0 {
            5
        } else {
            0
        }
    }

    /// The answer and the page; the room as the reply leaves it.
    pub fn reply(&self, q: &Question, room: &mut [u8]) -> (u32, Vec<Listed>) {
        let answer = self.answer(q, room.len());
        if answer != 0 {
            return (answer, vec![]);
        }
        let after = |e: &Listed| (e.0, e.1) > q.mark;
        let page: Vec<Listed> = self.whole_list(q.x, q.y, q.badge).into_iter().filter(after).take(q.k as usize).collect();
        room[..16 * q.k as usize].fill(0);
        for (record, (dsq, bay, zone)) in room.chunks_mut(16).zip(&page) {
            record[0..4].copy_from_slice(&bay.to_le_bytes());
            record[4] = *zone;
            record[8..16].copy_from_slice(&dsq.to_le_bytes());
        }
        (answer, page)
    }
}
