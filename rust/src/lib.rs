//! The station's library for Rust hosts: the nearest bays that a badge may see, checked maps, and three measures.
//!
//! Every function here takes any input and ends; what it gives is proved (`crates/station` in the repository). The
//! functions are safe: they pass slices on as they are, and the library writes to the answer room alone.

mod ffi {
    extern "C" {
        pub fn krylozhma_check(map: *const u8, map_len: usize) -> u64;
        pub fn krylozhma_ask(
            map: *const u8,
            map_len: usize,
            x: i32,
            y: i32,
            k: u32,
            badge: u32,
            after_dsq: u64,
            after_bay: u32,
            room: *mut u8,
            room_len: usize,
        ) -> u64;
        pub fn krylozhma_measure_answer(x: i32, y: i32, xlow: i32, xhigh: i32, ylow: i32, yhigh: i32) -> u32;
        pub fn krylozhma_mindist(x: i32, y: i32, xlow: i32, xhigh: i32, ylow: i32, yhigh: i32) -> u64;
        pub fn krylozhma_minmaxdist(x: i32, y: i32, xlow: i32, xhigh: i32, ylow: i32, yhigh: i32) -> u64;
        pub fn krylozhma_plain(dsq: u64) -> u64;
    }
}

/// The map check's answer: 0 and 0, or the first broken rule and the lowest node at fault.
#[derive(Clone, Copy, Debug, PartialEq, Eq)]
pub struct Verdict {
    pub rule: u32,
    pub node: u32,
}

/// A question, but for its map and its room.
#[derive(Clone, Copy, Debug, PartialEq, Eq)]
pub struct Question {
    pub x: i32,
    pub y: i32,
    pub k: u32,
    pub badge: u32,
    pub after: Mark,
}

/// Where the last page ended; `Mark::default()` is the start.
#[derive(Clone, Copy, Debug, Default, PartialEq, Eq)]
pub struct Mark {
    pub dsq: u64,
    pub bay: u32,
}

/// The answer's number, 0 to 5, and how many bays were found.
#[derive(Clone, Copy, Debug, PartialEq, Eq)]
pub struct Reply {
    pub answer: u32,
    pub found: u32,
}

/// A bay of a reply.
#[derive(Clone, Copy, Debug, PartialEq, Eq)]
pub struct Record {
    pub bay: u32,
    pub zone: u8,
    pub dsq: u64,
}

/// A box: low and high on each axis.
#[derive(Clone, Copy, Debug, PartialEq, Eq)]
pub struct Bounds {
    pub x: (i32, i32),
    pub y: (i32, i32),
}

fn halves(pair: u64) -> (u32, u32) {
    ((pair >> 32) as u32, pair as u32)
}

/// Checks a map against rules 11 to 16.
pub fn check(map: &[u8]) -> Verdict {
    let (rule, node) = halves(unsafe { ffi::krylozhma_check(map.as_ptr(), map.len()) });
    Verdict { rule, node }
}

/// Asks a question of a map: records of 16 bytes come into the room. A refusal changes no byte of it.
pub fn ask(map: &[u8], q: Question, room: &mut [u8]) -> Reply {
    let pair = unsafe {
        ffi::krylozhma_ask(
            map.as_ptr(),
            map.len(),
            q.x,
            q.y,
            q.k,
            q.badge,
            q.after.dsq,
            q.after.bay,
            room.as_mut_ptr(),
            room.len(),
        )
    };
    let (answer, found) = halves(pair);
    Reply { answer, found }
}

/// The first `found` records of a room.
pub fn records(room: &[u8], found: u32) -> impl Iterator<Item = Record> + '_ {
    room.chunks_exact(16).take(found as usize).map(|r| Record {
        bay: u32::from_le_bytes(r[0..4].try_into().unwrap()),
        zone: r[4],
        dsq: u64::from_le_bytes(r[8..16].try_into().unwrap()),
    })
}

impl Record {
    /// The mark of the next question, if this is the last bay received.
    pub fn mark(self) -> Mark {
        Mark { dsq: self.dsq, bay: self.bay }
    }
}

type Measure = unsafe extern "C" fn(i32, i32, i32, i32, i32, i32) -> u64;

fn measured(of: Measure, x: i32, y: i32, b: Bounds) -> Result<u64, u32> {
    match unsafe { ffi::krylozhma_measure_answer(x, y, b.x.0, b.x.1, b.y.0, b.y.1) } {
        0 => Ok(unsafe { of(x, y, b.x.0, b.x.1, b.y.0, b.y.1) }),
        refusal => Err(refusal),
    }
}

/// MINDIST, a squared distance; or the refusal, 1 for the point and 2 for the box.
pub fn mindist(x: i32, y: i32, b: Bounds) -> Result<u64, u32> {
    measured(ffi::krylozhma_mindist, x, y, b)
}

/// MINMAXDIST, a squared distance; or the refusal, 1 for the point and 2 for the box.
pub fn minmaxdist(x: i32, y: i32, b: Bounds) -> Result<u64, u32> {
    measured(ffi::krylozhma_minmaxdist, x, y, b)
}

/// The plain distance of a squared one.
pub fn plain(dsq: u64) -> u64 {
    unsafe { ffi::krylozhma_plain(dsq) }
}

#[cfg(test)]
mod tests {
    use super::*;

    #[test]
    fn document_01s_figures() {
        let b = Bounds { x: (0, 10), y: (0, 4) };
        assert_eq!((mindist(-3, 2, b), minmaxdist(-3, 2, b)), (Ok(9), Ok(13)));
        assert_eq!((mindist(5, 2, b), minmaxdist(5, 2, b)), (Ok(0), Ok(29)));
        assert_eq!(minmaxdist(-1, 0, Bounds { x: (-3, 0), y: (0, 0) }), Ok(1));
        assert_eq!(mindist(1_000_001, 0, b), Err(1));
        assert_eq!(mindist(0, 0, Bounds { x: (1, 0), y: (0, 0) }), Err(2));
        assert_eq!([plain(0), plain(15), plain(16), plain(u64::MAX)], [0, 3, 4, 4294967295]);
    }

    #[test]
    fn document_01s_example() {
        let map = include_bytes!("../../crates/nearby/data/floor.map");
        assert_eq!(check(map), Verdict { rule: 0, node: 0 });
        let mut room = [9; 52];
        let q = Question { x: 6, y: 2, k: 3, badge: 8, after: Mark::default() };
        assert_eq!(ask(map, q, &mut room), Reply { answer: 0, found: 2 });
        let bays: Vec<_> = records(&room, 2).collect();
        assert_eq!(bays, [Record { bay: 4, zone: 3, dsq: 16 }, Record { bay: 7, zone: 3, dsq: 16 }]);
        assert_eq!((&room[32..48], &room[48..]), (&[0; 16][..], &[9; 4][..]));
        assert_eq!(ask(map, Question { k: 4, ..q }, &mut room), Reply { answer: 4, found: 0 });
        assert_eq!(ask(&[], q, &mut []), Reply { answer: 4, found: 0 });
    }
}
