//! Writes the commands that `crates/trial` and `driver.c` read, and what document 01 says must come of them.
//! README.md beside this crate describes both.
use crate::floor;
use crate::measures::{self, Point, Sides};
use crate::question::{Hall, Listed, Question};
use crate::text;
use std::collections::BTreeMap;
use std::fmt::Write as _;

pub const ROOM: usize = 4096;

/// A question as a batch has it: the mark is the one that stands.
#[derive(Clone, Copy)]
pub struct Call {
    pub x: i32,
    pub y: i32,
    pub k: u32,
    pub badge: u32,
    pub room: usize,
    pub fill: u8,
}

pub struct Batch {
    commands: Vec<u8>,
    count: u32,
    /// What the reader's four maps hold, in all their bytes.
    held: [Vec<u8>; 4],
    halls: [Hall; 4],
    pub mark: (u64, u32),
    pub expected: String,
    pub cases: usize,
    pub tally: BTreeMap<String, usize>,
}

fn sum(bytes: &[u8]) -> u64 {
    bytes.iter().fold(1, |sum, &b| (sum * 524_287 + b as u64) % 17_592_186_044_399)
}

impl Batch {
    pub fn new() -> Batch {
        Batch {
            commands: vec![],
            count: 0,
            held: [0; 4].map(|_| vec![0; 65_536]),
            halls: [0; 4].map(|_| Hall::new(vec![])),
            mark: (0, 0),
            expected: String::new(),
            cases: 0,
            tally: BTreeMap::new(),
        }
    }

    pub fn hall(&self, m: usize) -> &Hall {
        &self.halls[m]
    }

    pub fn bytes(&self) -> Vec<u8> {
        [&self.count.to_le_bytes()[..], &self.commands].concat()
    }

    pub fn count_in(&mut self, what: String) {
        *self.tally.entry(what).or_insert(0) += 1;
    }

    fn command(&mut self, kind: u8, m: usize, fill: u8, words: &[u32]) {
        let mut head = [0; 32];
        head[..3].copy_from_slice(&[kind, m as u8, fill]);
        for (i, w) in words.iter().enumerate() {
            head[4 + 4 * i..8 + 4 * i].copy_from_slice(&w.to_le_bytes());
        }
        self.commands.extend(head);
        self.count += 1;
    }

    /// Map m becomes these bytes; only the stretches that differ from what stood there are sent.
    pub fn map(&mut self, m: usize, map: &[u8]) {
        let differs: Vec<usize> = (0..map.len()).filter(|&i| self.held[m][i] != map[i]).collect();
        let mut stretches: Vec<(usize, usize)> = vec![];
        for i in differs {
            match stretches.last_mut() {
                // A new head costs as much as 32 bytes that stay as they are.
                Some(last) if i < last.1 + 32 => last.1 = i + 1,
                _ => stretches.push((i, i + 1)),
            }
        }
        if stretches.is_empty() && self.halls[m].bytes.len() != map.len() {
            stretches.push((0, 0));
        }
        for (from, to) in stretches {
            self.command(b'M', m, 0, &[from as u32, (to - from) as u32, map.len() as u32]);
            self.commands.extend(&map[from..to]);
        }
        self.held[m][..map.len()].copy_from_slice(map);
        self.halls[m] = Hall::new(map.to_vec());
    }

    pub fn check(&mut self, m: usize) {
        self.command(b'C', m, 0, &[]);
        let (rule, node) = self.halls[m].verdict;
        writeln!(self.expected, "check {rule} {node}").unwrap();
        self.cases += 1;
        let bytes = &self.halls[m].bytes;
        let what = match floor::faults(bytes).len() {
            0 => format!("map accepted, height {}", bytes[4]),
            1 => format!("rule {rule} broken alone"),
            _ => format!("rule {rule} broken, and others"),
        };
        if self.halls[m].entries.len() == 1784 {
            self.count_in("map accepted, full".to_string());
        }
        self.count_in(what);
    }

    pub fn set_mark(&mut self, mark: (u64, u32)) {
        self.command(b'K', 0, 0, &[mark.0 as u32, (mark.0 >> 32) as u32, mark.1]);
        self.mark = mark;
    }

    pub fn ask(&mut self, m: usize, call: Call) -> (u32, Vec<Listed>) {
        self.command(b'A', m, call.fill, &[call.x as u32, call.y as u32, call.k, call.badge, call.room as u32]);
        let mut room: Vec<u8> = (0..ROOM).map(|i| (call.fill as usize + 37 * i) as u8).collect();
        let question = Question { x: call.x, y: call.y, k: call.k, badge: call.badge, mark: self.mark };
        let (answer, page) = self.halls[m].reply(&question, &mut room[..call.room]);
        writeln!(self.expected, "ask {answer} {} {}", page.len(), sum(&room)).unwrap();
        self.cases += 1;
        self.tell(m, &question, answer, &page);
        if let Some(last) = page.last() {
            self.mark = (last.0, last.1);
        }
        (answer, page)
    }

    /// Counts what a question tried: the kind of page, ties at its ends, hidden bays that lie nearer than a listed one.
    fn tell(&mut self, m: usize, q: &Question, answer: u32, page: &[Listed]) {
        let size = match (answer, page.len()) {
            (0, 0) => ", no bay",
            (0, n) if n < q.k as usize => ", a short page",
            (0, _) => ", a full page",
            _ => "",
        };
        self.count_in(format!("answer {answer}{size}"));
        let (Some(first), Some(last)) = (page.first(), page.last()) else { return };
        let whole = self.halls[m].whole_list(q.x, q.y, q.badge);
        let next = whole.iter().find(|e| *e > last);
        let hidden = self.halls[m].whole_list(q.x, q.y, !q.badge);
        let seen = [
            (first.0 == q.mark.0 && q.mark.1 > 0, "page that starts at a tie with the mark"),
            (next.is_some_and(|e| e.0 == last.0), "page that ends in a tie"),
            (hidden.first().is_some_and(|e| e.0 < last.0), "page past a nearer hidden bay"),
        ];
        seen.iter().filter(|s| s.0).for_each(|s| self.count_in(s.1.to_string()));
    }

    pub fn text(&mut self, m: usize, input: &[u8]) {
        self.command(b'T', m, 0, &[input.len() as u32]);
        self.commands.extend(input);
        let (answer, said) = text::answered(&self.halls[m], input);
        self.expected += &said;
        self.cases += 1;
        self.count_in(format!("text, answer {answer}"));
    }

    pub fn measure(&mut self, p: Point, b: Sides) {
        let words = [p[0], p[1], b[0].0, b[0].1, b[1].0, b[1].1].map(|v| v as u32);
        self.command(b'D', 0, 0, &words);
        let (answer, least, most) = measures::measured(p, b);
        writeln!(self.expected, "measure {answer} {least} {most}").unwrap();
        self.cases += 1;
        self.count_in(format!("measure, answer {answer}"));
    }

    pub fn plain(&mut self, d: u64) {
        self.command(b'R', 0, 0, &[d as u32, (d >> 32) as u32]);
        writeln!(self.expected, "plain {}", measures::plain(d)).unwrap();
        self.cases += 1;
        self.count_in("plain distance".to_string());
    }
}
