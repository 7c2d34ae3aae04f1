//! Maps that keep every rule, in many shapes: bays in many arrangements, grouped, numbered and put into slots at random.
use crate::dice::Dice;
use crate::measures::{LIMIT, Sides};

pub const HEAD: usize = 8;
pub const NODE: usize = 196;
pub const SLOT: usize = 24;
pub const MOST_NODES: usize = 256;

/// A filled slot: its box, the bay or node that it names, and its zone.
#[derive(Clone)]
pub struct Entry {
    pub sides: Sides,
    pub reference: u32,
    pub zone: u8,
}

/// Where the bays of a map lie.
#[derive(Clone, Copy, Debug)]
pub enum Style {
    /// A few whole places, so that many distances are equal.
    Lattice,
    /// The same, without width.
    Points,
    /// All bays on one box.
    OneSpot,
    Hall,
    /// Boxes of any size anywhere, one over the other.
    Overlaps,
    /// Sides at the limits and beside them.
    Extremes,
}

pub const STYLES: [Style; 6] =
    [Style::Lattice, Style::Points, Style::OneSpot, Style::Hall, Style::Overlaps, Style::Extremes];

impl Style {
    /// A place on an axis where something may well be.
    pub fn place(self, dice: &Dice) -> i32 {
        match self {
            Style::Lattice | Style::Points => dice.range(-4, 4),
            Style::OneSpot => dice.range(40, 60),
            Style::Hall => dice.range(-40_000, 40_000),
            Style::Overlaps => dice.range(-LIMIT, LIMIT),
            Style::Extremes => dice.pick(&[-LIMIT, 1 - LIMIT, -1, 0, 1, LIMIT - 1, LIMIT]),
        }
    }

    fn side(self, dice: &Dice) -> (i32, i32) {
        let (low, other) = (self.place(dice), self.place(dice));
        match self {
            Style::Lattice => (low, low + dice.range(0, 2)),
            Style::Points => (low, low),
            Style::OneSpot => (45, 50),
            Style::Hall => (low, low + dice.range(0, 1500)),
            Style::Overlaps | Style::Extremes => (low.min(other), low.max(other)),
        }
    }
}

/// Different bay numbers, from 1 to the greatest, close together or far apart.
pub fn numbers(dice: &Dice, count: usize) -> Vec<u32> {
    let stride = dice.pick(&[1, 1, 2, 7, 256, 2048, 65_536, 1 << 20]);
    let greatest_first = u32::MAX - stride * count.saturating_sub(1) as u32;
    let first = dice.pick(&[1, 1, 1 + (dice.next() % greatest_first as u64) as u32, greatest_first]);
    let mut out: Vec<u32> = (0..count as u32).map(|i| first + stride * i).collect();
    dice.shuffle(&mut out);
    out
}

/// So many bays; each zone is one of `zones`.
pub fn bays(dice: &Dice, count: usize, style: Style, zones: &[u8]) -> Vec<Entry> {
    let entry = |dice: &Dice, reference| Entry { sides: [style.side(dice), style.side(dice)], reference, zone: dice.pick(zones) };
    numbers(dice, count).into_iter().map(|bay| entry(dice, bay)).collect()
}

/// How few nodes a level may have below the root of a tree with so many levels above it.
fn fewest(above: usize) -> usize {
    if above == 0 { 1 } else { 2 * 3usize.pow(above as u32 - 1) }
}

/// How many nodes stand on each level, leaves first, for so many bays and levels; nothing where that cannot be.
fn levels(dice: &Dice, bays: usize, height: usize) -> Option<Vec<usize>> {
    if height == 1 {
        return (bays <= 8).then_some(vec![1]);
    }
    let (mut counts, mut below, mut left) = (vec![], bays, MOST_NODES);
    for above in (0..height).rev() {
        let rest: usize = (0..above).map(fewest).sum();
        let low = below.div_ceil(8).max(fewest(above));
        let high = if above == 0 { 1 } else { below / 3 };
        let high = high.min(left.checked_sub(rest)?);
        if low > high || (above == 0 && below < 2) {
            return None;
        }
        below = if dice.one_in(3) { low } else { dice.between(low, high) };
        counts.push(below);
        left -= below;
    }
    Some(counts)
}

/// A tree's levels for so many bays, of a height at random among those that can be.
fn any_levels(dice: &Dice, bays: usize) -> Vec<usize> {
    for _ in 0..500 {
        let height = dice.between(1, 6);
        if let Some(counts) = levels(dice, bays, height) {
            return counts;
        }
    }
    panic!("no tree for {bays} bays")
}

/// A number of bays that a tree of this height can have, and the levels.
pub fn levels_of_height(dice: &Dice, height: usize, most: usize) -> (usize, Vec<usize>) {
    loop {
        let bays = dice.below(most + 1);
        if let Some(counts) = levels(dice, bays, height) {
            return (bays, counts);
        }
    }
}

/// `total` in so many parts of at most 8 and, where there is more than one part, at least `least`.
fn parts(dice: &Dice, total: usize, count: usize, least: usize) -> Vec<usize> {
    if count == 1 {
        return vec![total];
    }
    let mut sizes = vec![least; count];
    let mut open: Vec<usize> = (0..count).collect();
    for _ in least * count..total {
        let i = dice.below(open.len());
        sizes[open[i]] += 1;
        if sizes[open[i]] == 8 {
            open.swap_remove(i);
        }
    }
    sizes
}

pub fn hull(entries: &[Entry]) -> Sides {
    [0, 1].map(|k| {
        let low = entries.iter().map(|e| e.sides[k].0).min().unwrap_or(0);
        (low, entries.iter().map(|e| e.sides[k].1).max().unwrap_or(0))
    })
}

/// The levels' nodes from the leaves up; each node carries its level.
fn nodes_of(dice: &Dice, bays: Vec<Entry>, counts: &[usize], least: usize) -> Vec<(u8, Vec<Entry>)> {
    let mut nodes: Vec<(u8, Vec<Entry>)> = vec![];
    let mut entries = bays;
    for (level, &count) in counts.iter().enumerate() {
        match dice.below(3) {
            0 => dice.shuffle(&mut entries),
            1 => entries.sort_by_key(|e| e.sides[0].0 as i64 + e.sides[0].1 as i64),
            _ => entries.sort_by_key(|e| (e.sides[1].0 as i64 + e.sides[1].1 as i64, e.sides[0].0)),
        }
        let mut above = vec![];
        for size in parts(dice, entries.len(), count, least) {
            let group: Vec<Entry> = entries.drain(..size).collect();
            above.push(Entry { sides: hull(&group), reference: nodes.len() as u32, zone: 0 });
            nodes.push((level as u8, group));
        }
        entries = above;
    }
    nodes
}

/// The bytes of a slot.
pub fn slot_bytes(e: &Entry) -> [u8; SLOT] {
    let mut out = [0; SLOT];
    for (k, side) in e.sides.iter().enumerate() {
        out[8 * k..8 * k + 4].copy_from_slice(&side.0.to_le_bytes());
        out[8 * k + 4..8 * k + 8].copy_from_slice(&side.1.to_le_bytes());
    }
    out[16..20].copy_from_slice(&e.reference.to_le_bytes());
    out[20] = e.zone;
    out
}

/// The bytes of a map of these levels: nodes numbered at random, slots filled at random.
pub fn arranged_as(dice: &Dice, bays: Vec<Entry>, counts: &[usize], least: usize) -> Vec<u8> {
    let nodes = nodes_of(dice, bays, counts, least);
    let n = nodes.len();
    let mut number: Vec<usize> = (0..n).collect();
    dice.shuffle(&mut number);
    let mut map = vec![0; HEAD + NODE * n];
    map[0..2].copy_from_slice(&(n as u16).to_le_bytes());
    map[2..4].copy_from_slice(&(number[n - 1] as u16).to_le_bytes());
    map[4] = counts.len() as u8;
    for (k, (level, entries)) in nodes.into_iter().enumerate() {
        let at = HEAD + NODE * number[k];
        map[at] = level;
        let mut free: Vec<usize> = (0..8).collect();
        for mut e in entries {
            let i = free.swap_remove(dice.below(free.len()));
            map[at + 1] |= 1 << i;
            if level > 0 {
                e.reference = number[e.reference as usize] as u32;
            }
            map[at + 4 + SLOT * i..][..SLOT].copy_from_slice(&slot_bytes(&e));
        }
    }
    map
}

/// A map of these bays in any arrangement.
pub fn arranged(dice: &Dice, bays: Vec<Entry>) -> Vec<u8> {
    let counts = any_levels(dice, bays.len());
    arranged_as(dice, bays, &counts, 3)
}
