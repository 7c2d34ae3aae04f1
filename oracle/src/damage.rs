//! Maps that break one rule or several: every field at its edges, and changes that leave all other rules as they were.
use crate::dice::Dice;
use crate::maps::{HEAD, NODE, SLOT};
use crate::measures::LIMIT;

fn with(map: &[u8], at: usize, bytes: &[u8]) -> Vec<u8> {
    let mut m = map.to_vec();
    m[at..at + bytes.len()].copy_from_slice(bytes);
    m
}

fn short(map: &[u8], at: usize) -> u16 {
    u16::from_le_bytes([map[at], map[at + 1]])
}

fn word(map: &[u8], at: usize) -> i32 {
    i32::from_le_bytes(map[at..at + 4].try_into().unwrap())
}

fn node_at(n: usize) -> usize {
    HEAD + NODE * n
}

fn slot_at(n: usize, i: usize) -> usize {
    node_at(n) + 4 + SLOT * i
}

fn count(map: &[u8]) -> usize {
    (map.len() - HEAD) / NODE
}

/// The filled slots of the leaves, or those above them, as (node, slot).
fn filled(map: &[u8], leaves: bool) -> Vec<(usize, usize)> {
    let slots = |n: usize| (0..8).filter(move |i| map[node_at(n) + 1] >> i & 1 == 1).map(move |i| (n, i));
    (0..count(map)).filter(|&n| (map[node_at(n)] == 0) == leaves).flat_map(slots).collect()
}

/// Every box above the leaves made tight again, from the leaves up.
fn tighten(map: &mut [u8]) {
    for level in 1..6 {
        for (n, i) in filled(map, false).into_iter().filter(|e| map[node_at(e.0)] == level).collect::<Vec<_>>() {
            let child = word(map, slot_at(n, i) + 16) as usize;
            let below: Vec<usize> = (0..8).filter(|j| map[node_at(child) + 1] >> j & 1 == 1).collect();
            for side in 0..4 {
                let values = below.iter().map(|&j| word(map, slot_at(child, j) + 4 * side));
                if let Some(v) = if side % 2 == 0 { values.min() } else { values.max() } {
                    map[slot_at(n, i) + 4 * side..][..4].copy_from_slice(&v.to_le_bytes());
                }
            }
        }
    }
}

/// Headers on both sides of each edge, and lengths that do not agree.
pub fn headers(map: &[u8]) -> Vec<Vec<u8>> {
    let n = short(map, 0);
    let counts = [0, n - 1, n + 1, 256, 257, 65535].map(|v| with(map, 0, &v.to_le_bytes()));
    let roots = [0, n / 2, n - 1, n, 256, 65535].map(|v| with(map, 2, &v.to_le_bytes()));
    let heights = (0..=8).map(|v| with(map, 4, &[v]));
    let zeros = (5..8).map(|at| with(map, at, &[1]));
    let lengths = [map[..map.len() - 1].to_vec(), [map, &[0]].concat(), [map, &[0; NODE]].concat(), map[..map.len() - NODE].to_vec()];
    counts.into_iter().chain(roots).chain(heights).chain(zeros).chain(lengths).collect()
}

/// One node: every level, every occupancy bit, a zero byte, and every slot emptied as it should be.
pub fn node_damage(dice: &Dice, map: &[u8], n: usize) -> Vec<Vec<u8>> {
    let at = node_at(n);
    let levels = (0..7).map(|level| with(map, at, &[level]));
    let bits = (0..8).map(|bit| with(map, at + 1, &[map[at + 1] ^ 1 << bit]));
    let mut out: Vec<Vec<u8>> = levels.chain(bits).collect();
    out.push(with(map, at + 2 + dice.below(2), &[1 << dice.below(8)]));
    out.extend((0..8).filter(|i| map[at + 1] >> i & 1 == 1).map(|i| emptied(map, n, i)));
    out
}

fn emptied(map: &[u8], n: usize, i: usize) -> Vec<u8> {
    let mut m = with(map, slot_at(n, i), &[0; SLOT]);
    m[node_at(n) + 1] &= !(1 << i);
    m
}

/// One slot: references at the edges, zones, zero bytes, and every side one millimetre off and at the limits.
pub fn slot_damage(dice: &Dice, map: &[u8], n: usize, i: usize) -> Vec<Vec<u8>> {
    let at = slot_at(n, i);
    let nodes = count(map) as u32;
    let references = [0, n as u32, short(map, 2) as u32, nodes - 1, nodes, 255, 256, u32::MAX];
    let mut out: Vec<Vec<u8>> = references.iter().map(|r| with(map, at + 16, &r.to_le_bytes())).collect();
    out.extend([0, 1, 31, 32, 255].iter().map(|&zone| with(map, at + 20, &[zone])));
    out.push(with(map, at + 21 + dice.below(3), &[1 << dice.below(8)]));
    for side in (at..at + 16).step_by(4) {
        let v = word(map, side);
        let values = [v - 1, v + 1, LIMIT, LIMIT + 1, -LIMIT, -LIMIT - 1, i32::MIN, i32::MAX];
        out.extend(values.iter().map(|w| with(map, side, &w.to_le_bytes())));
    }
    out
}

type Way = fn(&Dice, &[u8]) -> Option<Vec<u8>>;

/// A node keeps at most two entries, and the boxes are made tight: rule 13, and 14 above the leaves.
fn fewer(dice: &Dice, map: &[u8]) -> Option<Vec<u8>> {
    let slots = filled(map, !dice.one_in(4));
    let &(n, _) = slots.get(dice.below(slots.len().max(1)))?;
    let mut m = map.to_vec();
    for (_, i) in slots.into_iter().filter(|s| s.0 == n).skip(dice.between(0, 2)) {
        m = emptied(&m, n, i);
    }
    tighten(&mut m);
    Some(m)
}

/// A slot names another node, and the boxes are made tight: rule 14.
fn misnamed(dice: &Dice, map: &[u8]) -> Option<Vec<u8>> {
    let (n, i) = some_slot(dice, map, false)?;
    let mut m = with(map, slot_at(n, i) + 16, &(dice.below(count(map)) as u32).to_le_bytes());
    tighten(&mut m);
    Some(m)
}

/// Two slots above the leaves change the nodes that they name: a tree again, or rule 14 where the levels differ.
fn exchanged(dice: &Dice, map: &[u8]) -> Option<Vec<u8>> {
    let (a, b) = (some_slot(dice, map, false)?, some_slot(dice, map, false)?);
    let (at, to) = (slot_at(a.0, a.1) + 16, slot_at(b.0, b.1) + 16);
    let mut m = with(map, at, &map[to..to + 4]);
    m[to..to + 4].copy_from_slice(&map[at..at + 4]);
    tighten(&mut m);
    Some(m)
}

/// A side of a box above the leaves is moved: rule 15.
fn loosened(dice: &Dice, map: &[u8]) -> Option<Vec<u8>> {
    let (n, i) = some_slot(dice, map, false)?;
    let side = dice.below(4);
    let at = slot_at(n, i) + 4 * side;
    let outward = if side % 2 == 0 { -1 } else { 1 };
    let by = dice.pick(&[outward, outward, -outward, outward * dice.range(1, 1000)]);
    Some(with(map, at, &(word(map, at) + by).to_le_bytes()))
}

/// A bay has the number of another: rule 16.
fn repeated(dice: &Dice, map: &[u8]) -> Option<Vec<u8>> {
    let (a, b) = (some_slot(dice, map, true)?, some_slot(dice, map, true)?);
    let number = &map[slot_at(b.0, b.1) + 16..][..4];
    Some(with(map, slot_at(a.0, a.1) + 16, number))
}

/// A filled slot stands again in an empty slot of its node: rule 14 above the leaves, rule 16 in them.
fn doubled(dice: &Dice, map: &[u8]) -> Option<Vec<u8>> {
    let leaves = dice.one_in(2);
    let (n, i) = some_slot(dice, map, leaves)?;
    let free: Vec<usize> = (0..8).filter(|j| map[node_at(n) + 1] >> j & 1 == 0).collect();
    let &j = free.get(dice.below(free.len().max(1)))?;
    let mut m = with(map, slot_at(n, j), &map[slot_at(n, i)..][..SLOT]);
    m[node_at(n) + 1] |= 1 << j;
    Some(m)
}

/// One field at an edge: rules 11 and 12, and others.
fn at_an_edge(dice: &Dice, map: &[u8]) -> Option<Vec<u8>> {
    let (n, i) = (dice.below(count(map)), dice.below(8));
    let mut list = match dice.below(4) {
        0 => headers(map),
        1 => node_damage(dice, map, n),
        _ => slot_damage(dice, map, n, i),
    };
    Some(list.swap_remove(dice.below(list.len())))
}

fn scribbled(dice: &Dice, map: &[u8]) -> Option<Vec<u8>> {
    let mut m = map.to_vec();
    for _ in 0..dice.between(1, 3) {
        let at = dice.below(m.len());
        m[at] = dice.pick(&[0, 1, 255, m[at] ^ 1 << dice.below(8), dice.below(256) as u8]);
    }
    Some(m)
}

fn some_slot(dice: &Dice, map: &[u8], leaves: bool) -> Option<(usize, usize)> {
    let slots = filled(map, leaves);
    slots.get(dice.below(slots.len().max(1))).copied()
}

const WAYS: [Way; 8] = [fewer, misnamed, exchanged, loosened, repeated, doubled, at_an_edge, scribbled];

/// A map with one to three changes, each of them apt to break a rule. What comes of it is for `floor::check` to say.
pub fn damaged(dice: &Dice, map: &[u8]) -> Vec<u8> {
    let mut m = map.to_vec();
    for _ in 0..dice.pick(&[1, 1, 1, 2, 3]) {
        // A way that needs a well-formed map is not tried on one that no longer is.
        let way = if crate::floor::faults(&m).iter().any(|f| f.0 < 13) { scribbled } else { dice.pick(&WAYS) };
        m = way(dice, &m).unwrap_or(m);
        if m.is_empty() {
            break;
        }
    }
    m
}
