//! Document 01's map check, by its plain wording: decode the nodes, then try one rule after the other over the whole
//! map. It shares no line with the Rattle code, and searches nothing.
use crate::measures::LIMIT;

pub struct Slot {
    pub x: (i32, i32),
    pub y: (i32, i32),
    pub reference: u32,
    pub zone: u8,
    raw: [u8; 24],
}

struct Node {
    level: u8,
    occupancy: u8,
    zeros: [u8; 2],
    slots: Vec<Slot>,
}

/// A map whose header keeps rule 11.
struct Floor {
    root: usize,
    height: u8,
    nodes: Vec<Node>,
    /// The node and the bay number of every filled slot of a leaf.
    bays: Vec<(usize, u32)>,
}

impl Node {
    fn filled(&self) -> impl Iterator<Item = &Slot> {
        self.slots.iter().enumerate().filter(|(i, _)| self.occupancy >> i & 1 == 1).map(|(_, s)| s)
    }

    /// The filled slots that name nodes: those above the leaves.
    fn children(&self) -> impl Iterator<Item = &Slot> {
        self.filled().filter(|_| self.level > 0)
    }
}

fn int(bytes: &[u8]) -> i32 {
    i32::from_le_bytes(bytes.try_into().unwrap())
}

fn slot(raw: &[u8]) -> Slot {
    Slot {
        x: (int(&raw[0..4]), int(&raw[4..8])),
        y: (int(&raw[8..12]), int(&raw[12..16])),
        reference: u32::from_le_bytes(raw[16..20].try_into().unwrap()),
        zone: raw[20],
        raw: raw.try_into().unwrap(),
    }
}

fn node(bytes: &[u8]) -> Node {
    Node {
        level: bytes[0],
        occupancy: bytes[1],
        zeros: [bytes[2], bytes[3]],
        slots: bytes[4..].chunks(24).map(slot).collect(),
    }
}

/// Rule 11: the nodes, if the header is as document 01 has it and the length agrees.
fn decoded(map: &[u8]) -> Option<Floor> {
    if map.len() < 8 {
        return None;
    }
    let count = u16::from_le_bytes([map[0], map[1]]) as usize;
    let root = u16::from_le_bytes([map[2], map[3]]) as usize;
    let height = map[4];
    let header = (1..=256).contains(&count) && root < count && (1..=6).contains(&height) && map[5..8] == [0, 0, 0];
    if !header || map.len() != 8 + 196 * count {
        return None;
    }
    let nodes: Vec<Node> = map[8..].chunks(196).map(node).collect();
    let leaves = nodes.iter().enumerate().filter(|(_, n)| n.level == 0);
    let bays = leaves.flat_map(|(i, n)| n.filled().map(move |s| (i, s.reference))).collect();
    Some(Floor { root, height, nodes, bays })
}

/// Rule 12.
fn out_of_form(floor: &Floor, n: usize) -> bool {
    let node = &floor.nodes[n];
    let good = |side: (i32, i32)| side.0 >= -LIMIT && side.1 <= LIMIT && side.0 <= side.1;
    let slot_ok = |i: usize, s: &Slot| {
        if node.occupancy >> i & 1 == 0 {
            return s.raw == [0; 24];
        }
        let leaf_ok = s.reference != 0 && s.zone <= 31;
        let inner_ok = (s.reference as usize) < floor.nodes.len() && s.zone == 0;
        good(s.x) && good(s.y) && s.raw[21..] == [0, 0, 0] && if node.level == 0 { leaf_ok } else { inner_ok }
    };
    let slots_ok = node.slots.iter().enumerate().all(|(i, s)| slot_ok(i, s));
    node.level >= floor.height || node.zeros != [0, 0] || !slots_ok
}

/// Rule 13.
fn wrongly_filled(floor: &Floor, n: usize) -> bool {
    let filled = floor.nodes[n].filled().count();
    if n != floor.root {
        filled < 3
    } else {
        floor.nodes[n].level > 0 && filled < 2
    }
}

/// Rule 14.
fn wrongly_linked(floor: &Floor, n: usize) -> bool {
    let named = floor.nodes.iter().flat_map(Node::children).filter(|s| s.reference as usize == n).count();
    let level = |t: usize| floor.nodes.get(t).map(|node| node.level as i32);
    let own = floor.nodes[n].level as i32;
    let names_wrong_level = floor.nodes[n].children().any(|s| level(s.reference as usize) != Some(own - 1));
    let wrongly_named = if n == floor.root { named != 0 || own != floor.height as i32 - 1 } else { named != 1 };
    wrongly_named || names_wrong_level
}

/// The smallest span round the filled slots of a node, on one axis.
fn round(node: &Node, axis: fn(&Slot) -> (i32, i32)) -> Option<(i32, i32)> {
    Some((node.filled().map(|s| axis(s).0).min()?, node.filled().map(|s| axis(s).1).max()?))
}

/// Rule 15.
fn wrongly_boxed(floor: &Floor, n: usize) -> bool {
    let tight = |s: &Slot, axis: fn(&Slot) -> (i32, i32)| {
        floor.nodes.get(s.reference as usize).and_then(|named| round(named, axis)) == Some(axis(s))
    };
    floor.nodes[n].children().any(|s| !tight(s, |s| s.x) || !tight(s, |s| s.y))
}

/// Rule 16.
fn repeats_a_bay(floor: &Floor, n: usize) -> bool {
    let stands = |bay: u32| floor.bays.iter().filter(|b| b.1 == bay).count();
    floor.bays.iter().any(|&(holder, bay)| holder == n && stands(bay) > 1)
}

type Rule = fn(&Floor, usize) -> bool;

/// Every broken rule, with the lowest node at fault; a map without a good header breaks that rule alone.
pub fn faults(map: &[u8]) -> Vec<(u32, usize)> {
    let Some(floor) = decoded(map) else { return vec![(11, 0)] };
    let rules: [Rule; 5] = [out_of_form, wrongly_filled, wrongly_linked, wrongly_boxed, repeats_a_bay];
    let lowest = |rule: Rule| (0..floor.nodes.len()).find(|&n| rule(&floor, n));
    rules.iter().zip(12..).filter_map(|(&rule, number)| Some((number, lowest(rule)?))).collect()
}

/// The first broken rule's number and the lowest node at fault, or 0 and 0.
pub fn check(map: &[u8]) -> (u32, usize) {
    faults(map).first().copied().unwrap_or((0, 0))
}

/// The leaf entries of an accepted map.
pub fn entries(map: &[u8]) -> Vec<Slot> {
    let nodes = decoded(map).map_or(vec![], |floor| floor.nodes);
    let leaves = nodes.into_iter().filter(|n| n.level == 0);
    let filled = |n: Node| n.slots.into_iter().enumerate().filter(move |(i, _)| n.occupancy >> i & 1 == 1);
    leaves.flat_map(filled).map(|(_, s)| s).collect()
}
