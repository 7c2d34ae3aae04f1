//! The cases: families of them, each on maps of its own.
use crate::batch::{Batch, Call, ROOM};
use crate::damage;
use crate::dice::Dice;
use crate::maps::{self, Entry, STYLES, Style};
use crate::measures::LIMIT;
use crate::question::Listed;

/// Zones of a map: all, a few, or nearly all bays in one.
fn zones(dice: &Dice) -> Vec<u8> {
    let one = dice.below(32) as u8;
    match dice.below(3) {
        0 => (0..32).collect(),
        1 => (0..dice.between(1, 4)).map(|_| dice.below(32) as u8).collect(),
        _ => [vec![one; 30], vec![dice.below(32) as u8, dice.below(32) as u8]].concat(),
    }
}

/// A map that keeps every rule, of a height at random.
fn good(dice: &Dice, style: Style) -> Vec<u8> {
    let height = dice.pick(&[1, 1, 2, 2, 2, 3, 3, 4, 5, 6]);
    let most = match height {
        1 => 8,
        2 => 40,
        3 => 90,
        // Now and then as many as there may be.
        _ if dice.one_in(6) => 1784,
        4 => 200,
        _ => 600,
    };
    let (count, counts) = maps::levels_of_height(dice, height, most);
    let bays = bays_in(dice, count, style);
    maps::arranged_as(dice, bays, &counts, 3)
}

fn bays_in(dice: &Dice, count: usize, style: Style) -> Vec<Entry> {
    maps::bays(dice, count, style, &zones(dice))
}

/// A badge of so many zones.
fn badge_of(dice: &Dice, zones: usize) -> u32 {
    let mut all: Vec<u32> = (0..32).collect();
    dice.shuffle(&mut all);
    all[..zones].iter().fold(0, |badge, z| badge | 1 << z)
}

/// A badge that passes, mostly with a zone that stands in the map.
fn good_badge(dice: &Dice, batch: &Batch, m: usize) -> u32 {
    let entries = &batch.hall(m).entries;
    let own = if entries.is_empty() || dice.one_in(8) { 0 } else { 1 << entries[dice.below(entries.len())].zone };
    if dice.one_in(4) { u32::MAX } else { badge_of(dice, dice.pick(&[1, 1, 2, 4, 7])) | own }
}

/// A mark: none, that of a bay in the badge's list or beside it, or any.
fn some_mark(dice: &Dice, batch: &Batch, m: usize, call: &Call) -> (u64, u32) {
    let list = batch.hall(m).whole_list(call.x, call.y, call.badge);
    if list.is_empty() || dice.one_in(4) {
        return dice.pick(&[(0, 0), (0, u32::MAX), (u64::MAX, u32::MAX), (dice.next(), dice.next() as u32), (1 << 43, 0)]);
    }
    let (dsq, bay, _) = dice.pick(&list);
    let beside = [(dsq, bay), (dsq, bay - 1), (dsq, bay.saturating_add(1)), (dsq.saturating_sub(1), bay), (dsq + 1, bay), (dsq, 0)];
    dice.pick(&beside)
}

fn room_for(dice: &Dice, k: u32) -> usize {
    let exact = 16 * k.min(101) as usize;
    dice.pick(&[exact, exact, exact, exact + dice.between(1, 40), ROOM])
}

/// A question that every refusal but that of the map lets through.
fn good_call(dice: &Dice, batch: &Batch, m: usize, style: Style) -> Call {
    let k = dice.pick(&[1, 1, 2, 3, 10, 99, 100, dice.between(1, 100) as u32]);
    Call {
        x: style.place(dice),
        y: style.place(dice),
        k,
        badge: good_badge(dice, batch, m),
        room: room_for(dice, k),
        fill: dice.below(256) as u8,
    }
}

/// The same with one to three of its parts put to an edge.
fn edge_call(dice: &Dice, call: Call) -> Call {
    let mut c = call;
    let far = [LIMIT, -LIMIT, LIMIT + 1, -LIMIT - 1, i32::MAX, i32::MIN];
    for _ in 0..dice.between(1, 3) {
        match dice.below(5) {
            0 => c.x = dice.pick(&far),
            1 => c.y = dice.pick(&far),
            2 => c.k = dice.pick(&[0, 1, 100, 101, u32::MAX, 1 << 28]),
            3 => c.badge = badge_of(dice, dice.pick(&[0, 1, 8, 9, 31, 32])),
            _ => c.room = (16 * c.k.min(100) as usize).saturating_sub(dice.pick(&[0, 1, 15, 16])),
        }
    }
    c
}

fn ask_some(dice: &Dice, batch: &mut Batch, m: usize, style: Style) {
    let good = good_call(dice, batch, m, style);
    let call = if dice.one_in(4) { edge_call(dice, good) } else { good };
    let mark = some_mark(dice, batch, m, &call);
    batch.set_mark(mark);
    batch.ask(m, call);
}

/// Maps, good and damaged, checked; and questions on the damaged ones.
fn checks(dice: &Dice, batch: &mut Batch) {
    let style = dice.pick(&STYLES);
    let map = good(dice, style);
    batch.map(0, &map);
    batch.check(0);
    for _ in 0..12 {
        let bad = damage::damaged(dice, &map);
        batch.map(0, &bad);
        batch.check(0);
        if dice.one_in(4) {
            ask_some(dice, batch, 0, style);
        }
    }
}

/// As many nodes and bays as there may be.
fn full(dice: &Dice, batch: &mut Batch) {
    let style = dice.pick(&STYLES);
    let bays = bays_in(dice, 1784, style);
    let map = maps::arranged(dice, bays);
    batch.map(0, &map);
    batch.check(0);
    for _ in 0..8 {
        ask_some(dice, batch, 0, style);
    }
    for _ in 0..4 {
        let bad = damage::damaged(dice, &map);
        batch.map(0, &bad);
        batch.check(0);
    }
}

/// Trees whose groups are too small, from the bottom up, and a root over one node: rule 13 broken alone.
fn thin(dice: &Dice, batch: &mut Batch) {
    let style = dice.pick(&STYLES);
    let height = dice.between(2, 4);
    let (count, mut counts) = maps::levels_of_height(dice, height, 120);
    let bays = bays_in(dice, count, style);
    let least = if dice.one_in(3) { counts.push(1); 3 } else { dice.between(1, 2) };
    let map = maps::arranged_as(dice, bays, &counts, least);
    batch.map(0, &map);
    batch.check(0);
    ask_some(dice, batch, 0, style);
}

/// Every field of a small map at its edges, one after the other.
fn edges(dice: &Dice, batch: &mut Batch) {
    let bays = bays_in(dice, 12, Style::Lattice);
    let map = maps::arranged(dice, bays);
    let nodes = (map.len() - maps::HEAD) / maps::NODE;
    let mut list = damage::headers(&map);
    for n in 0..nodes {
        list.extend(damage::node_damage(dice, &map, n));
        list.extend(damage::slot_damage(dice, &map, n, dice.below(8)));
    }
    for bad in [vec![], vec![0; 7], vec![0; 8]].iter().chain(&list) {
        batch.map(1, bad);
        batch.check(1);
    }
}

fn questions(dice: &Dice, batch: &mut Batch) {
    let style = dice.pick(&STYLES);
    let map = good(dice, style);
    batch.map(0, &map);
    batch.check(0);
    for _ in 0..16 {
        ask_some(dice, batch, 0, style);
    }
}

/// Maps 0 to 2 show a badge the same bays: hidden ones are put among them, and all are arranged anew. Map 3 is another of
/// them, or a damaged one.
fn stand_ins(dice: &Dice, batch: &mut Batch, badge: u32, style: Style) {
    let hidden: Vec<u8> = (0..32).filter(|z| badge >> z & 1 == 0).collect();
    let shown: Vec<u8> = (0..32).filter(|z| badge >> z & 1 == 1).collect();
    let count = dice.below(dice.pick(&[3, 8, 20, 60]) + 1);
    let visible = maps::bays(dice, count, style, &shown);
    for m in 0..4 {
        let extra = if hidden.is_empty() { 0 } else { dice.pick(&[0, 1, 20, 60]) };
        let mut bays = visible.clone();
        if extra > 0 {
            let free = |e: &Entry| visible.iter().all(|v| v.reference != e.reference);
            bays.extend(maps::bays(dice, extra, style, &hidden).into_iter().filter(free));
        }
        let map = maps::arranged(dice, bays);
        batch.map(m, &if m == 3 && dice.one_in(2) { damage::damaged(dice, &map) } else { map });
    }
}

/// A call in a run that is refused: for the map that stands in, if one is damaged, or for its room, k, point or badge.
fn refused(dice: &Dice, batch: &mut Batch, call: Call) {
    let mark = batch.mark;
    let spoiled = match dice.below(4) {
        0 => Call { room: call.room.min(16 * call.k as usize - 1), ..call },
        1 => Call { k: dice.pick(&[0, 101]), ..call },
        2 => Call { x: LIMIT + 1, ..call },
        _ => Call { badge: 0, ..call },
    };
    let damaged = batch.hall(3).verdict.0 != 0;
    let (m, bad) = if damaged && dice.one_in(2) { (3, call) } else { (dice.below(3), spoiled) };
    let (answer, _) = batch.ask(m, bad);
    batch.count_in(format!("refused in a run of pages, answer {answer}"));
    assert!(answer != 0 && batch.mark == mark, "a call that should be refused went through, or moved the mark");
}

/// A whole run of pages: k changes, refused calls come in between, and any of the maps stands in at each page. Each page is
/// asked of a second map, too, from the same mark.
fn pages(dice: &Dice, batch: &mut Batch) {
    let style = dice.pick(&STYLES);
    let badge = if dice.one_in(6) { u32::MAX } else { badge_of(dice, dice.between(1, 8)) };
    stand_ins(dice, batch, badge, style);
    batch.set_mark((0, 0));
    let (x, y) = (style.place(dice), style.place(dice));
    let mut received: Vec<Listed> = vec![];
    loop {
        let k = dice.pick(&[1, 2, 3, 5, 10, 30]);
        let call = Call { x, y, k, badge, room: room_for(dice, k), fill: dice.below(256) as u8 };
        if dice.one_in(2) {
            refused(dice, batch, call);
        }
        let mark = batch.mark;
        let (_, page) = batch.ask(dice.below(3), call);
        if dice.one_in(2) {
            batch.set_mark(mark);
            let (_, again) = batch.ask(dice.below(3), call);
            assert!(page == again, "two maps that show the same bays gave different pages");
        }
        received.extend(&page);
        if page.len() < k as usize {
            break;
        }
    }
    assert!(received == batch.hall(0).whole_list(x, y, badge), "the pages joined are not the whole list");
    batch.count_in("whole runs of pages".to_string());
}

/// A question's text with values at the edges of what may stand there.
fn text_of(dice: &Dice, call: Call, mark: (u64, u32)) -> String {
    let [mut x, mut y, mut k, mut badge] = [call.x.to_string(), call.y.to_string(), call.k.to_string(), call.badge.to_string()];
    let (mut dsq, mut bay) = (mark.0.to_string(), mark.1.to_string());
    let signed = ["0", "-1", "1000000", "-1000001", "2147483647", "2147483648", "-2147483648", "-2147483649", "-0", "00", "+1", "-", "", "12345678901"];
    let word = ["0", "4294967295", "4294967296", "9999999999", "01", "-1", "", "10000000000", " 1", "1 "];
    let wide = ["0", "18446744073709551615", "18446744073709551616", "99999999999999999999", "100000000000000000000", "00", "-1", ""];
    for _ in 0..dice.pick(&[0, 0, 1, 2]) {
        match dice.below(6) {
            0 => x = dice.pick(&signed).to_string(),
            1 => y = dice.pick(&signed).to_string(),
            2 => k = dice.pick(&word).to_string(),
            3 => badge = dice.pick(&word).to_string(),
            4 => dsq = dice.pick(&wide).to_string(),
            _ => bay = dice.pick(&word).to_string(),
        }
    }
    format!("x={x}\ny={y}\nk={k}\nbadge={badge}\nafterdsq={dsq}\nafterbay={bay}\n")
}

/// A text that is cut, drawn out, or changed in a byte or a line.
fn spoiled(dice: &Dice, text: &str) -> Vec<u8> {
    let mut out = text.as_bytes().to_vec();
    let at = dice.below(out.len());
    let odd = dice.pick(b"\n\r\0 =-+0123456789abxyk\xff");
    match dice.below(8) {
        0 => out.truncate(at),
        1 => out[at] = odd,
        2 => out.insert(at, odd),
        3 => drop(out.remove(at)),
        4 => out.push(odd),
        5 => out.truncate(out.len() - 1),
        6 => {
            let mut lines: Vec<&str> = text.split_inclusive('\n').collect();
            lines.swap(dice.below(6), dice.below(6));
            out = lines.concat().into_bytes();
        }
        _ => out.resize(dice.pick(&[108, 109, 127, 128, 129, 500]), odd),
    }
    out
}

fn texts(dice: &Dice, batch: &mut Batch) {
    let style = dice.pick(&STYLES);
    let count = dice.pick(&[0, 3, 20, 60, 120]);
    let bays = bays_in(dice, count, style);
    let map = maps::arranged(dice, bays);
    batch.map(0, &map);
    for _ in 0..12 {
        let mut call = good_call(dice, batch, 0, style);
        call.k = if dice.one_in(8) { call.k } else { call.k.min(5) };
        let mark = some_mark(dice, batch, 0, &call);
        let text = text_of(dice, call, mark);
        let input = if dice.one_in(3) { spoiled(dice, &text) } else { text.into_bytes() };
        batch.text(0, &input);
    }
    let bad = damage::damaged(dice, &map);
    batch.map(0, &bad);
    batch.text(0, b"x=0\ny=0\nk=3\nbadge=4294967295\nafterdsq=0\nafterbay=0\n");
}

fn measures(dice: &Dice, batch: &mut Batch) {
    let edge = [-LIMIT - 1, -LIMIT, -LIMIT + 1, -3, -2, -1, 0, 1, 2, 3, LIMIT - 1, LIMIT, LIMIT + 1, i32::MIN, i32::MAX];
    let style = dice.pick(&STYLES);
    for _ in 0..12 {
        let mut v = [0; 6].map(|_| if dice.one_in(12) { dice.pick(&edge) } else { style.place(dice) });
        for low in [2, 4] {
            if !dice.one_in(12) && v[low] > v[low + 1] {
                v.swap(low, low + 1);
            }
        }
        batch.measure([v[0], v[1]], [(v[2], v[3]), (v[4], v[5])]);
    }
    let root = dice.next() >> dice.pick(&[32, 40, 50, 60]);
    for d in [root * root, (root * root).saturating_sub(1), (root * root).saturating_add(root), dice.next(), u64::MAX] {
        batch.plain(d);
    }
}

type Family = fn(&Dice, &mut Batch);

/// Families of cases at random, until there are so many cases.
pub fn batch(seed: u64, cases: usize) -> Batch {
    let families: [Family; 8] = [checks, checks, thin, questions, questions, pages, texts, measures];
    let dice = Dice::new(seed);
    let mut batch = Batch::new();
    edges(&dice, &mut batch);
    full(&dice, &mut batch);
    while batch.cases < cases {
        let family = if dice.one_in(24) { full } else { dice.pick(&families) };
        family(&dice, &mut batch);
    }
    batch
}
