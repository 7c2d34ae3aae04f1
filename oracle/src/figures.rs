//! Document 01's figures and its example, held against this implementation.
use crate::maps::{self, Entry};
use crate::measures::{measured, plain};
use crate::question::{Hall, Listed, Question};
use crate::text::answered;

fn leaf_root(bays: &[Entry]) -> Vec<u8> {
    let mut map = vec![0; maps::HEAD + maps::NODE];
    map[0] = 1;
    map[4] = 1;
    for (i, bay) in bays.iter().enumerate() {
        map[maps::HEAD + 1] |= 1 << i;
        map[maps::HEAD + 4 + maps::SLOT * i..][..maps::SLOT].copy_from_slice(&maps::slot_bytes(bay));
    }
    map
}

fn example() -> Vec<u8> {
    let bay = |reference, zone, x, y| Entry { sides: [x, y], reference, zone };
    leaf_root(&[bay(7, 3, (10, 20), (0, 5)), bay(4, 3, (0, 2), (0, 2)), bay(9, 5, (5, 6), (5, 6))])
}

fn question(k: u32, badge: u32, mark: (u64, u32)) -> Question {
    Question { x: 6, y: 2, k, badge, mark }
}

fn asked(map: Vec<u8>, q: Question, room: usize) -> (u32, Vec<Listed>) {
    Hall::new(map).reply(&q, &mut vec![0xEE; room])
}

#[test]
fn figures_1_to_5_and_10() {
    assert_eq!(measured([-3, 2], [(0, 10), (0, 4)]), (0, 9, 13));
    assert_eq!(measured([5, 2], [(0, 10), (0, 4)]), (0, 0, 29));
    assert_eq!(measured([-1, 0], [(-3, 0), (0, 0)]), (0, 0, 1));
    assert_eq!(measured([4, 5], [(1, 1), (1, 1)]), (0, 25, 25));
    let far = (1_000_000, 1_000_000);
    assert_eq!(measured([-1_000_000, -1_000_000], [far, far]), (0, 8_000_000_000_000, 8_000_000_000_000));
    assert_eq!([0, 15, 16].map(plain), [0, 3, 4]);
}

#[test]
fn figures_6_to_9() {
    let all = vec![(9, 9, 5), (16, 4, 3), (16, 7, 3)];
    assert_eq!(asked(example(), question(3, 40, (0, 0)), 48), (0, all));
    assert_eq!(asked(example(), question(1, 8, (16, 4)), 16), (0, vec![(16, 7, 3)]));
    assert_eq!(asked(example(), question(1, 8, (16, 7)), 16), (0, vec![]));
    assert_eq!(asked(leaf_root(&[]), question(1, 8, (0, 0)), 16), (0, vec![]));
    let answer = |badge| asked(example(), question(1, badge, (0, 0)), 16).0;
    assert_eq!([0xFF, 0x1FF, 0x7FFF_FFFF, u32::MAX].map(answer), [0, 3, 3, 0]);
}

#[test]
fn figures_11_to_13() {
    let answer = |k: u32, room| asked(example(), question(k, 8, (0, 0)), room).0;
    assert_eq!([answer(0, 1600), answer(101, 1616), answer(1, 16), answer(100, 1600), answer(1, 15)], [2, 2, 0, 0, 4]);
    let far = Question { x: 1_000_001, ..question(1, 8, (0, 0)) };
    assert_eq!([asked(example(), far, 16).0, asked(vec![], far, 16).0], [1, 1]);
    let bays = [1, 2, 3].map(|n| Entry { sides: [(n, n), (0, 0)], reference: n as u32, zone: 0 });
    let dice = crate::dice::Dice::new(0);
    let under_one_slot = maps::arranged_as(&dice, bays.to_vec(), &[1, 1], 3);
    assert_eq!(Hall::new(under_one_slot).verdict.0, 13);
    let bays = [1, 2, 3, 4, 5, 6].map(|n| Entry { sides: [(n, n), (0, 0)], reference: n as u32, zone: 0 });
    let tight = maps::arranged_as(&dice, bays.to_vec(), &[2, 1], 3);
    assert_eq!(Hall::new(tight.clone()).verdict.0, 0);
    let root = maps::HEAD + maps::NODE * tight[2] as usize;
    let filled = (0..8).find(|i| tight[root + 1] >> i & 1 == 1).unwrap();
    let mut loose = tight;
    loose[root + 4 + maps::SLOT * filled + 12] = 1; // y high, which was 0
    assert_eq!(Hall::new(loose).verdict.0, 15);
}

#[test]
fn the_example_as_text() {
    let said = answered(&Hall::new(example()), b"x=6\ny=2\nk=3\nbadge=8\nafterdsq=0\nafterbay=0\n").1;
    assert_eq!(said, "answer=0\nfound=2\nbay=4 zone=3 dsq=16 mm=4\nbay=7 zone=3 dsq=16 mm=4\n");
    let said = answered(&Hall::new(example()), b"x=6\ny=2\nk=0\nbadge=8\nafterdsq=0\nafterbay=0\n").1;
    assert_eq!(said, "answer=2\nfound=0\n");
}
