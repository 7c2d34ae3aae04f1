//! Loads a map, checks it, and pages through what a badge sees from a point, ten bays at a time.
//! Usage: pages FLOOR.MAP X Y BADGE
use krylozhma::{ask, check, plain, records, Mark, Question};

fn main() {
    let args: Vec<String> = std::env::args().collect();
    if args.len() != 5 {
        eprintln!("usage: pages FLOOR.MAP X Y BADGE");
        std::process::exit(2);
    }
    let number = |i: usize| args[i].parse::<i64>().expect("a number");
    let map = std::fs::read(&args[1]).unwrap_or_default();
    let verdict = check(&map);
    println!("check: rule {}, node {}", verdict.rule, verdict.node);

    let mut room = [0; 160];
    let mut after = Mark::default();
    for page in 1.. {
        let question = Question { x: number(2) as i32, y: number(3) as i32, k: 10, badge: number(4) as u32, after };
        let reply = ask(&map, question, &mut room);
        println!("page {page}: answer {}, found {}", reply.answer, reply.found);
        for bay in records(&room, reply.found) {
            println!("  bay {}, zone {}, {} mm", bay.bay, bay.zone, plain(bay.dsq));
            after = bay.mark();
        }
        if reply.answer != 0 || reply.found < 10 {
            std::process::exit((reply.answer != 0) as i32);
        }
    }
}
