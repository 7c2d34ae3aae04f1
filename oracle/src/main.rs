//! An independent implementation of document 01, by definition, and seeded cases with what must come of them.
//! Usage: oracle SEED CASES BATCH EXPECTED (the last two are written).
mod batch;
mod cases;
mod damage;
mod dice;
#[cfg(test)]
mod figures;
mod floor;
mod maps;
mod measures;
mod question;
mod text;

/// What 3,000 cases must hold, each at least so many times: a batch that lost a kind would try less than it says.
const MUST_HOLD: [(&str, usize); 37] = [
    ("map accepted, height 1", 10),
    ("map accepted, height 2", 10),
    ("map accepted, height 3", 10),
    ("map accepted, height 4", 3),
    ("map accepted, height 5", 3),
    ("map accepted, height 6", 3),
    ("map accepted, full", 5),
    ("rule 11 broken alone", 20),
    ("rule 12 broken alone", 20),
    ("rule 13 broken alone", 20),
    ("rule 14 broken alone", 20),
    ("rule 15 broken alone", 20),
    ("rule 16 broken alone", 20),
    ("rule 12 broken, and others", 10),
    ("rule 13 broken, and others", 10),
    ("rule 14 broken, and others", 10),
    ("rule 15 broken, and others", 1),
    ("answer 0, a full page", 100),
    ("answer 0, a short page", 100),
    ("answer 0, no bay", 50),
    ("answer 1", 10),
    ("answer 2", 10),
    ("answer 3", 10),
    ("answer 4", 20),
    ("answer 5", 30),
    ("text, answer 0", 50),
    ("text, answer 6", 50),
    ("measure, answer 1", 5),
    ("measure, answer 2", 20),
    ("page that starts at a tie with the mark", 50),
    ("page that ends in a tie", 50),
    ("page past a nearer hidden bay", 50),
    ("whole runs of pages", 20),
    ("refused in a run of pages, answer 2", 3),
    ("refused in a run of pages, answer 4", 3),
    ("refused in a run of pages, answer 5", 3),
    ("plain distance", 50),
];

fn main() {
    let args: Vec<String> = std::env::args().collect();
    let (Some(Ok(seed)), Some(Ok(cases)), 5) = (args.get(1).map(|s| s.parse()), args.get(2).map(|s| s.parse()), args.len()) else {
        eprintln!("usage: oracle SEED CASES BATCH EXPECTED");
        std::process::exit(2);
    };
    let batch = cases::batch(seed, cases);
    if std::env::var_os("ORACLE_TALLY").is_some() {
        batch.tally.iter().for_each(|(what, times)| println!("{times:7} {what}"));
    }
    for (what, least) in MUST_HOLD.iter().filter(|_| cases >= 3000) {
        let times = batch.tally.get(*what).copied().unwrap_or(0);
        assert!(times >= *least, "only {times} times: {what}");
    }
    println!("oracle: {} cases of seed {seed}, {} bytes", batch.cases, batch.bytes().len());
    std::fs::write(&args[3], batch.bytes()).unwrap();
    std::fs::write(&args[4], &batch.expected).unwrap();
}
