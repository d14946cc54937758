//! Prints what generated calls meet and how many meet it: `coverage FIRST COUNT` for the seeds from FIRST on.

use reference::generate::coverage::Coverage;

fn main() {
    let numbers: Vec<u64> = std::env::args().skip(1).filter_map(|word| word.parse().ok()).collect();
    let [first, count] = numbers[..] else {
        eprintln!("usage: coverage FIRST COUNT");
        std::process::exit(2);
    };
    for (what, count) in Coverage::of(first..first + count).counts {
        println!("{count:7}  {what}");
    }
}
