//! Prints generated calls as lines: `generate FIRST COUNT` for the seeds from FIRST on. `answer` answers them.

fn main() {
    let numbers: Vec<u64> = std::env::args().skip(1).filter_map(|word| word.parse().ok()).collect();
    let [first, count] = numbers[..] else {
        eprintln!("usage: generate FIRST COUNT");
        std::process::exit(2);
    };
    for seed in first..first + count {
        println!("{}", reference::generate::call(seed));
    }
}
