//! `differ MODULE --seed S --count N`: one run of a module's cases, and what it covers.

use differ::{module, MODULES};
use std::process::exit;

struct Order {
    seed: u64,
    from: u64,
    count: u64,
}

fn main() {
    let words: Vec<String> = std::env::args().skip(1).collect();
    let (name, options) = words.split_first().unwrap_or_else(|| usage());
    let module = module(name).unwrap_or_else(|| usage());
    let order = order(options).unwrap_or_else(|| usage());
    match module.run(order.seed, order.from, order.count) {
        Ok(coverage) => println!("{}\nno difference in {} cases", coverage, order.count),
        Err(difference) => {
            eprintln!("{}", difference);
            exit(1)
        }
    }
}

fn order(options: &[String]) -> Option<Order> {
    let mut order = Order {
        seed: 1,
        from: 0,
        count: 10_000,
    };
    for pair in options.chunks(2) {
        let value = pair.get(1)?.parse().ok()?;
        match pair[0].as_str() {
            "--seed" => order.seed = value,
            "--from" => order.from = value,
            "--count" => order.count = value,
            _ => return None,
        }
    }
    Some(order)
}

fn usage() -> ! {
    let names: Vec<_> = MODULES.iter().map(|module| module.name).collect();
    eprintln!("differ MODULE [--seed S] [--count N] [--from CASE]");
    eprintln!("modules: {}", names.join(" "));
    exit(2)
}
