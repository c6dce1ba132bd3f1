// The same numbers in Rust's own ordered set, for tools/set-bench.
use std::collections::BTreeSet;
use std::time::Instant;

fn main() {
    let mut number = 1u32;
    let numbers: Vec<i128> = (0..1u32 << 20)
        .map(|_| {
            number = number.wrapping_mul(1_664_525).wrapping_add(1_013_904_223);
            i128::from(number)
        })
        .collect();
    let start = Instant::now();
    let made: BTreeSet<i128> = numbers.iter().copied().collect();
    eprintln!("BTreeSet, collected: {:?}", start.elapsed());
    let start = Instant::now();
    let mut inserted = BTreeSet::new();
    for number in numbers {
        inserted.insert(number);
    }
    eprintln!("BTreeSet, one by one: {:?}", start.elapsed());
    println!("{} {}", made.len(), inserted.iter().next().unwrap());
}
