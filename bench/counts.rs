//! What a table's numbers take in plain Rust, optimized: over a million values the sum, the sum of squares, and for
//! each of nine limits how many values are at most that, by `filter` and `count`. Prints the least nanoseconds of many
//! times. `bench/run` builds it by `rustc -O` and measures a report of such a table against it.
use std::hint::black_box;
use std::time::Instant;

fn main() {
    let mut x: u64 = 1;
    let values: Vec<i32> = (0..1_000_000)
        .map(|_| {
            x = 16807 * x % 2147483647;
            ((x - 1) * 1000 / 2147483646) as i32
        })
        .collect();
    let mut best = u128::MAX;
    for _ in 0..50 {
        let values = black_box(&values);
        let begin = Instant::now();
        let sum: i64 = values.iter().map(|&x| i64::from(x)).sum();
        let squares: i128 = values.iter().map(|&x| i128::from(i64::from(x) * i64::from(x))).sum();
        black_box((sum, squares));
        for limit in (100..1000).step_by(100) {
            black_box(values.iter().filter(|&&x| x <= black_box(limit)).count());
        }
        best = best.min(begin.elapsed().as_nanos());
    }
    println!("{best}");
}
