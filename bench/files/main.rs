// The smallest table of files there is: each path with its contents, in a table of hashes or in a tree.
use std::collections::{BTreeMap, HashMap};
use std::time::Instant;

fn files(count: usize) -> Vec<(String, Vec<u8>)> {
    (0..count)
        .map(|i| (format!("/w/crates/part_{}/src/file_{}.rs", i / 200, i), b"fn a() {}\nfn b() {}\n".to_vec()))
        .collect()
}

fn each(count: usize, start: Instant) -> f64 {
    start.elapsed().as_nanos() as f64 / count as f64
}

fn main() {
    let mut best = [[f64::MAX; 2]; 3];
    for _ in 0..15 {
        for (size, count) in [1_000, 100_000].into_iter().enumerate() {
            let told = files(count);
            let start = Instant::now();
            let table: HashMap<String, Vec<u8>> = told.into_iter().collect();
            best[0][size] = best[0][size].min(each(count, start));
            drop(table);
            let told = files(count);
            let start = Instant::now();
            let mut table = BTreeMap::new();
            for (path, contents) in told {
                table.insert(path, contents);
            }
            best[1][size] = best[1][size].min(each(count, start));
            drop(table);
            let start = Instant::now();
            let told = files(count);
            best[2][size] = best[2][size].min(each(count, start));
            drop(told);
        }
    }
    for (name, [few, many]) in ["table of hashes", "tree", "the files alone"].iter().zip(best) {
        println!("{name:16} a file of 1,000: {few:5.0} ns, of 100,000: {many:5.0} ns, {:.2} times", many / few);
    }
}
