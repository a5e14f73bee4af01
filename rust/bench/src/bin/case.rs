//! `case DIR thousand|million clean|damaged`: writes tables of the benchmarks as a case into a
//! directory that is there: a thousand files of 160 slots, or of 1,000.

use std::path::Path;

use bench::input::{Shape, Tables};

fn main() -> std::io::Result<()> {
    let words: Vec<String> = std::env::args().skip(1).collect();
    let words: Vec<&str> = words.iter().map(String::as_str).collect();
    let [dir, shape, state] = words[..] else {
        panic!("usage: case DIR thousand|million clean|damaged");
    };
    let shape = match shape {
        "thousand" => Shape::THOUSAND,
        "million" => Shape::MILLION,
        _ => panic!("no such tables: {shape}"),
    };
    let tables = match state {
        "clean" => Tables::clean(shape),
        "damaged" => Tables::damaged(shape),
        _ => panic!("no such tables: {state}"),
    };
    let dir = Path::new(dir);
    std::fs::write(dir.join("parents.tbl"), tables.parents)?;
    std::fs::write(dir.join("objects.tbl"), tables.objects)?;
    std::fs::write(dir.join("reserve.tbl"), tables.reserve)
}
