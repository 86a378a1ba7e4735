//! Reads the sales of a few shops, prints the sum of a column, and tells the fault of a file that has one.
use std::{env, error, fs};

fn main() -> Result<(), Box<dyn error::Error>> {
    let path = env::args().nth(1).unwrap_or(concat!(env!("CARGO_MANIFEST_DIR"), "/../../examples/sales.csv").into());
    let input = fs::read(path)?;
    let frame = pl_csv::read(&input, &["--nulls=NA,-"])?;
    let units = frame.column("units").ok_or("there is no column of units")?;
    let sum: i64 = units.numbers().iter().sum();
    println!("{} sales, {sum} units, {} unknown", frame.height(), units.null_count());
    if let Err(fault) = pl_csv::read(&input, &["--overwrite=units:int64"]) {
        println!("{fault}");
    }
    Ok(())
}
