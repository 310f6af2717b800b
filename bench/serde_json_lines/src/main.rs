//! Reads each line of the input as JSON by Rust's serde_json and does nothing else.
use std::io::BufRead;

fn main() -> std::io::Result<()> {
    let (mut lines, mut values) = (0u64, 0u64);
    for line in std::io::stdin().lock().lines() {
        let line = line?;
        lines += 1;
        if serde_json::from_str::<serde_json::Value>(&line).is_ok() {
            values += 1;
        }
    }
    println!("{values} of {lines} lines are JSON");
    Ok(())
}
