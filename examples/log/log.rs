//! log FILE: prints status and path of each line of a log, and where and why a line is no document.
use simd_json_proved::{Buffers, Error};
use std::fs;

// Status and path, if the line has both.
fn fields(buffers: &mut Buffers, line: &[u8]) -> Result<Option<(u64, String)>, Error> {
    let mut copy = line.to_vec();
    let tape = buffers.parse(&mut copy)?;
    let root = tape.as_value();
    let status = root.get("status").and_then(|status| status.as_u64());
    let path = root.get("path").and_then(|path| path.as_str());
    Ok(status.zip(path.map(String::from)))
}

fn main() -> Result<(), Box<dyn std::error::Error>> {
    let name = std::env::args().nth(1).ok_or("log FILE")?;
    let mut buffers = Buffers::new()?;
    let mut is_right = true;
    for (number, line) in fs::read(&name)?.split_inclusive(|byte| *byte == b'\n').enumerate() {
        match fields(&mut buffers, line) {
            Ok(Some((status, path))) => {
                println!("{status} {path}");
                continue;
            }
            Ok(None) => println!("{name}:{}: no status, or no path", number + 1),
            Err(error) => {
                let at = error.location(line)?;
                println!("{name}:{}:{}: {}", number + 1, at.column(), at.reason());
            }
        }
        is_right = false;
    }
    std::process::exit(i32::from(!is_right))
}
