//! Two programs `port` on the same raw bytes, from a file to a file, timed and compared.

use std::fs;
use std::io;
use std::path::Path;

use crate::desks::{both, MEGABYTE};
use crate::workload::Commands;

/// Prints a table of writes and of reads at every size: the megabytes that go there and back in a second.
pub fn table(programs: &[&str; 2], folder: &Path, sizes: &[usize]) -> io::Result<()> {
    println!("| UART commands | MB there and back | port (MB/s) | second (MB/s) | port / second |");
    println!("|---|---|---|---|---|");
    let input = folder.join("input");
    for commands in Commands::ALL {
        for &size in sizes {
            let (talk, bytes) = commands.talk(size * MEGABYTE);
            fs::write(&input, talk)?;
            let rates = both(programs, &input, folder)?.map(|seconds| bytes as f64 / MEGABYTE as f64 / seconds);
            let (name, [port, second]) = (commands.name(), rates);
            println!("| {name} | {size} | {port:.1} | {second:.1} | {:.2} |", port / second);
        }
    }
    Ok(())
}
