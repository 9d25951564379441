//! The report program, by the plain search: reads standard input and writes the report.

#![deny(warnings)]

use std::io::{self, Read, Write};

use codremif_host::plain::report::{report, JUDGED};

fn main() -> io::Result<()> {
    let mut input = Vec::new();
    io::stdin().take(JUDGED as u64).read_to_end(&mut input)?;
    io::stdout().write_all(&report(&input))
}
