//! Reads a module from a file, and writes its minimal encoding to standard output. If the module is malformed, prints
//! why and where.

use std::error::Error;
use std::io::Write;
use std::process::ExitCode;

fn main() -> ExitCode {
    match normalise() {
        Ok(()) => ExitCode::SUCCESS,
        Err(error) => {
            eprintln!("error: {error}");
            ExitCode::FAILURE
        }
    }
}

fn normalise() -> Result<(), Box<dyn Error>> {
    let file = std::env::args().nth(1).ok_or("usage: normalise FILE")?;
    let mut module = std::fs::read(file)?;
    if let Err(error) = nosgrivel::normalise_module_in_place(&mut module) {
        nosgrivel::explain(&module, false)?; // fails with why and where
        return Err(error.into());
    }
    std::io::stdout().write_all(&module)?;
    Ok(())
}
