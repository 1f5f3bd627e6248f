//! `generate FOLDER`: writes the traces that are measured.

use std::path::Path;
use std::process::ExitCode;

fn main() -> ExitCode {
    let Some(folder) = std::env::args().nth(1) else {
        eprintln!("generate FOLDER");
        return ExitCode::from(2);
    };
    for (name, text) in beside::written::all() {
        if let Err(fault) = std::fs::write(Path::new(&folder).join(name + ".trace"), text) {
            eprintln!("generate: {fault}");
            return ExitCode::FAILURE;
        }
    }
    ExitCode::SUCCESS
}
