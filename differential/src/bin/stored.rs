//! Whether stored cases hold for the second reading, and show every slip: `stored
//! FOLDER`, with the cases in FOLDER/data and their names in FOLDER/args. It needs
//! nothing of the original. README.md says more.

use std::path::Path;
use std::process::ExitCode;

fn main() -> ExitCode {
    let arguments: Vec<String> = std::env::args().skip(1).collect();
    let [folder] = &arguments[..] else {
        eprintln!("usage: stored FOLDER");
        return ExitCode::from(2);
    };
    match differential::stored::stored(Path::new(folder)) {
        Ok(true) => ExitCode::SUCCESS,
        Ok(false) => ExitCode::FAILURE,
        Err(error) => {
            eprintln!("{folder}: {error}");
            ExitCode::from(2)
        }
    }
}
