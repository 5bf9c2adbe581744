//! Makes the files in `examples/` from the text tables there, or compares them.
//!
//! example_files compare ../examples
//! example_files write ../examples

use std::path::Path;
use std::process::ExitCode;

use reference::examples::made_files;

fn run(write: bool, folder: &Path) -> Result<(), String> {
    for (name, bytes) in made_files(folder)? {
        let path = folder.join(&name);
        if write {
            std::fs::write(&path, &bytes).map_err(|error| format!("{name}: {error}"))?;
        } else if std::fs::read(&path).map_err(|error| format!("{name}: {error}"))? != bytes {
            return Err(format!("{name} is not what its text table makes"));
        }
        println!("{name}: {} bytes", bytes.len());
    }
    Ok(())
}

fn main() -> ExitCode {
    let words: Vec<String> = std::env::args().skip(1).collect();
    let result = match words.iter().map(String::as_str).collect::<Vec<_>>()[..] {
        ["compare", folder] => run(false, Path::new(folder)),
        ["write", folder] => run(true, Path::new(folder)),
        _ => Err("usage: example_files compare FOLDER | example_files write FOLDER".to_string()),
    };
    match result {
        Ok(()) => ExitCode::SUCCESS,
        Err(what) => {
            eprintln!("example_files: {what}");
            ExitCode::from(1)
        }
    }
}
