//! stored_cases: makes the stored inputs and outputs of the programs anew (see
//! `stored`) and names each file that changed.

use reference::stored;
use std::io;
use std::path::Path;

fn main() -> io::Result<()> {
    let root = Path::new(env!("CARGO_MANIFEST_DIR")).join("..");
    let files = stored::files();
    let mut changed = 0;
    for (path, bytes) in &files {
        let place = root.join(path);
        if std::fs::read(&place).ok().as_ref() != Some(bytes) {
            println!("{path}: {} bytes", bytes.len());
            if let Some(folder) = place.parent() {
                std::fs::create_dir_all(folder)?;
            }
            std::fs::write(&place, bytes)?;
            changed += 1;
        }
    }
    println!("stored_cases: {} files, {changed} changed", files.len());
    Ok(())
}
