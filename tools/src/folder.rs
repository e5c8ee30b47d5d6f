//! Folders: copies of the repository, and lists of files.
use std::fs;
use std::io;
use std::path::{Path, PathBuf};

/// What the checker reads of a crate.
pub const PARTS: [&str; 3] = ["src", "specs", "proofs"];

/// All files below a folder, in order.
pub fn files_below(dir: &Path) -> io::Result<Vec<PathBuf>> {
    let mut found = Vec::new();
    for path in entries(dir)? {
        if path.is_dir() {
            found.extend(files_below(&path)?);
        } else {
            found.push(path);
        }
    }
    Ok(found)
}

/// What stands in a folder, in order.
pub fn entries(dir: &Path) -> io::Result<Vec<PathBuf>> {
    let mut paths = fs::read_dir(dir)?
        .map(|e| Ok(e?.path()))
        .collect::<io::Result<Vec<_>>>()?;
    paths.sort();
    Ok(paths)
}

/// The last part of a path, as text.
pub fn name_of(path: &Path) -> String {
    path.file_name()
        .unwrap_or_default()
        .to_string_lossy()
        .into_owned()
}

/// Copies a folder; a file that the test names gets a second name instead, where that can be.
fn copy_by(from: &Path, to: &Path, linked: &dyn Fn(&Path) -> bool) -> io::Result<()> {
    fs::create_dir_all(to)?;
    for path in entries(from)? {
        let target = to.join(name_of(&path));
        if path.is_dir() {
            copy_by(&path, &target, linked)?;
        } else if !linked(&path) || fs::hard_link(&path, &target).is_err() {
            fs::copy(&path, &target)?;
        }
    }
    Ok(())
}

pub fn copy(from: &Path, to: &Path) -> io::Result<()> {
    copy_by(from, to, &|_| false)
}

/// A copy of what the checker needs of the crates, to be the top of a repository.
pub fn copy_sources(root: &Path, to: &Path) -> io::Result<()> {
    fs::create_dir_all(to.join(".git"))?;
    for file in ["crates.txt", "HANDLES"] {
        if root.join(file).is_file() {
            fs::copy(root.join(file), to.join(file))?;
        }
    }
    for dir in entries(&root.join("crates"))? {
        for part in PARTS.iter().filter(|part| dir.join(part).is_dir()) {
            let target = to.join("crates").join(name_of(&dir)).join(part);
            copy(&dir.join(part), &target)?;
        }
    }
    Ok(())
}

/// Gives a copy the built library of a crate. `rt` removes the files of a library before it makes them anew.
pub fn take_library(base: &Path, to: &Path, name: &str) -> io::Result<()> {
    let library = |top: &Path| top.join("crates").join(name).join("out/rlib");
    if library(to).is_dir() {
        return Ok(());
    }
    copy_by(&library(base), &library(to), &|_| true)
}

/// Makes anew what a check of the crate begins with: what was checked when it was proved, and nothing else. The checker
/// replaces the files of checked modules, and changes none.
pub fn renew_work(base: &Path, to: &Path, name: &str) -> io::Result<()> {
    let work = |top: &Path| top.join("crates").join(name).join("out/incremental");
    if work(to).exists() {
        fs::remove_dir_all(work(to))?;
    }
    let module = |file: &Path| file.extension().is_some_and(|e| e == "oantt");
    match work(base).is_dir() {
        true => copy_by(&work(base), &work(to), &module),
        false => Ok(()),
    }
}

/// A folder for this process among the temporary files; those of processes that were killed are removed.
pub fn scratch(purpose: &str) -> io::Result<PathBuf> {
    let all = std::env::temp_dir();
    for path in entries(&all).unwrap_or_default() {
        let name = name_of(&path);
        let number = name.strip_prefix(&format!("{purpose}-"));
        let gone =
            |n: &str| n.chars().all(|c| c.is_ascii_digit()) && !Path::new("/proc").join(n).exists();
        if number.is_some_and(gone) && Path::new("/proc/self").exists() {
            let _ = fs::remove_dir_all(&path);
        }
    }
    let own = all.join(format!("{purpose}-{}", std::process::id()));
    fs::create_dir_all(&own)?;
    Ok(own)
}

/// The bytes of all files below a folder; 0 where there is none.
pub fn size(dir: &Path) -> u64 {
    let files = files_below(dir).unwrap_or_default();
    files
        .iter()
        .map(|f| f.metadata().map_or(0, |m| m.len()))
        .sum()
}

#[cfg(test)]
mod tests {
    use super::*;

    /// A folder of its own for a test, which the test removes.
    fn made(name: &str, files: &[&str]) -> PathBuf {
        let dir = std::env::temp_dir().join(format!("folder-{name}-{}", std::process::id()));
        for file in files {
            let path = dir.join(file);
            fs::create_dir_all(path.parent().unwrap()).unwrap();
            fs::write(path, "as it was").unwrap();
        }
        dir
    }

    #[test]
    fn a_check_begins_with_what_was_checked_and_nothing_else() {
        let files = [
            "base/crates/a/out/incremental/x/m.oantt",
            "base/crates/a/out/incremental/x/judged",
            "copy/crates/a/out/incremental/x/n.oantt",
        ];
        let dir = made("renewed", &files);
        renew_work(&dir.join("base"), &dir.join("copy"), "a").unwrap();
        let work = dir.join("copy/crates/a/out/incremental/x");
        fs::write(work.join("judged"), "of an edit").unwrap();
        fs::remove_file(work.join("m.oantt")).unwrap();
        fs::write(work.join("m.oantt"), "of an edit").unwrap();
        let kept = |file: &str| fs::read_to_string(dir.join(file)).unwrap();
        let names: Vec<String> = entries(&work).unwrap().iter().map(|p| name_of(p)).collect();
        let (module, judged) = (kept(files[0]), kept(files[1]));
        renew_work(&dir.join("base"), &dir.join("copy"), "a").unwrap();
        let again = fs::read_to_string(work.join("judged")).unwrap();
        fs::remove_dir_all(dir).unwrap();
        assert_eq!(names, ["judged", "m.oantt"]);
        assert_eq!([module, judged, again], ["as it was"; 3]);
    }

    #[test]
    fn a_copy_has_what_the_checker_reads_and_no_more() {
        let files = [
            "root/crates.txt",
            "root/crates/a/src/lib.rt",
            "root/crates/a/out/rlib/stamp",
            "root/crates/a/edits/e.edit",
            "root/docs/LIST.md",
        ];
        let dir = made("copied", &files);
        let (root, to) = (dir.join("root"), dir.join("copy"));
        copy_sources(&root, &to).unwrap();
        take_library(&root, &to, "a").unwrap();
        let all = files_below(&to).unwrap();
        let inside = |p: &PathBuf| p.strip_prefix(&to).unwrap().display().to_string();
        let names: Vec<String> = all.iter().map(inside).collect();
        fs::remove_dir_all(dir).unwrap();
        let due = [
            "crates/a/out/rlib/stamp",
            "crates/a/src/lib.rt",
            "crates.txt",
        ];
        assert_eq!(names, due);
    }
}
