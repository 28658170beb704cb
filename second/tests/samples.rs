//! The stored listings of the samples are what this program prints for their files.

use std::fs::{self, File};
use std::path::Path;
use std::process::Command;

fn listing_of(task: &Path) -> Vec<u8> {
    let mut command = Command::new(env!("CARGO_BIN_EXE_second"));
    command.arg("listing").stdin(File::open(task).expect("the sample's task file"));
    command.output().expect("the second program runs").stdout
}

#[test]
fn each_sample_has_its_listing() {
    let folder = Path::new(env!("CARGO_MANIFEST_DIR")).join("../samples");
    let entries = fs::read_dir(folder).expect("the samples");
    let paths = entries.map(|entry| entry.expect("an entry of the folder").path());
    let tasks: Vec<_> = paths.filter(|path| path.extension().is_some_and(|end| end == "task")).collect();
    assert!(tasks.len() >= 9, "only {} samples", tasks.len());
    for task in tasks {
        let stored = fs::read(task.with_extension("listing")).expect("the sample's listing");
        assert_eq!(listing_of(&task), stored, "{}", task.display());
    }
}
