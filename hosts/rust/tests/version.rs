//! The versions of the crate, in every Cargo.lock that names it, of ../include/digribbon.h and of CHANGELOG.md are the
//! same. (The Lua module takes the header's, and its tests look.)

use std::fs;
use std::path::Path;

/// What stands between `start` and `end`, where they come first.
fn between(file: &str, start: &str, end: &str) -> String {
    let path = Path::new(env!("CARGO_MANIFEST_DIR")).join(file);
    let text = fs::read_to_string(&path).unwrap_or_else(|error| panic!("{}: {error}", path.display()));
    let (_, rest) = text.split_once(start).unwrap_or_else(|| panic!("{file} has no {start}"));
    rest.split_once(end).unwrap_or_else(|| panic!("{file} has no {end} behind {start}")).0.to_string()
}

#[test]
fn versions_are_the_same() {
    let version = env!("CARGO_PKG_VERSION");
    assert_eq!(between("../include/digribbon.h", "#define DIGRIBBON_VERSION \"", "\""), version);
    assert_eq!(between("../../CHANGELOG.md", "\n## ", "\n"), version);
    for lock in ["Cargo.lock", "../../compare/Cargo.lock"] {
        assert_eq!(between(lock, "name = \"digribbon\"\nversion = \"", "\""), version, "{lock}");
    }
}
