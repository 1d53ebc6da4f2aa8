//! build.rs names the target where it is none that the archive is made for.

#[allow(dead_code)]
#[path = "../build.rs"]
mod build;

#[test]
fn other_targets_are_named() {
    assert_eq!(build::other_target("x86_64", "linux", "64"), None);
    for (arch, os, width) in [("aarch64", "linux", "64"), ("x86_64", "macos", "64"), ("x86_64", "linux", "32")] {
        let error = build::other_target(arch, os, width).expect("another target");
        assert!(error.contains("x86-64 Linux"), "{error}");
        assert!(error.contains(&format!("{arch} {os} with pointers of {width} bits")), "{error}");
        assert!(!error.contains('\n'), "an error of a build script is one line");
    }
}
