//! Links the proved library to the programs and tests of a package: WAGONTULIP_ARCHIVE is its archive, which `host/build` makes. An archive made of the
//! stand-in is refused, so that nothing that says it has the proved library can have the stand-in. The command is also told what it is made of, so that it
//! can say it: host/machine names the commit and the toolchain, and the archive's SHA-256 is reckoned here, of the archive that is linked.

#[path = "src/command/sha256.rs"]
mod sha256;

use std::env;

/// The name that the stand-in exports beside the library's.
const STAND_IN: &[u8] = b"wagontulip_is_a_stand_in";

/// What host/machine names: the commit, or nothing; whether the tree differs from it; the toolchain that made the archive.
const NAMED: [&str; 3] = ["WAGONTULIP_COMMIT", "WAGONTULIP_TREE", "WAGONTULIP_TOOLCHAIN"];

fn main() {
    println!("cargo:rerun-if-env-changed=WAGONTULIP_ARCHIVE");
    let archive = env::var("WAGONTULIP_ARCHIVE").ok();
    let bytes = archive.as_deref().map(link);
    if archive.is_none() {
        println!("cargo:warning=no archive of the proved library: host/build makes one");
    }
    // Another program does not say what it is, and need not be built again for another commit.
    if env::var("CARGO_PKG_NAME").as_deref() == Ok("wagontulip") {
        name(bytes.as_deref());
    }
}

/// As the linker's last word, so that whatever stands before it finds the exports. The archive's bytes.
fn link(archive: &str) -> Vec<u8> {
    let bytes = std::fs::read(archive).unwrap_or_else(|error| panic!("{archive}: {error}"));
    assert!(!bytes.windows(STAND_IN.len()).any(|part| part == STAND_IN), "{archive}: this is the stand-in, and not the proved library");
    println!("cargo:rerun-if-changed={archive}");
    println!("cargo:rustc-link-arg={archive}");
    bytes
}

/// What is linked to an archive can be run, and so must know what it is. What is linked to none cannot.
fn name(archive: Option<&[u8]>) {
    for named in NAMED {
        println!("cargo:rerun-if-env-changed={named}");
        let value = env::var(named).unwrap_or_else(|_| {
            assert!(archive.is_none(), "{named} is not set: host/build names what the command is made of");
            String::from("none")
        });
        println!("cargo:rustc-env={named}={value}");
    }
    let sha256 = archive.map_or(String::from("none"), |bytes| sha256::Hash::new().with(bytes).ended().1);
    println!("cargo:rustc-env=WAGONTULIP_ARCHIVE_SHA256={sha256}");
}
