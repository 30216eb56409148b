//! The crate as another crate uses it, elsewhere; and where the library is not built.

use std::fs;
use std::path::{Path, PathBuf};
use std::process::{Command, Output};

const HERE: &str = env!("CARGO_MANIFEST_DIR");

/// An empty folder with a folder `src`.
fn folder(name: &str) -> PathBuf {
    let folder = Path::new(env!("CARGO_TARGET_TMPDIR")).join(name);
    let _ = fs::remove_dir_all(&folder);
    fs::create_dir_all(folder.join("src")).unwrap();
    folder
}

fn cargo(folder: &Path, command: &str) -> Output {
    let mut cargo = Command::new(env!("CARGO"));
    cargo.args([command, "--quiet", "--offline", "--target-dir", "target"]);
    cargo.current_dir(folder).output().unwrap()
}

fn said(text: &[u8]) -> String {
    String::from_utf8_lossy(text).into_owned()
}

#[test]
fn a_program_elsewhere() {
    let plug = folder("plug");
    let package =
        "[package]\nname = \"plug\"\nversion = \"0.1.0\"\nedition = \"2021\"\n[workspace]\n";
    let manifest = format!("{package}[dependencies]\nlizardwire = {{ path = {HERE:?} }}\n");
    fs::write(plug.join("Cargo.toml"), manifest).unwrap();
    let program = r#"
        fn main() -> Result<(), lizardwire::Refusal> {
            let outline = lizardwire::Outline::new(&[(0.0, 0.0), (4.0, 0.0), (4.0, 4.0), (0.0, 4.0)])?;
            print!("{}", outline.inset(1.0)?.area());
            Ok(())
        }
    "#;
    fs::write(plug.join("src/main.rs"), program).unwrap();
    let told = cargo(&plug, "run");
    assert!(told.status.success(), "{}", said(&told.stderr));
    assert_eq!(said(&told.stdout), "4");
}

#[test]
fn a_library_that_is_not_built() {
    let alone = folder("alone/rust");
    for name in ["Cargo.toml", "build.rs"] {
        fs::copy(Path::new(HERE).join(name), alone.join(name)).unwrap();
    }
    fs::write(alone.join("src/lib.rs"), "").unwrap();
    let told = cargo(&alone, "check");
    assert!(!told.status.success());
    let top = alone.parent().unwrap().canonicalize().unwrap();
    let wanted = format!("run tools/library in {}\n", top.display());
    assert!(
        said(&told.stderr).contains(&wanted),
        "{}",
        said(&told.stderr)
    );
    assert!(!said(&told.stderr).contains("panicked"));
}
