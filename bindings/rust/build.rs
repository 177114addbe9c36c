//! Finds libcells.a and libjudge.a in MC2_HOME, or in this repository, where it makes a library that doesn't exist.
use std::io::Write;
use std::path::{Path, PathBuf};
use std::time::SystemTime;

const HOW: &str = "`tools/develop/library cells --unproved && tools/develop/library judge --unproved` makes both in .unproved, which MC2_HOME can name";

/// Reports that a library is being made: at the terminal at once, as cargo shows a build script's output only at its end.
fn announce(name: &str) {
    let line = format!("lib{name}.a is made without a proof, in a minute or two; MC2_HOME names a folder that has it");
    println!("cargo:warning={line}");
    if let Ok(mut terminal) = std::fs::OpenOptions::new().write(true).open("/dev/tty") {
        let _ = writeln!(terminal, "\r\x1b[Kmc2: {line}");
    }
}

/// Makes an unproved library by the repository's tool. The error is the last line that the tool printed.
fn make(top: &Path, name: &str) -> Result<PathBuf, String> {
    let tool = top.join("tools/develop/library");
    if !top.join(format!(".unproved/lib{name}.a")).is_file() {
        announce(name);
    }
    let output = std::process::Command::new(&tool).args([name, "--unproved"]).output();
    let output = output.map_err(|error| format!("{}: {error}", tool.display()))?;
    let complaint = String::from_utf8_lossy(&output.stderr).lines().last().unwrap_or("it isn't made").to_string();
    output.status.success().then(|| top.join(format!(".unproved/lib{name}.a"))).ok_or(complaint)
}

/// When the newest file of a folder, or of a folder in it, was changed.
fn newest(folder: &Path) -> SystemTime {
    let files = std::fs::read_dir(folder).into_iter().flatten().flatten();
    let times = files.filter_map(|it| match it.metadata().ok()? {
        folder if folder.is_dir() => Some(newest(&it.path())),
        file => file.modified().ok(),
    });
    times.max().unwrap_or(SystemTime::UNIX_EPOCH)
}

/// Refuses the proved library of the repository if a source of its crate is newer.
fn refuse_old(top: &Path, name: &str, library: &Path) -> Result<(), String> {
    let made = library.metadata().and_then(|it| it.modified()).map_err(|error| format!("{}: {error}", library.display()))?;
    let (proved, sources) = (format!("crates/{name}/out/lib{name}.a"), format!("crates/{name}/src"));
    if library.ends_with(&proved) && newest(&top.join(&sources)) > made {
        return Err(format!("{proved} is older than {sources}; `tools/develop/library {name}` proves it again"));
    }
    Ok(())
}

/// Returns the library: in the folder that MC2_HOME names, in an installation there, or proved in a clone of the repository.
/// Without MC2_HOME it makes a library that doesn't exist.
fn library(name: &str) -> Result<PathBuf, String> {
    let top = Path::new(env!("CARGO_MANIFEST_DIR")).join("../..");
    let home = std::env::var_os("MC2_HOME").filter(|it| !it.is_empty()).map(PathBuf::from);
    let installed = ["lib", "lib/x86_64-linux-gnu"].map(|it| format!("{it}/libmc2_{name}.a"));
    let places = [format!("lib{name}.a"), format!("crates/{name}/out/lib{name}.a")];
    let place = home.as_ref().unwrap_or(&top);
    let found = places.iter().chain(&installed).map(|it| place.join(it)).find(|it| it.is_file());
    let path = match (found, &home) {
        (Some(path), _) => path,
        (None, Some(home)) => return Err(format!("MC2_HOME is {} and has no lib{name}.a", home.display())),
        (None, None) => make(&top, name)?,
    };
    if home.is_none() {
        println!("cargo:rerun-if-changed={}", top.join(format!("crates/{name}/src")).display());
    }
    refuse_old(place, name, &path)?;
    path.canonicalize().map_err(|error| format!("{}: {error}", path.display()))
}

fn main() {
    println!("cargo:rerun-if-env-changed=MC2_HOME");
    for name in ["cells", "judge"] {
        let path = library(name).unwrap_or_else(|error| {
            eprintln!("mc2: {error}; {HOW}");
            std::process::exit(1)
        });
        let [folder, file] = [path.parent(), path.file_stem().map(Path::new)].map(|it| it.unwrap_or(&path).display());
        println!("cargo:rerun-if-changed={}\ncargo:rustc-link-search=native={folder}", path.display());
        println!("cargo:rustc-link-lib=static={}", &file.to_string()["lib".len()..]);
    }
}
