//! Takes the Rust sources out of the folder that YRS_SRC names: whole files as they are, and parts of files, cut out by marker.
//! Everything goes into the build's output folder.
use std::path::{Path, PathBuf};
use std::{env, fs, process};

/// Files that are taken whole.
const WHOLE: [&str; 10] = [
    "encoding/read.rs",
    "encoding/write.rs",
    "error.rs",
    "observer.rs",
    "state_vector.rs",
    "sync/awareness.rs",
    "sync/protocol.rs",
    "sync/time.rs",
    "updates/decoder.rs",
    "utils/client_hasher.rs",
];

/// A part of a file: from the first place of one marker up to the next place of another, or to the end.
struct Part {
    file: &'static str,
    from: &'static str,
    to: Option<&'static str>,
    name: &'static str,
}

/// The parts that are cut out of files that also hold the document engine.
const PARTS: [Part; 3] = [
    Part {
        file: "block.rs",
        from: "#[cfg(not(feature = \"small-client\"))]\ntype CID",
        to: Some("#[repr(transparent)]\n#[derive(Copy, Clone)]\npub(crate) struct BlockRef"),
        name: "block_ids.rs",
    },
    Part {
        file: "block.rs",
        from: "impl std::fmt::Display for ID {",
        to: Some("impl std::fmt::Debug for ItemPtr {"),
        name: "block_display.rs",
    },
    Part {
        file: "transaction.rs",
        from: "/// A binary marker that can be assigned to a read-write transaction",
        to: None,
        name: "origin.rs",
    },
];

fn fail(why: String) -> ! {
    eprintln!("beside_rust: {why}");
    process::exit(1);
}

/// The folder with the sources, or an end with what is missing.
fn sources() -> PathBuf {
    println!("cargo:rerun-if-env-changed=YRS_SRC");
    let Some(folder) = env::var_os("YRS_SRC") else {
        fail(
            "YRS_SRC is not set: it names the folder with the sources of yrs 0.28.0, the one that holds sync/awareness.rs".into(),
        );
    };
    let folder = PathBuf::from(folder);
    if !folder.join("sync/awareness.rs").is_file() {
        fail(format!("YRS_SRC is {}, and there is no sync/awareness.rs in it", folder.display()));
    }
    folder
}

fn read(folder: &Path, file: &str) -> String {
    let path = folder.join(file);
    println!("cargo:rerun-if-changed={}", path.display());
    fs::read_to_string(&path).unwrap_or_else(|e| fail(format!("{}: {e}", path.display())))
}

fn cut(text: &str, part: &Part) -> String {
    let lost =
        |marker: &str| -> ! { fail(format!("{} has no line {marker:?}: other sources than those of yrs 0.28.0?", part.file)) };
    let from = text.find(part.from).unwrap_or_else(|| lost(part.from));
    let text = &text[from..];
    match part.to {
        None => text.to_owned(),
        Some(marker) => text[..text.find(marker).unwrap_or_else(|| lost(marker))].to_owned(),
    }
}

fn write(name: &str, text: &str) {
    let out = PathBuf::from(env::var_os("OUT_DIR").expect("cargo sets OUT_DIR"));
    let path = out.join("yrs").join(name);
    fs::create_dir_all(path.parent().expect("a file has a folder")).expect("a folder can be made");
    fs::write(path, text).expect("a file can be written");
}

fn main() {
    println!("cargo:rerun-if-changed=build.rs");
    let folder = sources();
    for file in WHOLE {
        write(file, &read(&folder, file));
    }
    for part in &PARTS {
        write(part.name, &cut(&read(&folder, part.file), part));
    }
}
