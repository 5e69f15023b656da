//! Plants faults in copies of the second reader, one in each, and checks that the generated cases find every one; and that the laws of
//! independent blocks, asked of the faulty reader alone, find every fault that they rule out.

mod independence_faults;
mod faults;

use independence_faults::INDEPENDENCE_FAULTS;
use faults::{Fault, FAULTS};
use std::fs;
use std::path::{Path, PathBuf};
use std::process::{exit, Command};

const SEED: u64 = 1;
const CASES: usize = 20_000;
const PAIRS: usize = 400;

fn main() {
    let package = Path::new(env!("CARGO_MANIFEST_DIR"));
    let folder = package.join("target").join("plant");
    if let Err(trouble) = build_copies(package, &folder) {
        eprintln!("{trouble}");
        exit(2);
    }
    let run = Command::new("cargo").args(["run", "-q", "-j1", "--offline"]).current_dir(&folder).status();
    exit(run.ok().and_then(|status| status.code()).unwrap_or(2));
}

/// A package with one faulty copy of the reader in each module.
fn build_copies(package: &Path, folder: &Path) -> Result<(), String> {
    let source = folder.join("src");
    if source.exists() {
        told(fs::remove_dir_all(&source), &source)?;
    }
    for (number, fault) in FAULTS.iter().chain(INDEPENDENCE_FAULTS).enumerate() {
        copy_with_fault(&package.join("src/reader"), &source.join(name(number)), fault)?;
    }
    let manifest = folder.join("Cargo.toml");
    told(fs::write(&manifest, manifest_text(package)), &manifest)?;
    let main = source.join("main.rs");
    told(fs::write(&main, main_text()), &main)
}

fn told<T>(result: std::io::Result<T>, path: &Path) -> Result<T, String> {
    result.map_err(|error| format!("{}: {error}", path.display()))
}

fn name(number: usize) -> String {
    format!("fault_{number:03}")
}

fn copy_with_fault(from: &Path, to: &Path, fault: &Fault) -> Result<(), String> {
    told(fs::create_dir_all(to), to)?;
    let entries = told(fs::read_dir(from), from)?;
    let files: Vec<PathBuf> = entries.filter_map(|entry| entry.ok()).map(|entry| entry.path()).collect();
    for file in files {
        let file_name = file.file_name().unwrap_or_default();
        let text = told(fs::read_to_string(&file), &file)?;
        let text = without_tests(&text);
        let text = if file_name == fault.file { planted(text, fault)? } else { text.to_string() };
        told(fs::write(to.join(file_name), text), to)?;
    }
    Ok(())
}

/// The part of a file before its unit tests.
fn without_tests(text: &str) -> &str {
    text.split("#[cfg(test)]\nmod tests").next().unwrap_or(text)
}

/// The text with the fault, if what it replaces stands there just once.
fn planted(text: &str, fault: &Fault) -> Result<String, String> {
    match text.matches(fault.old).count() {
        1 => Ok(text.replace(fault.old, fault.new)),
        count => Err(format!("{}: {count} times: {}", fault.file, fault.old)),
    }
}

fn manifest_text(package: &Path) -> String {
    format!(
        "[package]\nname = \"planted\"\nversion = \"0.1.0\"\nedition = \"2021\"\n\n[workspace]\n\n\
        [dependencies]\nedf_tests = {{ path = {:?} }}\n\n\
        [profile.dev]\nopt-level = 0\ndebug = false\nincremental = false\n\n\
        [profile.dev.package.edf_tests]\nopt-level = 2\n",
        package.display().to_string()
    )
}

/// The numbers and faults of a list, the first with this number.
fn listed(first: usize, faults: &[Fault]) -> (String, String) {
    let readers = (first..first + faults.len()).map(|i| format!("|file, call| Some(answer_{i:03}(file, call))"));
    let titles = faults.iter().map(|f| format!("({:?}, {:?}, {:?})", f.file, f.old, f.new));
    let [titles, readers] = [titles.collect::<Vec<_>>(), readers.collect()].map(|lines| format!("&[\n        {}\n    ]", lines.join(",\n        ")));
    (titles, readers)
}

fn main_text() -> String {
    let module = |i: usize| format!("mod {0};\nedf_tests::answer_function!(answer_{i:03}, {0});", name(i));
    let modules: Vec<String> = (0..FAULTS.len() + INDEPENDENCE_FAULTS.len()).map(module).collect();
    let (titles, readers) = listed(0, FAULTS);
    let (law_titles, law_readers) = listed(FAULTS.len(), INDEPENDENCE_FAULTS);
    format!(
        "#![allow(warnings)]\n{}\n\nfn main() {{\n    \
        let found = edf_tests::planted::print_found({titles}, {readers}, {SEED}, {CASES});\n    \
        let broken = edf_tests::planted::print_broken({law_titles}, {law_readers}, {SEED}, {PAIRS});\n    \
        std::process::exit(i32::from(!(found && broken)));\n}}\n",
        modules.join("\n"),
    )
}
