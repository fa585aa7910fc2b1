//! Makes the files of plans/ from the catalogue, or says which of them are not what it makes.
//!
//!     make-plans write FOLDER
//!     make-plans check FOLDER

use std::collections::BTreeMap;
use std::fs;
use std::io;
use std::path::Path;
use std::process::ExitCode;

use catalogue::Named;
use reference::answer::NONE;
use reference::file::file_of;
use reference::network::Questions;
use reference::plan::Plan;

fn main() -> ExitCode {
    let words: Vec<String> = std::env::args().skip(1).collect();
    let done = match words.iter().map(String::as_str).collect::<Vec<_>>()[..] {
        ["write", folder] => write(Path::new(folder)),
        ["check", folder] => check(Path::new(folder)),
        _ => {
            eprintln!("make-plans write|check FOLDER");
            return ExitCode::from(2);
        }
    };
    match done {
        Ok(true) => ExitCode::SUCCESS,
        Ok(false) => ExitCode::FAILURE,
        Err(error) => {
            eprintln!("make-plans: {error}");
            ExitCode::FAILURE
        }
    }
}

fn write(folder: &Path) -> io::Result<bool> {
    fs::create_dir_all(folder)?;
    for (name, bytes) in files() {
        fs::write(folder.join(name), bytes)?;
    }
    Ok(true)
}

/// Whether the folder has exactly these files with exactly these bytes.
fn check(folder: &Path) -> io::Result<bool> {
    let mut found = BTreeMap::new();
    for entry in fs::read_dir(folder)? {
        let entry = entry?;
        found.insert(entry.file_name().to_string_lossy().into_owned(), fs::read(entry.path())?);
    }
    let made = files();
    let stale = |name: &&String| made.get(*name) != found.get(*name);
    let names: Vec<&String> = made.keys().chain(found.keys().filter(|name| !made.contains_key(*name))).collect();
    for name in names.iter().filter(|name| stale(name)) {
        println!("{} is not what make-plans makes: write it again", folder.join(name).display());
    }
    Ok(!names.iter().any(|name| stale(name)))
}

fn files() -> BTreeMap<String, Vec<u8>> {
    let plans = catalogue::every_plan();
    let contents = ("README.md".to_string(), contents(&plans).into_bytes());
    plans.iter().map(|named| (format!("{}.plan", named.name), file_of(&named.plan))).chain([contents]).collect()
}

fn contents(plans: &[Named]) -> String {
    let line = |named: &Named| {
        let (nodes, arcs) = (named.plan.nodes(), named.plan.arcs.len());
        format!("| `{}.plan` | {nodes} | {arcs} | {} | {} |\n", named.name, answer(&named.plan), named.about)
    };
    let lines: String = plans.iter().map(line).collect();
    format!("{CONTENTS_HEAD}{lines}")
}

/// The flow question's answer, in the listing's words.
fn answer(plan: &Plan) -> String {
    let (answer, ..) = Questions::about(plan.clone()).flow(plan.arcs.len(), plan.nodes());
    match answer.number {
        0 => "flow".to_string(),
        NONE => format!("none {}", answer.value),
        number => format!("refused {number} at {}", answer.index),
    }
}

const CONTENTS_HEAD: &str = "# Plan files

Made by `second/make-plans` from `second/catalogue`; `second/run` says if one of them is stale. P1 to P13 are
document 01's plans worked by hand, as far as they are networks.

| file | nodes | arcs | answer | |
|---|---|---|---|---|
";
