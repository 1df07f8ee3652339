//! Runs the original num-dual and records its answers.
//!
//! `oracle FOLDER CASES SEED` writes the answer files, checking itself as it goes, and prints what
//! it compared: outside functions, the numbers of the documents, and cases by function.
mod answers;
mod counting;
mod documents;
mod dualrun;
mod functions;
mod matrices;
mod matrix_files;
mod matrix_requests;
mod original;
mod outside;
mod pool;
mod random;
mod record;
mod records;
mod refusal_cases;
mod refusals;
mod requests;
mod root;
mod supplied;
mod words;
mod write;

// `linalg.rs` names them at the root.
use original::{DualNum, DualNumFloat};
use records::Called;
use std::path::Path;
use std::process::ExitCode;
use write::{Answers, Run};

fn main() -> ExitCode {
    let arguments: Vec<String> = std::env::args().skip(1).collect();
    let [folder, cases, seed] = &arguments[..] else {
        eprintln!("oracle FOLDER CASES SEED");
        return ExitCode::FAILURE;
    };
    let number = |text: &str| text.parse::<usize>().expect("a whole number");
    let run = Run { cases: number(cases), seed: number(seed) as u64 };
    let different = write_all(Path::new(folder), run) + documents::print();
    if different == 0 { ExitCode::SUCCESS } else { ExitCode::FAILURE }
}

/// Writes the files; how many functions call what document 01 does not list.
fn write_all(folder: &Path, run: Run) -> usize {
    std::fs::create_dir_all(folder).expect("the folder can be made");
    let mut called = Called::new();
    let mut files = vec![root::all(run)];
    files.extend(records::all(run, &mut called));
    files.extend(matrix_files::all(run));
    files.push(dualrun::all(run));
    files.push(refusals::all());
    files.iter().for_each(|file| file.write(folder, run));
    print_counts(&files);
    outside::check_matrices();
    outside::print(&called)
}

/// Cases by function, a column for each file that has it.
fn print_counts(files: &[Answers]) {
    let mut names: Vec<&str> = vec![];
    for (name, _) in files.iter().flat_map(|file| &file.counts) {
        if !names.contains(&name.as_str()) {
            names.push(name);
        }
    }
    println!("cases by function (dual, dual2, dual3, hyperdual, hyperhyperdual for the records):");
    for name in names {
        let counts = files.iter().flat_map(|file| &file.counts).filter(|(n, _)| n == name);
        let counts: Vec<String> = counts.map(|(_, count)| count.to_string()).collect();
        println!("{name:24} {}", counts.join(" "));
    }
}
