//! The answer files: a head, a count, and the cases, one after another.
use std::fs;
use std::path::Path;

/// What is written, and how many cases of what it holds.
pub struct Answers {
    pub name: String,
    pub about: String,
    /// Lines between the count and the cases.
    pub before: Vec<String>,
    /// The text of each case, one line or several, without the last newline.
    pub cases: Vec<String>,
    /// Counts by function, for the table that `run` prints.
    pub counts: Vec<(String, usize)>,
}

/// How a run was asked for.
#[derive(Copy, Clone)]
pub struct Run {
    pub seed: u64,
    pub cases: usize,
}

impl Answers {
    fn text(&self, run: Run) -> String {
        let head = [
            format!("# {}", self.about),
            format!(
                "# The answers of num-dual 0.15.1, run by oracle/run: seed {:016x}, size {}.",
                run.seed, run.cases
            ),
            "# The lines are described in oracle/README.md.".to_string(),
            format!("{:08x}", self.cases.len()),
        ];
        let lines = head.iter().chain(&self.before).chain(&self.cases);
        lines.flat_map(|line| [line.as_str(), "\n"]).collect()
    }

    pub fn write(&self, folder: &Path, run: Run) {
        let text = self.text(run);
        println!("{:28} {:8} cases {:9} bytes", self.name, self.cases.len(), text.len());
        fs::write(folder.join(&self.name), text).expect("the answers can be written");
    }
}
