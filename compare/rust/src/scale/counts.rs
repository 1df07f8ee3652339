//! What was compared, and what differed.

/// Document 01's number, or the answer's words; a NaN is one word.
pub type Answer = Result<Vec<u64>, u32>;

/// One function of one record.
pub struct Cell {
    function: String,
    record: &'static str,
    compared: usize,
    different: usize,
    first: Option<String>,
}

impl Cell {
    /// Counts a case; `input` says what it was called with.
    pub fn case(&mut self, port: &Answer, rust: &Answer, input: impl FnOnce() -> String) {
        self.compared += 1;
        if port != rust {
            self.different += 1;
            self.first.get_or_insert_with(|| {
                format!("{}\n    port {}\n    Rust {}", input(), shown(port), shown(rust))
            });
        }
    }
}

fn shown(answer: &Answer) -> String {
    match answer {
        Ok(words) => hex(words),
        Err(number) => format!("refused {number}"),
    }
}

/// Words in hex, separated by single spaces; of many the first.
pub fn hex(words: &[u64]) -> String {
    let mut text: Vec<String> = words.iter().take(24).map(|word| format!("{word:016x}")).collect();
    if words.len() > text.len() {
        text.push(format!("and {} more", words.len() - text.len()));
    }
    text.join(" ")
}

#[derive(Default)]
pub struct Counts(Vec<Cell>);

impl Counts {
    /// The cell of a function and a record, made where there is none yet.
    pub fn cell(&mut self, function: &str, record: &'static str) -> &mut Cell {
        let place = self.0.iter().position(|c| c.function == function && c.record == record);
        let place = place.unwrap_or_else(|| {
            let (compared, different) = (0, 0);
            self.0.push(Cell {
                function: function.into(),
                record,
                compared,
                different,
                first: None,
            });
            self.0.len() - 1
        });
        &mut self.0[place]
    }

    /// A line a function, a first difference of each cell, and the sums; how many differ.
    pub fn print(&self) -> usize {
        let mut functions: Vec<&str> = vec![];
        for cell in &self.0 {
            if !functions.contains(&cell.function.as_str()) {
                functions.push(&cell.function);
            }
        }
        for function in functions {
            let cells = self.0.iter().filter(|cell| cell.function == function);
            let cells: Vec<String> = cells.map(counted).collect();
            println!("{function}: {}", cells.join(", "));
        }
        for cell in &self.0 {
            if let Some(first) = &cell.first {
                println!("first difference, {} {}: {first}", cell.function, cell.record);
            }
        }
        let sum = |of: fn(&Cell) -> usize| self.0.iter().map(of).sum::<usize>();
        let different = sum(|cell| cell.different);
        println!("{} cases compared, {different} different", sum(|cell| cell.compared));
        different
    }
}

fn counted(cell: &Cell) -> String {
    let different = match cell.different {
        0 => String::new(),
        count => format!(" ({count} different)"),
    };
    format!("{} {}{different}", cell.record, cell.compared)
}
