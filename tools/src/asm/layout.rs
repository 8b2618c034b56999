//! Where everything of a text stands in the code.

use super::program::{Item, Lined, Procedure, Program, Statement, TextFault};
use crate::sheet::Operands;
use crate::switch_table::{Key, FIXED_BYTES};
use std::collections::{BTreeMap, HashMap};

pub struct Layout<'a> {
    /// In the order of the code: 1, 2, .. and then 0.
    pub procedures: Vec<Placed<'a>>,
    /// The numbers of the procedures that have a name.
    pub names: HashMap<&'a str, usize>,
    /// Source lines by their offsets.
    pub source: BTreeMap<usize, u32>,
    pub code_len: usize,
}

pub struct Placed<'a> {
    pub procedure: &'a Procedure,
    /// Offset at which it begins.
    pub entry: usize,
    pub labels: HashMap<&'a str, usize>,
}

impl<'a> Layout<'a> {
    /// Finds the places, or what keeps them from being found.
    pub fn of(program: &'a Program) -> Result<Layout<'a>, Vec<TextFault>> {
        let ordered = in_order(program)?;
        let mut builder = Builder {
            layout: Layout {
                procedures: Vec::new(),
                names: HashMap::new(),
                source: BTreeMap::new(),
                code_len: 2 * ordered.len(),
            },
            faults: Vec::new(),
        };
        for procedure in ordered {
            builder.add_procedure(procedure);
        }
        for Lined { line, item: (offset, number) } in &program.source_lines {
            builder.add_source_line(*line, *offset, *number);
        }
        if builder.faults.is_empty() {
            Ok(builder.layout)
        } else {
            Err(builder.faults)
        }
    }
}

/// Puts the procedures in the order of their code, where each number from 0 on stands once.
fn in_order(program: &Program) -> Result<Vec<&Procedure>, Vec<TextFault>> {
    let mut by_number = BTreeMap::new();
    for procedure in &program.procedures {
        if by_number.insert(procedure.number, procedure).is_some() {
            let text = format!("procedure {} is given a second time", procedure.number);
            return Err(vec![TextFault { line: procedure.line, text }]);
        }
    }
    let missing = (0..).zip(by_number.keys()).find(|(wanted, number)| wanted != *number);
    if missing.is_some() || by_number.is_empty() {
        let line = program.procedures.last().map_or(1, |last| last.line);
        let text = format!("expected a procedure {} too", missing.map_or(0, |(wanted, _)| wanted));
        return Err(vec![TextFault { line, text }]);
    }
    let main = by_number.remove(&0);
    Ok(by_number.into_values().chain(main).collect())
}

struct Builder<'a> {
    layout: Layout<'a>,
    faults: Vec<TextFault>,
}

impl<'a> Builder<'a> {
    fn fault(&mut self, line: usize, text: String) {
        self.faults.push(TextFault { line, text });
    }

    fn add_procedure(&mut self, procedure: &'a Procedure) {
        let (entry, number) = (self.layout.code_len, procedure.number);
        if let Some(name) = &procedure.name {
            if self.layout.names.insert(name, number).is_some() {
                self.fault(procedure.line, format!("another procedure has the name '{name}'"));
            }
        }
        let mut labels = HashMap::new();
        let mut lines = Vec::new();
        for Lined { line, item } in &procedure.items {
            match item {
                Item::Label(name) => {
                    if labels.insert(name.as_str(), self.layout.code_len).is_some() {
                        self.fault(*line, format!("procedure {number} has another '{name}:'"));
                    }
                }
                Item::SourceLine(number) => lines.push((*line, *number)),
                Item::Statement(_) | Item::Bytes(_) => {
                    for (line, number) in lines.drain(..) {
                        self.add_source_line(line, self.layout.code_len, number);
                    }
                    self.layout.code_len += item_len(item);
                }
            }
        }
        if let Some((line, _)) = lines.first() {
            self.fault(*line, "expected an instruction behind .line".to_string());
        }
        if self.layout.code_len == entry {
            self.fault(procedure.line, format!("procedure {number} has no instructions"));
        }
        self.layout.procedures.push(Placed { procedure, entry, labels });
    }

    fn add_source_line(&mut self, line: usize, offset: usize, number: u32) {
        if self.layout.source.insert(offset, number).is_some() {
            self.fault(line, format!("offset {offset} has a source line already"));
        }
    }
}

/// Counts the bytes of code that an item makes.
pub fn item_len(item: &Item) -> usize {
    match item {
        Item::Bytes(bytes) => bytes.len(),
        Item::Statement(statement) => statement_len(statement),
        Item::Label(_) | Item::SourceLine(_) => 0,
    }
}

fn statement_len(statement: &Statement) -> usize {
    let form = statement.form;
    match form.operands() {
        Operands::Table => FIXED_BYTES + form.len_per_entry * statement.counted_rows(),
        _ => form.len + usize::from(statement.double),
    }
}

impl Statement {
    /// Counts the rows behind those of the exit and of ELSE.
    pub fn counted_rows(&self) -> usize {
        let fixed = |row: &&Lined<(Key, _)>| matches!(row.item.0, Key::Exit | Key::Else);
        self.rows.len() - self.rows.iter().filter(fixed).count()
    }
}
