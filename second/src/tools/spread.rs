//! What cases hold: how many of them show each thing that a comparison ought to meet. Each line is a
//! count and a name; a name that no case shows has the count 0.

use std::collections::HashMap;
use std::io::{self, BufRead, Write};

use crate::answer::Answer;
use crate::grammar::rules_hold;
use crate::sheet::{read_sheet, Sheet};
use crate::tools::case::{Case, Edited, Lent};
use crate::tools::faults::{edit_faults, grammar_faults, layout_faults, tree_faults};
use crate::tools::labels::{
    edit_labels, lent_labels, reading_labels, tree_labels, updated_labels, Label,
};
use crate::tools::shapes::table_labels;
use crate::tree::tree_in_order;
use crate::{check, conditions, read_afresh, update, Check};

/// Counts what all cases of the input show, and writes the counts.
pub fn spread_of(input: &mut impl BufRead, output: &mut impl Write) -> io::Result<()> {
    let mut spread = Spread::default();
    while let Some(case) = Case::read(input)? {
        spread.see(&case);
    }
    for (group, labels) in &spread.groups {
        for (name, count) in labels {
            writeln!(output, "{count} {group}: {name}")?;
        }
    }
    Ok(())
}

#[derive(Default)]
struct Spread {
    groups: Vec<(&'static str, Vec<(&'static str, usize)>)>,
    /// What is known of tables seen before.
    tables: HashMap<Vec<u8>, Vec<(&'static str, Vec<Label>)>>,
}

impl Spread {
    /// Counts the labels of one group, which are the same names in every call.
    fn count(&mut self, group: &'static str, labels: impl IntoIterator<Item = Label>) {
        let at = self.groups.iter().position(|(known, _)| *known == group);
        let at = at.unwrap_or_else(|| {
            self.groups.push((group, Vec::new()));
            self.groups.len() - 1
        });
        let counts = &mut self.groups[at].1;
        for (place, (name, shown)) in labels.into_iter().enumerate() {
            if place == counts.len() {
                counts.push((name, 0));
            }
            counts[place].1 += usize::from(shown);
        }
    }

    fn see(&mut self, case: &Case) {
        match case {
            Case::Table { table } => self.see_table(table),
            Case::Read { table, codes, first, lent, times } => {
                self.see_table(table);
                let (answer, row) =
                    called(*lent, |tree, room| read_afresh(table, codes, *first, tree, room));
                self.count("lent to a reading", lent_labels(*lent, *times));
                if let Some(sheet) = judged_sheet(table, &answer) {
                    self.count("reading", reading_labels(&sheet, codes, *first, &answer, &row));
                }
            }
            Case::Update { edited, lent, times } => {
                let Edited { table, row, edits, put } = edited;
                self.see_table(table);
                let (answer, new) =
                    called(*lent, |tree, room| update(table, row, edits, put, tree, room));
                self.count("lent to an update", lent_labels(*lent, *times));
                if let Some(sheet) = judged_sheet(table, &answer) {
                    self.see_update(&sheet, edited, &answer, &new);
                }
            }
            Case::List { .. } => {}
        }
    }

    fn see_table(&mut self, table: &[u8]) {
        if !self.tables.contains_key(table) {
            self.tables.insert(table.to_vec(), groups_of(table));
        }
        for (group, labels) in self.tables[table].clone() {
            self.count(group, labels);
        }
    }

    fn see_update(&mut self, sheet: &Sheet, edited: &Edited, answer: &Answer, new: &[u32]) {
        let Some(old) = tree_in_order(sheet, &edited.row) else {
            return self.count("refusal 5 for one fault", tree_faults(sheet, &edited.row).alone());
        };
        if answer.number == 6 {
            let (words, tokens) = (&edited.edits, old.token_nodes.len());
            let faults = edit_faults(sheet.terminals, tokens, words, &edited.put);
            return self.count("refusal 6 of an update for one fault", faults.alone());
        }
        self.count("edits", edit_labels(&old, edited));
        self.count("old tree", tree_labels(&old, &edited.row));
        self.count("updated", updated_labels(&old, answer, new));
    }
}

fn groups_of(table: &[u8]) -> Vec<(&'static str, Vec<Label>)> {
    let Some(sheet) = read_sheet(table) else {
        return vec![("refusal 2 for one fault", layout_faults(table).alone().collect())];
    };
    if !rules_hold(&sheet) {
        return vec![("refusal 3 for one fault", grammar_faults(&sheet).alone().collect())];
    }
    if check(table) == Check::Yes {
        return vec![("accepted table", table_labels(&sheet))];
    }
    let names = ["condition 1", "condition 2", "condition 3", "condition 4"];
    let more = ["condition 5", "condition 6", "condition 7"];
    let broken: Vec<u8> = conditions::broken(&sheet).collect();
    let numbered = || names.into_iter().chain(more).zip(1..=7);
    let among = numbered().map(|(name, number)| (name, broken.contains(&number))).collect();
    let alone = numbered().map(|(name, number)| (name, broken == [number])).collect();
    vec![("refusal 4", among), ("refusal 4 for one fault", alone)]
}

/// The answer of a call and the row it writes.
fn called(lent: Lent, call: impl FnOnce(&mut [u32], &mut [u32]) -> Answer) -> (Answer, Vec<u32>) {
    let (mut tree, mut room) = (vec![0; lent.tree], vec![0; lent.room]);
    let answer = call(&mut tree, &mut room);
    tree.truncate(if answer.number == 0 { 2 + 3 * tree[0] as usize } else { 0 });
    (answer, tree)
}

/// The table's sheet, where the answer got past the table.
fn judged_sheet(table: &[u8], answer: &Answer) -> Option<Sheet> {
    read_sheet(table).filter(|_| answer.number == 0 || answer.number > 4)
}
