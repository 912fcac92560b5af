//! The LR machine: states, the pieces held, and the moves, with room judged (7, 8 and 10 as met).

use crate::answer::{Counts, Refusal, MOST_NODES};
use crate::sheet::{Action, Sheet};
use crate::tree::{Node, PRODUCTION};

pub struct Machine<'a> {
    sheet: &'a Sheet,
    /// One state for the bottom and one for each piece held.
    states: Vec<u8>,
    /// The pieces held, one behind another, each in written order.
    nodes: Vec<Node>,
    /// Tokens shifted, whole pieces counted by their tokens.
    tokens: u32,
    pub counts: Counts,
}

/// What the machine did with the next token.
#[derive(Clone, Copy, PartialEq, Eq, Debug)]
pub enum Move {
    Shifted,
    Reduced,
    Accepted,
}

impl<'a> Machine<'a> {
    pub fn new(sheet: &'a Sheet) -> Machine<'a> {
        Machine {
            sheet,
            states: vec![0],
            nodes: Vec::with_capacity(MOST_NODES),
            tokens: 0,
            counts: Counts::default(),
        }
    }

    pub fn into_nodes(self) -> Vec<Node> {
        self.nodes
    }

    fn state(&self) -> u8 {
        self.states[self.states.len() - 1]
    }

    /// Takes the action for a next token, or for the end mark. The action is looked up first, then
    /// room is judged.
    pub fn step(&mut self, terminal: u8, token: Node) -> Result<Move, Refusal> {
        match self.sheet.action(self.state(), terminal) {
            Action::Error => Err(Refusal::at(7, self.tokens)),
            Action::Accept => Ok(Move::Accepted),
            Action::Shift(target) => {
                self.judge_room()?;
                self.shift_token(token, target);
                Ok(Move::Shifted)
            }
            Action::Reduce(production) => {
                self.judge_room()?;
                self.reduce(production)?;
                Ok(Move::Reduced)
            }
        }
    }

    /// Makes every reduction that the terminal calls for.
    pub fn reduce_for(&mut self, terminal: u8) -> Result<(), Refusal> {
        while let Action::Reduce(production) = self.sheet.action(self.state(), terminal) {
            self.judge_room()?;
            self.reduce(production)?;
        }
        Ok(())
    }

    /// Shifts a piece that is a nonterminal whole and right-breaks it, if the state has a goto on
    /// it; says whether it has. The room is judged after the right-breaks.
    pub fn shift_whole(&mut self, piece: &[Node]) -> Result<bool, Refusal> {
        let root = piece[piece.len() - 1];
        let Some(target) = self.sheet.transition(self.state(), root.symbol(self.sheet)) else {
            return Ok(false);
        };
        self.nodes.extend_from_slice(piece);
        self.states.push(target);
        self.tokens += root.tokens;
        self.counts.whole_shifts += 1;
        self.right_break();
        if self.nodes.len() > MOST_NODES {
            return Err(Refusal::from(8));
        }
        Ok(true)
    }

    /// Whether one more node may be held.
    fn judge_room(&self) -> Result<(), Refusal> {
        if self.nodes.len() >= MOST_NODES {
            return Err(Refusal::from(8));
        }
        Ok(())
    }

    fn shift_token(&mut self, token: Node, target: u8) {
        self.nodes.push(token);
        self.states.push(target);
        self.tokens += 1;
        self.counts.token_shifts += 1;
    }

    fn reduce(&mut self, production: u8) -> Result<(), Refusal> {
        let rule = &self.sheet.productions[production as usize];
        let length = rule.length as usize;
        if length >= self.states.len() {
            return Err(Refusal::from(10));
        }
        let below = self.states.len() - length;
        let goto = self.sheet.goto(self.states[below - 1], rule.left);
        let target = goto.ok_or(Refusal::from(10))?;
        let parent = self.parent_of_last(production, length);
        self.states.truncate(below);
        self.states.push(target);
        self.nodes.push(parent);
        self.counts.reductions += 1;
        Ok(())
    }

    /// The node of a production over the last `length` pieces held.
    fn parent_of_last(&self, production: u8, length: usize) -> Node {
        let kind = PRODUCTION + production as u32;
        let mut parent = Node { kind, size: 1, tokens: 0, old: None };
        let mut end = self.nodes.len();
        for _ in 0..length {
            let child = &self.nodes[end - 1];
            parent.size += child.size;
            parent.tokens += child.tokens;
            end -= child.size as usize;
        }
        parent
    }

    /// While the top is no token, takes it off if it has no tokens, else puts its children in its
    /// place. The last piece shifted has tokens, so the loop ends in its last token.
    fn right_break(&mut self) {
        while let Some(&top) = self.nodes.last().filter(|top| !top.is_token()) {
            self.counts.right_breaks += 1;
            self.states.pop();
            if top.tokens == 0 {
                self.nodes.truncate(self.nodes.len() - top.size as usize);
            } else {
                self.nodes.pop();
                self.push_states(top.production());
            }
        }
    }

    /// Pushes the states that the symbols of a production lead through. The state before had a
    /// transition on its left side, so an item there has it after the dot (condition 5), and
    /// conditions 2 and 3 give the transitions.
    fn push_states(&mut self, production: u8) {
        for &symbol in self.sheet.productions[production as usize].right_side() {
            let target = self.sheet.transition(self.state(), symbol);
            self.states.push(target.expect("conditions 2, 3 and 5 give this transition"));
        }
    }
}
