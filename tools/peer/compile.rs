//! A set of sequences into a program, which is a check of its code too.

use crate::job::{Refusal, Set, refused};
use crate::json::Value;
use crate::parser::{Fault, Names, Parser};
use crate::tree::{Expression, Loop, PREDEFINED, Program, Sequence, Step};
use std::collections::HashMap;

/// How deep controls may lie within one another, how many sequences a chain of calls may have, and how long a loop may wait.
const NESTED: usize = 32;
const CHAIN: usize = 32;
const LONGEST: u64 = 60_000_000;

/// A fault of a text, at its line and column.
fn placed(fault: &Fault, text: &str) -> (usize, usize) {
    let before = &text.as_bytes()[..fault.at];
    let line = before.iter().filter(|byte| **byte == b'\n').count() + 1;
    let column = before.iter().rev().take_while(|byte| **byte != b'\n').count() + 1;
    (line, column)
}

struct Compiler<'v> {
    names: Names<'v>,
    turn_us: u64,
    sequence: &'v str,
    path: Vec<usize>,
}

/// The program of a set, whose turns count as so many microseconds. Debug variables begin with other values where these are given.
pub fn compile<'v>(set: &Set<'v>, turn_us: u64, values: &HashMap<&str, u64>) -> Result<Program, Refusal> {
    let mut names = Names { sequences: set.numbers.clone(), ..Names::default() };
    names.globals = PREDEFINED.iter().enumerate().map(|(place, name)| (*name, place)).collect();
    let mut program = Program { globals: PREDEFINED.iter().map(|name| name.to_string()).collect(), ..Program::default() };
    debug_variables(set.debugvars, values, &mut names, &mut program)?;
    let mut compiler = Compiler { names, turn_us, sequence: "", path: Vec::new() };
    let mut calls = Vec::new();
    for entry in &set.entries {
        compiler.sequence = entry.name;
        compiler.names.room = 0;
        let steps = compiler.steps(entry.steps, 0)?;
        program.sequences.push(Sequence { steps, room: compiler.names.room });
        calls.push(std::mem::take(&mut compiler.names.calls));
    }
    let mut heights = vec![Height::Unknown; set.entries.len()];
    for (number, entry) in set.entries.iter().enumerate() {
        height(number, 1, &calls, &mut heights).map_err(|kind| format!("check {kind} {}", entry.name))?;
    }
    Ok(program)
}

fn debug_variables<'v>(text: &'v str, values: &HashMap<&str, u64>, names: &mut Names<'v>, program: &mut Program) -> Result<(), Refusal> {
    let refusal = |fault: Fault| {
        let (line, column) = placed(&fault, text);
        format!("check {} debugvars {line}:{column}", fault.kind)
    };
    names.has_no_calls = true;
    let mut left = values.clone();
    let mut parser = Parser::new(text, names).map_err(refusal)?;
    while let Some((name, value)) = parser.debug_variable(&mut left).map_err(refusal)? {
        program.starts.push((program.globals.len(), value));
        program.globals.push(name.to_string());
    }
    names.has_no_calls = false;
    if left.is_empty() { Ok(()) } else { refused("dbgconf UndefinedName") }
}

/// How many sequences the longest chain of calls has that begins with this one, which is in a chain of so many.
fn height(number: usize, depth: usize, calls: &[Vec<usize>], heights: &mut [Height]) -> Result<usize, &'static str> {
    match heights[number] {
        Height::Known(height) => return Ok(height),
        Height::Open => return Err("CallCycle"),
        Height::Unknown if depth > CHAIN => return Err("CallsTooDeep"),
        Height::Unknown => heights[number] = Height::Open,
    }
    let mut highest = 0;
    for called in &calls[number] {
        highest = highest.max(height(*called, depth + 1, calls, heights)?);
    }
    heights[number] = Height::Known(highest + 1);
    Ok(highest + 1)
}

#[derive(Clone, Copy)]
enum Height {
    Unknown,
    Open,
    Known(usize),
}

impl<'v> Compiler<'v> {
    fn refusal(&self, kind: &str, part: &str, line: usize, column: usize) -> Refusal {
        let path: Vec<String> = self.path.iter().map(usize::to_string).collect();
        format!("check {kind} {} {} {part} {line}:{column}", self.sequence, path.join("."))
    }

    fn in_text(&self, fault: &Fault, part: &str, text: &str) -> Refusal {
        let (line, column) = placed(fault, text);
        self.refusal(fault.kind, part, line, column)
    }

    fn steps(&mut self, steps: &'v [Value], depth: usize) -> Result<Vec<Step>, Refusal> {
        let count = self.names.declared.len();
        let mut read = Vec::with_capacity(steps.len());
        for (number, step) in steps.iter().enumerate() {
            self.path.push(number);
            read.push(self.step(step, depth)?);
            self.path.pop();
        }
        self.names.leave(count);
        Ok(read)
    }

    fn step(&mut self, step: &'v Value, depth: usize) -> Result<Step, Refusal> {
        if let Some(code) = step.text("block")? {
            let read = Parser::new(code, &mut self.names).and_then(|mut parser| parser.statements());
            return read.map(Step::Block).map_err(|fault| self.in_text(&fault, "block", code));
        }
        let steps = step.needed("control").and(step.items("control"))?;
        let timeout = step.number("timeout")?;
        let has_loop = step.text("while")?.is_some();
        let kind = match timeout {
            _ if depth >= NESTED => Some("NestedTooDeep"),
            Some(micros) if micros > LONGEST => Some("TimeoutTooLong"),
            None | Some(0) if has_loop => Some("UnboundedLoop"),
            _ => None,
        };
        if let Some(kind) = kind {
            return refused(self.refusal(kind, "control", 0, 0));
        }
        let condition = self.expression(step, "if")?;
        let test = self.expression(step, "while")?;
        let turns = (timeout.unwrap_or(0) / self.turn_us).max(1);
        let steps = self.steps(steps, depth + 1)?;
        let kind = match test {
            None => Loop::Once,
            Some(test) => match test.poll().filter(|_| steps.is_empty()) {
                Some((mask, value)) => Loop::Poll { mask, value, turns },
                None => Loop::While { test, turns },
            },
        };
        Ok(Step::Control { condition, kind, steps })
    }

    fn expression(&mut self, step: &'v Value, key: &str) -> Result<Option<Expression>, Refusal> {
        let Some(code) = step.text(key)? else { return Ok(None) };
        let read = Parser::new(code, &mut self.names).and_then(|mut parser| parser.whole());
        read.map(Some).map_err(|fault| self.in_text(&fault, key, code))
    }
}
