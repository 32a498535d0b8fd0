//! A plain runner of the jobs of dapseq, to measure dapseq by: nothing is proved, and each access is made at once.
//!
//! `peer check|run|gen|parse [--device NAME] [--variant NAME] [--pname NAME] [--sequence NAME] [--number N]`, as dapseq has it. `parse`
//! reads the job into a tree of values, and writes nothing. The report of a stop has no numbers of accesses, and a refusal of a job has
//! no path.

mod calls;
mod compile;
mod job;
mod json;
mod lexer;
mod parser;
mod run;
mod target;
mod tree;

use job::{Refusal, Selection, Set, counts, refused};
use json::Value;
use run::{Run, Stop, shown};
use std::collections::HashMap;
use std::io::{self, BufWriter, Read, Write};
use std::process::ExitCode;
use target::Target;
use tree::{PREDEFINED, Program};

const LONGEST: usize = 16_777_216;

#[derive(Default)]
struct Words {
    mode: String,
    selection: Selection,
    sequence: String,
    number: u64,
}

fn words() -> Option<Words> {
    let mut given = std::env::args().skip(1);
    let mut words = Words { mode: given.next()?, ..Words::default() };
    while let Some(option) = given.next() {
        let value = given.next()?;
        match option.as_str() {
            "--device" => words.selection.device = value,
            "--variant" => words.selection.variant = Some(value),
            "--pname" => words.selection.pname = Some(value),
            "--sequence" => words.sequence = value,
            "--number" => words.number = value.parse().ok()?,
            _ => return None,
        }
    }
    Some(words)
}

fn parsed(text: &[u8]) -> Result<Value, Refusal> {
    if text.len() > LONGEST {
        return refused("TooLong");
    }
    let text = std::str::from_utf8(text).map_err(|_| "BadJson")?;
    json::parse(text).map_err(|_| "BadJson".to_string())
}

fn input() -> Result<Vec<u8>, Refusal> {
    let mut text = Vec::new();
    io::stdin().lock().read_to_end(&mut text).map_err(|error| error.to_string())?;
    Ok(text)
}

/// What is run of a job.
struct Job {
    program: Program,
    start: usize,
    starts: [u64; 7],
    target: Target,
    watch: Vec<(u64, u64)>,
}

/// The job that is run, or checked alone, with the lines of the check.
fn job_of(value: &Value, words: &Words) -> Result<(Job, String), Refusal> {
    let settings = value.get("run");
    let turn_us = settings.map_or(Ok(None), |it| it.number("turn_us"))?.unwrap_or(10).max(1);
    let mut starts = [0; 7];
    if let Some(variables) = settings.and_then(|it| it.get("variables")) {
        for (start, name) in starts.iter_mut().zip(PREDEFINED) {
            *start = variables.number(name)?.unwrap_or(0);
        }
    }
    let target = Target::of(value.needed("bench")?.needed("target")?)?;
    let mut watch = Vec::new();
    for it in value.items("watch")? {
        watch.push((it.number("address")?.ok_or("Missing address")?, it.number("words")?.ok_or("Missing words")?));
    }
    let set = Set::of(value.needed("pack")?, &words.selection)?;
    let start = match set.numbers.get(words.sequence.as_str()) {
        Some(start) => *start,
        None if words.mode == "check" => 0,
        None => return refused("NoSequence"),
    };
    let values = starting_values(value.text("dbgconf")?.unwrap_or(""))?;
    let program = compile::compile(&set, turn_us, &values)?;
    let lines = if words.mode == "check" { check_lines(&set)? } else { String::new() };
    Ok((Job { program, start, starts, target, watch }, lines))
}

fn starting_values(text: &str) -> Result<HashMap<&str, u64>, Refusal> {
    let mut names = parser::Names::default();
    let mut values = HashMap::new();
    let mut parser = parser::Parser::new(text, &mut names).map_err(|fault| format!("dbgconf {}", fault.kind))?;
    while let Some((name, value)) = parser.starting_value().map_err(|fault| format!("dbgconf {}", fault.kind))? {
        if values.insert(name, value).is_some() {
            return refused("dbgconf Repeated");
        }
    }
    Ok(values)
}

fn check_lines(set: &Set) -> Result<String, Refusal> {
    let mut lines = format!("check ok sequences {}\n", set.entries.len());
    for entry in &set.entries {
        let [blocks, controls, atomic] = counts(entry.steps)?;
        let end = if entry.is_disabled { " disabled" } else { "" };
        let name = shown(entry.name);
        lines += &format!("sequence {name} from {} blocks {blocks} controls {controls} atomic {atomic}{end}\n", entry.level);
    }
    Ok(lines)
}

fn report<W: Write>(run: &mut Run<W>, program: &Program, stop: Option<Stop>, watch: &[(u64, u64)]) -> io::Result<()> {
    match stop {
        None => writeln!(run.out, "end done\nunits {}", run.units)?,
        Some(Stop::Faulted) => writeln!(run.out, "end faulted unit {}", run.units)?,
        Some(stop) => writeln!(run.out, "end halted {stop:?}\nunits {}", run.units)?,
    }
    if run.skipped > 0 {
        writeln!(run.out, "skipped {}", run.skipped)?;
    }
    if stop != Some(Stop::Faulted) {
        for (name, value) in program.globals.iter().zip(&run.globals) {
            writeln!(run.out, "var {name} {value:#x}")?;
        }
    }
    target_lines(&mut run.target, watch, &mut run.out)
}

fn target_lines(target: &mut Target, watch: &[(u64, u64)], out: &mut impl Write) -> io::Result<()> {
    let sticky = u8::from(target.is_sticky);
    writeln!(out, "dp select 0x{:08x} ctrl 0x{:08x} sticky {sticky} reads {}", target.select, target.ctrl_stat(), target.reads)?;
    for (number, port) in target.ports.iter().enumerate() {
        let Some(port) = port else { continue };
        write!(out, "ap {number} csw 0x{:08x} tar 0x{:08x}", port.csw | 0x40, port.tar)?;
        if port.is_large {
            write!(out, " high 0x{:08x}", port.high)?;
        }
        writeln!(out)?;
    }
    let lines = &target.lines;
    writeln!(
        out,
        "lines pins 0x{:02x} bits {} last 0x{:016x} clock {} delay {}",
        lines.pins, lines.bits, lines.last, lines.clock, lines.delay
    )?;
    for (address, words) in watch {
        for at in (0..*words).map(|word| address + 4 * word) {
            let Some((value, place)) = target.shown(at) else { continue };
            let place = place.map_or(String::new(), |place| format!(" at {place}"));
            let width = if at > u64::from(u32::MAX) { 16 } else { 8 };
            writeln!(out, "mem 0x{at:0width$x} 0x{value:08x}{place}")?;
        }
    }
    out.flush()
}

/// The job of `gen`.
fn generated(number: u64) -> String {
    let mut text = String::from(
        "{\"pack\":{\"families\":[{\"Dfamily\":\"F\",\"devices\":[{\"Dname\":\"G\",\"debugvars\":\"__var s = 0;\",\
         \"sequences\":[{\"name\":\"Main\",\"steps\":[",
    );
    for i in 0..=number {
        let written = 536870912 + 4 * (i % 256);
        let read = 536870912 + 4 * (7 * i % 256);
        let value = 2654435761 * i % 4294967296;
        text += &format!("{{\"block\":\"Write32({written}, {value}); s = s + Read32({read});\"}},");
    }
    text += "{\"block\":\"Message(0, \\\"sum %u\\\", s);\"}]}]}]}]},\"bench\":{\"packet_size\":64,\"packet_count\":4,\
             \"target\":{\"powered\":true,\"aps\":[{\"ap\":0}],\"memory\":[{\"address\":536870912,\"length\":1024}]}}}";
    text
}

/// Does what the words say: the exit status, or why the job is refused.
fn done(words: &mut Words, out: &mut impl Write) -> Result<u8, Refusal> {
    let text = match words.mode.as_str() {
        "gen" => {
            words.selection.device = "G".to_string();
            words.sequence = "Main".to_string();
            writeln!(out, "gen {}", words.number).map_err(|error| error.to_string())?;
            generated(words.number).into_bytes()
        }
        _ => input()?,
    };
    let value = parsed(&text)?;
    drop(text);
    if words.mode == "parse" {
        return Ok(0);
    }
    let (job, lines) = job_of(&value, words)?;
    drop(value);
    if words.mode == "check" {
        out.write_all(lines.as_bytes()).and_then(|()| out.flush()).map_err(|error| error.to_string())?;
        return Ok(0);
    }
    let mut run = Run::new(&job.program, job.target, &job.starts, out);
    let stop = run.run(job.start).err();
    report(&mut run, &job.program, stop, &job.watch).map_err(|error| error.to_string())?;
    Ok(if stop.is_none() { 0 } else { 3 })
}

fn main() -> ExitCode {
    let mut out = BufWriter::with_capacity(1 << 16, io::stdout().lock());
    let Some(mut words) = words().filter(|words| ["check", "run", "gen", "parse"].contains(&words.mode.as_str())) else {
        return ExitCode::from(2);
    };
    match done(&mut words, &mut out) {
        Ok(status) => ExitCode::from(status),
        Err(refusal) => match writeln!(out, "refused {refusal}") {
            Ok(()) => ExitCode::from(1),
            Err(_) => ExitCode::from(6),
        },
    }
}
