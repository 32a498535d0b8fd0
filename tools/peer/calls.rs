//! Calls of functions, once their arguments are read.

use crate::parser::{Fault, Names};
use crate::tree::{Expression, Function, Message, Piece};

/// An argument, and where it begins.
pub enum Argument<'t> {
    Number(usize, Expression),
    Text(usize, &'t str),
}

impl<'t> Argument<'t> {
    fn number(self) -> Result<Expression, Fault> {
        match self {
            Argument::Number(_, expression) => Ok(expression),
            Argument::Text(at, _) => Err(Fault { kind: "NumberExpected", at }),
        }
    }

    fn text(self) -> Result<&'t str, Fault> {
        match self {
            Argument::Text(_, text) => Ok(text),
            Argument::Number(at, _) => Err(Fault { kind: "TextExpected", at }),
        }
    }

    fn place(&self) -> usize {
        match self {
            Argument::Number(at, _) | Argument::Text(at, _) => *at,
        }
    }
}

/// A function of numbers alone, and how many it takes.
fn plain(name: &str) -> Option<(Function, usize)> {
    Some(match name {
        "Read8" => (Function::Read(1), 1),
        "Read16" => (Function::Read(2), 1),
        "Read32" => (Function::Read(4), 1),
        "Read64" => (Function::Read(8), 1),
        "Write8" => (Function::Write(1), 2),
        "Write16" => (Function::Write(2), 2),
        "Write32" => (Function::Write(4), 2),
        "Write64" => (Function::Write(8), 2),
        "ReadAP" => (Function::ReadAp, 1),
        "WriteAP" => (Function::WriteAp, 2),
        "ReadDP" => (Function::ReadDp, 1),
        "WriteDP" => (Function::WriteDp, 2),
        "DAP_Delay" => (Function::Delay, 1),
        "DAP_WriteABORT" => (Function::Abort, 1),
        "DAP_SWJ_Pins" => (Function::Pins, 3),
        "DAP_SWJ_Clock" => (Function::Clock, 1),
        "DAP_SWJ_Sequence" => (Function::Line, 2),
        "DAP_JTAG_Sequence" => (Function::Jtag, 3),
        _ => return None,
    })
}

/// The call of the function of this name, which begins at this place.
pub fn call_of<'t>(names: &mut Names<'t>, name: &str, at: usize, arguments: Vec<Argument<'t>>) -> Result<Expression, Fault> {
    let count = arguments.len();
    if let Some((function, takes)) = plain(name) {
        if count != takes {
            return Err(Fault { kind: "ArgumentCount", at });
        }
        let numbers: Result<Box<[Expression]>, Fault> = arguments.into_iter().map(Argument::number).collect();
        return Ok(Expression::Call(function, numbers?));
    }
    let fits = match name {
        "Sequence" | "LoadDebugInfo" => count == 1,
        "QueryValue" => count == 2,
        "Query" => count == 3,
        "Message" => count >= 2,
        _ => return Err(Fault { kind: "UndefinedFunction", at }),
    };
    if !fits {
        return Err(Fault { kind: "ArgumentCount", at });
    }
    with_text(names, name, arguments)
}

fn with_text<'t>(names: &mut Names<'t>, name: &str, arguments: Vec<Argument<'t>>) -> Result<Expression, Fault> {
    let places: Vec<usize> = arguments.iter().map(Argument::place).collect();
    let mut rest = arguments.into_iter();
    let mut next = || rest.next().expect("the arguments were counted");
    match name {
        "Sequence" => {
            let called = names.sequences.get(next().text()?).copied();
            let called = called.ok_or(Fault { kind: "UndefinedSequence", at: places[0] })?;
            names.calls.push(called);
            Ok(Expression::Sequence(called))
        }
        "LoadDebugInfo" => Ok(Expression::LoadDebugInfo(Box::new(next().text()?.to_string()))),
        "QueryValue" => Ok(Expression::QueryValue(Box::new((next().text()?.to_string(), next().number()?)))),
        "Query" => Ok(Expression::Query(Box::new((next().number()?, next().text()?.to_string(), next().number()?)))),
        _ => {
            let kind = next().number()?;
            let format = pieces(next().text()?).ok_or(Fault { kind: "FormatMismatch", at: places[1] })?;
            let numbers: Vec<Expression> = rest.map(Argument::number).collect::<Result<_, _>>()?;
            let conversions = format.iter().filter(|piece| matches!(piece, Piece::Number { .. })).count();
            if conversions != numbers.len() {
                return Err(Fault { kind: "FormatMismatch", at: places[1] });
            }
            Ok(Expression::Message(Box::new(Message { kind, format, numbers })))
        }
    }
}

/// The pieces of a format, where it is one.
fn pieces(format: &str) -> Option<Vec<Piece>> {
    let mut pieces = Vec::new();
    let mut rest = format;
    while let Some(at) = rest.find('%') {
        pieces.push(Piece::Text(rest[..at].to_string()));
        rest = &rest[at + 1..];
        if let Some(more) = rest.strip_prefix('%') {
            pieces.push(Piece::Text("%".to_string()));
            rest = more;
            continue;
        }
        let filled = rest.strip_prefix('0');
        rest = filled.unwrap_or(rest);
        let digits = rest.bytes().take(2).take_while(u8::is_ascii_digit).count();
        let width = rest[..digits].parse().unwrap_or(0);
        rest = &rest[digits..];
        rest = rest.strip_prefix("ll").or(rest.strip_prefix('l')).unwrap_or(rest);
        let letter = rest.chars().next().filter(|letter| "diuxX".contains(*letter))?;
        pieces.push(Piece::Number { is_zero_filled: filled.is_some(), width, letter });
        rest = &rest[1..];
    }
    pieces.push(Piece::Text(rest.to_string()));
    Some(pieces)
}
