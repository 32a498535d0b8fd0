//! Code into trees: names are resolved as they are read.

use crate::lexer::{Lexer, Token};
use crate::calls::{Argument, call_of};
use crate::tree::{Binary, Expression, Statement, Unary};
use std::collections::HashMap;

/// How many parentheses may be open at once, and how many tokens a statement may have.
const OPEN: usize = 64;
const TOKENS: usize = 512;

/// What is wrong, and at which byte of the text.
pub struct Fault {
    pub kind: &'static str,
    pub at: usize,
}

/// The names that code may use.
#[derive(Default)]
pub struct Names<'t> {
    pub sequences: HashMap<&'t str, usize>,
    pub globals: HashMap<&'t str, usize>,
    pub locals: HashMap<&'t str, usize>,
    /// the local variables in the order of their declaration
    pub declared: Vec<&'t str>,
    /// the most local variables that were visible at once
    pub room: usize,
    /// the sequences that are called
    pub calls: Vec<usize>,
    /// whether a call is a fault, as among debug variables
    pub has_no_calls: bool,
}

impl<'t> Names<'t> {
    /// Forgets the local variables that were declared after so many.
    pub fn leave(&mut self, count: usize) {
        for name in self.declared.drain(count..) {
            self.locals.remove(name);
        }
    }

    fn declare(&mut self, name: &'t str) -> usize {
        let place = self.declared.len();
        self.declared.push(name);
        self.locals.insert(name, place);
        self.room = self.room.max(place + 1);
        place
    }
}

pub struct Parser<'t, 'n> {
    lexer: Lexer<'t>,
    names: &'n mut Names<'t>,
    token: Token<'t>,
    start: usize,
    open: usize,
    tokens: usize,
}

type Read<T> = Result<T, Fault>;

impl<'t, 'n> Parser<'t, 'n> {
    pub fn new(text: &'t str, names: &'n mut Names<'t>) -> Read<Self> {
        let mut parser = Parser { lexer: Lexer::new(text), names, token: Token::End, start: 0, open: 0, tokens: 0 };
        parser.advance()?;
        Ok(parser)
    }

    fn fault<T>(&self, kind: &'static str, at: usize) -> Read<T> {
        Err(Fault { kind, at })
    }

    fn advance(&mut self) -> Read<()> {
        match self.lexer.next() {
            Ok(token) => self.token = token,
            Err(_) => return self.fault("Syntax", self.lexer.start),
        }
        self.start = self.lexer.start;
        self.tokens += 1;
        if self.tokens > TOKENS && self.token != Token::End { self.fault("Syntax", self.start) } else { Ok(()) }
    }

    fn is(&self, mark: char) -> bool {
        self.token == Token::Mark(mark)
    }

    fn take(&mut self, mark: char) -> Read<bool> {
        let is_there = self.is(mark);
        if is_there {
            self.advance()?;
        }
        Ok(is_there)
    }

    fn expect(&mut self, mark: char) -> Read<()> {
        if self.take(mark)? { Ok(()) } else { self.fault("Syntax", self.start) }
    }

    /// The expression that is the whole text.
    pub fn whole(&mut self) -> Read<Expression> {
        let expression = self.expression()?;
        if self.token == Token::End { Ok(expression) } else { self.fault("Syntax", self.start) }
    }

    /// The statements that are the whole text.
    pub fn statements(&mut self) -> Read<Vec<Statement>> {
        let mut statements = Vec::new();
        while self.token != Token::End {
            statements.push(self.statement()?);
        }
        Ok(statements)
    }

    fn statement(&mut self) -> Read<Statement> {
        self.tokens = 1;
        if self.take(';')? {
            return Ok(Statement::Empty);
        }
        if self.token != Token::Var {
            let expression = self.expression()?;
            self.expect(';')?;
            return Ok(Statement::Plain(expression));
        }
        let (name, at) = self.declared_name()?;
        let value = self.expression()?;
        self.expect(';')?;
        if self.names.globals.contains_key(name) || self.names.locals.contains_key(name) {
            return self.fault("Redeclared", at);
        }
        Ok(Statement::Declare(self.names.declare(name), value))
    }

    /// `__var NAME =`: the name, and where it is.
    pub fn declared_name(&mut self) -> Read<(&'t str, usize)> {
        self.advance()?;
        let at = self.start;
        let Token::Name(name) = self.token else { return self.fault("Syntax", at) };
        self.advance()?;
        self.expect('=')?;
        Ok((name, at))
    }

    /// The value of a debug variable: the one that is given, up to the `;`, or else the one that is declared.
    fn first_value(&mut self, given: Option<u64>) -> Read<Expression> {
        let Some(value) = given else { return self.expression() };
        while self.token != Token::End && !self.is(';') {
            self.advance()?;
        }
        Ok(Expression::Number(value))
    }

    /// The next declaration of debug variables with its name, if one is left. What is taken of `values` is in place of what is declared.
    pub fn debug_variable(&mut self, values: &mut HashMap<&str, u64>) -> Read<Option<(&'t str, Expression)>> {
        self.tokens = 1;
        match self.token {
            Token::End => return Ok(None),
            Token::Var => {}
            _ => return self.fault("BadDebugvars", self.start),
        }
        let (name, at) = self.declared_name()?;
        let value = self.first_value(values.remove(name))?;
        self.expect(';')?;
        if self.names.globals.contains_key(name) {
            return self.fault("Redeclared", at);
        }
        self.names.globals.insert(name, self.names.globals.len());
        Ok(Some((name, value)))
    }

    /// Where the starting value of a debug variable goes on: `NAME = NUMBER ;`, if one is left.
    pub fn starting_value(&mut self) -> Read<Option<(&'t str, u64)>> {
        self.tokens = 1;
        let name = match self.token {
            Token::End => return Ok(None),
            Token::Name(name) => name,
            _ => return self.fault("Unexpected", self.start),
        };
        self.advance()?;
        self.expect('=')?;
        let Token::Number(value) = self.token else { return self.fault("Unexpected", self.start) };
        self.advance()?;
        self.expect(';')?;
        Ok(Some((name, value)))
    }

    fn expression(&mut self) -> Read<Expression> {
        let at = self.start;
        let Token::Name(name) = self.token else { return self.choice() };
        self.advance()?;
        if !self.is('=') {
            let first = self.named(name, at)?;
            let first = self.operators(first, 0)?;
            return self.chosen(first);
        }
        self.advance()?;
        let value = Box::new(self.expression()?);
        match (self.names.locals.get(name), self.names.globals.get(name)) {
            (Some(place), _) => Ok(Expression::SetLocal(*place, value)),
            (None, Some(place)) => Ok(Expression::SetGlobal(*place, value)),
            (None, None) => self.fault("UndefinedName", at),
        }
    }

    fn choice(&mut self) -> Read<Expression> {
        let first = self.unary()?;
        let first = self.operators(first, 0)?;
        self.chosen(first)
    }

    fn chosen(&mut self, condition: Expression) -> Read<Expression> {
        if !self.take('?')? {
            return Ok(condition);
        }
        let yes = self.expression()?;
        self.expect(':')?;
        let no = self.choice()?;
        Ok(Expression::Choice(Box::new([condition, yes, no])))
    }

    /// The operators of at least this level after a left side.
    fn operators(&mut self, mut left: Expression, least: u8) -> Read<Expression> {
        while let Token::Mark(mark) = self.token {
            let Some(level) = level_of(mark).filter(|level| *level >= least) else { break };
            self.advance()?;
            let right = self.unary()?;
            let right = self.operators(right, level + 1)?;
            left = joined(mark, left, right);
        }
        Ok(left)
    }

    fn unary(&mut self) -> Read<Expression> {
        let at = self.start;
        match self.token {
            Token::Number(number) => {
                self.advance()?;
                Ok(Expression::Number(number))
            }
            Token::Name(name) => {
                self.advance()?;
                self.named(name, at)
            }
            Token::Mark('(') => {
                self.enter()?;
                let inside = self.expression()?;
                self.close()?;
                Ok(inside)
            }
            Token::Mark(mark @ ('!' | '~' | '-' | '+')) => {
                self.advance()?;
                let operand = self.unary()?;
                Ok(match mark {
                    '!' => Expression::Unary(Unary::Not, Box::new(operand)),
                    '~' => Expression::Unary(Unary::Flip, Box::new(operand)),
                    '-' => Expression::Unary(Unary::Negate, Box::new(operand)),
                    _ => Expression::Unary(Unary::Plus, Box::new(operand)),
                })
            }
            _ => self.fault("Syntax", at),
        }
    }

    fn enter(&mut self) -> Read<()> {
        self.open += 1;
        if self.open > OPEN { self.fault("Syntax", self.start) } else { self.advance() }
    }

    fn close(&mut self) -> Read<()> {
        self.open -= 1;
        self.expect(')')
    }

    /// A variable, or a call.
    fn named(&mut self, name: &'t str, at: usize) -> Read<Expression> {
        if self.is('(') {
            return self.call(name, at);
        }
        match self.names.locals.get(name) {
            Some(place) => Ok(Expression::Local(*place)),
            None => match self.names.globals.get(name) {
                Some(place) => Ok(Expression::Global(*place)),
                None => self.fault("UndefinedName", at),
            },
        }
    }

    fn call(&mut self, name: &'t str, at: usize) -> Read<Expression> {
        if self.names.has_no_calls {
            return self.fault("BadDebugvars", at);
        }
        self.enter()?;
        let mut arguments = Vec::new();
        loop {
            let start = self.start;
            if let Token::Text(text) = self.token {
                self.advance()?;
                arguments.push(Argument::Text(start, text));
            } else {
                arguments.push(Argument::Number(start, self.expression()?));
            }
            if !self.take(',')? {
                break;
            }
        }
        self.close()?;
        call_of(self.names, name, at, arguments)
    }
}

/// How tightly an operator binds.
fn level_of(mark: char) -> Option<u8> {
    Some(match mark {
        '∨' => 0,
        '∧' => 1,
        '|' => 2,
        '^' => 3,
        '&' => 4,
        '≡' | '≠' => 5,
        '<' | '≤' | '>' | '≥' => 6,
        '«' | '»' => 7,
        '+' | '-' => 8,
        '*' | '/' | '%' => 9,
        _ => return None,
    })
}

fn joined(mark: char, left: Expression, right: Expression) -> Expression {
    let sides = Box::new([left, right]);
    let operator = match mark {
        '∨' => return Expression::EitherTrue(sides),
        '∧' => return Expression::BothTrue(sides),
        '|' => Binary::Or,
        '^' => Binary::Xor,
        '&' => Binary::And,
        '≡' => Binary::Equal,
        '≠' => Binary::NotEqual,
        '<' => Binary::Less,
        '≤' => Binary::LessEqual,
        '>' => Binary::Greater,
        '≥' => Binary::GreaterEqual,
        '«' => Binary::Left,
        '»' => Binary::Right,
        '+' => Binary::Add,
        '-' => Binary::Subtract,
        '*' => Binary::Multiply,
        '/' => Binary::Divide,
        _ => Binary::Remainder,
    };
    Expression::Binary(operator, sides)
}
