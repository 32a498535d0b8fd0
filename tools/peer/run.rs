//! A run of a program on a target, each access made at once.

use crate::target::{BusError, Target};
use crate::tree::{AP, Binary, DP, ERROR_CONTROL, Expression, Function, Loop, Message, Piece, Program, Statement, Step, Unary};
use std::io::Write;

const UNITS: u32 = 1_000_000;
const LINES: u32 = 100_000;
const STEPS: u32 = 100_000_000;
const LONGEST: u64 = 60_000_000;

/// Why a run stops before its end.
#[derive(Clone, Copy, Debug, PartialEq)]
pub enum Stop {
    DivideByZero,
    Unsupported,
    AddressTooLarge,
    Misaligned,
    ArgumentOutOfRange,
    MessageLimit,
    AccessLimit,
    StepLimit,
    Faulted,
    /// the output failed
    Output,
}

type Done<T> = Result<T, Stop>;

pub struct Run<'p, W: Write> {
    program: &'p Program,
    pub target: Target,
    pub globals: Vec<u64>,
    /// the local variables of all sequences that run, and where those of the last one begin
    locals: Vec<u64>,
    base: usize,
    pub out: W,
    pub units: u32,
    pub skipped: u32,
    lines: u32,
    steps: u32,
}

impl<'p, W: Write> Run<'p, W> {
    pub fn new(program: &'p Program, target: Target, starts: &[u64; 7], out: W) -> Self {
        let mut globals = vec![0; program.globals.len()];
        globals[..7].copy_from_slice(starts);
        Run { program, target, globals, locals: Vec::new(), base: 0, out, units: 0, skipped: 0, lines: 0, steps: 0 }
    }

    /// Runs the debug variables, and then a sequence.
    pub fn run(&mut self, sequence: usize) -> Done<()> {
        let program = self.program;
        for (place, value) in &program.starts {
            self.globals[*place] = self.value(value)?;
        }
        self.sequence(sequence)
    }

    fn sequence(&mut self, number: usize) -> Done<()> {
        let sequence = &self.program.sequences[number];
        let base = self.base;
        self.base = self.locals.len();
        self.locals.resize(self.base + sequence.room, 0);
        self.steps(&sequence.steps)?;
        self.locals.truncate(self.base);
        self.base = base;
        Ok(())
    }

    /// A called sequence leaves its caller's port as it was.
    fn called(&mut self, number: usize) -> Done<()> {
        let kept = [DP, AP, ERROR_CONTROL].map(|place| (place, self.globals[place]));
        self.sequence(number)?;
        for (place, value) in kept {
            self.globals[place] = value;
        }
        Ok(())
    }

    // ---- steps

    fn count_step(&mut self) -> Done<()> {
        if self.steps == STEPS {
            return Err(Stop::StepLimit);
        }
        self.steps += 1;
        Ok(())
    }

    fn steps(&mut self, steps: &'p [Step]) -> Done<()> {
        for step in steps {
            match step {
                Step::Block(statements) => self.block(statements)?,
                Step::Control { condition, kind, steps } => {
                    let is_done = match condition {
                        Some(condition) => self.value(condition)? != 0,
                        None => true,
                    };
                    if is_done {
                        self.control(kind, steps)?;
                    }
                }
            }
        }
        Ok(())
    }

    fn block(&mut self, statements: &'p [Statement]) -> Done<()> {
        for statement in statements {
            self.count_step()?;
            match statement {
                Statement::Empty => {}
                Statement::Declare(place, value) => {
                    let value = self.value(value)?;
                    self.locals[self.base + place] = value;
                }
                Statement::Plain(expression) => {
                    self.value(expression)?;
                }
            }
        }
        Ok(())
    }

    fn control(&mut self, kind: &'p Loop, steps: &'p [Step]) -> Done<()> {
        match kind {
            Loop::Once => self.steps(steps),
            Loop::Poll { mask, value, turns } => {
                self.count_step()?;
                self.debug_port()?;
                self.count_unit()?;
                self.target.poll(*mask, *value, *turns).map(drop).map_err(|BusError| Stop::Faulted)
            }
            Loop::While { test, turns } => {
                for _ in 0..*turns {
                    self.count_step()?;
                    if self.value(test)? == 0 {
                        break;
                    }
                    self.steps(steps)?;
                }
                Ok(())
            }
        }
    }

    // ---- expressions

    fn value(&mut self, expression: &'p Expression) -> Done<u64> {
        Ok(match expression {
            Expression::Number(number) => *number,
            Expression::Global(place) => self.globals[*place],
            Expression::Local(place) => self.locals[self.base + place],
            Expression::SetGlobal(place, value) => {
                let value = self.value(value)?;
                self.globals[*place] = value;
                value
            }
            Expression::SetLocal(place, value) => {
                let value = self.value(value)?;
                self.locals[self.base + place] = value;
                value
            }
            Expression::Unary(operator, operand) => unary(*operator, self.value(operand)?),
            Expression::Binary(operator, sides) => {
                let left = self.value(&sides[0])?;
                binary(*operator, left, self.value(&sides[1])?)?
            }
            Expression::BothTrue(sides) => u64::from(self.value(&sides[0])? != 0 && self.value(&sides[1])? != 0),
            Expression::EitherTrue(sides) => u64::from(self.value(&sides[0])? != 0 || self.value(&sides[1])? != 0),
            Expression::Choice(parts) => {
                let chosen = if self.value(&parts[0])? != 0 { &parts[1] } else { &parts[2] };
                self.value(chosen)?
            }
            Expression::Call(function, arguments) => self.call(*function, arguments)?,
            Expression::Sequence(number) => {
                self.called(*number)?;
                0
            }
            _ => self.line(expression)?,
        })
    }

    fn call(&mut self, function: Function, arguments: &'p [Expression]) -> Done<u64> {
        let mut numbers = [0; 3];
        for (number, argument) in numbers.iter_mut().zip(arguments) {
            *number = self.value(argument)?;
        }
        let [first, second, third] = numbers;
        match function {
            Function::Read(size) => self.memory(size, true, first, 0),
            Function::Write(size) => self.memory(size, false, first, second),
            Function::ReadAp => self.register(first, None),
            Function::WriteAp => self.register(first, Some(second as u32)),
            Function::ReadDp => self.debug_register(first, None),
            Function::WriteDp => self.debug_register(first, Some(second as u32)),
            Function::Delay => self.delay(first),
            Function::Abort => {
                self.debug_port()?;
                self.count_unit()?;
                self.target.write_dp(0, first as u32).map(|()| 0).map_err(|BusError| Stop::Faulted)
            }
            Function::Pins => self.pins(first, second, third),
            Function::Clock => self.clock(first),
            Function::Line => self.line_bits(first, second),
            Function::Jtag => Err(Stop::Unsupported),
        }
    }

    // ---- units

    fn count_unit(&mut self) -> Done<()> {
        if self.units == UNITS {
            return Err(Stop::AccessLimit);
        }
        self.units += 1;
        Ok(())
    }

    fn debug_port(&self) -> Done<()> {
        if self.globals[DP] == 0 { Ok(()) } else { Err(Stop::Unsupported) }
    }

    fn port(&self) -> Done<u8> {
        self.debug_port()?;
        u8::try_from(self.globals[AP]).map_err(|_| Stop::AddressTooLarge)
    }

    /// A fault is forgiven where bit 0 of `__errorcontrol` is set: it counts as 0, and STICKYERR is cleared.
    fn forgiven(&mut self, answer: Result<u32, BusError>) -> Done<u64> {
        match answer {
            Ok(value) => Ok(u64::from(value)),
            Err(BusError) if self.globals[ERROR_CONTROL] & 1 == 1 => {
                self.skipped += 1;
                self.target.is_sticky = false;
                Ok(0)
            }
            Err(BusError) => Err(Stop::Faulted),
        }
    }

    fn memory(&mut self, size: u8, is_read: bool, address: u64, value: u64) -> Done<u64> {
        let port = self.port()?;
        if address & u64::from(size - 1) != 0 {
            return Err(Stop::Misaligned);
        }
        let written = |value: u64| if is_read { None } else { Some(value as u32) };
        if size < 8 {
            return self.unit(port, size, written(value), address);
        }
        let low = self.unit(port, 4, written(value), address)?;
        let high = self.unit(port, 4, written(value >> 32), address + 4)?;
        Ok(low + (high << 32))
    }

    fn unit(&mut self, port: u8, size: u8, written: Option<u32>, address: u64) -> Done<u64> {
        self.count_unit()?;
        if address > u64::from(u32::MAX) {
            match self.target.takes(port, address) {
                Ok(true) => {}
                Ok(false) => return Err(Stop::AddressTooLarge),
                Err(error) => return self.forgiven(Err(error)),
            }
        }
        let written = written.map(|value| value & u32::MAX >> (32 - 8 * u32::from(size)));
        let answer = self.target.memory(port, size, written, address);
        self.forgiven(answer)
    }

    fn register(&mut self, address: u64, written: Option<u32>) -> Done<u64> {
        let port = self.port()?;
        if address > 0xFC {
            return Err(Stop::AddressTooLarge);
        }
        if address % 4 != 0 {
            return Err(Stop::Misaligned);
        }
        self.count_unit()?;
        let answer = match written {
            None => self.target.read_ap(port, address as u32),
            Some(value) => self.target.write_ap(port, address as u32, value).map(|()| 0),
        };
        self.forgiven(answer)
    }

    fn debug_register(&mut self, address: u64, written: Option<u32>) -> Done<u64> {
        self.debug_port()?;
        if address == 0xC || address == 8 && written.is_none() {
            return Err(Stop::Unsupported);
        }
        if address > 0xC {
            return Err(Stop::AddressTooLarge);
        }
        if address % 4 != 0 {
            return Err(Stop::Misaligned);
        }
        self.count_unit()?;
        let answer = match written {
            None => self.target.read_dp(address),
            Some(value) => self.target.write_dp(address, value).map(|()| 0),
        };
        answer.map(u64::from).map_err(|BusError| Stop::Faulted)
    }

    fn delay(&mut self, micros: u64) -> Done<u64> {
        if micros > LONGEST {
            return Err(Stop::ArgumentOutOfRange);
        }
        self.count_unit()?;
        self.target.lines.delay = self.target.lines.delay.saturating_add(micros);
        Ok(0)
    }

    fn pins(&mut self, output: u64, select: u64, wait: u64) -> Done<u64> {
        if wait > u64::from(u32::MAX) {
            return Err(Stop::ArgumentOutOfRange);
        }
        self.count_unit()?;
        Ok(u64::from(self.target.set_pins(output as u8, select as u8)))
    }

    fn clock(&mut self, hertz: u64) -> Done<u64> {
        let hertz = u32::try_from(hertz).ok().filter(|hertz| *hertz != 0).ok_or(Stop::ArgumentOutOfRange)?;
        self.count_unit()?;
        self.target.lines.clock = hertz;
        Ok(0)
    }

    fn line_bits(&mut self, count: u64, bits: u64) -> Done<u64> {
        if count == 0 || count > 64 {
            return Err(Stop::ArgumentOutOfRange);
        }
        self.count_unit()?;
        self.target.shift(count as u32, bits & u64::MAX >> (64 - count));
        Ok(0)
    }

    // ---- lines

    fn line(&mut self, expression: &'p Expression) -> Done<u64> {
        let (text, value) = match expression {
            Expression::Message(message) => (self.message(message)?, 0),
            Expression::Query(parts) => {
                let (kind, text, default) = &**parts;
                let kind = self.value(kind)?;
                let default = self.value(default)?;
                (format!("query {kind} {} = {default}\n", shown(text)), default)
            }
            Expression::QueryValue(parts) => {
                let default = self.value(&parts.1)?;
                (format!("value {} = {default}\n", shown(&parts.0)), default)
            }
            Expression::LoadDebugInfo(text) => (format!("load {}\n", shown(text)), 0),
            _ => unreachable!("the other expressions write no line"),
        };
        if self.lines == LINES {
            return Err(Stop::MessageLimit);
        }
        self.lines += 1;
        self.out.write_all(text.as_bytes()).map_err(|_| Stop::Output)?;
        Ok(value)
    }

    fn message(&mut self, message: &'p Message) -> Done<String> {
        let kind = self.value(&message.kind)?;
        let numbers: Vec<u64> = message.numbers.iter().map(|number| self.value(number)).collect::<Done<_>>()?;
        let mut text = String::new();
        let mut next = numbers.into_iter();
        for piece in &message.format {
            match piece {
                Piece::Text(plain) => text.push_str(plain),
                Piece::Number { is_zero_filled, width, letter } => {
                    let number = next.next().unwrap_or(0);
                    let digits = match letter {
                        'x' => format!("{number:x}"),
                        'X' => format!("{number:X}"),
                        _ => number.to_string(),
                    };
                    let fill = if *is_zero_filled { "0" } else { " " };
                    text.push_str(&fill.repeat(width.saturating_sub(digits.len())));
                    text.push_str(&digits);
                }
            }
        }
        Ok(format!("message {kind} {}\n", shown(&text)))
    }
}

/// A text byte by byte, on one line.
pub fn shown(text: &str) -> String {
    let mut line = String::with_capacity(text.len());
    for byte in text.bytes() {
        match byte {
            b'\\' => line.push_str("\\\\"),
            b' '..=b'~' => line.push(char::from(byte)),
            _ => line.push_str(&format!("\\x{byte:02x}")),
        }
    }
    line
}

fn unary(operator: Unary, operand: u64) -> u64 {
    match operator {
        Unary::Not => u64::from(operand == 0),
        Unary::Flip => !operand,
        Unary::Negate => operand.wrapping_neg(),
        Unary::Plus => operand,
    }
}

fn shifted(by: u64, shift: impl Fn(u32) -> u64) -> u64 {
    if by < 64 { shift(by as u32) } else { 0 }
}

fn binary(operator: Binary, left: u64, right: u64) -> Done<u64> {
    Ok(match operator {
        Binary::Multiply => left.wrapping_mul(right),
        Binary::Divide => left.checked_div(right).ok_or(Stop::DivideByZero)?,
        Binary::Remainder => left.checked_rem(right).ok_or(Stop::DivideByZero)?,
        Binary::Add => left.wrapping_add(right),
        Binary::Subtract => left.wrapping_sub(right),
        Binary::Left => shifted(right, |by| left << by),
        Binary::Right => shifted(right, |by| left >> by),
        Binary::Less => u64::from(left < right),
        Binary::LessEqual => u64::from(left <= right),
        Binary::Greater => u64::from(left > right),
        Binary::GreaterEqual => u64::from(left >= right),
        Binary::Equal => u64::from(left == right),
        Binary::NotEqual => u64::from(left != right),
        Binary::And => left & right,
        Binary::Xor => left ^ right,
        Binary::Or => left | right,
    })
}
