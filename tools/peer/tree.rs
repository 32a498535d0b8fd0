//! Code as a tree, in which each variable is a place and each sequence a number.

/// The places of the predefined variables that calls use.
pub const DP: usize = 2;
pub const AP: usize = 3;
pub const ERROR_CONTROL: usize = 5;

pub const PREDEFINED: [&str; 7] = ["__protocol", "__connection", "__dp", "__ap", "__traceout", "__errorcontrol", "__Result"];

#[derive(Clone, Copy)]
pub enum Unary {
    Not,
    Flip,
    Negate,
    Plus,
}

#[derive(Clone, Copy)]
pub enum Binary {
    Multiply,
    Divide,
    Remainder,
    Add,
    Subtract,
    Left,
    Right,
    Less,
    LessEqual,
    Greater,
    GreaterEqual,
    Equal,
    NotEqual,
    And,
    Xor,
    Or,
}

/// The functions whose arguments are all numbers; memory functions with their size.
#[derive(Clone, Copy, PartialEq)]
pub enum Function {
    Read(u8),
    Write(u8),
    ReadAp,
    WriteAp,
    ReadDp,
    WriteDp,
    Delay,
    Abort,
    Pins,
    Clock,
    Line,
    Jtag,
}

pub enum Expression {
    Number(u64),
    Global(usize),
    Local(usize),
    SetGlobal(usize, Box<Expression>),
    SetLocal(usize, Box<Expression>),
    Unary(Unary, Box<Expression>),
    Binary(Binary, Box<[Expression; 2]>),
    BothTrue(Box<[Expression; 2]>),
    EitherTrue(Box<[Expression; 2]>),
    Choice(Box<[Expression; 3]>),
    Call(Function, Box<[Expression]>),
    Sequence(usize),
    Message(Box<Message>),
    Query(Box<(Expression, String, Expression)>),
    QueryValue(Box<(String, Expression)>),
    LoadDebugInfo(Box<String>),
}

pub struct Message {
    pub kind: Expression,
    pub format: Vec<Piece>,
    pub numbers: Vec<Expression>,
}

pub enum Piece {
    Text(String),
    Number { is_zero_filled: bool, width: usize, letter: char },
}

pub enum Statement {
    Empty,
    /// A declaration of a local variable at a place, or an expression.
    Declare(usize, Expression),
    Plain(Expression),
}

pub enum Loop {
    Once,
    Poll { mask: u32, value: u32, turns: u64 },
    While { test: Expression, turns: u64 },
}

pub enum Step {
    Block(Vec<Statement>),
    Control { condition: Option<Expression>, kind: Loop, steps: Vec<Step> },
}

#[derive(Default)]
pub struct Sequence {
    pub steps: Vec<Step>,
    /// how many places its local variables need
    pub room: usize,
}

/// What is run: sequences, the names of the global variables, and the values that those after the predefined ones begin with.
#[derive(Default)]
pub struct Program {
    pub sequences: Vec<Sequence>,
    pub globals: Vec<String>,
    pub starts: Vec<(usize, Expression)>,
}

impl Expression {
    /// The mask and the value of `(ReadDP(0x4) & MASK) != VALUE`.
    pub fn poll(&self) -> Option<(u32, u32)> {
        let Expression::Binary(Binary::NotEqual, sides) = self else { return None };
        let [Expression::Binary(Binary::And, inner), Expression::Number(value)] = &**sides else { return None };
        let [Expression::Call(Function::ReadDp, arguments), Expression::Number(mask)] = &**inner else { return None };
        let [Expression::Number(4)] = &**arguments else { return None };
        Some((u32::try_from(*mask).ok()?, u32::try_from(*value).ok()?))
    }
}
