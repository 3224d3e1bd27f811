//! Document 01's table, with the kinds of document 02: the kinds of rows and
//! their fields, the limits of both forms, and refusals.

use std::fmt;

pub const MAX_VARIABLES: i32 = 256;
pub const MAX_ARRAYS: usize = 32;
pub const MAX_LENGTH: i32 = 4096;
pub const MAX_STORE: i64 = 8192;
pub const MAX_ROWS: usize = 2048;
pub const MAX_DEPTH: u32 = 64;

pub const MAX_DECLARED: i32 = 64;
pub const MAX_TEMPORARIES: i32 = 8192;
pub const MAX_KERNEL_ROWS: usize = 40_980;
pub const MAX_KERNEL_DEPTH: u32 = 512;
/// Label numbers are below this.
pub const LABELS: i32 = 40_980;

/// Words of one row: kind, a, b, c, d, next.
pub const WORDS: usize = 6;
/// Position of the next field in a row.
pub const NEXT: usize = 5;

pub type Row = [i32; WORDS];

pub const CONSTANT: i32 = 1;
pub const VARIABLE: i32 = 2;
pub const ELEMENT: i32 = 3;
pub const MINUS: i32 = 4;
pub const NOT: i32 = 5;
pub const ADD: i32 = 6;
pub const SUBTRACT: i32 = 7;
pub const MULTIPLY: i32 = 8;
pub const DIVIDE: i32 = 9;
pub const REMAINDER: i32 = 10;
pub const LESS: i32 = 11;
pub const GREATER: i32 = 12;
pub const LESS_EQUAL: i32 = 13;
pub const GREATER_EQUAL: i32 = 14;
pub const EQUAL: i32 = 15;
pub const UNEQUAL: i32 = 16;
pub const AND: i32 = 17;
pub const OR: i32 = 18;
pub const CONDITIONAL: i32 = 19;
pub const COMMA: i32 = 20;
pub const ASSIGN: i32 = 21;
pub const ADD_ASSIGN: i32 = 22;
pub const SUBTRACT_ASSIGN: i32 = 23;
pub const MULTIPLY_ASSIGN: i32 = 24;
pub const DIVIDE_ASSIGN: i32 = 25;
pub const REMAINDER_ASSIGN: i32 = 26;
pub const PRE_INCREMENT: i32 = 27;
pub const PRE_DECREMENT: i32 = 28;
pub const POST_INCREMENT: i32 = 29;
pub const POST_DECREMENT: i32 = 30;
pub const CALL: i32 = 31;
pub const ARGUMENT: i32 = 32;
pub const EMPTY: i32 = 40;
pub const EXPRESSION: i32 = 41;
pub const BLOCK: i32 = 42;
pub const IF: i32 = 43;
pub const WHILE: i32 = 44;
pub const DO: i32 = 45;
pub const FOR: i32 = 46;
pub const SWITCH: i32 = 47;
pub const CASE: i32 = 48;
pub const DEFAULT: i32 = 49;
pub const BREAK: i32 = 50;
pub const CONTINUE: i32 = 51;
pub const GOTO: i32 = 52;
pub const LABEL: i32 = 53;
pub const GUARDED_IF: i32 = 54;
pub const GUARDED_DO: i32 = 55;
pub const ARM: i32 = 56;
pub const ABORT: i32 = 57;
/// A declaration; below a definition, a parameter.
pub const DECLARE: i32 = 58;
pub const DEFINE: i32 = 59;
pub const RETURN: i32 = 60;
/// The highest kind of all.
pub const LAST_KIND: i32 = RETURN;

/// A cause's number and its place: a row, a line of the text, or 0.
#[derive(Clone, Copy, Debug, PartialEq, Eq)]
pub struct Refusal {
    pub number: u32,
    pub place: u32,
}

impl Refusal {
    pub fn new(number: u32, place: usize) -> Refusal {
        Refusal { number, place: place as u32 }
    }
}

impl fmt::Display for Refusal {
    fn fmt(&self, f: &mut fmt::Formatter) -> fmt::Result {
        write!(f, "refused {} {}", self.number, self.place)
    }
}

/// What a field of a row holds: one of a to d, or its next.
#[derive(Clone, Copy, Debug, PartialEq, Eq)]
pub enum Field {
    Unused,
    Value,
    VariableNumber,
    /// The number that a declaration gives a new object.
    DeclaredNumber,
    ArrayNumber,
    /// The number of a function that is defined or called.
    FunctionNumber,
    /// Link to an expression.
    Expression,
    /// Link to an expression, or 0.
    MaybeExpression,
    /// Link to a variable or element row.
    Place,
    /// Link to a statement that is a branch or body.
    Branch,
    /// Link to a branch, or 0.
    MaybeBranch,
    /// Link to the first item of a list, or 0.
    First,
    /// Link to the first arm of a guarded statement, or 0.
    FirstArm,
    /// Link to a block that is a body.
    BodyBlock,
    /// Link to the first parameter of a definition, or 0.
    FirstParameter,
    /// Link to the first argument of a call, or 0.
    FirstArgument,
    /// A link that is always absent: a parameter has no first value.
    NoLink,
}

impl Field {
    pub fn is_link(self) -> bool {
        use Field::{ArrayNumber, DeclaredNumber, FunctionNumber, Unused, Value, VariableNumber};
        let number = matches!(self, VariableNumber | DeclaredNumber | ArrayNumber | FunctionNumber);
        !number && !matches!(self, Unused | Value)
    }

    pub fn may_be_absent(self) -> bool {
        use Field::{First, FirstArgument, FirstArm, FirstParameter};
        let list = matches!(self, First | FirstArm | FirstParameter | FirstArgument);
        list || matches!(self, Field::MaybeExpression | Field::MaybeBranch | Field::NoLink)
    }

    /// A branch or body, whose next is 0.
    pub fn is_branch(self) -> bool {
        matches!(self, Field::Branch | Field::MaybeBranch | Field::BodyBlock)
    }

    /// Whether a row of this kind, which the table has, is of the sort that the link asks for.
    pub fn fits(self, kind: i32) -> bool {
        match self {
            Field::Expression | Field::MaybeExpression => is_expression(kind),
            Field::Place => kind == VARIABLE || kind == ELEMENT,
            Field::Branch | Field::MaybeBranch | Field::First => is_statement(kind),
            Field::FirstArm => kind == ARM,
            Field::BodyBlock => kind == BLOCK,
            Field::FirstParameter => kind == DECLARE,
            Field::FirstArgument => kind == ARGUMENT,
            _ => false,
        }
    }
}

/// The fields a to d of a kind; none where the table does not have it. Each form
/// has some of the kinds.
pub(crate) fn fields(kind: i32) -> Option<[Field; 4]> {
    use Field::*;
    let u = Unused;
    let e = Expression;
    let fields = match kind {
        CONSTANT | CASE | GOTO | LABEL => [Value, u, u, u],
        VARIABLE => [VariableNumber, u, u, u],
        ELEMENT => [ArrayNumber, e, u, u],
        MINUS | NOT => [e, u, u, u],
        ADD..=OR | COMMA => [e, e, u, u],
        CONDITIONAL => [e, e, e, u],
        ASSIGN..=REMAINDER_ASSIGN => [Place, e, u, u],
        PRE_INCREMENT..=POST_DECREMENT => [Place, u, u, u],
        EMPTY | DEFAULT | BREAK | CONTINUE | ABORT => [u, u, u, u],
        EXPRESSION => [e, u, u, u],
        BLOCK => [First, u, u, u],
        IF => [e, Branch, MaybeBranch, u],
        WHILE => [e, Branch, u, u],
        DO => [Branch, e, u, u],
        FOR => [MaybeExpression, MaybeExpression, MaybeExpression, Branch],
        SWITCH => [e, First, u, u],
        GUARDED_IF | GUARDED_DO => [FirstArm, u, u, u],
        ARM => [e, BodyBlock, u, u],
        DECLARE => [DeclaredNumber, e, u, u],
        CALL => [FunctionNumber, FirstArgument, u, u],
        ARGUMENT => [e, u, u, u],
        DEFINE => [FunctionNumber, FirstParameter, BodyBlock, u],
        RETURN => [MaybeExpression, u, u, u],
        _ => return None,
    };
    Some(fields)
}

/// The fields of a parameter, which is a row of kind 58 without a first value.
pub(crate) const PARAMETER_FIELDS: [Field; 4] =
    [Field::DeclaredNumber, Field::NoLink, Field::Unused, Field::Unused];

/// What the next of a kind holds, where that is no parameter: the next item of its list, or 0.
pub fn next_field(kind: i32) -> Field {
    match kind {
        ARM => Field::FirstArm,
        ARGUMENT => Field::FirstArgument,
        kind if is_expression(kind) => Field::Unused,
        _ => Field::First,
    }
}

pub fn is_expression(kind: i32) -> bool {
    (CONSTANT..=CALL).contains(&kind)
}

/// Of the kinds that the table has: arms and arguments are neither expressions nor statements.
pub fn is_statement(kind: i32) -> bool {
    !is_expression(kind) && kind != ARM && kind != ARGUMENT
}

pub fn is_loop(kind: i32) -> bool {
    matches!(kind, WHILE | DO | FOR)
}

/// The rows of a list from this one on; none where it is 0.
pub fn list(rows: &[Row], first: i32) -> impl Iterator<Item = usize> + '_ {
    let item = |at: i32| (at != 0).then_some(at as usize);
    std::iter::successors(item(first), move |&at| item(rows[at][NEXT]))
}

/// The definitions at the head of row 0's list.
pub fn definitions(rows: &[Row]) -> Vec<usize> {
    list(rows, rows[0][1]).take_while(|&at| rows[at][0] == DEFINE).collect()
}

/// The rows of the declarations, parameters among them, in order.
pub fn declarations(words: &[i32]) -> Vec<usize> {
    let rows = rows_of(words);
    (0..rows.len()).filter(|&at| rows[at][0] == DECLARE).collect()
}

/// The rows as groups of six words.
pub fn rows_of(words: &[i32]) -> &[Row] {
    words.as_chunks::<WORDS>().0
}
