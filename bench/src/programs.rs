//! The programs that are timed.

use interpreter::check;
use interpreter::random::Random;
use interpreter::table::*;
use interpreter::tree::*;
use interpreter::Form::{Kernel, Source};

/// A program of either form: its header and its rows.
#[derive(Clone)]
pub struct Program {
    pub name: String,
    pub header: Vec<i32>,
    pub rows: Vec<i32>,
}

impl Program {
    pub fn row_count(&self) -> usize {
        self.rows.len() / WORDS
    }
}

/// The source program of these items.
fn program(name: &str, header: &[i32], items: Vec<Tree>) -> Program {
    let rows = number(&block(items), Order::Pre, &mut Random::new(1, 1));
    assert_eq!(check(Source, header, &rows), Ok(()), "{name} is legal");
    Program { name: name.to_string(), header: header.to_vec(), rows }
}

/// The translation of a source program, by the library.
pub fn translated(program: &Program) -> Program {
    let mut header = vec![0; program.header.len() + 2];
    let mut rows = vec![0; WORDS * clight::kernel_rows(program.row_count())];
    let tables = clight::translate(&program.header, &program.rows, &mut header, &mut rows).unwrap();
    rows.truncate(tables.row_words);
    Program { name: program.name.clone(), header, rows }
}

pub fn n(value: i32) -> Tree {
    constant(value)
}

pub fn v(number: i32) -> Tree {
    variable(number)
}

/// v = value;
fn set(number: i32, value: Tree) -> Tree {
    expression(assign(v(number), value))
}

fn less(left: Tree, right: Tree) -> Tree {
    binary(LESS, left, right)
}

fn add(left: Tree, right: Tree) -> Tree {
    binary(ADD, left, right)
}

/// for (v = 0; v < limit; v++) body
fn count_up(number: i32, limit: Tree, body: Vec<Tree>) -> Tree {
    for_loop(
        Some(assign(v(number), n(0))),
        Some(less(v(number), limit)),
        Some(unary(POST_INCREMENT, v(number))),
        block(body),
    )
}

/// The programs whose steps are counted: some millions each, and a plain end.
pub fn long_running() -> [Program; 5] {
    [sums(), sieve(), sort(), states(), calls()]
}

/// Those that have a flat list.
pub fn without_functions() -> impl Iterator<Item = Program> {
    let defines =
        |program: &Program| program.rows.iter().step_by(WORDS).any(|&kind| kind == DEFINE);
    long_running().into_iter().filter(move |program| !defines(program))
}

/// Nested loops over variables: additions, remainders, a test.
fn sums() -> Program {
    let remainder = binary(REMAINDER, binary(MULTIPLY, v(0), n(7)), n(1000));
    let body = vec![
        set(2, binary(REMAINDER, add(v(2), add(remainder, v(1))), n(100_003))),
        choice(
            binary(EQUAL, binary(REMAINDER, v(2), n(3)), n(0)),
            block(vec![expression(binary(ADD_ASSIGN, v(3), n(1)))]),
            None,
        ),
    ];
    let inner = count_up(1, n(600), body);
    program("sums", &[4], vec![count_up(0, n(500), vec![inner])])
}

/// The primes below 4,096, several times over.
fn sieve() -> Program {
    let strike = while_loop(
        less(v(2), n(4096)),
        block(vec![
            expression(assign(element(0, v(2)), n(1))),
            expression(binary(ADD_ASSIGN, v(2), v(1))),
        ]),
    );
    let prime =
        block(vec![expression(unary(PRE_INCREMENT, v(3))), set(2, add(v(1), v(1))), strike]);
    let each = for_loop(
        Some(assign(v(1), n(2))),
        Some(less(v(1), n(4096))),
        Some(unary(PRE_INCREMENT, v(1))),
        choice(binary(EQUAL, element(0, v(1)), n(0)), prime, None),
    );
    let clear = count_up(2, n(4096), vec![expression(assign(element(0, v(2)), n(0)))]);
    program("sieve", &[4, 4096], vec![count_up(0, n(25), vec![set(3, n(0)), clear, each])])
}

/// A bubble sort of 200 elements that fall, several times over.
fn sort() -> Program {
    let at = |index: Tree| element(0, index);
    let next = || add(v(2), n(1));
    let swap = block(vec![
        set(3, at(v(2))),
        expression(assign(at(v(2)), at(next()))),
        expression(assign(at(next()), v(3))),
    ]);
    let compare = choice(binary(GREATER, at(v(2)), at(next())), swap, None);
    let pass = count_up(2, binary(SUBTRACT, n(199), v(1)), vec![compare]);
    let fall = expression(assign(at(v(2)), binary(SUBTRACT, n(200), v(2))));
    let rounds = vec![count_up(2, n(200), vec![fall]), count_up(1, n(199), vec![pass])];
    program("sort", &[4, 200], vec![count_up(0, n(6), rounds)])
}

/// A switch of eight cases with fall-through, in a loop, and logical operators.
fn states() -> Program {
    let mut items = Vec::new();
    for value in 0..8 {
        items.push(case(value));
        items.push(expression(binary(ADD_ASSIGN, v(2), n(value + 1))));
        if value % 2 == 1 {
            items.push(plain(BREAK));
        }
    }
    let next = set(1, binary(REMAINDER, add(binary(MULTIPLY, v(1), n(5)), n(3)), n(8)));
    let both = binary(AND, binary(GREATER, v(2), n(1000)), unary(NOT, less(v(2), n(0))));
    let wrap = choice(
        binary(OR, both, binary(EQUAL, v(2), n(-1))),
        block(vec![set(2, n(0))]),
        Some(block(vec![expression(unary(POST_INCREMENT, v(3)))])),
    );
    program("states", &[4], vec![count_up(0, n(200_000), vec![switch(v(1), items), next, wrap])])
}

/// Two functions, one of which calls the other: calls as operands and as arguments, returns out of ifs.
fn calls() -> Program {
    let step = binary(REMAINDER, add(binary(MULTIPLY, v(0), n(7)), v(1)), n(1000));
    let inner = define(0, &[0, 1], vec![give_back(Some(step))]);
    let third = binary(EQUAL, binary(REMAINDER, v(0), n(3)), n(0));
    let items = vec![
        choice(third, give_back(Some(call(0, vec![v(0), n(1)]))), None),
        give_back(Some(call(0, vec![call(0, vec![n(1), v(0)]), v(0)]))),
    ];
    let outer = define(1, &[0], items);
    let sum = set(3, binary(REMAINDER, add(call(1, vec![v(2)]), v(3)), n(1000)));
    program("calls", &[4], vec![inner, outer, count_up(2, n(100_000), vec![sum])])
}

/// A source program of so many rows, a multiple of 8: assignments, ifs, loops.
pub fn sized(rows: usize) -> Program {
    let mut items = Vec::new();
    let mut used = 1;
    while used < rows {
        let item = match (rows - used, items.len() % 3) {
            (left, 0) if left >= 13 => count_up(0, n(9), vec![set(1, add(v(1), n(1)))]),
            (left, 1) if left >= 9 => choice(less(v(0), n(5)), block(vec![set(2, v(1))]), None),
            (left, _) if left >= 6 => set(3, add(v(2), n(7))),
            _ => plain(EMPTY),
        };
        used += item.size();
        items.push(item);
    }
    let made = program(&format!("{rows} rows"), &[4, 64], items);
    assert_eq!(made.row_count(), rows);
    made
}

/// A source program of so many rows that is one switch: cases in falling order, and empties.
pub fn one_switch(rows: usize) -> Program {
    let marks = (rows - 3) as i32;
    let items = (0..marks).map(|i| case(marks - i)).collect();
    program(&format!("switch {rows}"), &[1], vec![switch(v(0), items)])
}

/// A kernel program of so many rows, a multiple of 12: gotos over an assignment to a label.
pub fn kernel_sized(rows: usize) -> Program {
    let mut table: Vec<Row> = vec![[BLOCK, 1, 0, 0, 0, 0]];
    let mut label = 0;
    while table.len() + 8 <= rows {
        let at = table.len() as i32;
        table.push([GOTO, label, 0, 0, 0, at + 1]);
        table.push([EXPRESSION, at + 2, 0, 0, 0, at + 7]);
        table.push([ASSIGN, at + 3, at + 4, 0, 0, 0]);
        table.push([VARIABLE, 0, 0, 0, 0, 0]);
        table.push([ADD, at + 5, at + 6, 0, 0, 0]);
        table.push([VARIABLE, 0, 0, 0, 0, 0]);
        table.push([CONSTANT, 1, 0, 0, 0, 0]);
        table.push([LABEL, label, 0, 0, 0, at + 8]);
        label += 1;
    }
    filled(table, rows)
}

/// A kernel program of so many rows: a list of ifs with two branches and of whiles, with an assignment in each branch and body.
pub fn kernel_loops(rows: usize) -> Program {
    let mut table: Vec<Row> = vec![[BLOCK, 1, 0, 0, 0, 0]];
    let assignment = |table: &mut Vec<Row>| {
        let at = table.len() as i32;
        table.push([BLOCK, at + 1, 0, 0, 0, 0]);
        table.push([EXPRESSION, at + 2, 0, 0, 0, 0]);
        table.push([ASSIGN, at + 3, at + 4, 0, 0, 0]);
        table.push([VARIABLE, 0, 0, 0, 0, 0]);
        table.push([CONSTANT, 0, 0, 0, 0, 0]);
    };
    while table.len() + 19 <= rows {
        let at = table.len() as i32;
        table.push([IF, at + 1, at + 2, at + 7, 0, at + 12]);
        table.push([VARIABLE, 0, 0, 0, 0, 0]);
        assignment(&mut table);
        assignment(&mut table);
        table.push([WHILE, at + 13, at + 14, 0, 0, at + 19]);
        table.push([VARIABLE, 0, 0, 0, 0, 0]);
        assignment(&mut table);
    }
    filled(table, rows)
}

/// A kernel program of so many rows: these items, and empty statements behind them.
fn filled(mut table: Vec<Row>, rows: usize) -> Program {
    while table.len() < rows {
        let at = table.len() as i32;
        table.push([EMPTY, 0, 0, 0, 0, at + 1]);
    }
    table[rows - 1][NEXT] = 0;
    let made =
        Program { name: format!("{rows} rows"), header: vec![1, 0, 0], rows: table.concat() };
    assert_eq!(check(Kernel, &made.header, &made.rows), Ok(()));
    made
}
