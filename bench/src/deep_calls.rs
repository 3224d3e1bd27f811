//! Programs that nest as deep as a run can: functions each of which calls the one
//! before it from inside a nest, as many as the rows of a table have room for. No
//! function is under way twice, so no run nests deeper than the table has rows.

use crate::programs::{n, v, Program};
use interpreter::check;
use interpreter::table::*;
use interpreter::tree::*;
use interpreter::Form::{Kernel, Source};

/// A way to nest: its name, and what stands around a tree.
pub type Nest = (&'static str, fn(Tree) -> Tree);

/// Source programs of up to 2,048 rows: for each way to nest statements and expressions functions
/// down to depth 64, and the shortest functions, with their calls in a return and in an argument.
pub fn sources(statements: &[Nest], expressions: &[Nest]) -> Vec<Program> {
    let returned = |called: Tree| vec![give_back(Some(called))];
    let mut programs = vec![
        chain("functions", &[], returned),
        chain("arguments", &[0], |called| returned(call(0, vec![called]))),
    ];
    for &(name, nest) in statements {
        programs.push(chain(name, &[], |called| vec![deepest(give_back(Some(called)), nest)]));
    }
    for &(name, nest) in expressions {
        programs.push(chain(name, &[], |called| returned(deepest(called, nest))));
    }
    programs
}

/// The tree in so many nests that a function's items, at depth 4, reach to depth 64 or just above.
fn deepest(core: Tree, nest: fn(Tree) -> Tree) -> Tree {
    // A return stands below depth 4, and it and an argument bring levels of their own.
    let most = MAX_DEPTH as usize - 4;
    let mut inner = core;
    loop {
        let outer = nest(inner.clone());
        if depth(&outer) > most {
            return inner;
        }
        inner = outer;
    }
}

fn depth(tree: &Tree) -> usize {
    let parts = tree.parts.iter().map(|part| match part {
        Part::One(part) => depth(part),
        Part::List(items) => items.iter().map(depth).max().unwrap_or(0),
        _ => 0,
    });
    1 + parts.max().unwrap_or(0)
}

/// As many functions as 2,048 rows hold, the first with these parameters; each other calls the one
/// before it.
fn chain(name: &str, parameters: &[i32], body: impl Fn(Tree) -> Vec<Tree>) -> Program {
    let calling = |number: i32| {
        let passed = if number == 0 { parameters } else { &[] };
        call(number, passed.iter().map(|_| n(1)).collect())
    };
    let value = parameters.first().map(|&number| give_back(Some(v(number))));
    let mut items = vec![define(0, parameters, value.into_iter().collect())];
    // Row 0, and the last statement with its call.
    let mut rows = 3 + items[0].size();
    loop {
        let number = items.len() as i32;
        let next = define(number, &[], body(calling(number - 1)));
        rows += next.size();
        if rows > MAX_ROWS {
            break;
        }
        items.push(next);
    }
    items.push(expression(calling(items.len() as i32 - 1)));
    let header = vec![1, 3];
    let rows = rows_in_order(&block(items));
    assert_eq!(check(Source, &header, &rows), Ok(()), "calls in {name}");
    Program { name: format!("calls in {name}"), header, rows }
}

/// Kernel programs of up to 40,980 rows: functions of nested blocks, ifs and whiles down to depth
/// 512, and the shortest functions.
pub fn kernels() -> Vec<Program> {
    ["blocks", "ifs", "whiles", "calls"].into_iter().map(kernel_chain).collect()
}

fn kernel_chain(name: &str) -> Program {
    let mut rows: Vec<Row> = vec![[BLOCK, 1, 0, 0, 0, 0]];
    let mut functions = 0;
    loop {
        let mut next = rows.clone();
        define_nest(&mut next, name, functions);
        // The statement that calls the last one has four rows.
        if next.len() + 4 > MAX_KERNEL_ROWS {
            break;
        }
        rows = next;
        functions += 1;
    }
    assign_call(&mut rows, functions);
    let header = vec![1, 0, 0, 3];
    let rows = rows.concat();
    assert_eq!(check(Kernel, &header, &rows), Ok(()), "calls in kernel {name}");
    Program { name: format!("calls in {name}"), header, rows }
}

/// The function of this number: a nest down to depth 512 around a call of the one before it, and a
/// return.
fn define_nest(rows: &mut Vec<Row>, name: &str, number: i32) {
    let own = rows.len();
    rows.push([DEFINE, number, 0, own as i32 + 1, 0, 0]);
    rows.push([BLOCK, own as i32 + 2, 0, 0, 0, 0]);
    // The statements of the innermost list stand at this depth; a call stands two levels lower.
    let mut depth = 4;
    let levels = if name == "blocks" { 1 } else { 2 };
    while name != "calls" && depth + levels + 2 <= 512 {
        depth += levels;
        let at = rows.len() as i32;
        match name {
            "blocks" => rows.push([BLOCK, at + 1, 0, 0, 0, 0]),
            "ifs" => {
                rows.push([IF, at + 1, at + 3, at + 2, 0, 0]);
                rows.push([CONSTANT, 1, 0, 0, 0, 0]);
                rows.push([BLOCK, 0, 0, 0, 0, 0]);
                rows.push([BLOCK, at + 4, 0, 0, 0, 0]);
            }
            _ => {
                rows.push([WHILE, at + 1, at + 2, 0, 0, 0]);
                rows.push([CONSTANT, 1, 0, 0, 0, 0]);
                rows.push([BLOCK, at + 3, 0, 0, 0, 0]);
            }
        }
    }
    // Out of whiles a return leads; elsewhere the end of the function comes by itself.
    if number > 0 {
        assign_call(rows, number);
        if name == "whiles" {
            let at = rows.len();
            rows[at - 4][NEXT] = at as i32;
        }
    }
    if number == 0 || name == "whiles" {
        let at = rows.len() as i32;
        rows.extend([[RETURN, at + 1, 0, 0, 0, 0], [CONSTANT, 1, 0, 0, 0, 0]]);
    }
    rows[own][NEXT] = rows.len() as i32;
}

/// v0 = f(); of the function before this number.
fn assign_call(rows: &mut Vec<Row>, number: i32) {
    let at = rows.len() as i32;
    rows.extend([[EXPRESSION, at + 1, 0, 0, 0, 0], [ASSIGN, at + 2, at + 3, 0, 0, 0]]);
    rows.extend([[VARIABLE, 0, 0, 0, 0, 0], [CALL, number - 1, 0, 0, 0, 0]]);
}
