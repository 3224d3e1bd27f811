//! Damages to functions, before the rows are numbered: causes 4, 7, 19, 23 and 24. Some
//! leave a program legal.

use super::tree::{act_on, insert_item, list_of, owns_branch, replace_branch};
use crate::random::Random;
use crate::table::*;
use crate::tree::*;

pub fn damage(random: &mut Random, tree: &mut Tree) {
    if !tree.below().any(|item| item.kind == DEFINE) {
        add_function(random, tree);
    }
    match random.below(18) {
        0 | 1 => call_another(random, tree),
        2 => call_inside(random, tree),
        3 | 4 => change_arguments(random, tree),
        5 => change_parameters(random, tree),
        6 | 7 => number_otherwise(random, tree),
        8 | 9 => displace(random, tree),
        10 | 11 => misplace_return(random, tree),
        12 | 13 => declare_parameter_again(random, tree),
        14 | 15 => change_first_value(random, tree),
        _ => nest_argument(random, tree),
    }
}

/// A function of one or two parameters at the head, and a call.
fn add_function(random: &mut Random, tree: &mut Tree) {
    let parameters = random.pick(&[&[][..], &[0], &[0], &[0, 1]]);
    let arguments = parameters.iter().map(|_| constant(random.between(-1, 4))).collect();
    let called = expression(call(0, arguments));
    let defined = define(0, parameters, vec![give_back(Some(constant(1)))]);
    if let Some(items) = list_of(tree) {
        let position = random.below(items.len() + 1);
        items.insert(position, called);
        items.insert(0, defined);
    }
}

fn is_call(tree: &Tree) -> bool {
    tree.kind == CALL
}

fn is_definition(tree: &Tree) -> bool {
    tree.kind == DEFINE
}

/// The list of a part, whatever list that is.
fn part_list(part: &mut Part) -> Option<&mut Vec<Tree>> {
    match part {
        Part::List(items) => Some(items),
        _ => None,
    }
}

/// A call's number is another one: of another function, of none, or far off.
fn call_another(random: &mut Random, tree: &mut Tree) {
    act_on(random, tree, is_call, |random, called| {
        if let Part::Number(number) = &mut called.parts[0] {
            *number = match random.below(6) {
                0 => -1,
                1 => random.pick(&[i32::MIN, i32::MAX]),
                2 => random.between(0, 9),
                _ => number.wrapping_add(random.pick(&[-1, 1, 1, 2])),
            };
        }
    });
}

/// A function calls itself, a higher one or, which is no damage, a lower one.
fn call_inside(random: &mut Random, tree: &mut Tree) {
    act_on(random, tree, is_definition, |random, definition| {
        let [Part::Number(own), Part::List(parameters), Part::One(body), _] = &mut definition.parts
        else {
            return;
        };
        let number = own.wrapping_add(random.pick(&[0, 0, 1, -1]));
        let arguments = parameters.iter().map(|_| constant(1)).collect();
        let called = call(number, arguments);
        let item = match random.chance(40) {
            true => expression(called),
            false => give_back(Some(binary(COMMA, constant(2), called))),
        };
        if let Some(items) = list_of(body) {
            let position = random.below(items.len() + 1);
            items.insert(position, item);
        }
    });
}

/// An argument more or less.
fn change_arguments(random: &mut Random, tree: &mut Tree) {
    act_on(random, tree, is_call, |random, called| {
        let Some(arguments) = part_list(&mut called.parts[1]) else { return };
        let position = random.below(arguments.len() + 1);
        if position < arguments.len() && random.chance(50) {
            arguments.remove(position);
        } else if let Part::List(more) = &call(0, vec![constant(3)]).parts[1] {
            arguments.insert(position, more[0].clone());
        }
    });
}

/// A parameter more or less, which the calls have not.
fn change_parameters(random: &mut Random, tree: &mut Tree) {
    act_on(random, tree, is_definition, |random, definition| {
        let Some(parameters) = part_list(&mut definition.parts[1]) else { return };
        let position = random.below(parameters.len() + 1);
        if position < parameters.len() && random.chance(60) {
            parameters.remove(position);
        } else {
            parameters.insert(position, parameter(random.between(0, 4)));
        }
    });
}

/// The number of a definition is not its place, or two definitions change places.
fn number_otherwise(random: &mut Random, tree: &mut Tree) {
    let Some(items) = list_of(tree) else { return };
    let count = items.iter().take_while(|item| is_definition(item)).count();
    if count > 1 && random.chance(50) {
        let last = random.below(count - 1) + 1;
        return items.swap(random.below(last), last);
    }
    act_on(random, tree, is_definition, |random, definition| {
        if let Part::Number(number) = &mut definition.parts[0] {
            *number = number.wrapping_add(random.pick(&[-1, 1, 1, 5, i32::MIN, i32::MAX]));
        }
    });
}

/// A definition that does not stand at the head of row 0's list: what was there, or a new one.
fn displace(random: &mut Random, tree: &mut Tree) {
    let Some(items) = list_of(tree) else { return };
    let count = items.iter().take_while(|item| is_definition(item)).count();
    let fresh = define(count as i32, &[], vec![]);
    match random.below(6) {
        0 => items.insert(random.below(count + 1), plain(EMPTY)),
        1 if count > 0 => {
            let moved = items.remove(random.below(count));
            let position = random.below(items.len() + 1);
            items.insert(position, moved);
        }
        2 if count > 0 => {
            let at = random.below(count);
            items[at] = block(vec![items[at].clone()]);
        }
        3 => drop(act_on(random, tree, owns_branch, |random, owner| {
            replace_branch(random, owner, fresh.clone());
        })),
        // Behind the others, which is no damage.
        4 => items.insert(count, fresh),
        _ => insert_item(random, tree, fresh, |_| true),
    }
}

/// A return anywhere: inside a function it is no damage.
fn misplace_return(random: &mut Random, tree: &mut Tree) {
    let value = random.chance(60).then(|| constant(random.between(-1, 3)));
    let item = give_back(value);
    if random.chance(25) {
        act_on(random, tree, owns_branch, |random, owner| {
            replace_branch(random, owner, item.clone());
        });
    } else {
        insert_item(random, tree, item, |_| true);
    }
}

/// A parameter's number once more: as a parameter, in the body, or in a block of the body, which is
/// no damage.
fn declare_parameter_again(random: &mut Random, tree: &mut Tree) {
    act_on(random, tree, is_definition, |random, definition| {
        let [_, Part::List(parameters), Part::One(body), _] = &mut definition.parts else { return };
        let number = match parameters.first().map(|first| &first.parts[0]) {
            Some(Part::Number(number)) => *number,
            _ => 0,
        };
        if parameters.is_empty() {
            parameters.push(parameter(number));
        }
        let again = declare(number, constant(random.between(-2, 9)));
        let choice = random.below(5);
        if choice < 2 {
            let position = random.below(parameters.len() + 1);
            parameters.insert(position, parameter(number));
        } else if let Some(items) = list_of(body) {
            let position = random.below(items.len() + 1);
            let item = if choice == 4 { block(vec![again]) } else { again };
            items.insert(position, item);
        }
    });
}

/// A parameter gets a first value, or a declaration loses its own.
fn change_first_value(random: &mut Random, tree: &mut Tree) {
    let is_declaration = |tree: &Tree| tree.kind == DECLARE;
    act_on(random, tree, is_declaration, |random, declaration| {
        if let Part::Number(number) = declaration.parts[0] {
            *declaration = match declaration.parts[1] {
                Part::One(_) => parameter(number),
                _ => declare(number, constant(random.between(0, 3))),
            };
        }
    });
}

/// An argument stands where an expression should, or a call where a statement should.
fn nest_argument(random: &mut Random, tree: &mut Tree) {
    let Part::List(argument) = &call(0, vec![constant(1)]).parts[1] else { return };
    let argument = argument[0].clone();
    if random.chance(30) {
        let item = if random.chance(50) { argument } else { call(0, vec![]) };
        return insert_item(random, tree, item, |_| true);
    }
    let holds_one = |tree: &Tree| matches!(tree.parts[0], Part::One(_));
    act_on(random, tree, holds_one, |_, owner| {
        owner.parts[0] = Part::One(Box::new(argument.clone()))
    });
}
