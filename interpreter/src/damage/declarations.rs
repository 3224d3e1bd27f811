//! Damages to declarations, before the rows are numbered: causes 7, 18, 19 and 20.
//! Some leave a program legal.

use super::tree::{act_on, insert_item, list_of, owns_branch, replace_branch};
use crate::random::Random;
use crate::table::*;
use crate::tree::*;

pub fn damage(random: &mut Random, tree: &mut Tree) {
    let choice = random.below(10);
    let fresh = declare(random.pick(&[0, 0, 1]), constant(random.between(-1, 3)));
    if !holds_declaration(tree) || choice == 0 {
        insert_item(random, tree, fresh.clone(), |owner| owner.kind == BLOCK);
    }
    match choice {
        0 => {}
        1..=3 => name_itself(random, tree),
        4..=6 => declare_again(random, tree),
        7 => fill(random, tree),
        8 => insert_item(random, tree, fresh, |owner| owner.kind == SWITCH),
        _ => drop(act_on(random, tree, owns_branch, |random, owner| {
            replace_branch(random, owner, fresh.clone())
        })),
    }
}

fn holds_declaration(tree: &Tree) -> bool {
    tree.kind == DECLARE || tree.below().any(holds_declaration)
}

fn is_declaration(tree: &Tree) -> bool {
    tree.kind == DECLARE
}

/// The number and the first value of a declaration.
fn parts(declaration: &Tree) -> Option<(i32, Tree)> {
    match &declaration.parts {
        [Part::Number(number), Part::One(value), ..] => Some((*number, (**value).clone())),
        _ => None,
    }
}

/// The first value of a declaration names the declared number, or seldom another: as operand, place
/// or index, at the top or at the bottom, whether it is entered or not.
fn name_itself(random: &mut Random, tree: &mut Tree) {
    act_on(random, tree, is_declaration, |random, declaration| {
        let Some((number, value)) = parts(declaration) else { return };
        let named = variable(if random.chance(12) { number + 1 } else { number });
        let value = match random.below(8) {
            0 => named,
            1 => binary(ADD, value, named),
            2 => assign(named, value),
            3 => unary(POST_INCREMENT, named),
            4 => element(0, named),
            5 => assign(element(0, binary(MULTIPLY, named, constant(0))), value),
            6 => conditional(constant(1), value, unary(MINUS, named)),
            _ => binary(AND, constant(0), binary(COMMA, value, named)),
        };
        *declaration = declare(number, value);
    });
}

/// A number is declared again: in the same list, or in a block of its own, which is no damage.
fn declare_again(random: &mut Random, tree: &mut Tree) {
    let declares = |owner: &Tree| owner.kind == BLOCK && owner.below().any(is_declaration);
    act_on(random, tree, declares, |random, owner| {
        let Some(items) = list_of(owner) else { return };
        let known: Vec<Tree> = items.iter().filter(|item| is_declaration(item)).cloned().collect();
        let Some((number, _)) = parts(&known[random.below(known.len())]) else { return };
        let again = declare(number, constant(random.between(-2, 9)));
        let position = random.below(items.len() + 1);
        let item = if random.chance(20) { block(vec![again]) } else { again };
        items.insert(position, item);
    });
}

/// Blocks of a declaration each, so that there are about as many as can be.
fn fill(random: &mut Random, tree: &mut Tree) {
    let wanted = MAX_DECLARED + random.pick(&[-1, 0, 1, 1, 1, 2, 9]);
    let mut count = 0;
    tree.each(&mut |tree| count += is_declaration(tree) as i32);
    let mut fresh = (count..wanted).map(|_| block(vec![declare(0, constant(1))]));
    let front: Vec<Tree> = fresh.by_ref().take(random.below(wanted as usize)).collect();
    let back: Vec<Tree> = fresh.collect();
    if let Some(items) = list_of(tree) {
        items.splice(0..0, front);
        items.extend(back);
    }
}
