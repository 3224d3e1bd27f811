//! Damages to the tree, before its rows are numbered: causes 5, 7, 8 and 9, and 2;
//! those to declarations and functions stand apart.

use super::{declarations, functions, Damage};
use crate::form::Form::Source;
use crate::random::Random;
use crate::table::*;
use crate::tree::*;

pub fn damage_tree(random: &mut Random, tree: &mut Tree, pick: Damage) {
    match pick {
        Damage::Misplaced => misplace(random, tree),
        Damage::Repeated => repeat_mark(random, tree),
        Damage::Declared => declarations::damage(random, tree),
        Damage::Function => functions::damage(random, tree),
        Damage::Deep => {
            let depth = random.between(57, 67) as usize;
            let nest = nest(random, depth);
            insert_item(random, tree, nest, |_| true);
        }
        Damage::Root => {
            let old = std::mem::replace(tree, plain(EMPTY));
            *tree = match random.below(6) {
                0 => plain(EMPTY),
                1 => constant(1),
                2 => choice(constant(1), old, None),
                3 => do_loop(old, constant(0)),
                4 => guarded(random.pick(&[GUARDED_IF, ARM]), vec![]),
                _ => switch(constant(1), vec![plain(DEFAULT), old]),
            };
        }
        Damage::Full => {
            let rows = random.pick(&[MAX_ROWS - 1, MAX_ROWS, MAX_ROWS + 1, MAX_ROWS + 2]);
            let size = tree.size();
            if let Part::List(items) = &mut tree.parts[0] {
                items.extend((size..rows).map(|_| plain(EMPTY)));
            }
        }
        _ => {}
    }
}

/// Acts on one of the trees that fit, if there are any.
pub fn act_on(
    random: &mut Random,
    tree: &mut Tree,
    fits: impl Fn(&Tree) -> bool,
    act: impl Fn(&mut Random, &mut Tree),
) -> bool {
    let mut count = 0;
    tree.each(&mut |tree| count += fits(tree) as usize);
    if count == 0 {
        return false;
    }
    let chosen = random.below(count);
    let mut seen = 0;
    // The choice is kept by position, so that the act may change what fits.
    tree.each(&mut |tree| {
        if seen <= chosen && fits(tree) {
            if seen == chosen {
                act(random, tree);
            }
            seen += 1;
        }
    });
    true
}

/// The list of a block or switch.
pub fn list_of(tree: &mut Tree) -> Option<&mut Vec<Tree>> {
    tree.parts.iter_mut().find_map(|part| match part {
        Part::List(items) => Some(items),
        _ => None,
    })
}

/// Puts an item anywhere in one of the lists whose owner fits.
pub fn insert_item(random: &mut Random, tree: &mut Tree, item: Tree, fits: impl Fn(&Tree) -> bool) {
    let has_list = |tree: &Tree| matches!(tree.kind, BLOCK | SWITCH) && fits(tree);
    act_on(random, tree, has_list, |random, owner| {
        if let Some(items) = list_of(owner) {
            let position = random.below(items.len() + 1);
            items.insert(position, item.clone());
        }
    });
}

/// A jump or a mark.
fn jump_or_mark(random: &mut Random) -> Tree {
    match random.below(4) {
        0 => plain(BREAK),
        1 => plain(CONTINUE),
        2 => plain(DEFAULT),
        _ => case(random.between(-1, 5)),
    }
}

fn misplace(random: &mut Random, tree: &mut Tree) {
    let item = jump_or_mark(random);
    let done = match random.below(6) {
        0 => act_on(random, tree, owns_branch, |random, owner| {
            // A branch or body becomes a jump or mark.
            replace_branch(random, owner, item.clone());
        }),
        1 => act_on(random, tree, has_marks, |random, owner| {
            // A mark goes into a block of its own.
            if let Some(items) = list_of(owner) {
                let marks: Vec<usize> = (0..items.len()).filter(|&i| is_mark(&items[i])).collect();
                let chosen = random.pick(&marks);
                items[chosen] = block(vec![items[chosen].clone()]);
            }
        }),
        2 => act_on(random, tree, |tree| tree.kind == WHILE, |_, owner| owner.kind = IF),
        3 => act_on(
            random,
            tree,
            |tree| tree.kind == SWITCH,
            |_, owner| {
                let items = list_of(owner).map(std::mem::take).unwrap_or_default();
                *owner = block(items);
            },
        ),
        _ => false,
    };
    if !done {
        insert_item(random, tree, item, |_| true);
    }
}

pub fn owns_branch(tree: &Tree) -> bool {
    matches!(tree.kind, IF | WHILE | DO | FOR | ARM | DEFINE)
}

/// Puts a statement in the place of a branch or body; an arm that was damaged before may have none.
pub fn replace_branch(random: &mut Random, owner: &mut Tree, statement: Tree) {
    let fields = Source.fields_or_unused(owner.kind);
    let branches: Vec<usize> = (0..4)
        .filter(|&i| fields[i].is_branch() && matches!(owner.parts[i], Part::One(_)))
        .collect();
    if !branches.is_empty() {
        let chosen = random.pick(&branches);
        owner.parts[chosen] = Part::One(Box::new(statement));
    }
}

fn is_mark(tree: &Tree) -> bool {
    matches!(tree.kind, CASE | DEFAULT)
}

fn has_marks(tree: &Tree) -> bool {
    tree.kind == SWITCH && tree.below().any(is_mark)
}

/// A second mark like one that stands in the switch already.
fn repeat_mark(random: &mut Random, tree: &mut Tree) {
    let mut switches = false;
    tree.each(&mut |tree| switches |= has_marks(tree));
    if !switches || random.chance(15) {
        let value = random.pick(&[0, 1, -1, i32::MIN, i32::MAX]);
        let inner = switch(constant(0), vec![case(value), plain(DEFAULT)]);
        // The nested marks are equal and legal; the damage follows below.
        let items = vec![case(value), inner, plain(DEFAULT)];
        insert_item(random, tree, switch(constant(value), items), |_| true);
    }
    act_on(random, tree, has_marks, |random, owner| {
        if let Some(items) = list_of(owner) {
            let marks: Vec<Tree> = items.iter().filter(|item| is_mark(item)).cloned().collect();
            let mark = marks[random.below(marks.len())].clone();
            let position = random.below(items.len() + 1);
            items.insert(position, mark);
        }
    });
}

/// A statement of the given depth.
fn nest(random: &mut Random, depth: usize) -> Tree {
    let expressions = random.below(depth.max(1));
    let mut inner = constant(1);
    for _ in 1..expressions {
        inner = match random.below(4) {
            0 => unary(NOT, inner),
            1 => binary(COMMA, constant(2), inner),
            2 => conditional(constant(0), constant(3), inner),
            _ => unary(MINUS, inner),
        };
    }
    let mut tree = expression(inner);
    while tree.depth() < depth {
        tree = match random.below(5) {
            0 => choice(constant(1), tree, None),
            1 => do_loop(tree, constant(0)),
            2 => switch(constant(1), vec![plain(DEFAULT), tree]),
            3 if tree.depth() + 3 <= depth => {
                guarded(GUARDED_IF, vec![arm(constant(1), vec![tree])])
            }
            _ => block(vec![plain(EMPTY), tree]),
        };
    }
    tree
}
