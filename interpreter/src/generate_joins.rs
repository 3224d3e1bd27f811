//! Pairs of programs to join: legal ones under one header, and pairs whose
//! headers differ, whose rows or declarations are about as many as can be, whose
//! join is about as deep as can be, or of which one or both are damaged.

use crate::cases::Case;
use crate::damage;
use crate::form::Form::Source;
use crate::generate::{any_order, program, start_words, Program, Size};
use crate::random::Random;
use crate::table::*;
use crate::text;
use crate::tree::{block, constant, declare, number as number_rows, plain, Part, Tree};

#[derive(Clone, Copy, PartialEq, Eq)]
enum Pair {
    Legal,
    Headers,
    Rows,
    Deep,
    Declared,
    First,
    Second,
    Both,
}

const WEIGHTS: [(usize, Pair); 8] = [
    (40, Pair::Legal),
    (12, Pair::Headers),
    (8, Pair::Rows),
    (14, Pair::Deep),
    (10, Pair::Declared),
    (8, Pair::First),
    (10, Pair::Second),
    (8, Pair::Both),
];

/// The pair of this number: the first case has the start words.
pub fn pair(seed: u64, number: u64) -> [Case; 2] {
    let random = &mut Random::new(seed ^ 0x70B1_2D05, number);
    let pick = random.weighted(&WEIGHTS);
    let mut programs = [small(random), small(random)];
    let mut headers = alike(&mut programs);
    // Two causes at once, now and then.
    for act in [pick, random.weighted(&WEIGHTS)] {
        match act {
            Pair::Headers if act == pick || random.chance(10) => {
                let at = random.below(2);
                change_header(random, &mut headers[at]);
            }
            Pair::Rows if act == pick || random.chance(4) => fill(random, &mut programs),
            Pair::Deep if act == pick || random.chance(15) => deepen(random, &mut programs),
            Pair::Declared if act == pick || random.chance(15) => {
                declare_more(random, &mut programs)
            }
            _ => {}
        }
    }
    let order = [any_order(random), any_order(random)];
    let rows = [0, 1].map(|i| number_rows(&programs[i].tree, order[i], random));
    let words = start_words(Source, random, &headers[0], &rows[0]);
    let texts = [0, 1].map(|i| text::write(&headers[i], &rows[i]));
    let damaged =
        [matches!(pick, Pair::First | Pair::Both), matches!(pick, Pair::Second | Pair::Both)];
    [0, 1].map(|i| Case {
        budget: 0,
        // A damaged program starts from zeros: it may have another header.
        words: if i == 0 && !damaged[0] { words.clone() } else { Vec::new() },
        text: match damaged[i] {
            true => damage::case(seed.wrapping_add(i as u64), number).text,
            false => texts[i].clone(),
        },
    })
}

/// A legal program of few rows.
fn small(random: &mut Random) -> Program {
    loop {
        let program = program(random, Size::Mixed);
        if program.tree.size() <= 150 && program.header.len() <= 8 {
            return program;
        }
    }
}

/// One header that both programs are legal under: the more variables, the
/// longer arrays.
fn alike(programs: &mut [Program; 2]) -> [Vec<i32>; 2] {
    let [one, other] = [&programs[0].header, &programs[1].header];
    let longer = one.len().max(other.len());
    let at = |header: &Vec<i32>, i: usize| header.get(i).copied().unwrap_or(0);
    let header: Vec<i32> = (0..longer).map(|i| at(one, i).max(at(other, i))).collect();
    if Source.size(&header) > MAX_STORE {
        // Both join themselves then.
        programs[1] = Program { header: one.clone(), tree: programs[0].tree.clone() };
        return [programs[0].header.clone(), programs[0].header.clone()];
    }
    [header.clone(), header]
}

/// A header that differs a little, and under which a program may stay legal.
fn change_header(random: &mut Random, header: &mut Vec<i32>) {
    match random.below(4) {
        0 => header[0] = if header[0] < MAX_VARIABLES { header[0] + 1 } else { 0 },
        1 => header.push(1),
        2 if header.len() > 2 => {
            let last = header.len() - 1;
            header.swap(1, last);
        }
        _ => {
            let at = random.below(header.len());
            header[at] += if header[at] < 200 { 1 } else { -1 };
        }
    }
}

fn items(tree: &mut Tree) -> &mut Vec<Tree> {
    match &mut tree.parts[0] {
        Part::List(items) => items,
        _ => unreachable!("row 0 is a block"),
    }
}

/// Puts an item anywhere behind the definitions; at times into a function, where there is one.
fn insert(random: &mut Random, program: &mut Program, item: Tree) {
    let list = items(&mut program.tree);
    let defined = list.iter().take_while(|item| item.kind == DEFINE).count();
    if defined > 0 && random.chance(30) {
        if let Part::One(body) = &mut list[random.below(defined)].parts[2] {
            return items(body).push(item);
        }
    }
    let position = defined + random.below(list.len() - defined + 1);
    list.insert(position, item);
}

/// Empties behind one program, so that the joined rows are about 2,048.
fn fill(random: &mut Random, programs: &mut [Program; 2]) {
    let rows = random.pick(&[MAX_ROWS - 1, MAX_ROWS, MAX_ROWS, MAX_ROWS + 1, MAX_ROWS + 2]);
    let size = 1 + programs[0].tree.size() + programs[1].tree.size();
    let at = random.below(2);
    items(&mut programs[at].tree).extend((size..rows).map(|_| plain(EMPTY)));
}

/// Blocks of a declaration each in both programs, so that the declarations of both are about 64.
fn declare_more(random: &mut Random, programs: &mut [Program; 2]) {
    let total = MAX_DECLARED + random.pick(&[-1, 0, 0, 1, 1, 2, 20]);
    let count = |program: &mut Program| {
        let mut declared = 0;
        program.tree.each(&mut |tree| declared += (tree.kind == DECLARE) as i32);
        declared
    };
    let declared = count(&mut programs[0]) + count(&mut programs[1]);
    for _ in declared..total {
        let program = &mut programs[random.below(2)];
        if program.header[0] > 0 && count(program) < MAX_DECLARED {
            let item = block(vec![declare(0, constant(random.between(-1, 9)))]);
            insert(random, program, item);
        }
    }
}

/// Nests of blocks in one program or both, about as deep as a program can be.
fn deepen(random: &mut Random, programs: &mut [Program; 2]) {
    let which = random.pick(&[1, 2, 3]);
    for (i, program) in programs.iter_mut().enumerate() {
        if which & (1 << i) != 0 {
            let depth = random.between(MAX_DEPTH as i32 - 2, MAX_DEPTH as i32);
            let nest = (2..depth).fold(block(Vec::new()), |inner, _| block(vec![inner]));
            insert(random, program, nest);
        }
    }
}
