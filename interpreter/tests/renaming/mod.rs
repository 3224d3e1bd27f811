//! Programs without kind 58: every declared object and every parameter is a variable of its own,
//! behind the header's, and functions have no parameters.

use interpreter::table::*;
use interpreter::tree::*;

pub struct Renaming {
    /// The number of the next variable.
    pub fresh: i32,
    /// What is declared around, innermost last: the number, and the variable that it means.
    scope: Vec<(i32, i32)>,
    /// The variables that are the parameters of each function.
    functions: Vec<Vec<i32>>,
}

impl Renaming {
    /// Behind so many variables.
    pub fn new(variables: i32) -> Renaming {
        Renaming { fresh: variables, scope: Vec::new(), functions: Vec::new() }
    }

    fn variable(&mut self) -> i32 {
        self.fresh += 1;
        self.fresh - 1
    }

    pub fn tree(&mut self, tree: &Tree) -> Tree {
        match (tree.kind, &tree.parts) {
            (VARIABLE, [Part::Number(number), ..]) => {
                let meant = self.scope.iter().rev().find(|named| named.0 == *number);
                variable(meant.map_or(*number, |named| named.1))
            }
            (DECLARE, [Part::Number(number), Part::One(value), ..]) => {
                let value = self.tree(value);
                let fresh = self.variable();
                self.scope.push((*number, fresh));
                expression(assign(variable(fresh), value))
            }
            (DEFINE, [Part::Number(function), Part::List(parameters), Part::One(body), _]) => {
                self.definition(*function, parameters, body)
            }
            (CALL, [Part::Number(function), Part::List(arguments), ..]) => {
                self.call(*function, arguments)
            }
            (kind, parts) => Tree { kind, parts: [0, 1, 2, 3].map(|i| self.part(&parts[i])) },
        }
    }

    fn part(&mut self, part: &Part) -> Part {
        match part {
            Part::One(part) => Part::One(Box::new(self.tree(part))),
            Part::List(items) => {
                let outer = self.scope.len();
                let items = items.iter().map(|item| self.tree(item)).collect();
                self.scope.truncate(outer);
                Part::List(items)
            }
            other => other.clone(),
        }
    }

    fn definition(&mut self, function: i32, parameters: &[Tree], body: &Tree) -> Tree {
        let mut own = Vec::new();
        for parameter in parameters {
            if let Part::Number(number) = parameter.parts[0] {
                own.push(self.variable());
                self.scope.push((number, self.fresh - 1));
            }
        }
        self.functions.push(own);
        let body = Part::One(Box::new(self.tree(body)));
        self.scope.clear();
        let parts = [Part::Number(function), Part::List(Vec::new()), body, Part::Absent];
        Tree { kind: DEFINE, parts }
    }

    /// The values go into variables of this call from the last on, and from there into the
    /// parameters.
    fn call(&mut self, function: i32, arguments: &[Tree]) -> Tree {
        let values: Vec<i32> = arguments.iter().map(|_| self.variable()).collect();
        let parameters = self.functions[function as usize].clone();
        let mut effects = Vec::new();
        for (argument, &value) in arguments.iter().zip(&values).rev() {
            if let Part::One(tree) = &argument.parts[0] {
                effects.push(assign(variable(value), self.tree(tree)));
            }
        }
        for (parameter, value) in parameters.into_iter().zip(values) {
            effects.push(assign(variable(parameter), variable(value)));
        }
        effects
            .into_iter()
            .rev()
            .fold(call(function, Vec::new()), |whole, effect| binary(COMMA, effect, whole))
    }
}
