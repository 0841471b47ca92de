//! Which scripts are valid.

use super::{Expr, Form, Read, Refusal, Script, Step, Value};
use std::collections::{HashMap, HashSet};

/// Whether a script is valid: which inputs are lists, the numbers of the steps so far, and how often each variable is bound.
struct Checker {
    lists: Vec<bool>,
    steps: HashSet<u32>,
    bound: HashMap<u32, u32>,
    order: Vec<u32>,
}

impl Checker {
    fn bind(&mut self, variable: u32) {
        *self.bound.entry(variable).or_insert(0) += 1;
        self.order.push(variable);
    }

    fn close(&mut self, count: usize) {
        for variable in self.order.drain(count..) {
            *self.bound.get_mut(&variable).unwrap() -= 1;
        }
    }

    /// Whether an input is there, and is a list or none.
    fn input(&self, input: u8, is_list: bool, step: u32) -> Read<()> {
        match self.lists.get(usize::from(input)) {
            None => Err(Refusal(12, step as usize)),
            Some(found) if *found != is_list => Err(Refusal(15, step as usize)),
            Some(_) => Ok(()),
        }
    }

    /// A block for which a variable is bound.
    fn binding(&mut self, variable: u32, body: &[Step]) -> Read<()> {
        let count = self.order.len();
        self.bind(variable);
        self.block(body)?;
        self.close(count);
        Ok(())
    }

    fn expr(&self, expr: &Expr, step: u32) -> Read<()> {
        match expr {
            Expr::Literal(_) | Expr::Root => Ok(()),
            Expr::Input(input) => self.input(*input, false, step),
            Expr::Variable(variable) if self.bound.get(variable).is_some_and(|n| *n > 0) => Ok(()),
            Expr::Variable(_) => Err(Refusal(11, step as usize)),
            Expr::Unary(_, _, operand) => self.expr(operand, step),
            Expr::Binary(_, _, left, right) => {
                self.expr(left, step)?;
                self.expr(right, step)
            }
            Expr::Call { target, args, .. } => {
                self.expr(target, step)?;
                args.iter().try_for_each(|arg| self.expr(arg, step))
            }
        }
    }

    fn block(&mut self, steps: &[Step]) -> Read<()> {
        let count = self.order.len();
        for step in steps {
            self.step(step)?;
        }
        self.close(count);
        Ok(())
    }

    fn step(&mut self, step: &Step) -> Read<()> {
        if !self.steps.insert(step.id) {
            return Err(Refusal(13, step.id as usize));
        }
        match &step.form {
            Form::Do(expr) | Form::Keep(expr) => self.expr(expr, step.id),
            Form::Let {
                variable, value, ..
            } => {
                self.expr(value, step.id)?;
                self.bind(*variable);
                Ok(())
            }
            Form::If(condition, yes, no) => {
                self.expr(condition, step.id)?;
                self.block(yes)?;
                self.block(no)
            }
            Form::Each {
                variable,
                rows,
                body,
                ..
            } => {
                self.expr(rows, step.id)?;
                self.binding(*variable, body)
            }
            Form::Over {
                variable,
                input,
                body,
            } => {
                self.input(*input, true, step.id)?;
                self.binding(*variable, body)
            }
        }
    }
}

pub fn check(script: &Script) -> Read<()> {
    let mut checker = Checker {
        lists: script
            .inputs
            .iter()
            .map(|value| matches!(value, Value::List(_)))
            .collect(),
        steps: HashSet::new(),
        bound: HashMap::new(),
        order: Vec::new(),
    };
    checker.block(&script.body)
}
