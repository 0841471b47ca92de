//! Scripts as JSON.

use super::{Expr, Form, Reader, Step, Value};
use std::io::{self, BufWriter, Write};

/// Writes items in brackets, with commas between them.
fn list<T>(
    items: &[T],
    out: &mut impl Write,
    each: fn(&T, &mut dyn Write) -> io::Result<()>,
) -> io::Result<()> {
    write!(out, "[")?;
    for (place, item) in items.iter().enumerate() {
        if place > 0 {
            write!(out, ",")?;
        }
        each(item, out)?;
    }
    write!(out, "]")
}

fn value_json(value: &Value, mut out: &mut dyn Write) -> io::Result<()> {
    match value {
        Value::Int(number) => write!(out, "{number}"),
        Value::Bool(truth) => write!(out, "{truth}"),
        Value::Text(text) => write!(out, "{text:?}"),
        Value::List(items) => list(items, &mut out, value_json),
    }
}

fn expr_json(expr: &Expr, mut out: &mut dyn Write) -> io::Result<()> {
    match expr {
        Expr::Literal(value) => value_json(value, out),
        Expr::Input(input) => write!(out, "{{\"input\":{input}}}"),
        Expr::Variable(variable) => write!(out, "{{\"variable\":{variable}}}"),
        Expr::Root => write!(out, "null"),
        Expr::Unary(op, at, operand) => {
            write!(out, "{{\"op\":{op},\"at\":{at},\"operand\":")?;
            expr_json(operand, out)?;
            write!(out, "}}")
        }
        Expr::Binary(op, at, left, right) => {
            write!(out, "{{\"op\":{op},\"at\":{at},\"left\":")?;
            expr_json(left, out)?;
            write!(out, ",\"right\":")?;
            expr_json(right, out)?;
            write!(out, "}}")
        }
        Expr::Call {
            at,
            kind,
            method,
            target,
            args,
        } => {
            write!(
                out,
                "{{\"call\":\"{method}\",\"kind\":{kind},\"at\":{at},\"target\":"
            )?;
            expr_json(target, out)?;
            write!(out, ",\"args\":")?;
            list(args, &mut out, expr_json)?;
            write!(out, "}}")
        }
    }
}

fn step_json(step: &Step, mut out: &mut dyn Write) -> io::Result<()> {
    write!(out, "{{\"id\":{},\"at\":{},", step.id, step.at)?;
    match &step.form {
        Form::Do(expr) => {
            write!(out, "\"do\":")?;
            expr_json(expr, out)?;
        }
        Form::Keep(expr) => {
            write!(out, "\"keep\":")?;
            expr_json(expr, out)?;
        }
        Form::Let {
            variable,
            keep,
            value,
        } => {
            write!(out, "\"let\":{variable},\"keep\":{keep},\"value\":")?;
            expr_json(value, out)?;
        }
        Form::If(condition, yes, no) => {
            write!(out, "\"if\":")?;
            expr_json(condition, out)?;
            write!(out, ",\"then\":")?;
            list(yes, &mut out, step_json)?;
            write!(out, ",\"else\":")?;
            list(no, &mut out, step_json)?;
        }
        Form::Each {
            variable,
            keep,
            rows,
            body,
        } => {
            write!(out, "\"each\":{variable},\"keep\":{keep},\"rows\":")?;
            expr_json(rows, out)?;
            write!(out, ",\"body\":")?;
            list(body, &mut out, step_json)?;
        }
        Form::Over {
            variable,
            input,
            body,
        } => {
            write!(out, "\"over\":{variable},\"input\":{input},\"body\":")?;
            list(body, &mut out, step_json)?;
        }
    }
    write!(out, "}}")
}

/// Writes the script that a payload spells, whether it is valid or not; nothing where it spells none.
pub fn write(payload: &[u8]) -> io::Result<()> {
    let mut out = BufWriter::new(io::stdout());
    if let Ok(script) = Reader::new(payload).script() {
        write!(out, "{{\"inputs\":")?;
        list(&script.inputs, &mut out, value_json)?;
        write!(out, ",\"body\":")?;
        list(&script.body, &mut out, step_json)?;
        write!(out, "}}")?;
    }
    out.flush()
}
