//! Text to fields, in the order in which the text has them.

use std::str::{FromStr, SplitWhitespace};

use super::print::PLACES;
use super::source::{Error, Source};
use crate::model::format::{
    Condition, Node, Order, Plan, ALL_OF, ANY_OF, CLEAR, NO_PARENT, OPTIONAL, SET, TASK,
};

impl Source {
    pub fn parse(text: &str) -> Result<Source, Error> {
        let mut source = Source {
            plan: Plan::new(0),
            length: None,
            refused: 0,
        };
        for (index, text) in text.lines().enumerate() {
            let mut words = text.split_whitespace();
            line(&mut source, &mut words).map_err(|what| Error::Line(index + 1, what))?;
        }
        Ok(source)
    }
}

/// Takes in one line, to its end.
fn line(source: &mut Source, words: &mut SplitWhitespace) -> Result<(), String> {
    let plan = &mut source.plan;
    match next(words)? {
        "flags" => plan.flags = number(next(words)?)?,
        "start" => {
            for word in words.by_ref() {
                plan.set_at_start(usize::from(flag(word)?));
            }
        }
        "order" => plan.orders.push(Order {
            earlier: number(next(words)?)?,
            later: number(next(words)?)?,
        }),
        "length" => source.length = Some(number(next(words)?)?),
        "refused" => source.refused = number(next(words)?)?,
        word if word.parse() == Ok(plan.nodes.len()) => node(plan, words)?,
        word => return Err(format!("{word} is neither a known word nor the next node")),
    }
    match words.next() {
        None => Ok(()),
        Some(word) => Err(format!("{word} is too much")),
    }
}

/// The rest of a node's line.
fn node(plan: &mut Plan, words: &mut SplitWhitespace) -> Result<(), String> {
    let node_number = plan.nodes.len();
    let name = name(next(words)?)?;
    let (kind, minutes) = match next(words)? {
        "task" => (TASK, number(next(words)?)?),
        "all-of" => (ALL_OF, 0),
        "any-of" => (ANY_OF, 0),
        "optional" => (OPTIONAL, 0),
        word => return Err(format!("{word} is no kind of node")),
    };
    let mut parent = NO_PARENT;
    let mut place = None;
    while let Some(word) = words.next() {
        if word == "under" {
            parent = number(next(words)?)?;
        } else if let Some(found) = PLACES.iter().position(|&name| name == word) {
            place = Some(found as u16);
        } else {
            let place = place.ok_or(format!("{word} is out of place"))?;
            let (flag, sign) = literal(word)?;
            let node = u8::try_from(node_number).map_err(|_| "a node over 255".to_string())?;
            plan.conditions
                .push(Condition::new(node, place, flag, sign));
        }
    }
    plan.nodes.push(Node {
        name,
        parent,
        kind,
        minutes,
    });
    Ok(())
}

fn next<'a>(words: &mut SplitWhitespace<'a>) -> Result<&'a str, String> {
    words.next().ok_or("a word is missing".to_string())
}

fn number<T: FromStr>(word: &str) -> Result<T, String> {
    let found = word.parse();
    found.map_err(|_| format!("{word} is no number, or too great"))
}

fn name(word: &str) -> Result<[u8; 4], String> {
    let found = word.as_bytes().try_into();
    found.map_err(|_| format!("{word} is no name of 4 bytes"))
}

fn flag(word: &str) -> Result<u16, String> {
    match number(word)? {
        flag @ 0..=63 => Ok(flag),
        _ => Err(format!("{word} is no flag")),
    }
}

/// A flag with its sign, as `0-clear` or `12-set`.
fn literal(word: &str) -> Result<(u16, u16), String> {
    match word.split_once('-') {
        Some((number, "clear")) => Ok((flag(number)?, CLEAR)),
        Some((number, "set")) => Ok((flag(number)?, SET)),
        _ => Err(format!("{word} is no flag with -clear or -set")),
    }
}
