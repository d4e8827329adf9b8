//! Makes a plan file from its text, shows the text of a plan file, lists it as the checker does,
//! says which branch to block and what the answer is with some of the root's children aboard, and
//! shows a state of it as text.

use std::env::args;
use std::fs;
use std::io::{self, Read, Write};
use std::process::ExitCode;

use reference::model::listing::printed;
use reference::tools::generate::{plan, Shape, LIMITS};
use reference::tools::random::Random;
use reference::tools::text::{make, show, show_members, show_resolved, show_state};

const USAGE: &str = "\
plans make < TEXT > PLAN      the bytes of a text
plans show < PLAN > TEXT      the text of an accepted plan
plans list < PLAN             what the checker prints for any bytes
plans block < PLAN            which single branches, blocked, make an OPEN plan CLEAR
plans members NODE .. < PLAN  the answer with these children of the root aboard
plans state PLAN < STATE      the text of a state of the accepted plan in the file PLAN
plans draw SEED > PLAN        a random accepted plan of 128 nodes, as large as its tree permits";

fn main() -> ExitCode {
    let arguments: Vec<String> = args().skip(1).collect();
    let words: Vec<&str> = arguments.iter().map(String::as_str).collect();
    let done = match words[..] {
        ["make"] => made(),
        ["show"] => shown(),
        ["list"] => input().map(|plan| printed(&plan).into_bytes()),
        ["block"] => resolved(),
        ["members", ref members @ ..] if !members.is_empty() => with_members(members),
        ["state", plan] => shown_state(plan),
        ["draw", seed] => drawn(seed),
        _ => Err(USAGE.to_string()),
    };
    let written = done.and_then(|out| io::stdout().write_all(&out).map_err(|e| e.to_string()));
    match written {
        Ok(()) => ExitCode::SUCCESS,
        Err(message) => {
            eprintln!("{message}");
            ExitCode::FAILURE
        }
    }
}

fn made() -> Result<Vec<u8>, String> {
    let text = String::from_utf8(input()?).map_err(|e| e.to_string())?;
    make(&text).map_err(|e| e.to_string())
}

fn shown() -> Result<Vec<u8>, String> {
    let text = show(&input()?).map_err(|e| e.to_string())?;
    Ok(text.into_bytes())
}

fn resolved() -> Result<Vec<u8>, String> {
    let text = show_resolved(&input()?).map_err(|e| e.to_string())?;
    Ok(text.into_bytes())
}

fn with_members(words: &[&str]) -> Result<Vec<u8>, String> {
    let number = |word: &&str| word.parse().map_err(|_| format!("{word} is no number"));
    let members: Vec<usize> = words.iter().map(number).collect::<Result<_, _>>()?;
    let text = show_members(&input()?, &members).map_err(|e| e.to_string())?;
    Ok(text.into_bytes())
}

fn shown_state(path: &str) -> Result<Vec<u8>, String> {
    let plan = fs::read(path).map_err(|e| format!("{path}: {e}"))?;
    let text = show_state(&plan, &input()?).map_err(|e| e.to_string())?;
    Ok(text.into_bytes())
}

fn drawn(seed: &str) -> Result<Vec<u8>, String> {
    let seed = seed.parse().map_err(|_| USAGE.to_string())?;
    Ok(plan(&mut Random::new(seed), LIMITS, Shape::BUSHY).bytes())
}

fn input() -> Result<Vec<u8>, String> {
    let mut bytes = Vec::new();
    match io::stdin().read_to_end(&mut bytes) {
        Ok(_) => Ok(bytes),
        Err(e) => Err(e.to_string()),
    }
}
