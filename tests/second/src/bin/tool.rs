//! Prints the load of a seed, the page of the graph after a script, or the nodes of a page.

use std::ffi::OsString;
use std::io::{self, Read, Write};
use std::process::ExitCode;

use second::line::read_number;
use second::{load, page, program, Refusal};

const USAGE: &str = "\
usage: tool load SEED COUNT
       tool page
       tool nodes
";

enum Verb {
    Load { seed: u32, count: u32 },
    Page,
    Nodes,
}

fn main() -> io::Result<ExitCode> {
    let arguments: Vec<OsString> = std::env::args_os().skip(1).collect();
    let Some(verb) = verb_of(&arguments) else {
        eprint!("{USAGE}");
        return Ok(ExitCode::from(2));
    };
    let (text, code) = match printed(verb)? {
        Ok(text) => (text, ExitCode::SUCCESS),
        Err(refusal) => {
            let text = format!("refused={}\n", refusal as u32);
            (text.into_bytes(), ExitCode::from(1))
        }
    };
    let mut output = io::stdout().lock();
    output.write_all(&text)?;
    output.flush()?;
    Ok(code)
}

/// What the arguments ask for, if they ask for something.
fn verb_of(arguments: &[OsString]) -> Option<Verb> {
    match arguments {
        [verb, seed, count] if verb == "load" => Some(Verb::Load {
            seed: read_number(seed.as_encoded_bytes())?,
            count: read_number(count.as_encoded_bytes())?,
        }),
        [verb] if verb == "page" => Some(Verb::Page),
        [verb] if verb == "nodes" => Some(Verb::Nodes),
        _ => None,
    }
}

/// What is printed, or the refusal; a page is read and a script served from standard input.
fn printed(verb: Verb) -> io::Result<Result<Vec<u8>, Refusal>> {
    let mut input = io::stdin().lock();
    Ok(match verb {
        Verb::Load { seed, count } => load::lines(seed, count),
        Verb::Page => Ok(page::page(&program::session_after(input)?).into_bytes()),
        Verb::Nodes => {
            let mut page = Vec::new();
            input.read_to_end(&mut page)?;
            page::lines(&page).map(String::into_bytes)
        }
    })
}
