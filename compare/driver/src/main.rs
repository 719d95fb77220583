//! Answers the line protocol of `codec` with the functions of the crate postgres-protocol.
mod pile;
mod print;
mod read;
mod syntax;
mod write;

use std::error::Error;
use std::io::{self, BufRead, Write};
use std::panic;

/// What the crate answers when it refuses.
type Refusal = Box<dyn Error + Sync + Send>;

/// The answer to a well-formed request.
type Answer = Result<String, Refusal>;

const LONGEST_LINE: usize = 1 << 20;

fn main() -> io::Result<()> {
    // A panic is an answer here, so its message would only be noise.
    panic::set_hook(Box::new(|_| {}));
    let mut input = io::stdin().lock();
    let mut output = io::BufWriter::new(io::stdout().lock());
    let mut line = Vec::new();
    while input.read_until(b'\n', &mut line)? > 0 {
        if line.last() == Some(&b'\n') {
            line.pop();
        }
        writeln!(output, "{}", reply(&line))?;
        line.clear();
    }
    output.flush()
}

fn reply(line: &[u8]) -> String {
    let answer = || {
        let text = std::str::from_utf8(line).ok()?;
        dispatch(&text.split(' ').collect::<Vec<_>>())
    };
    if line.len() > LONGEST_LINE {
        return "bad request".into();
    }
    match panic::catch_unwind(answer) {
        Ok(Some(Ok(text))) => text,
        Ok(Some(Err(_))) => "refused".into(),
        Ok(None) => "bad request".into(),
        Err(_) => "panic".into(),
    }
}

fn dispatch(words: &[&str]) -> Option<Answer> {
    let (name, rest) = words.split_first()?;
    match (*name, rest) {
        ("check", [pile, value]) => {
            let pile = pile::parse(pile)?;
            let value = syntax::bytes(value)?;
            Some(pile.check(&value).map(|()| "accepted".into()))
        }
        ("empty_range_to_sql", []) => Some(Ok(write::empty_range())),
        (name, [value]) if name.ends_with("_from_sql") => {
            read::answer(name.strip_suffix("_from_sql")?, &syntax::bytes(value)?)
        }
        (name, words) => write::answer(name.strip_suffix("_to_sql")?, words),
    }
}
