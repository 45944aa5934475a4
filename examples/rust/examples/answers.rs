//! Answers requests on standard input: lines COMMAND ACCOUNT LENGTH, each with so many bytes of a day text behind it. Writes
//! for each a line LENGTH and the text, or the line of the fault. `cases/run-library` asks it for every case.

use registry::Fault;
use std::error::Error;
use std::io::{self, BufRead, Read, Write};

fn ask(command: &str, account: u32, day: &[u8]) -> Result<Vec<u8>, Fault> {
    match command {
        "settle" => Ok(registry::settle(day)?.text().as_bytes().to_vec()),
        "try" => Ok(registry::attempt(day)?.text().as_bytes().to_vec()),
        "plan" => registry::plan(day),
        "figures" => registry::figures(day),
        "totals" => registry::totals(day),
        _ => registry::statement(day, account),
    }
}

fn main() -> Result<(), Box<dyn Error>> {
    let mut input = io::stdin().lock();
    let mut output = io::BufWriter::new(io::stdout().lock());
    let mut line = String::new();
    while input.read_line(&mut line)? != 0 {
        let mut words = line.split_whitespace();
        let mut word = || words.next().ok_or("this is no request");
        let (command, account, length) = (word()?, word()?.parse()?, word()?.parse()?);
        let mut day = vec![0; length];
        input.read_exact(&mut day)?;
        match ask(command, account, &day) {
            Ok(text) => {
                writeln!(output, "{}", text.len())?;
                output.write_all(&text)?;
            }
            Err(fault) => writeln!(output, "{fault}")?,
        }
        line.clear();
    }
    Ok(())
}
