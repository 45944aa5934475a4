//! Writes texts again that stand on standard input: lines LENGTH, each with so many bytes behind it. Writes for each a line
//! LENGTH and the text that its typed rows make, in a session that takes the instructions one at a time; or the line of its
//! fault with the field, its name, and what is wanted. `cases/run-callers` compares it with the other languages.

use registry::{Day, Fault, Session};
use std::error::Error;
use std::io::{self, BufRead, Read, Write};

fn again(text: &[u8]) -> Result<Vec<u8>, Fault> {
    let day = Day::new(text);
    let mut session = Session::open(&registry::write_day(&day.rules()?, &day.accounts()?, &[]))?;
    let mut log = String::new();
    for asked in day.instructions()? {
        log.push_str(session.apply(&asked)?.row());
        log.push('\n');
    }
    assert_eq!(log, day.attempt()?.text());
    let written = session.day().text().to_vec();
    assert_eq!(session.close()?, day.settle()?);
    Ok(written)
}

fn place(text: &[u8]) -> Result<String, Box<dyn Error>> {
    let at = registry::find_fault(text)?.ok_or("a fault that is nowhere")?;
    let (number, name) = at.field.map_or((0, String::new()), |own| (own.number, own.name));
    Ok(format!("row {}: {} {number} {name} {}", at.row, at.cause, at.sentence))
}

fn main() -> Result<(), Box<dyn Error>> {
    let mut input = io::stdin().lock();
    let mut output = io::BufWriter::new(io::stdout().lock());
    let mut line = String::new();
    while input.read_line(&mut line)? != 0 {
        let mut text = vec![0; line.trim().parse()?];
        input.read_exact(&mut text)?;
        match again(&text) {
            Ok(written) => {
                writeln!(output, "{}", written.len())?;
                output.write_all(&written)?;
            }
            Err(_) => writeln!(output, "{}", place(&text)?)?,
        }
        line.clear();
    }
    Ok(())
}
