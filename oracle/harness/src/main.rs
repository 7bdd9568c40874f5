//! oracle          answers each line of standard input, `SCALAR FUNCTION numbers…`, with one line
//! oracle --list   prints the functions
use harness::scalars::{Count, Pixel, Real, Residue, Scalar, Whole};
use harness::table::{call, Refusal, FUNCTIONS};
use std::io::{self, BufRead, BufWriter, Write};

fn main() -> io::Result<()> {
    let mut output = BufWriter::new(io::stdout().lock());
    let words: Vec<String> = std::env::args().skip(1).collect();
    match words.iter().map(String::as_str).collect::<Vec<_>>()[..] {
        [] => answer_all(io::stdin().lock(), &mut output)?,
        ["--list"] => list(&mut output)?,
        _ => {
            eprintln!("usage: oracle [--list]");
            std::process::exit(2);
        }
    }
    output.flush()
}

fn list(output: &mut impl Write) -> io::Result<()> {
    for function in FUNCTIONS {
        let needs = if function.ordered { "Ordered" } else { "Scalar" };
        writeln!(output, "{}\t{}\t{needs}", function.name, function.notation)?;
    }
    Ok(())
}

fn answer_all(mut input: impl BufRead, output: &mut impl Write) -> io::Result<()> {
    let (mut line, mut answer) = (Vec::new(), String::new());
    while input.read_until(b'\n', &mut line)? > 0 {
        let question = line.strip_suffix(b"\n").unwrap_or(&line);
        match ask(question, &mut answer) {
            Ok(()) => writeln!(output, "{answer}")?,
            Err(refusal) => writeln!(output, "{}", refusal.text())?,
        }
        line.clear();
        answer.clear();
    }
    Ok(())
}

fn ask(question: &[u8], answer: &mut String) -> Result<(), Refusal> {
    let text = std::str::from_utf8(question).map_err(|_| Refusal::NotText)?;
    let mut words = text.split_ascii_whitespace();
    let (Some(scalar), Some(function)) = (words.next(), words.next()) else {
        return Err(Refusal::ShortLine);
    };
    match scalar {
        "Real" => ask_over::<Real>(function, words, answer),
        "Count" => ask_over::<Count>(function, words, answer),
        "Residue" => ask_over::<Residue>(function, words, answer),
        "Pixel" => ask_over::<Pixel>(function, words, answer),
        "Whole" => ask_over::<Whole>(function, words, answer),
        _ => Err(Refusal::UnknownScalar),
    }
}

fn ask_over<'a, T: Scalar>(
    function: &str,
    words: impl Iterator<Item = &'a str>,
    answer: &mut String,
) -> Result<(), Refusal> {
    let numbers: Option<Vec<T>> = words.map(T::read).collect();
    call(function, &numbers.ok_or(Refusal::BadNumber)?, answer)
}
