//! questions N SEED [--agreed]   N questions for each scalar and function, the same for the same SEED
//! questions --bad               a fixed list of bad lines, with good ones between
//!
//! --agreed leaves out the questions at which the port is known, and meant, to answer otherwise than euclid.
use harness::draw::{Draw, TEMPERS};
use harness::numbers::{Kind, Number, Random, KINDS};
use harness::table::{Function, FUNCTIONS};
use std::io::{self, BufWriter, Write};

fn main() -> io::Result<()> {
    let words: Vec<String> = std::env::args().skip(1).collect();
    let mut output = BufWriter::new(io::stdout().lock());
    match words.iter().map(String::as_str).collect::<Vec<_>>()[..] {
        ["--bad"] => BAD.iter().try_for_each(|line| writeln!(output, "{line}"))?,
        [count, start] => ask_all(number(count), number(start), false, &mut output)?,
        [count, start, "--agreed"] => ask_all(number(count), number(start), true, &mut output)?,
        _ => usage(),
    }
    output.flush()
}

fn usage() -> ! {
    eprintln!("usage: questions N SEED [--agreed] | questions --bad");
    std::process::exit(2);
}

fn number(word: &str) -> u64 {
    word.parse().unwrap_or_else(|_| usage())
}

fn ask_all(count: u64, start: u64, agreed: bool, output: &mut impl Write) -> io::Result<()> {
    let mut random = Random(start);
    for (kind, name) in KINDS {
        for function in FUNCTIONS {
            let unordered = function.ordered && !kind.ordered();
            let first_turn = random.below(TEMPERS.len());
            for turn in 0..if unordered { count.min(1) } else { count } {
                let temper = TEMPERS[(first_turn + turn as usize) % TEMPERS.len()];
                let numbers = Draw { random: &mut random, kind, temper }.arguments(function.notation);
                if !(agreed && differs(kind, function, &numbers)) {
                    write!(output, "{name} {}", function.name)?;
                    numbers.iter().try_for_each(|&n| write!(output, " {}", kind.written(n)))?;
                    writeln!(output)?;
                }
            }
        }
    }
    Ok(())
}

/// At a NaN scale euclid answers true, contrary to its own comment; the port answers false.
fn differs(kind: Kind, function: &Function, numbers: &[Number]) -> bool {
    function.name == "ScaleOffset2D::is_invertible" && numbers[..2].iter().any(|&n| kind.is_nan(n))
}

const BAD: &[&str] = &[
    "",
    "Whole Scalar::add 2 3",
    " \t ",
    "Whole",
    "Integer Scalar::one",
    "whole Scalar::one",
    "Integer Scalar::nothing x",
    "Whole Scalar::nothing",
    "Whole Scalar::nothing 1 2",
    "Whole Scalar::nothing x",
    "Whole scalar::one",
    "\t Whole \t Scalar::add  2\t3 \r",
    "Whole Scalar::add 2 three",
    "Whole Scalar::add 2 3.0",
    "Whole Scalar::add 2 --3",
    "Whole Scalar::add 2 -",
    "Whole Scalar::add 2 0x3",
    "Whole Scalar::add 2 \u{663}",
    "Whole Scalar::add 2\u{a0}3",
    "Whole Scalar::add 2\r3 4",
    "Whole Scalar::add +2 -003",
    "Whole Scalar::add 0 2147483648",
    "Pixel Scalar::add 0 -2147483649",
    "Count Scalar::add 2147483647 -2147483648",
    "Residue Scalar::add 0 4294967296",
    "Residue Scalar::add 65521 -1",
    "Real Scalar::neg -3ff0000000000000",
    "Real Scalar::neg +3ff0000000000000",
    "Real Scalar::neg 0x3ff0000000000000",
    "Real Scalar::neg 03ff0000000000000",
    "Real Scalar::neg 1.5",
    "Real Scalar::neg 3ff000000000000g",
    "Real Scalar::neg 0",
    "Real Scalar::neg FFF8dead00000001",
    "Whole Scalar::add",
    "Whole Scalar::add 2",
    "Whole Scalar::add 2 3 4",
    "Whole Scalar::add 2 3 x",
    "Whole Scalar::one 1",
    "Real Transform3D::transform_point2d 0 0",
    "Count Transform3D::transform_point2d 0 0",
    "Residue Transform3D::transform_point2d",
    "Residue Transform3D::transform_point2d x",
    "Pixel Box2D::from_points 1 2 3",
    "Pixel Rect::from_points 1",
    "Pixel Box3D::from_points 1 2 3 4 5",
    "Pixel Box3D::from_points",
    "Count Box2D::from_points 1 2 3",
    "Whole Rect::from_points 5 2 3 4",
];
