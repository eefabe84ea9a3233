//! Performs calls through the crate `melfjits`, and prints their outputs: tools/compare/library_cases says how both look. It is a test of
//! the crate, and an example of its use.

use melfjits::{Address, Channel, Error, Output, Slice};
use std::io::{self, BufRead, BufWriter, Read, Write};

fn hexadecimal(octets: &[u8]) -> String {
    octets.iter().map(|octet| format!("{octet:02X}")).collect()
}

fn octets_of(text: &str) -> Vec<u8> {
    (0..text.len() / 2).map(|at| u8::from_str_radix(&text[2 * at..2 * at + 2], 16).expect("a byte")).collect()
}

fn address_of(text: &str) -> Address {
    octets_of(text).try_into().expect("an address of 6 bytes")
}

fn slice_of(text: &str) -> Slice {
    let numbers: Vec<u16> = text.split('/').map(|part| part.parse().expect("a number")).collect();
    Slice { start: numbers[0], length: numbers[1], budget: numbers[2] }
}

fn line_of(output: &Output) -> String {
    match output {
        Output::Reply { modem, message, .. } => format!("R {} {}", hexadecimal(modem), hexadecimal(message)),
        Output::Drop { modem, cause, .. } => format!("S {} {cause:?}", modem.map_or("-".into(), |modem| hexadecimal(&modem))),
        Output::Map { number, message } => format!("MAP {number} {}", hexadecimal(message)),
        Output::Frame { operator_at, number, spans, pending } => {
            let granted = spans.iter().map(|span| format!(" {}/{}/{}/{}", span.sid, span.iuc, span.start, span.length));
            let elements: String = granted.chain(pending.iter().map(|sid| format!(" {sid}/P"))).collect();
            format!("F {operator_at} {number}{elements}")
        }
    }
}

fn perform(channel: &mut Channel, line: &str) -> Result<(), Error> {
    let fields: Vec<&str> = line.split(' ').collect();
    let number = |at: usize| -> usize { fields[at].parse().expect("a number") };
    match fields[0] {
        "arrive" => channel.arrive(address_of(fields[1]), &octets_of(fields.get(2).unwrap_or(&""))),
        "request" => channel.request(address_of(fields[1]), number(2) as u16, number(3) as u16),
        "reslice" => channel.reslice(number(1) as u32, &fields[2..].iter().map(|field| slice_of(field)).collect::<Vec<_>>()),
        "reopen" => channel.save().and_then(|saved| Channel::open_saved(&saved)).map(|opened| *channel = opened),
        "tick" => channel.tick(number(1)),
        _ => channel.collect(number(1)),
    }
}

/// Performs a case, and returns how many calls were made before one was refused, and why.
fn perform_case(plant: &[u8], lines: &[String], out: &mut impl Write) -> Result<(), (usize, Error)> {
    let mut channel = Channel::open(plant).map_err(|error| (0, error))?;
    for (at, line) in lines.iter().enumerate() {
        perform(&mut channel, line).map_err(|error| (at, error))?;
        while let Some(output) = channel.next_output().map_err(|error| (at, error))? {
            writeln!(out, "{}", line_of(&output)).expect("an output");
        }
    }
    Ok(())
}

fn main() -> io::Result<()> {
    let (mut input, mut out) = (io::stdin().lock(), BufWriter::new(io::stdout().lock()));
    let mut line = String::new();
    while input.read_line(&mut line)? > 0 {
        let mut plant = vec![0; line.trim_end()["plant ".len()..].parse().expect("a length")];
        input.read_exact(&mut plant)?;
        let lines: Vec<String> = input.by_ref().lines().map_while(Result::ok).take_while(|line| line != "end").collect();
        if let Err((at, error)) = perform_case(&plant, &lines, &mut out) {
            writeln!(out, "refused {at} {}", error.code())?;
        }
        writeln!(out, "end")?;
        line.clear();
    }
    Ok(())
}
