//! The original and the port on the same inputs, and what each costs.
//!   compare check                every comparison; ends 1 where one is on no list of docs/DIFFERENCES.md
//!   compare loop SIDE WHAT N     N rounds of one side's loop, so that its instructions can be counted
//!   compare time                 native time of every loop, both sides in one run
//!   compare measures             the names of what is measured
mod conversions;
mod original;
mod serializer;
mod speed;
mod tally;

use tally::Tally;

fn check() {
    // The original's panics are compared, not printed.
    std::panic::set_hook(Box::new(|_| ()));
    let mut t = Tally::default();
    serializer::single(&mut t);
    serializer::every_sequence(&mut t);
    serializer::random(&mut t);
    conversions::clocks(&mut t);
    conversions::phases(&mut t);
    conversions::amplitudes(&mut t);
    conversions::frequencies(&mut t);
    conversions::readings(&mut t);
    t.report();
}

fn main() {
    let args: Vec<String> = std::env::args().skip(1).collect();
    match args.iter().map(String::as_str).collect::<Vec<_>>()[..] {
        ["check"] => check(),
        ["loop", side, what, n] => speed::run(side, what, n.parse().expect("a count of rounds")),
        ["time"] => speed::time(),
        ["measures"] => println!("{}", speed::MEASURES.join(" ")),
        _ => {
            eprintln!("compare check | loop original|port|empty MEASURE N | time | measures");
            std::process::exit(2);
        }
    }
}
