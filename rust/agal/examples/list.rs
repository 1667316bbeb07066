//! Lists a program: `cargo run --release -p agal --example list -- 2 < PROGRAM`, the edition and then the program's
//! bytes on standard input. Without arguments it lists a sample.

use agal::{listing, Edition};
use std::error::Error;
use std::io::{self, Read};

fn main() -> Result<(), Box<dyn Error>> {
    let Some(number) = std::env::args().nth(1) else {
        let sample = include_bytes!("../../../samples/deviation.agal");
        print!("{}", listing(&sample[1..], Edition::Agal2));
        return Ok(());
    };
    let edition = Edition::try_from(number.parse::<u32>()?)?;
    let mut program = Vec::new();
    io::stdin().read_to_end(&mut program)?;
    print!("{}", listing(&program, edition));
    Ok(())
}
