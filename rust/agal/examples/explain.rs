//! Says in plain words why a sample is refused, and shows the token at fault.

use agal::{check, tokens, Edition, Refusal, Stage};

fn main() -> Result<(), Refusal> {
    let sample = include_bytes!("../../../samples/set_on_one_side.agal");
    let program = &sample[1..];
    match check(program, Edition::Agal2) {
        Ok(accepted) => println!("a {} program of {} tokens", accepted.stage, accepted.tokens),
        Err(refusal) => {
            println!("{refusal}");
            if let Some(token) = tokens(program).nth(refusal.token) {
                print!("{}", token?.line(Stage::Fragment, 0)?);
            }
        }
    }
    Ok(())
}
