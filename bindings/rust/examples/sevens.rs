//! Proves a statement, and judges the proof: `cargo run --example sevens -- prove`, then `verify`.

use circle::{prove, verify, Matrix, Params, Proof, Statement};
use std::{env, error::Error, fs};

// The verifier's own, never the prover's.
const PARAMS: Params = Params::new(1, 89);

fn main() -> Result<(), Box<dyn Error>> {
    if env::args().nth(1).as_deref() == Some("prove") {
        let (points, rows) = (vec![[0, 1, 0]], vec![vec![7]; 4]);
        let (statement, proof) = prove(&[vec![Matrix { points, rows }]], &PARAMS)?;
        fs::write("statement.json", statement.to_json())?;
        fs::write("proof.json", proof.to_json())?;
    } else {
        let statement = Statement::from_json(&fs::read_to_string("statement.json")?)?;
        let proof = Proof::from_json(&fs::read_to_string("proof.json")?)?;
        verify(&statement, &proof, &PARAMS)?;
        println!("verified");
    }
    Ok(())
}
