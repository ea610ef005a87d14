//! Challengers, and proofs from one: what a protocol does on both sides.
//!
//! The expected states, points and proof of sevens are by hashlib and `examples/forge.py`.

use circle::{commit, prove, prove_from, stark, verify, verify_from};
use circle::{Air, Challenger, Claim, ClaimedBatch, ClaimedMatrix, Cubic, Digest};
use circle::{Matrix, Params, Proof, Refusal, Statement, ORDER};
use std::collections::HashSet;

const NAME: &str = "a protocol for tests";
const PARAMS: Params = Params::new(1, 6);
const SEVENS: &str = "34c97a0e4c8b6b3ba5efec4935f92f5c9f03c7b4f903106174f717ee21aecab3";
const POINT: Cubic = [1_163_946_741, 917_893_386, 1_182_848_256];
const PROOF_OF_SEVENS: &str = r#"{
    "batch_pow_witness": 0,
    "first_layer_commitment": "8788d6e7c51f7c77cca7aa077ef7a133329b18c1d079f80821c081352089c8f9",
    "lambdas": [[0, 0, 0]],
    "fri_proof": {
        "commit_phase_commits":
            ["318250ba578b27236b5cf463f06b0f4be95e60c178e80cdf51dbe9888febe511"],
        "commit_pow_witnesses": [0],
        "final_poly": [0, 0, 0],
        "pow_witness": 0,
        "commit_phase_openings": [{
            "opening_proof": [],
            "sibling_values": [[[0,0,0]], [[0,0,0]], [[0,0,0]], [[0,0,0]], [[0,0,0]], [[0,0,0]]]
        }],
        "input_openings": {
            "first_layer_proof":
                ["61126de1b795b976f3ac878f48e88fa77a87d7308ba57c7642b9e1068403a496"],
            "first_layer_siblings":
                [[[0,0,0]], [[0,0,0]], [[0,0,0]], [[0,0,0]], [[0,0,0]], [[0,0,0]]],
            "input_openings": [{
                "opened_values": [[[7]], [[7]], [[7]], [[7]], [[7]], [[7]]],
                "opening_proof":
                    ["043a0631871a3f67ac03c5f8406b69a0dc14bd5b23e55f27a5d4462b0f0a2d23",
                     "60e4f3c7f5d59049319983c41af6bceadec60b7b1ad8a51f5ca7834aa300eeb0"]
            }]
        }
    }
}"#;

fn digits(challenger: &Challenger) -> String {
    Digest(challenger.to_bytes()).to_string()
}

// A challenger that has absorbed these, one after another.
fn challenger_with(absorbed: &[&[u8]]) -> Challenger {
    let mut challenger = Challenger::new();
    for bytes in absorbed {
        challenger.observe(bytes);
    }
    challenger
}

// A matrix whose third column is the sum of the others.
fn sums() -> Matrix {
    let row = |i: u32| vec![i * i, (1 << i) + 5, i * i + (1 << i) + 5];
    let (points, rows) = (Vec::new(), (0..16).map(row).collect());
    Matrix { points, rows }
}

// What one side sends the other, and its challengers before the proof and after it.
struct Sent {
    commitment: Digest,
    statement: Statement,
    proof: Proof,
    before: Challenger,
    after: Challenger,
}

impl Sent {
    fn new() -> Sent {
        let mut batches = [vec![sums()]];
        let commitment = commit(&batches, &PARAMS).expect("a commitment")[0];
        let mut before = challenger_with(&[NAME.as_bytes(), &commitment.0]);
        batches[0][0].points.push(before.sample_point());
        let mut after = before.clone();
        let made = prove_from(&batches, &PARAMS, &mut after);
        let (statement, proof) = made.expect("a proof");
        Sent {
            commitment,
            statement,
            proof,
            before,
            after,
        }
    }

    fn verify(&self, statement: &Statement, challenger: &mut Challenger) -> Result<(), Refusal> {
        let verdict = verify_from(statement, &self.proof, &PARAMS, challenger);
        verdict.map_err(|error| error.refusal())
    }

    // Expects that a verifier refuses the statement, and that its challenger is as it was.
    fn expect_refused(&self, statement: &Statement, challenger: &Challenger) {
        let mut verifier = challenger.clone();
        let verdict = self.verify(statement, &mut verifier);
        assert!(verdict.is_err_and(|refusal| !refusal.is_unreadable()));
        assert_eq!(&verifier, challenger);
    }

    // The statement with a changed claim.
    fn claiming(&self, change: impl Fn(&mut Claim)) -> Statement {
        let mut statement = self.statement.clone();
        change(&mut statement.batches[0].matrices[0].points[0]);
        statement
    }
}

#[test]
fn bytes_are_absorbed() {
    let bytes: Vec<u8> = (0..1000).map(|i| i as u8).collect();
    for (absorbed, expected) in [
        (
            &b""[..],
            "7f9c9e31ac8256ca2f258583df262dbc7d6f68f2a03043d5c99a4ae5a7396ce9",
        ),
        (
            NAME.as_bytes(),
            "b8731d578903e0b8ecca555be8ce44bdc56b7fcbef3ca343f673d503061b55be",
        ),
        (
            Digest([0x5a; 32]).as_ref(),
            "e88f58605abd5f652bafbb7144af2d293f276751f817a7a806a8baa90ecbdf9f",
        ),
        (
            &bytes,
            "bce678df093f2b5557e8702d4cfdc9d5a590abd42ccc2e18081f2940385cfc90",
        ),
    ] {
        assert_eq!(digits(&challenger_with(&[absorbed])), expected);
    }
    assert_ne!(challenger_with(&[b"ab"]), challenger_with(&[b"a", b"b"]));
}

#[test]
fn elements_are_absorbed() {
    let mut challenger = Challenger::new();
    assert_eq!(challenger.observe_elements(&[0, 1, 258, ORDER - 1]), Ok(()));
    let expected = "25fb3cb145a9de96731081a5d1e0ccd7e3a70d8f23ade366448ba41d8f3ee066";
    assert_eq!(digits(&challenger), expected);
    for (elements, path) in [(&[7, ORDER][..], "[1]"), (&[u32::MAX], "[0]")] {
        let error = challenger
            .observe_elements(elements)
            .expect_err("no element");
        assert_eq!((error.name(), error.path()), ("OutOfRange", Some(path)));
        assert_eq!(digits(&challenger), expected);
    }
    assert_eq!(challenger.observe_elements(&[]), Ok(()));
    assert_eq!(digits(&challenger), expected);
}

#[test]
fn elements_are_absorbed_as_their_bytes() {
    let (mut one, mut two) = (Challenger::new(), Challenger::new());
    assert_eq!(one.observe_elements(&[7]), Ok(()));
    assert_eq!(one, challenger_with(&[&[0, 0, 0, 7]]));
    assert_eq!(one.observe_elements(&[1]), Ok(()));
    assert_eq!(two.observe_elements(&[7, 1]), Ok(()));
    assert_eq!(one, two);
}

#[test]
fn points_are_drawn() {
    let mut challenger = challenger_with(&[NAME.as_bytes()]);
    for (point, expected) in [
        (
            [131_030_282, 1_491_046_048, 1_445_159_626],
            "3bec6e8ab5ff0f4919823ed8ecc281f08c5080c0a19b57f58217695e0b1db045",
        ),
        (
            [954_836_916, 141_751_546, 1_196_198_865],
            "ab91bda5a728cad08387c0da5e9a7cdb9fe63252a8fca6878d036e344c846c4d",
        ),
    ] {
        assert_eq!(challenger.sample_point(), point);
        assert_eq!(digits(&challenger), expected);
    }
}

#[test]
fn a_challenger_is_its_state() {
    let state = [7; 32];
    let challenger = Challenger::from_bytes(state);
    assert_eq!(Challenger::default().to_bytes(), [0; 32]);
    assert_eq!(challenger.to_bytes(), state);
    let shown = format!("Challenger({})", "07".repeat(32));
    assert_eq!(format!("{challenger:?}"), shown);
    let mut other = challenger.clone();
    other.observe("more");
    assert_ne!(other, challenger);
    assert_eq!(
        HashSet::from([challenger.clone(), other, challenger]).len(),
        2
    );
}

#[test]
fn sevens_are_proved_as_by_another_prover() {
    let (points, rows) = (Vec::new(), vec![vec![7]; 4]);
    let mut batches = [vec![Matrix { points, rows }]];
    let commitments = commit(&batches, &PARAMS).expect("a commitment");
    assert_eq!(commitments[0].to_string(), SEVENS);
    let mut challenger = challenger_with(&[NAME.as_bytes(), &commitments[0].0]);
    assert_eq!(challenger.sample_point(), POINT);
    batches[0][0].points.push(POINT);
    let made = prove_from(&batches, &PARAMS, &mut challenger);
    let points = vec![Claim {
        point: POINT,
        values: vec![[7, 0, 0]],
    }];
    let claims = ClaimedBatch {
        commitment: commitments[0],
        matrices: vec![ClaimedMatrix { log_n: 2, points }],
    };
    let batches = vec![claims];
    let proof = Proof::from_json(PROOF_OF_SEVENS).expect("a proof");
    assert_eq!(made, Ok((Statement { batches }, proof)));
    let expected = "deb8a9d4dd36272f96cd5f37e91edec93931c45571f54d4e24cc4120b79d1c17";
    assert_eq!(digits(&challenger), expected);
}

#[test]
fn commitments_are_those_of_the_statement() {
    let mut batches = [vec![sums()], vec![sums(), sums()]];
    let commitments = commit(&batches, &PARAMS).expect("commitments");
    for batch in &mut batches {
        batch
            .iter_mut()
            .for_each(|matrix| matrix.points.push(POINT));
    }
    assert_eq!(commit(&batches, &PARAMS).as_ref(), Ok(&commitments));
    let (statement, proof) = prove(&batches, &PARAMS).expect("a proof");
    let claimed: Vec<_> = statement.batches.iter().map(|it| it.commitment).collect();
    assert_eq!(commitments, claimed);
    // A challenger that has absorbed the commitments alone makes the same proof.
    let absorbed: Vec<&[u8]> = commitments.iter().map(AsRef::as_ref).collect();
    let mut challenger = challenger_with(&absorbed);
    let made = prove_from(&batches, &PARAMS, &mut challenger);
    assert_eq!(made.as_ref(), Ok(&(statement.clone(), proof.clone())));
    let mut verifier = challenger_with(&absorbed);
    let verdict = verify_from(&statement, &proof, &PARAMS, &mut verifier);
    assert_eq!((verdict, verifier), (Ok(()), challenger));
    assert_eq!(verify(&statement, &proof, &PARAMS), Ok(()));
}

#[test]
fn both_sides_end_in_one_state() {
    let mut sent = Sent::new();
    let mut verifier = challenger_with(&[NAME.as_bytes(), &sent.commitment.0]);
    let point = verifier.sample_point();
    let mine = sent.claiming(|claim| claim.point = point);
    assert_eq!(mine, sent.statement);
    assert_eq!(sent.verify(&mine, &mut verifier), Ok(()));
    assert_eq!(verifier, sent.after);
    assert_ne!(verifier, sent.before);
    assert_eq!(verifier.sample_point(), sent.after.sample_point());
}

#[test]
fn other_states_are_refused() {
    let sent = Sent::new();
    let (name, commitment) = (NAME.as_bytes(), &sent.commitment.0[..]);
    let absorbed: [&[&[u8]]; 4] = [&[b"another", commitment], &[name], &[commitment, name], &[]];
    for absorbed in absorbed {
        let mut verifier = challenger_with(absorbed);
        assert_ne!(
            verifier.sample_point(),
            sent.statement.batches[0].matrices[0].points[0].point
        );
        sent.expect_refused(&sent.statement, &verifier);
    }
    sent.expect_refused(&sent.statement, &challenger_with(&[name, commitment]));
    let mut verifier = sent.before.clone();
    verifier.sample_point();
    sent.expect_refused(&sent.statement, &verifier);
    assert!(verify(&sent.statement, &sent.proof, &PARAMS).is_err());
}

#[test]
fn other_claims_and_parameters_are_refused() {
    let sent = Sent::new();
    sent.expect_refused(&sent.claiming(|claim| claim.point[0] ^= 1), &sent.before);
    sent.expect_refused(
        &sent.claiming(|claim| claim.values[2][0] ^= 1),
        &sent.before,
    );
    let mut verifier = sent.before.clone();
    let error = verify_from(
        &sent.statement,
        &sent.proof,
        &Params::new(1, 7),
        &mut verifier,
    );
    let refusal = error.expect_err("a query more").refusal();
    assert_eq!(refusal, Refusal::CommitPhaseQueryCountMismatch);
    let unreadable = sent.claiming(|claim| claim.values[0][1] = ORDER);
    assert_eq!(
        sent.verify(&unreadable, &mut verifier),
        Err(Refusal::OutOfRange)
    );
    assert_eq!(verifier, sent.before);
    assert_eq!(sent.verify(&sent.statement, &mut verifier), Ok(()));
}

#[test]
fn what_cant_be_proved() {
    let mut challenger = challenger_with(&[NAME.as_bytes()]);
    for (count, element, name) in [(3, 7, "HeightNotPowerOfTwo"), (4, ORDER, "OutOfRange")] {
        let (points, rows) = (vec![POINT], vec![vec![element]; count]);
        let batches = [vec![Matrix { points, rows }]];
        let error = commit(&batches, &PARAMS).expect_err("a refusal");
        assert_eq!(error.name(), name);
        let error = prove_from(&batches, &PARAMS, &mut challenger).expect_err("a refusal");
        assert_eq!(error.name(), name);
        let is_of_form = error.path() == Some("batches[0][0].rows[0][0]");
        assert_eq!(is_of_form, error.is_unreadable());
    }
    assert_eq!(challenger, challenger_with(&[NAME.as_bytes()]));
}

// Powers of two.
fn doubling() -> Air {
    let air = Air::new(1, 1);
    let [a] = air.columns();
    air.first_row().assert_eq(a, air.public_value(0));
    air.transition().assert_eq(air.next_column(0), a * 2);
    air
}

#[test]
fn starks_from_a_challenger() {
    let (air, mut rows) = (doubling(), [[3], [6], [12], [24]]);
    let statement = stark::Statement::new(&air, 2, &[3], PARAMS);
    let named = challenger_with(&[NAME.as_bytes()]);
    let (mut prover, mut verifier) = (named.clone(), named.clone());
    let proof = stark::prove_from(&statement, &rows, &mut prover).expect("a proof");
    for mut other in [
        Challenger::new(),
        challenger_with(&[b"another"]),
        prover.clone(),
    ] {
        let before = other.clone();
        assert!(stark::verify_from(&statement, &proof, &mut other).is_err());
        assert_eq!(other, before);
    }
    assert!(stark::verify(&statement, &proof).is_err());
    assert_eq!(
        stark::verify_from(&statement, &proof, &mut verifier),
        Ok(())
    );
    assert_eq!(verifier, prover);
    assert_ne!(verifier, named);
    rows[3][0] += 1;
    assert!(stark::prove_from(&statement, &rows, &mut verifier).is_err());
    assert_eq!(verifier, prover);
}

#[test]
fn an_unused_challenger_is_none() {
    let (air, rows) = (doubling(), [[3], [6], [12], [24]]);
    let statement = stark::Statement::new(&air, 2, &[3], PARAMS);
    let (mut prover, mut verifier) = (Challenger::new(), Challenger::new());
    let proof = stark::prove_from(&statement, &rows, &mut prover);
    assert_eq!(proof, stark::prove(&statement, &rows));
    let proof = proof.expect("a proof");
    assert_eq!(
        stark::verify_from(&statement, &proof, &mut verifier),
        Ok(())
    );
    assert_eq!(verifier, prover);
    assert_eq!(stark::verify(&statement, &proof), Ok(()));
}
