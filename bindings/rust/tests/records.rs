//! Records: what they read and write, what is proved and verified by them, and what faults say.

use circle::{prove, prove_text, shape, values, verify, verify_as_stated};
use circle::{
    Claim, ClaimedBatch, ClaimedMatrix, Coefficients, Digest, Matrix, Params, Proof, Refusal,
    Statement,
};
use std::fs;

const PROOFS: &str = concat!(env!("CARGO_MANIFEST_DIR"), "/../../examples/proofs");
const NAMES: [&str; 5] = [
    "sevens",
    "eight_sevens_two_coefficients",
    "two_heights",
    "two_batches_with_work",
    "two_batches_four_coefficients",
];

fn stored(name: &str, kind: &str) -> String {
    let text = fs::read_to_string(format!("{PROOFS}/{name}.{kind}.json")).expect("a stored proof");
    text.trim_end().to_owned()
}

// The texts of the batches, the parameters and the proof in a stored text, whose keys ascend.
fn parts(text: &str) -> (&str, &str, &str) {
    let (batches, rest) = text.split_once(",\"params\":").expect("parameters");
    let (params, proof) = rest.split_once(",\"proof\":").expect("a proof");
    let batches = batches.strip_prefix("{\"batches\":").expect("batches");
    (batches, params, proof.strip_suffix('}').expect("an end"))
}

fn records(text: &str) -> (Statement, Params, Proof) {
    let (batches, params, proof) = parts(text);
    (
        Statement::from_json(batches).expect("a statement"),
        Params::from_json(params).expect("parameters"),
        Proof::from_json(proof).expect("a proof"),
    )
}

#[test]
fn stored_texts_are_written_as_they_were_read() {
    for name in NAMES {
        let text = stored(name, "verify");
        let (statement, params, proof) = records(&text);
        let written = (statement.to_json(), params.to_json(), proof.to_json());
        let (batches, numbers, stored) = parts(&text);
        assert_eq!(written.0, batches, "{name}");
        assert_eq!(written.1, numbers, "{name}");
        assert_eq!(written.2, stored, "{name}");
    }
}

#[test]
fn stored_proofs_are_accepted() {
    for name in NAMES {
        let (statement, params, proof) = records(&stored(name, "verify"));
        assert_eq!(verify(&statement, &proof, &params), Ok(()), "{name}");
    }
}

#[test]
fn sevens_are_proved_by_the_stored_proof() {
    let matrix = Matrix {
        points: vec![[0, 1, 0]],
        rows: vec![vec![7]; 4],
    };
    let params = Params::new(1, 2);
    let (statement, proof) = prove(&[vec![matrix]], &params).expect("a proof");
    let due = records(&stored("sevens", "verify"));
    assert_eq!((statement, params, proof), due);
}

#[test]
fn other_statements_and_parameters_are_refused() {
    let (statement, params, proof) = records(&stored("sevens", "verify"));
    let mut other = statement.clone();
    other.batches[0].matrices[0].points[0].values = vec![[8, 0, 0]];
    let refused = verify(&other, &proof, &params).expect_err("a false claim");
    assert!(!refused.is_unreadable());
    assert_eq!(refused.path(), None);
    let more = Params {
        num_queries: 3,
        ..params
    };
    let refused = verify(&statement, &proof, &more).expect_err("a query more");
    assert_eq!(refused.refusal(), Refusal::CommitPhaseQueryCountMismatch);
    assert_eq!(
        refused.to_string(),
        "refused: CommitPhaseQueryCountMismatch"
    );
}

#[test]
fn an_element_out_of_range_is_unreadable() {
    let (mut statement, params, proof) = records(&stored("sevens", "verify"));
    statement.batches[0].matrices[0].points[0].point = [0, u32::MAX, 0];
    let error = verify(&statement, &proof, &params).expect_err("no element");
    assert_eq!(error.name(), "OutOfRange");
    assert_eq!(
        error.path(),
        Some("batches[0].matrices[0].points[0].point[1]")
    );
}

// The refusal and the path of a proof in which one text stands in another's place.
fn fault_of(old: &str, new: &str) -> (&'static str, String) {
    let text = stored("two_batches_four_coefficients", "verify");
    let (_, _, proof) = parts(&text);
    assert!(proof.contains(old), "{old}");
    let error = Proof::from_json(&proof.replacen(old, new, 1)).expect_err("a fault");
    (error.name(), error.path().expect("a path").to_owned())
}

#[test]
fn the_path_leads_to_the_fault() {
    for (old, new, name, path) in [
        (
            "\"batch_pow_witness\":",
            "\"more\":",
            "MissingKey",
            "batch_pow_witness",
        ),
        (
            "{\"batch_pow",
            "{\"more\":1,\"batch_pow",
            "UnknownKey",
            "more",
        ),
        (
            "\"first_layer_commitment\":\"",
            "\"first_layer_commitment\":\"0",
            "BadHex",
            "first_layer_commitment",
        ),
        (
            "\"commit_phase_commits\":[\"",
            "\"commit_phase_commits\":[7,\"",
            "WrongKind",
            "fri_proof.commit_phase_commits[0]",
        ),
        (
            "\"final_poly\":[[",
            "\"final_poly\":[[-",
            "OutOfRange",
            "fri_proof.final_poly[0][0]",
        ),
        (
            "\"final_poly\":[[",
            "\"final_poly\":[[0,",
            "WrongKind",
            "fri_proof.final_poly[0]",
        ),
        (
            "\"opened_values\":[[[",
            "\"opened_values\":[[[2147483647,",
            "OutOfRange",
            "fri_proof.input_openings.input_openings[0].opened_values[0][0][0]",
        ),
        (
            "\"lambdas\":[",
            "\"lambdas\":[true,",
            "WrongKind",
            "lambdas[0]",
        ),
        ("{", "", "json", ""),
    ] {
        assert_eq!(fault_of(old, new), (name, path.to_owned()), "{new}");
    }
}

#[test]
fn numbers_that_are_none() {
    for (number, name) in [
        ("-1", "OutOfRange"),
        ("-9223372036854775808", "OutOfRange"),
        ("-9223372036854775809", "WrongKind"),
        ("18446744073709551616", "WrongKind"),
        ("-0", "WrongKind"),
        ("1.0", "WrongKind"),
        ("1e0", "WrongKind"),
        ("true", "WrongKind"),
        ("\"1\"", "WrongKind"),
        ("null", "WrongKind"),
    ] {
        let text = Params::new(1, 2).to_json();
        let text = text.replace("\"num_queries\":2", &format!("\"num_queries\":{number}"));
        let error = Params::from_json(&text).expect_err("no number");
        assert_eq!((error.name(), error.path()), (name, Some("num_queries")));
    }
}

#[test]
fn calls_by_texts_say_where() {
    let text = stored("sevens", "verify").replace("\"values\":[[7", "\"values\":[[7.5");
    let path = "batches[0].matrices[0].points[0].values[0][0]";
    let error = verify_as_stated(&text).expect_err("no element");
    assert_eq!(error.path(), Some(path));
    assert_eq!(
        error.to_string(),
        format!("unreadable: WrongKind at {path}")
    );
    let text = stored("sevens", "prove").replace("[7],[7]", "[7],[-7]");
    let error = prove_text(&text).expect_err("no element");
    assert_eq!(error.path(), Some("batches[0][0].rows[1][0]"));
    let error = values("{}").expect_err("no input");
    assert_eq!(error.path(), Some("coefficients"));
    let error = shape("[]").expect_err("no input");
    assert_eq!((error.name(), error.path()), ("WrongKind", Some("")));
    let error = shape("[").expect_err("no input");
    assert_eq!((error.name(), error.path()), ("json", Some("")));
}

#[test]
fn one_coefficient_stands_for_the_list_of_it() {
    let text = stored("sevens", "verify");
    let (_, _, proof) = parts(&text);
    let list = proof.replace("\"final_poly\":[0,0,0]", "\"final_poly\":[[0,0,0]]");
    let read = Proof::from_json(&list).expect("a proof");
    assert_eq!(read.fri_proof.final_poly, Coefficients(vec![[0, 0, 0]]));
    assert_eq!(read.to_json(), proof);
}

#[test]
fn a_statement_that_is_built() {
    let (statement, ..) = records(&stored("sevens", "verify"));
    let digest = "34c97a0e4c8b6b3ba5efec4935f92f5c9f03c7b4f903106174f717ee21aecab3";
    assert_eq!(statement.batches[0].commitment.to_string(), digest);
    let claim = Claim {
        point: [0, 1, 0],
        values: vec![[7, 0, 0]],
    };
    let points = &statement.batches[0].matrices[0].points;
    assert_eq!(points, &[claim]);
    let none = ClaimedBatch {
        commitment: Digest([0xa5; 32]),
        matrices: Vec::new(),
    };
    let batches = vec![none];
    assert_eq!(
        Statement { batches }.to_json(),
        format!(
            "[{{\"commitment\":\"{}\",\"matrices\":[]}}]",
            "a5".repeat(32)
        )
    );
}

#[test]
fn digests_are_parsed() {
    let digest = Digest([0xa5; 32]);
    for digits in ["a5".repeat(32), "A5".repeat(32)] {
        assert_eq!(digits.parse(), Ok(digest));
    }
    assert_eq!(digest.to_string().parse(), Ok(digest));
    let long = "a5".repeat(33);
    for wrong in [&long, &long[3..], &long[2..].replace("5a", "g5"), "", "é"] {
        let error = wrong.parse::<Digest>().expect_err("no digest");
        assert_eq!((error.name(), error.path()), ("BadHex", Some("")));
    }
}

#[test]
fn parts_of_a_statement_are_read_and_written() {
    let (statement, ..) = records(&stored("sevens", "verify"));
    let batch = &statement.batches[0];
    assert_eq!(
        ClaimedBatch::from_json(&batch.to_json()).as_ref(),
        Ok(batch)
    );
    let matrix = &batch.matrices[0];
    assert_eq!(
        ClaimedMatrix::from_json(&matrix.to_json()).as_ref(),
        Ok(matrix)
    );
    let claim = &matrix.points[0];
    assert_eq!(claim.to_json(), "{\"point\":[0,1,0],\"values\":[[7,0,0]]}");
    assert_eq!(Claim::from_json(&claim.to_json()).as_ref(), Ok(claim));
    let error = Claim::from_json("{\"point\":[0,1],\"values\":[]}").expect_err("no claim");
    assert_eq!((error.name(), error.path()), ("WrongKind", Some("point")));
}
