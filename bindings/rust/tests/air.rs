//! AIRs, and the calls of the STARK: held against the stored proofs of `examples/starks`.

use circle::{stark, Air, Challenger, Expr, Params, Refusal, ORDER};
use std::fs;

const STARKS: &str = concat!(env!("CARGO_MANIFEST_DIR"), "/../../examples/starks");
// Those of the proof `fibonacci_8_rows`.
const PARAMS: Params = Params::new(1, 4);
const PUBLIC_VALUES: [u32; 3] = [1, 1, 34];
const ROWS: [[u32; 2]; 8] = [
    [1, 1],
    [1, 2],
    [2, 3],
    [3, 5],
    [5, 8],
    [8, 13],
    [13, 21],
    [21, 34],
];

fn stored(name: &str) -> String {
    fs::read_to_string(format!("{STARKS}/{name}.json")).expect("a stored file")
}

// What stands in a text behind one mark, up to another.
fn between<'a>(text: &'a str, from: &str, to: &str) -> &'a str {
    let (_, rest) = text.split_once(from).expect("the first mark");
    rest.split_once(to).expect("the second mark").0
}

// The stored proof of the statement below.
fn stored_proof() -> stark::Proof {
    let text = stored("fibonacci_8_rows.verify");
    let text = between(&text, ",\"proof\":", ",\"public_values\":");
    stark::Proof::from_json(text).expect("a proof")
}

fn fibonacci() -> Air {
    let air = Air::new(2, 3);
    let [a, b] = air.columns();
    let [next_a, next_b] = air.next_columns();
    let [first_a, first_b, last_b] = air.public_values();
    air.first_row().assert_eq(a, first_a);
    air.first_row().assert_eq(b, first_b);
    air.transition().assert_eq(next_a, b);
    air.transition()
        .assert_eq(next_b, a + b)
        .named("the sum of both");
    air.last_row().assert_eq(b, last_b);
    air
}

fn statement(air: &Air) -> stark::Statement<'_> {
    stark::Statement::new(air, 3, &PUBLIC_VALUES, PARAMS)
}

// The nodes of an AIR of three columns, with these expressions as constraints.
fn nodes(exprs: impl for<'a> Fn(&'a Air) -> Vec<Expr<'a>>) -> String {
    let air = Air::new(3, 1);
    for expr in exprs(&air) {
        air.every_row().assert_zero(expr);
    }
    between(&air.to_json(), "\"nodes\":", ",\"num_public_values\":").to_owned()
}

#[test]
fn fibonacci_is_the_stored_air() {
    let air = fibonacci();
    let due = stored("fibonacci_8_rows.prove");
    assert_eq!(air.to_json(), between(&due, "\"air\":", ",\"params\":"));
    let due = stored("worked");
    let (_, due) = due.split_once("\"fibonacci\": {").expect("the AIR");
    assert_eq!(air.digest(), between(due, "\"digest\": \"", "\""));
}

#[test]
fn equal_nodes_are_shared() {
    let found = nodes(|air| {
        let [a, b, c] = air.columns();
        vec![
            a + b,
            b + a,
            (a + b) * c,
            c * (b + a),
            a - b,
            b - a,
            -(a * c),
            -(c * a),
        ]
    });
    let due = "[{\"local\":0},{\"local\":1},{\"local\":2},{\"add\":[0,1]},{\"mul\":[3,2]},\
               {\"sub\":[0,1]},{\"sub\":[1,0]},{\"mul\":[0,2]},{\"neg\":7}]";
    assert_eq!(found, due);
}

#[test]
fn equal_periodic_columns_are_shared() {
    let found = nodes(|air| vec![air.periodic(&[1, 2]) - air.periodic(&[1, ORDER + 2])]);
    assert_eq!(found, "[{\"periodic\":0},{\"sub\":[0,0]}]");
}

#[test]
fn unused_nodes_are_left_out() {
    let found = nodes(|air| {
        let [a, b, c] = air.columns();
        let _ = a * b + c;
        vec![b * c]
    });
    assert_eq!(found, "[{\"local\":1},{\"local\":2},{\"mul\":[0,1]}]");
}

#[test]
fn constants_are_computed() {
    let found = nodes(|air| {
        let (a, five) = (air.column(0), air.constant(5));
        let same = [a + 0, 0 + a, a - 0, a * 1, 1 * a, a.pow(1), a + ORDER];
        let minus = [
            -five,
            air.constant(-5),
            0 - five,
            -5i64 * air.constant(1u64),
        ];
        let eight = [five + 3, 13 - five, air.constant(2).pow(3), a.pow(0) * 8];
        same.into_iter().chain(minus).chain(eight).collect()
    });
    let due = "[{\"local\":0},{\"constant\":2147483642},{\"constant\":8}]";
    assert_eq!(found, due);
}

#[test]
fn powers_take_few_nodes() {
    let count = |text: String| text.matches('{').count();
    assert_eq!(count(nodes(|air| vec![air.column(0).pow(1 << 20)])), 21);
    let cube = nodes(|air| vec![air.column(0).pow(3)]);
    assert_eq!(cube, "[{\"local\":0},{\"mul\":[0,0]},{\"mul\":[1,0]}]");
}

#[test]
fn places_are_written() {
    let air = Air::new(1, 0);
    let a = air.column(0);
    air.first_row().assert_bool(a);
    air.last_row().assert_eq(a, 1);
    air.transition().assert_zero(a);
    air.every_row().assert_eq(1, a);
    let due = "{\"constraints\":[{\"node\":2,\"when\":\"first\"},{\"node\":4,\"when\":\"last\"},\
               {\"node\":0,\"when\":\"transition\"},{\"node\":5,\"when\":\"every\"}],\
               \"nodes\":[{\"local\":0},{\"mul\":[0,0]},{\"sub\":[1,0]},{\"constant\":1},\
               {\"sub\":[0,3]},{\"sub\":[3,0]}],\"num_public_values\":0,\
               \"periodic_columns\":[],\"width\":1}";
    assert_eq!(air.to_json(), due);
}

#[test]
#[should_panic(expected = "the expressions belong to different AIRs")]
fn expressions_of_different_airs() {
    let (one, other) = (Air::new(1, 0), Air::new(1, 0));
    let _ = one.column(0) + other.column(0);
}

#[test]
#[should_panic(expected = "the expression belongs to another AIR")]
fn an_expression_of_another_air() {
    let (one, other) = (Air::new(1, 0), Air::new(1, 0));
    one.every_row().assert_zero(other.column(0));
}

#[test]
#[should_panic(expected = "a period of 3 rows isn't a power of two")]
fn a_period_of_three_rows() {
    Air::new(1, 0).periodic(&[1, 2, 3]);
}

#[test]
fn rows_of_another_height() {
    let (air, before) = (fibonacci(), Challenger::from_bytes([7; 32]));
    for height in [0, 4, 7] {
        let (rows, mut challenger) = (&ROWS[..height], before.clone());
        let error = stark::Error::HeightMismatch { log_n: 3, height };
        let told = format!("the statement has 2^3 rows, but {height} were given");
        assert_eq!(error.to_string(), told);
        let made = stark::prove_from(&statement(&air), rows, &mut challenger);
        assert_eq!(made, Err(error.clone()));
        assert_eq!(challenger, before);
        assert_eq!(stark::prove(&statement(&air), rows), Err(error));
    }
}

#[test]
fn rows_that_fail_are_named() {
    let air = fibonacci();
    assert_eq!(stark::check(&air, &ROWS, &PUBLIC_VALUES), Ok(()));
    let mut rows = ROWS;
    rows[3][1] += 1;
    let due = stark::Error::Unsatisfied {
        row: 2,
        constraint: 3,
        name: Some("the sum of both".to_owned()),
    };
    let told = "unsatisfied: row 2 fails constraint 3 (the sum of both)";
    assert_eq!(due.to_string(), told);
    assert_eq!(stark::prove(&statement(&air), &rows), Err(due.clone()));
    assert_eq!(stark::check(&air, &rows, &PUBLIC_VALUES), Err(due));
    let due = stark::Error::Unsatisfied {
        row: 0,
        constraint: 1,
        name: None,
    };
    assert_eq!(due.to_string(), "unsatisfied: row 0 fails constraint 1");
    assert_eq!(stark::check(&air, &ROWS, &[1, 2, 34]), Err(due));
}

#[test]
fn refusals_are_named() {
    let air = fibonacci();
    let refused = |rows: &[[u32; 2]], public_values| stark::check(&air, rows, public_values);
    let due = |refusal: Refusal| Err(stark::Error::from(refusal));
    assert_eq!(
        refused(&ROWS[..7], &PUBLIC_VALUES),
        due(Refusal::HeightNotPowerOfTwo)
    );
    assert_eq!(refused(&ROWS, &[1, 1]), due(Refusal::PublicValuesMismatch));
    assert_eq!(
        refused(&[[ORDER, 0]], &PUBLIC_VALUES),
        due(Refusal::OutOfRange)
    );
    let none = Air::new(2, 0);
    assert_eq!(stark::check(&none, &ROWS, &[]), due(Refusal::NoConstraints));
}

#[test]
fn the_stored_proof_is_made_and_verified() {
    let air = fibonacci();
    let statement = statement(&air);
    let proof = stark::prove(&statement, &ROWS);
    assert_eq!(proof, Ok(stored_proof()));
    assert_eq!(stark::verify(&statement, &stored_proof()), Ok(()));
}

#[test]
fn another_statement_is_refused() {
    let (air, more, proof) = (fibonacci(), fibonacci(), stored_proof());
    more.every_row().assert_zero(0);
    let mine = statement(&air);
    let params = Params::new(1, 5);
    let others = [
        stark::Statement { air: &more, ..mine },
        stark::Statement { log_n: 4, ..mine },
        stark::Statement {
            public_values: &[1, 1, 35],
            ..mine
        },
        stark::Statement { params, ..mine },
    ];
    assert_eq!(stark::verify(&mine, &proof), Ok(()));
    for other in others {
        assert!(stark::verify(&other, &proof).is_err(), "{other:?}");
    }
}

#[test]
fn a_statement_that_cant_be_read() {
    let air = fibonacci();
    let statement = stark::Statement::new(&air, 3, &[1, 1, ORDER], PARAMS);
    match stark::verify(&statement, &stored_proof()) {
        Err(stark::Error::Other(error)) => {
            assert_eq!(error.refusal(), Refusal::OutOfRange);
            assert_eq!(error.path(), Some("statement"));
        }
        other => panic!("{other:?}"),
    }
}
