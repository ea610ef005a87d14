//! Stored proofs, parameters that differ, long texts and many threads.

use circle::{prove_text, values, verify_as_stated, verify_text, Error, Params, Refusal};
use std::fs;
use std::thread;

const PROOFS: &str = concat!(env!("CARGO_MANIFEST_DIR"), "/../../examples/proofs");
const NAMES: [&str; 5] = [
    "sevens",
    "eight_sevens_two_coefficients",
    "two_heights",
    "two_batches_with_work",
    "two_batches_four_coefficients",
];
const SEVENS: Params = Params::new(1, 2);
// The stack that suffices for a thread, as the page says.
const STACK: usize = 1 << 20;
const LONG: usize = 100_000_000;

fn stored(name: &str, kind: &str) -> String {
    let text = fs::read_to_string(format!("{PROOFS}/{name}.{kind}.json")).expect("a stored proof");
    text.trim_end().to_owned()
}

// A result with the bare refusal.
fn bare<T>(result: Result<T, Error>) -> Result<T, Refusal> {
    result.map_err(|error| error.refusal())
}

fn as_stated(text: &str) -> Result<(), Refusal> {
    bare(verify_as_stated(text))
}

fn by(params: &Params, text: &str) -> Result<(), Refusal> {
    bare(verify_text(text, params))
}

fn proved(text: &str) -> Result<String, Refusal> {
    bare(prove_text(text))
}

#[test]
fn stored_proofs_are_accepted() {
    for name in NAMES {
        assert_eq!(as_stated(&stored(name, "verify")), Ok(()), "{name}");
    }
}

#[test]
fn stored_statements_are_proved_by_the_same_bytes() {
    for name in NAMES {
        assert_eq!(
            proved(&stored(name, "prove")),
            Ok(stored(name, "verify")),
            "{name}"
        );
    }
}

#[test]
fn parameters_are_compared() {
    let text = stored("sevens", "verify");
    assert_eq!(by(&SEVENS, &text), Ok(()));
    let changes: [fn(&mut Params) -> &mut usize; 7] = [
        |params| &mut params.batch_pow_bits,
        |params| &mut params.commit_pow_bits,
        |params| &mut params.log_blowup,
        |params| &mut params.log_final_poly_len,
        |params| &mut params.max_log_arity,
        |params| &mut params.num_queries,
        |params| &mut params.query_pow_bits,
    ];
    for (place, change) in changes.iter().enumerate() {
        for other in [3, usize::MAX] {
            let mut params = SEVENS;
            *change(&mut params) = other;
            let verdict = by(&params, &text);
            assert_eq!(
                verdict,
                Err(Refusal::ParametersDiffer),
                "number {place} is {other}"
            );
        }
    }
}

#[test]
fn parameters_differ_after_faults_of_the_form_and_before_refusals() {
    let text = stored("sevens", "verify");
    let other = Params {
        num_queries: 3,
        ..SEVENS
    };
    let unreadable = text.replace("\"max_log_arity\":1", "\"max_log_arity\":-1");
    assert_eq!(by(&other, &unreadable), Err(Refusal::OutOfRange));
    let refused = text.replace("\"max_log_arity\":1", "\"max_log_arity\":2");
    assert_eq!(as_stated(&refused), Err(Refusal::UnsupportedFoldingCap));
    assert_eq!(by(&other, &refused), Err(Refusal::ParametersDiffer));
    let same = Params {
        max_log_arity: 2,
        ..SEVENS
    };
    assert_eq!(by(&same, &refused), Err(Refusal::UnsupportedFoldingCap));
}

#[test]
fn empty_texts_are_no_json() {
    for text in ["", " ", "\n", "\0", "\u{feff}"] {
        assert_eq!(as_stated(text), Err(Refusal::Json));
        assert_eq!(by(&SEVENS, text), Err(Refusal::Json));
        assert_eq!(proved(text), Err(Refusal::Json));
    }
}

#[test]
fn a_long_text_is_read_to_its_end() {
    let text = stored("sevens", "verify");
    let spaces = " ".repeat(LONG - text.len());
    assert_eq!(as_stated(&(spaces.clone() + &text)), Ok(()));
    assert_eq!(as_stated(&(text.clone() + &spaces)), Ok(()));
    assert_eq!(
        as_stated(&(text.clone() + &spaces + "x")),
        Err(Refusal::Json)
    );
    assert_eq!(as_stated(&"[".repeat(LONG)), Err(Refusal::Json));
    let digest = "0".repeat(LONG);
    let name = text.find("first_layer_commitment\":\"").expect("a digest") + 25;
    let long = text[..name].to_owned() + &digest + &text[name..];
    assert_eq!(as_stated(&long), Err(Refusal::BadHex));
}

#[test]
fn a_result_longer_than_most_is_written_whole() {
    let log_n = 21;
    let text = format!("{{\"coefficients\":[[2147483646]],\"log_n\":{log_n},\"shift\":[0,1]}}");
    let line = values(&text).expect("values");
    let row = "[2147483646]";
    assert_eq!(
        line.len(),
        "{\"rows\":[]}".len() + (row.len() + 1) * (1 << log_n) - 1
    );
    assert_eq!(line.matches(row).count(), 1 << log_n);
}

#[test]
fn eight_threads_call_at_once() {
    let calls = |name: &'static str| {
        let (statement, text) = (stored(name, "prove"), stored(name, "verify"));
        let damaged = text.replacen("commitment\":\"", "commitment\":\"0", 1);
        for _ in 0..20 {
            assert_eq!(as_stated(&text), Ok(()));
            assert_eq!(as_stated(&damaged), Err(Refusal::BadHex));
            assert_eq!(proved(&statement).as_ref(), Ok(&text));
        }
    };
    thread::scope(|scope| {
        for thread in 0..8 {
            scope.spawn(move || calls(NAMES[thread % NAMES.len()]));
        }
    });
}

#[test]
fn the_stack_that_is_told_is_enough() {
    for name in NAMES {
        let calls = move || {
            assert_eq!(as_stated(&stored(name, "verify")), Ok(()));
            assert_eq!(proved(&stored(name, "prove")), Ok(stored(name, "verify")));
            assert_eq!(as_stated(&"[".repeat(200)), Err(Refusal::Json));
        };
        let thread = thread::Builder::new()
            .stack_size(STACK)
            .spawn(calls)
            .expect("a thread");
        thread.join().expect("enough stack");
    }
}
