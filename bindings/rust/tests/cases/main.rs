//! The cases of `crates/test_cases/data` that are of the program's commands, by this crate's
//! calls. What is due there comes from outside of the library.

mod json;

use circle::{prove_text, shape, values, verify_as_stated, Error};
use json::Json;
use std::fs;
use std::path::Path;

const DATA: &str = concat!(env!("CARGO_MANIFEST_DIR"), "/../../crates/test_cases/data");

fn read(name: &str) -> Json {
    let path = Path::new(DATA).join(name);
    Json::read(&fs::read_to_string(path).expect("a file of cases"))
}

// The text that a case gives.
fn given(case: &Json) -> String {
    let given = case.get("given").expect("what is given");
    if let Some(text) = given.get("text") {
        return text.text().to_owned();
    }
    if let Some(value) = given.get("json") {
        return value.compact();
    }
    let mut value = read(given.get("file").expect("a file").text());
    let patch = given.get("patch").map_or(&[][..], Json::items);
    for change in patch {
        value.change(change);
    }
    value.compact()
}

// What a command returns, and `None` for other calls.
fn answer(call: &str, text: &str) -> Option<Result<String, Error>> {
    match call {
        "values" => Some(values(text)),
        "prove" => Some(prove_text(text)),
        "shape" => Some(shape(text)),
        "verify" => Some(verdict(text)),
        "prove | verify" => Some(prove_text(text).and_then(|proof| verdict(&proof))),
        _ => None,
    }
}

// The line that `verify` prints.
fn verdict(text: &str) -> Result<String, Error> {
    verify_as_stated(text).map(|()| "{\"verified\":true}".to_owned())
}

// Whether a result is what is due.
fn is_due(answer: &Result<String, Error>, due: &Json) -> bool {
    let status = match answer {
        Ok(_) => "0",
        Err(error) if error.is_unreadable() => "2",
        Err(_) => "1",
    };
    let line = match answer {
        Ok(line) => Json::read(line),
        Err(error) => refused(error),
    };
    let is_line = if let Some(due) = due.get("line") {
        *due == line
    } else if let Some(names) = due.get("one_of") {
        names
            .items()
            .iter()
            .any(|name| line.get("refused") == Some(name))
    } else if let Some(Json::Object(members)) = due.get("members") {
        members
            .iter()
            .all(|(key, value)| line.get(key) == Some(value))
    } else {
        read(due.get("file").expect("what is due").text()) == line
    };
    is_line && due.get("status") == Some(&Json::Word(status.to_owned()))
}

// The line of a refusal.
fn refused(error: &Error) -> Json {
    let kind = if error.is_unreadable() {
        "unreadable"
    } else {
        "refused"
    };
    Json::Object(vec![(kind.to_owned(), Json::Text(error.name().to_owned()))])
}

// Tests the cases of a file of which this crate has the calls.
fn agree(file: &str) {
    let file = read(file);
    let mut count = 0;
    for case in file.get("cases").expect("cases").items() {
        let call = case.get("call").expect("a call").text();
        let Some(answer) = answer(call, &given(case)) else {
            continue;
        };
        count += 1;
        let due = case.get("due").expect("what is due");
        assert!(
            is_due(&answer, due),
            "{:?}: {answer:?}, due {due:?}",
            case.get("name")
        );
    }
    assert!(count > 0, "no case");
}

#[test]
fn cases_of_damaged() {
    agree("damaged.json");
}

#[test]
fn cases_of_forged() {
    agree("forged.json");
}

#[test]
fn cases_of_honest() {
    agree("honest.json");
}

#[test]
fn cases_of_keys() {
    agree("keys.json");
}

#[test]
fn cases_of_prove() {
    agree("prove.json");
}

#[test]
fn cases_of_shape() {
    agree("shape.json");
}

#[test]
fn cases_of_values() {
    agree("values.json");
}

#[test]
fn cases_of_verify() {
    agree("verify.json");
}
