//! The names of refusals, held against the page that lists them.

use circle::Refusal;
use std::collections::BTreeSet;
use std::fs;

const PAGE: &str = concat!(env!("CARGO_MANIFEST_DIR"), "/../../docs/PROGRAM.md");
// The names that the STARK's commands give.
const STARK: &str = concat!(
    env!("CARGO_MANIFEST_DIR"),
    "/../../crates/stark_commands/src/names.rt"
);

// Whether a word of the page is a refusal's name: one of several words that begin with capitals.
fn is_name(word: &str) -> bool {
    let capitals = word.chars().filter(char::is_ascii_uppercase).count();
    let is_word = word.chars().all(|mark| mark.is_ascii_alphabetic());
    is_word && capitals > 1 && word.starts_with(|mark: char| mark.is_ascii_uppercase())
}

// The names in backticks on the page, those of faults of the form that are in small letters, and
// the one that no list has.
fn told_names() -> BTreeSet<String> {
    let page = fs::read_to_string(PAGE).expect("the page");
    let spans = page.split('`').skip(1).step_by(2);
    let mut names: BTreeSet<String> = spans
        .filter(|span| is_name(span))
        .map(str::to_owned)
        .collect();
    for name in ["usage", "input", "json"] {
        assert!(page.contains(&format!("\n- `{name}` where ")), "{name}");
        names.insert(name.to_owned());
    }
    assert!(page.contains("`{\"refused\":\"Memory\"}`"));
    names.insert("Memory".to_owned());
    names
}

// The names behind arrows, but the one of rows that don't satisfy an AIR, which is no refusal here.
fn names_of_stark() -> BTreeSet<String> {
    let source = fs::read_to_string(STARK).expect("the source");
    let arrows = source.split("=> \"").skip(1);
    let mut names: BTreeSet<String> = arrows
        .map(|rest| rest.split('"').next().expect("a name").to_owned())
        .collect();
    assert!(names.remove("Unsatisfied"));
    names
}

#[test]
fn names_are_those_of_the_page() {
    let mut names: BTreeSet<String> = Refusal::ALL
        .iter()
        .map(|refusal| refusal.name().to_owned())
        .collect();
    assert_eq!(names.len(), Refusal::ALL.len());
    // The program has no such parameters.
    assert!(names.remove(Refusal::ParametersDiffer.name()));
    assert_eq!(names, &told_names() | &names_of_stark());
}

#[test]
fn names_of_unreadable_texts_are_those_of_the_list() {
    let page = fs::read_to_string(PAGE).expect("the page");
    let (_, list) = page
        .split_once("The name of an input that can't be read:\n")
        .expect("a list");
    let (list, _) = list
        .split_once("The first of several faults")
        .expect("its end");
    for refusal in Refusal::ALL {
        let stands = list.contains(&format!("`{}`", refusal.name()));
        assert_eq!(stands, refusal.is_unreadable(), "{refusal:?}");
    }
}
