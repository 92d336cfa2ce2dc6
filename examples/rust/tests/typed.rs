//! What a caller in Rust gets.
use nivolakku::{Index, PickError, Picked, ScriptError, script};

const CATALOGUE: &str = "package a 1 2\nset a 1 9\nbegin\n";

fn version(name: &str, version: &str) -> Picked {
    let (name, version) = (name.into(), version.into());
    Picked { name, version }
}

#[test]
fn versions_are_picked() {
    let index = Index::new("request needs a 1..9\na 1\na 2 needs bb 1..2\nbb 1\n");
    assert_eq!(
        index.pick(),
        Ok(vec![version("a", "2"), version("bb", "1")])
    );
}

#[test]
fn more_versions_than_a_first_buffer_holds_are_picked() {
    let names: Vec<String> = (0..1000)
        .map(|number| format!("package-{number}"))
        .collect();
    let needs: String = names
        .iter()
        .map(|name| format!(" needs {name} 1..2"))
        .collect();
    let lines: String = names.iter().map(|name| format!("{name} 1\n")).collect();
    let picked = Index::new(&format!("request{needs}\n{lines}")).pick();
    assert_eq!(picked.map(|picked| picked.len()), Ok(1000));
}

#[test]
fn an_index_without_a_solution_has_reasons() {
    let Err(PickError::NoSolution { reasons }) = Index::new("request needs a 5..6\na 1\n").pick()
    else {
        panic!("it has no solution");
    };
    assert_eq!(reasons, ["request needs a 5..6, and there is none"]);
}

#[test]
fn a_search_without_steps_gives_up() {
    let why = String::from("gave up: too many steps");
    let index = Index::new("request needs a 1..9\na 1\n").with_steps(0);
    assert_eq!(index.pick(), Err(PickError::GaveUp { why }));
}

#[test]
fn an_unreadable_line_is_named() {
    assert_eq!(
        Index::new("request\n\na\n").pick(),
        Err(PickError::Unreadable { line: 3 })
    );
    assert_eq!(
        Index::new("").pick(),
        Err(PickError::Unreadable { line: 1 })
    );
}

#[test]
fn a_script_is_obeyed() {
    let loaded = script(format!("{CATALOGUE}load s0\n"));
    assert_eq!(loaded.map(|transcript| transcript.lines().count()), Ok(1));
}

#[test]
fn an_unreadable_line_ends_a_script() {
    let whole = script(format!("{CATALOGUE}load s0\n")).unwrap();
    let fault = script(format!("{CATALOGUE}load s0\nload\nload s0\n"));
    assert_eq!(
        fault,
        Err(ScriptError::Unreadable {
            line: 5,
            transcript: whole
        })
    );
}
