//! Holds the crate to the Rattle sources that the library is made of: the structs that are lent and handed back, the exported functions, and the
//! table of refusals. Where the crate has been taken out of the repository, there is nothing to hold it to.

use punelavoh::Refusal;
use std::collections::BTreeMap;
use std::fs;
use std::path::{Path, PathBuf};

/// Names with what is said of each: of a struct its fields, of a function its arguments and its answer.
type Declared = BTreeMap<String, Vec<String>>;

fn crates() -> Option<PathBuf> {
    let folder = Path::new(env!("CARGO_MANIFEST_DIR")).join("../../crates");
    folder.is_dir().then_some(folder)
}

fn read(path: &Path) -> String {
    fs::read_to_string(path).unwrap_or_else(|why| panic!("{}: {why}", path.display()))
}

fn ffi() -> String {
    read(&Path::new(env!("CARGO_MANIFEST_DIR")).join("src/ffi.rs"))
}

/// The code of all crates, one behind the other.
fn rattle(crates: &Path) -> String {
    let mut sources: Vec<PathBuf> = fs::read_dir(crates).expect("a folder").flatten().map(|entry| entry.path().join("src/lib.rt")).collect();
    sources.retain(|source| source.is_file());
    sources.iter().map(|source| read(source)).collect()
}

/// The lines from behind `start` up to one that begins with `end`, without comments, attributes, `pub` and commas.
fn between<'a>(lines: impl Iterator<Item = &'a str>, end: &str) -> Vec<String> {
    let lines = lines.map(str::trim).take_while(|line| !line.starts_with(end));
    let parts = lines.filter(|line| !line.starts_with("//") && !line.starts_with('#'));
    parts.map(|line| line.trim_start_matches("pub ").trim_end_matches(',').to_owned()).collect()
}

/// The structs marked #[repr(C)], with their fields in order.
fn structs(text: &str) -> Declared {
    let mut found = Declared::new();
    for part in text.split("#[repr(C)]\n").skip(1) {
        let mut lines = part.lines().skip_while(|line| !line.starts_with("pub struct "));
        let head = lines.next().expect("a struct behind the mark");
        let name = head.trim_start_matches("pub struct ").trim_end_matches(" {");
        found.insert(name.to_owned(), between(lines, "}"));
    }
    found
}

#[test]
fn structs_are_those_of_the_library() {
    let Some(crates) = crates() else { return };
    let theirs = structs(&rattle(&crates));
    let mut ours = structs(&ffi());
    // A bool that is written by C, and the bytes behind it.
    let row = ours.get_mut("PathRow").expect("it is there");
    assert_eq!(row.split_off(3), ["is_ref: Flag", "padding: [u8; 7]"]);
    row.push("is_ref: bool".to_owned());
    assert_eq!(ours, theirs);
    assert!(ours.len() >= 9 && ours["PathRow"].len() == 4 && ours["Workspace"].len() >= 15);
}

#[test]
fn functions_are_those_exported() {
    let Some(crates) = crates() else { return };
    let source = read(&crates.join("punelavoh_c/src/lib.rt"));
    let mut theirs = Declared::new();
    for part in source.split("pub extern \"C\" fn ").skip(1) {
        let (name, rest) = part.split_once("(\n").expect("arguments, a line each");
        let (arguments, behind) = rest.split_once("\n) -> ").expect("an answer");
        let mut said = between(arguments.lines(), ")");
        said.push(behind.lines().next().expect("its type").to_owned());
        theirs.insert(name.to_owned(), said);
    }
    let text = ffi();
    let mut ours = Declared::new();
    for part in text.split("\nexported! {\n").skip(1) {
        let mut lines = part.lines().map(str::trim).skip_while(|line| line.starts_with("///"));
        let (_, head) = lines.next().and_then(|line| line.split_once(" = ")).expect("a name and a symbol");
        let (symbol, answer) = head.trim_end_matches(" {").split_once(" -> ").expect("an answer");
        let mut said: Vec<String> = between(lines, "}").iter().map(|argument| argument.replace("&'a ", "&")).collect();
        said.push(answer.to_owned());
        ours.insert(symbol.to_owned(), said);
    }
    assert_eq!(ours, theirs);
    assert!(ours.len() >= 4 && ours["punelavoh_list"].len() >= 27);
}

#[test]
fn refusals_are_those_of_the_library() {
    let Some(crates) = crates() else { return };
    let source = read(&crates.join("refusals/src/lib.rt"));
    let lines: Vec<&str> = source.lines().map(str::trim).collect();
    let number = |name: &str| {
        let arm = format!("Refusal::{name} => ");
        let found = lines.iter().find_map(|line| line.strip_prefix(arm.as_str())).expect("a number");
        found.trim_end_matches(',').parse::<u32>().expect("a number")
    };
    // A variant stands below its words; the last is the program's own, and no call of the library returns it.
    let theirs: Vec<(String, u32, String)> = lines
        .windows(2)
        .skip_while(|two| !two[0].starts_with("pub enum Refusal"))
        .take_while(|two| two[0] != "}")
        .filter_map(|two| Some((two[0].strip_prefix("// ")?, two[1].strip_suffix(',')?)))
        .filter(|(_, name)| *name != "Malformed")
        .map(|(words, name)| (name.to_owned(), number(name), words.to_owned()))
        .collect();
    let ours = Refusal::NAMED.iter().map(|refusal| (format!("{refusal:?}"), refusal.number(), refusal.to_string()));
    assert_eq!(ours.collect::<Vec<_>>(), theirs);
    assert!(theirs.len() >= 13);
}
