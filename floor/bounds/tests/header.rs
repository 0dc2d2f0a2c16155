//! The C header is held to what must say the same: its texts to the Rust side's, its inline functions to the program that
//! calls them and to the page that names what runs each.

use bounds::Refusal;
use std::fs;
use std::path::Path;

fn read(path: &str) -> String {
    let path = Path::new(env!("CARGO_MANIFEST_DIR")).join(path);
    fs::read_to_string(&path).unwrap_or_else(|error| panic!("{}: {error}", path.display()))
}

/// The inline functions of the header, in their order.
fn inline_functions(header: &str) -> Vec<&str> {
    let heads = header.lines().filter_map(|line| line.strip_prefix("static inline "));
    heads
        .map(|head| head[..head.find('(').expect("a name ends at its arguments")].rsplit([' ', '*']).next().unwrap())
        .collect()
}

/// How often a name stands in a text, and nothing longer that has it in it.
fn uses(text: &str, name: &str) -> usize {
    let part = |c: char| c.is_alphanumeric() || c == '_';
    let whole = |at: usize| !text[..at].ends_with(part) && !text[at + name.len()..].starts_with(part);
    text.match_indices(name).filter(|&(at, _)| whole(at)).count()
}

#[test]
fn every_refusal_has_the_same_words() {
    let header = read("include/bounds.h");
    for refusal in Refusal::ALL {
        let (number, text) = (refusal.number(), refusal.to_string());
        let words = text.strip_prefix(&format!("refused {number}: ")).expect("the number leads");
        assert!(header.contains(&format!("case {number}: return \"{words}\";")), "{number}: {words}");
    }
    assert_eq!(header.matches("    case 1: return \"").count(), 1);
    assert!(!header.contains(&format!("    case {}: return \"", Refusal::ALL.len() + 1)));
}

#[test]
fn every_inline_function_is_called() {
    let (header, program) = (read("include/bounds.h"), read("examples/inline.c"));
    let functions = inline_functions(&header);
    assert!(functions.len() > 30, "{functions:?}");
    let code: String = header.lines().filter(|line| !line.starts_with("/*") && !line.starts_with(" *")).collect();
    let uncalled: Vec<_> = functions.iter().filter(|name| uses(&code, name) + uses(&program, name) < 2).collect();
    assert!(uncalled.is_empty(), "{uncalled:?}");
}

/// The arguments and the body of an inline function.
fn parts<'a>(header: &'a str, name: &str) -> (&'a str, &'a str) {
    let head = header
        .match_indices(name)
        .map(|(at, _)| at)
        .find(|&at| header[..at].lines().last().is_some_and(|line| line.starts_with("static inline ")));
    let rest = &header[head.expect("its head") + name.len()..];
    let (arguments, body) = rest.split_once(") {").expect("a body behind the arguments");
    (arguments.trim_start_matches('('), body.split("\n}\n").next().expect("a body's end"))
}

/// The lent pointers among arguments: those whose length stands behind them.
fn lent(arguments: &str) -> Vec<&str> {
    let arguments: Vec<&str> = arguments.split(',').collect();
    let length = |argument: &str| argument.ends_with("_len") || argument.ends_with("_count");
    let pairs = arguments.windows(2).filter(|pair| pair[0].contains('*') && length(pair[1]));
    pairs.map(|pair| pair[0].rsplit('*').next().unwrap()).collect()
}

/// A null pointer of length 0 is replaced before it goes to the library, which does not tell: it touches nothing of no cells.
#[test]
fn every_inline_function_takes_null_pointers_of_length_0() {
    let header = read("include/bounds.h");
    let mut seen = 0;
    for name in inline_functions(&header) {
        let (arguments, body) = parts(&header, name);
        for pointer in lent(arguments) {
            let count = if pointer == "items" { "item_count".into() } else { format!("{pointer}_len") };
            let ways = ["bounds_lent_in(", "bounds_lent_out(", "bounds_walk_tree(tree, query, "];
            assert!(ways.iter().any(|way| body.contains(&format!("{way}{pointer}, {count})"))), "{name}: {pointer}");
            seen += 1;
        }
    }
    assert_eq!(seen, 25);
}

/// The same of the pointers in structs. A tree's header is always there.
#[test]
fn every_struct_takes_null_pointers_of_length_0() {
    let header = read("include/bounds.h");
    let structs = [
        ("bounds_tree_files", "bounds_load_lengths", "f->", 5),
        ("bounds_mesh", "bounds_lent_mesh", "m.", 4),
        ("bounds_buffers", "bounds_lent_buffers", "b.", 12),
    ];
    for (name, function, of, count) in structs {
        let fields =
            header.split(&format!("}} {name};")).next().expect("its fields").rsplit("typedef struct {").next().unwrap();
        let pointers =
            fields.lines().filter_map(|line| line.split(';').next()?.split_once('*')).map(|(_, field)| field);
        let (_, body) = parts(&header, function);
        let replaced = |field: &&str| {
            let cells = format!("({of}{field}, {of}{field}_len)");
            ["in", "out"].iter().any(|way| body.contains(&format!("bounds_lent_{way}{cells}")))
        };
        assert_eq!(pointers.clone().count(), count, "{name}");
        let others: Vec<&str> = pointers.filter(|field| !replaced(field)).collect();
        assert!(others.is_empty() || (name == "bounds_tree_files" && others == ["header"]), "{name}: {others:?}");
    }
}

#[test]
fn every_inline_function_is_on_the_page_of_trust() {
    let (header, page) = (read("include/bounds.h"), read("../../docs/TRUST.md"));
    let section = page.split("\n## ").find(|section| section.starts_with("Inline functions")).expect("its section");
    let missing: Vec<_> = inline_functions(&header).into_iter().filter(|name| uses(section, name) == 0).collect();
    assert!(missing.is_empty(), "{missing:?}");
}
