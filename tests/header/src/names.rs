//! What the headers declare: every function with the names of its parameters in their order, and no constant or macro that
//! has no figure. The compiler compares types alone (tests/header/prototypes.c), so two numbers that trade places, as a sheet
//! and a place, are only seen by their names.

use crate::figures;
use std::collections::BTreeMap;

/// The functions of each header, with the names of their parameters.
type Functions = BTreeMap<String, Vec<String>>;

/// The functions of each header, as document 01 and the signatures of the Rattle source have them.
const PROTOTYPES: &str = include_str!("../prototypes.c");
const HEADERS: [&str; 5] = [
    "pagunlit.h",
    "pagunlit_payload.h",
    "pagunlit_card.h",
    "pagunlit_text.h",
    "block.h",
];

/// Macros that are no figures: what says that an answer is to be looked at, and what stops that.
const NO_FIGURES: [&str; 2] = ["PAGUNLIT_USE_RESULT", "PAGUNLIT_UNUSED_RESULTS"];

/// What prototypes.c has behind a header, its macros written out.
fn expected(header: &str) -> Functions {
    let include = format!("#include \"{header}\"\n");
    let behind = PROTOTYPES.split_once(&include).map_or("", |(_, rest)| rest);
    let section = behind.split("#include").next().unwrap_or("");
    let macros = PROTOTYPES
        .lines()
        .filter_map(|line| line.strip_prefix("#define ")?.split_once(' '));
    let section = macros.fold(section.to_string(), |code, (name, text)| {
        code.replace(name, text)
    });
    functions(&section)
}

/// The text without its comments.
fn without_comments(text: &str) -> String {
    let mut parts = text.split("/*");
    let first = parts.next().unwrap_or("").to_string();
    parts.fold(first, |kept, part| {
        kept + " " + part.split_once("*/").map_or("", |(_, rest)| rest)
    })
}

fn is_name(c: char) -> bool {
    c.is_ascii_alphanumeric() || c == '_'
}

fn last_name(text: &str) -> &str {
    let text = text.trim_end();
    &text[text.rfind(|c| !is_name(c)).map_or(0, |at| at + 1)..]
}

/// The functions that a header declares or defines, outside of all braces, with the names of their parameters. A line of the
/// preprocessor may go on behind a backslash.
fn functions(code: &str) -> Functions {
    let code: String = code
        .replace("\\\n", " ")
        .lines()
        .filter(|line| !line.trim_start().starts_with('#'))
        .map(|line| format!("{line}\n"))
        .collect();
    let code = code.replace("extern \"C\" {", "");
    let (mut depth, mut outside) = (0, String::new());
    for c in code.chars() {
        depth += (c == '{') as i32;
        if depth <= 0 {
            outside.push(c);
        } else if c == '}' {
            depth -= 1;
            outside.push(';');
        }
    }
    let mut found = BTreeMap::new();
    for declaration in outside.split(';') {
        let Some((head, parameters)) = declaration.split_once('(') else {
            continue;
        };
        let parameters = parameters
            .rsplit_once(')')
            .map_or(parameters, |(inside, _)| inside);
        let names = parameters.split(',');
        found.insert(
            last_name(head).to_string(),
            names.map(|name| last_name(name).to_string()).collect(),
        );
    }
    found
}

/// The names in capitals that a header defines: enum constants, and macros but for the one that guards it.
fn constants<'a>(code: &'a str, header: &str) -> Vec<&'a str> {
    let guard = header.to_uppercase().replace('.', "_");
    code.split(|c| !is_name(c))
        .filter(|name| {
            ["PAGUNLIT_", "BLOCK_", "PAYLOAD_"]
                .iter()
                .any(|p| name.starts_with(p))
        })
        .filter(|name| *name != guard && !NO_FIGURES.contains(name))
        .collect()
}

fn compare_header(header: &str, text: &str, expected: &Functions, wrong: &mut Vec<String>) {
    let code = without_comments(text);
    let mut found = functions(&code);
    for (name, parameters) in expected {
        match found.remove(name) {
            None => wrong.push(format!("include/{header} does not declare {name}")),
            Some(names) if names == *parameters => {}
            Some(names) => wrong.push(format!(
                "include/{header}: {name} has the parameters {}, and should have {}",
                names.join(", "),
                parameters.join(", ")
            )),
        }
    }
    wrong.extend(found.keys().map(|name| {
        format!("include/{header} declares {name}, which tests/header/prototypes.c does not have")
    }));
    let figures = figures::names();
    for name in constants(&code, header) {
        if !figures.contains(&name) && !wrong.iter().any(|line| line.ends_with(name)) {
            wrong.push(format!(
                "include/{header} has a name without a figure in tests/header: {name}"
            ));
        }
    }
}

/// What is wrong in the headers of a folder, and how many functions were compared.
pub fn compare(folder: &str) -> (Vec<String>, usize) {
    let mut wrong = Vec::new();
    let mut count = 0;
    for header in HEADERS {
        let expected = expected(header);
        match std::fs::read_to_string(format!("{folder}/{header}")) {
            Ok(text) => compare_header(header, &text, &expected, &mut wrong),
            Err(error) => wrong.push(format!("include/{header}: {error}")),
        }
        count += expected.len();
    }
    (wrong, count)
}

/// The functions that the library exports.
pub fn exported() -> Vec<String> {
    let headers = ["pagunlit.h", "pagunlit_payload.h"];
    headers
        .iter()
        .flat_map(|one| expected(one).into_keys())
        .collect()
}

/// A program that takes the address of every function of a header, so that each has to be there when it is linked, by its name:
/// in C++ one that the header does not declare as C has another.
pub fn addresses(header: &str) -> String {
    let names = expected(header).into_keys();
    let addresses: String = names.map(|name| format!("    (any)&{name},\n")).collect();
    format!(
        "#include \"{header}\"\n\ntypedef void (*any)(void);\nany volatile all[] = {{\n{addresses}}};\n\n\
         int main(void)\n{{\n    for (unsigned i = 0; i < sizeof all / sizeof *all; i++)\n        \
         if (!all[i])\n            return 1;\n    return 0;\n}}\n"
    )
}
