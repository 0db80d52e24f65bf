//! What a program links with the archive: the functions of include/pagunlit.h and no other global name, and of the C library
//! nothing but functions that copy, fill and compare memory, and of the compiler's runtime what is said. Where there is no C
//! library, the archive has these functions itself, as weak ones. There are no variables, only code and constants.

use crate::names;

const OF_THE_C_LIBRARY: [&str; 5] = ["bcmp", "memcmp", "memcpy", "memmove", "memset"];

/// What is wrong in what `nm` printed of the archive, and how many global symbols there are.
pub fn compare(printed: &str, runtime: &[&str]) -> (Vec<String>, usize) {
    let mut missing = names::exported();
    let mut wrong = Vec::new();
    let mut count = 0;
    for line in printed.lines() {
        let [.., kind, name] = line.split_whitespace().collect::<Vec<_>>()[..] else {
            continue;
        };
        // marks in the code of ARM and RISC-V, which say what is an instruction
        if name.starts_with('$') || name.starts_with(".L") {
            continue;
        }
        let known = OF_THE_C_LIBRARY.contains(&name) || runtime.contains(&name);
        match kind {
            "U" | "T" => count += 1,
            "W" if known => count += 1,
            "t" | "r" => continue,
            _ => wrong.push(format!(
                "the archive has {name}, which is no code, or no constant of it"
            )),
        }
        if kind == "U" && !known {
            wrong.push(format!(
                "the archive needs {name}, which docs/C.md does not say"
            ));
        }
        if kind == "T" && !missing.iter().any(|wanted| wanted == name) {
            wrong.push(format!(
                "the archive has the global name {name}, which include/pagunlit.h does not declare"
            ));
        }
        missing.retain(|wanted| kind != "T" || wanted != name);
    }
    wrong.extend(
        missing
            .iter()
            .map(|name| format!("the archive does not have {name}")),
    );
    (wrong, count)
}
