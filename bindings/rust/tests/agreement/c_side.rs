//! What the C compiler makes of the header: a small program, written from the header's own names, prints
//! sizes, offsets, enum values and the interface's number.
use crate::sources::{c_enum, c_structs, file, repository, Named, Structs};
use std::path::Path;
use std::process::Command;
use std::sync::OnceLock;

/// One line for each struct, field and enum value, and one for the interface. Tests run side by side, so the
/// program is made once.
pub fn printed() -> &'static [String] {
    static PRINTED: OnceLock<Vec<String>> = OnceLock::new();
    PRINTED.get_or_init(compiled_and_run)
}

fn compiled_and_run() -> Vec<String> {
    let folder = Path::new(env!("CARGO_TARGET_TMPDIR"));
    let source = folder.join("agreement.c");
    let program = folder.join("agreement-c");
    std::fs::write(&source, program_text()).expect("the C program can be written");
    let compiler = std::env::var("CC").unwrap_or_else(|_| "cc".into());
    output(
        Command::new(compiler)
            .args(["-std=c11", "-Wall", "-Wextra", "-Wpedantic", "-Werror", "-I"])
            .arg(repository().join("include"))
            .arg(&source)
            .arg("-o")
            .arg(&program),
    );
    let text = match std::env::var("runner") {
        Ok(runner) if !runner.is_empty() => output(Command::new(runner).arg(&program)),
        _ => output(&mut Command::new(&program)),
    };
    text.lines().map(String::from).collect()
}

fn program_text() -> String {
    let header = file("include/splicebell.h");
    let structs = c_structs(&header);
    let mut lines = String::new();
    for (name, fields) in &structs {
        let whole = format!("splicebell_{name}");
        lines +=
            &format!("    printf(\"{whole} %zu %zu\\n\", sizeof({whole}), _Alignof({whole}));\n");
        for field in with_inner_fields(fields, &structs) {
            let place = format!("offsetof({whole}, {field}), sizeof((({whole} *)0)->{field})");
            lines += &format!("    printf(\"{whole}.{field} %zu %zu\\n\", {place});\n");
        }
    }
    for (name, _) in c_enum(&header) {
        lines += &format!("    printf(\"{name} %d\\n\", {name});\n");
    }
    lines += "    printf(\"interface %d\\n\", SPLICEBELL_INTERFACE);\n";
    format!("#include <stdio.h>\n#include \"splicebell.h\"\n\nint main(void) {{\n{lines}    return 0;\n}}\n")
}

/// The names of a struct's fields, each followed by those of its own fields where it is a struct itself.
fn with_inner_fields(fields: &[Named], structs: &Structs) -> Vec<String> {
    let mut names = Vec::new();
    for (field, of) in fields {
        names.push(field.clone());
        let inner = structs.get(of).map(|inner| with_inner_fields(inner, structs));
        names.extend(inner.into_iter().flatten().map(|name| format!("{field}.{name}")));
    }
    names
}

fn output(command: &mut Command) -> String {
    let run = command.output().unwrap_or_else(|why| panic!("{command:?}: {why}"));
    assert!(run.status.success(), "{command:?}:\n{}", String::from_utf8_lossy(&run.stderr));
    String::from_utf8(run.stdout).expect("plain text")
}
