//! The header, these bindings and the Rattle sources agree: layouts of structs, functions with their
//! parameters, refusal numbers, the interface's number.
mod c_side;
mod refusals;
mod sources;

use sources::{
    all_rattle, c_functions, c_structs, exported, file, functions, structs, Functions, Structs,
};
use splicebell::raw::*;
use std::mem::{align_of, offset_of, size_of};

const HEADER: &str = "include/splicebell.h";
const DECLARATIONS: &str = "bindings/rust/src/raw.rs";
const EXPORTS: &str = "crates/abi/src/lib.rt";
const DOCS: &str = "docs/ABI.md";

/// The struct of the header that is a pair of numbers in Rattle, and has no name there.
const RANGE: &str = "range";
const PAIR: &str = "[u64;2]";

fn size_of_field<S, F>(_field: impl Fn(&S) -> &F) -> usize {
    size_of::<F>()
}

/// One line for a field, or for a field of a field, with its offset in the whole struct.
macro_rules! line_of {
    ($name:ident $($field:ident)+) => {
        format!(
            "{} {} {}",
            [stringify!($name), $(stringify!($field)),+].join("."),
            offset_of!($name, $($field).+),
            size_of_field(|s: &$name| &s.$($field).+)
        )
    };
}

/// One line for a struct, one for each of its fields and, where a field is a struct itself, one for each field
/// of that, as the C program prints them.
macro_rules! lines_of {
    ($($name:ident { $($field:ident $({ $($inner:ident)* })?)* })*) => {
        vec![$(
            format!("{} {} {}", stringify!($name), size_of::<$name>(), align_of::<$name>()),
            $(
                line_of!($name $field),
                $($(line_of!($name $field $inner),)*)?
            )*
        )*]
    };
}

fn rust_lines() -> Vec<String> {
    lines_of! {
        splicebell_layout { n k p u t cookie edition }
        splicebell_record { failed k q waiting }
        splicebell_numbers { w b l c frames groups capacity image }
        splicebell_measured { refusal numbers { w b l c frames groups capacity image } }
        splicebell_entries { refusal entries }
        splicebell_placed { refusal frame target begins }
        splicebell_held { refusal group unit }
        splicebell_mapped { refusal group unit byte image }
        splicebell_traced { refusal group unit byte is_data offset }
        splicebell_unit { group unit }
        splicebell_cursor { target frame }
        splicebell_walked { refusal done held { group unit } next { target frame } }
        splicebell_failed { refusal record { failed k q waiting } }
        splicebell_range { offset length }
        splicebell_list_written { refusal range }
        splicebell_repaired { refusal count record { failed k q waiting } }
        splicebell_drawn { refusal length }
        splicebell_swapped { refusal record { failed k q waiting } }
        splicebell_counts { refusal waiting failed repaired }
        splicebell_shown { refusal missing begins length }
        splicebell_wide { first second }
        splicebell_entry { device file { first second } cob { first second } }
        splicebell_key { device file { first second } }
        splicebell_found { refusal cob { first second } }
        splicebell_changed { refusal count }
        splicebell_page { refusal count more next { first second } }
        splicebell_text_read { refusal line }
        splicebell_first_line { refusal layout { n k p u t cookie edition } image }
        splicebell_played { refusal length record { failed k q waiting } }
        splicebell_added { refusal used }
        splicebell_settings { refusal line layout { n k p u t cookie edition } }
    }
}

fn c_lines(beginning: &str) -> Vec<String> {
    c_side::printed().iter().filter(|line| line.starts_with(beginning)).cloned().collect()
}

#[test]
fn structs_lie_alike_in_c_and_rust() {
    let mut c = c_lines("splicebell_");
    let mut rust = rust_lines();
    c.sort();
    rust.sort();
    assert_eq!(c, rust);
}

#[test]
fn the_table_of_the_docs_has_these_sizes_and_offsets() {
    let docs = file(DOCS);
    let printed = c_side::printed();
    let value = |name: &str| -> Vec<&str> {
        let line = printed.iter().find(|l| l.split(' ').next() == Some(name)).expect("C prints it");
        line.split(' ').skip(1).collect()
    };
    for (name, fields) in c_structs(&file(HEADER)) {
        let whole = format!("splicebell_{name}");
        let offset = |field: &str| format!("`{field}` {}", value(&format!("{whole}.{field}"))[0]);
        let offsets: Vec<_> = fields.iter().map(|(field, _)| offset(field)).collect();
        let row = format!("| `{whole}` | {} | {} |\n", value(&whole)[0], offsets.join(", "));
        assert!(docs.contains(&row), "{DOCS} does not say: {row}");
        assert_eq!(value(&whole)[1], "8", "{DOCS} says that {whole} is aligned to 8");
    }
}

#[test]
fn enum_values_are_the_refusal_numbers() {
    assert_eq!(c_lines("SPLICEBELL_"), refusals::as_c_names());
}

#[test]
fn structs_have_the_same_fields_in_all_three() {
    let mut header = c_structs(&file(HEADER));
    assert_eq!(header, structs(&file(DECLARATIONS)));
    let mut rattle = structs(&all_rattle());
    rattle.retain(|name, _| header.contains_key(name));
    header.remove(RANGE);
    assert_eq!(header, with_c_field_names(rattle));
}

#[test]
fn a_range_lies_as_a_pair_of_numbers() {
    let fields = &c_structs(&file(HEADER))[RANGE];
    let number = |name: &str| (name.to_string(), "u64".to_string());
    assert_eq!(*fields, ["offset", "length"].map(number));
    let (whole, alone) = (size_of::<[u64; 2]>(), size_of::<u64>());
    let lies = [
        format!("splicebell_range {whole} {}", align_of::<[u64; 2]>()),
        format!("splicebell_range.offset 0 {alone}"),
        format!("splicebell_range.length {alone} {alone}"),
    ];
    assert_eq!(c_lines("splicebell_range"), lies);
}

#[test]
fn the_interface_has_one_number() {
    let version = file("VERSION").trim().to_string();
    let number = version.split('.').next().expect("a version begins with a number");
    assert_eq!(splicebell::INTERFACE.to_string(), number);
    assert_eq!(c_lines("interface"), [format!("interface {number}")]);
    let says = |path, words: String| assert!(file(path).contains(&words), "{path} lacks {words:?}");
    says(HEADER, format!("#if SPLICEBELL_INTERFACE != {number}\n"));
    says(DOCS, format!("#if SPLICEBELL_INTERFACE != {number}\n"));
    says(DOCS, format!("libsplicebell.so.{number} -> libsplicebell.so.{version}\n"));
    says(DOCS, format!("\n## What {version} "));
}

/// `record` is a word of the prover's, so Rattle calls such a field `rec`.
fn with_c_field_names(mut structs: Structs) -> Structs {
    for (name, _) in structs.values_mut().flatten() {
        if name == "rec" {
            *name = "record".into();
        }
    }
    structs
}

#[test]
fn functions_are_the_same_in_all_three() {
    let header = c_functions(&file(HEADER));
    assert_eq!(header, functions(&file(DECLARATIONS)));
    let rattle = file(EXPORTS);
    let mut marked = exported(&rattle);
    marked.sort();
    assert_eq!(header.keys().cloned().collect::<Vec<_>>(), marked);
    assert_eq!(with_common_names(header), with_common_names(functions(&rattle)));
}

/// Rattle has no names for the lengths of slices and for a pair of numbers, and shorter ones for a catalogue's
/// slots and record.
fn with_common_names(mut functions: Functions) -> Functions {
    for function in functions.values_mut() {
        let mut after_pointer = false;
        for (name, of) in &mut function.parameters {
            let common = match (name.as_str(), of.as_str()) {
                (_, "usize") if after_pointer => "length",
                ("s", "*const entry" | "*mut entry") => "slots",
                ("r", "entry") => "record",
                _ => name.as_str(),
            };
            after_pointer = of.starts_with('*');
            *name = common.to_string();
            *of = of.replace(PAIR, RANGE);
        }
    }
    functions
}

#[test]
fn the_sources_were_read() {
    assert_eq!(c_functions(&file(HEADER)).len(), 36);
    assert_eq!(c_structs(&file(HEADER)).len(), 31);
}
