//! The expected output of every program of the project, one module each, and
//! the standard input of one that reads it.
//! oracle/README.md states the formats and the inputs.

pub mod catalogue_runs;
pub mod codes;
pub mod controller;
pub mod examples;
pub mod fitting;
pub mod hex_pools;
pub mod layouts;
pub mod mail;
pub mod morning;
pub mod pool_runs;
pub mod products;
pub mod replay;
mod row;
pub mod session;
pub mod upgrade;

/// Writes one formatted line into a string.
macro_rules! line {
    ($out:expr, $($arg:tt)*) => {{
        use std::fmt::Write;
        writeln!($out, $($arg)*).expect("writing to a string")
    }};
}
pub(crate) use line;

/// The programs by name.
pub const NAMES: [&str; 14] = [
    "examples",
    "layouts",
    "products",
    "codes",
    "catalogue_runs",
    "hex_pools",
    "pool_runs",
    "morning",
    "mail",
    "session",
    "controller",
    "upgrade",
    "fitting",
    "replay",
];

/// The expected output of the program of this name.
pub fn expected(name: &str) -> Option<String> {
    match name {
        "examples" => Some(examples::output()),
        "layouts" => Some(layouts::output()),
        "products" => Some(products::output()),
        "codes" => Some(codes::output()),
        "catalogue_runs" => Some(catalogue_runs::output()),
        "hex_pools" => Some(hex_pools::output()),
        "pool_runs" => Some(pool_runs::output()),
        "morning" => Some(morning::output()),
        "mail" => Some(mail::output()),
        "session" => Some(session::output()),
        "controller" => Some(controller::output()),
        "upgrade" => Some(upgrade::output()),
        "fitting" => Some(fitting::output()),
        "replay" => Some(replay::output()),
        _ => None,
    }
}

/// The standard input of the program of this name, where it reads one.
pub fn input(name: &str) -> Option<Vec<u8>> {
    match name {
        "replay" => Some(replay::input()),
        _ => None,
    }
}

/// A refusal number in words.
pub(crate) fn answered(refusal: u64) -> String {
    match refusal {
        0 => "done".to_string(),
        number => format!("refused with {number}"),
    }
}

/// Numbers in decimal, separated by one space.
pub(crate) fn spaced(numbers: &[u64]) -> String {
    let words: Vec<String> = numbers.iter().map(u64::to_string).collect();
    words.join(" ")
}

/// Bytes as two lower-case hex digits each.
pub(crate) fn hex(bytes: &[u8]) -> String {
    bytes.iter().map(|byte| format!("{byte:02x}")).collect()
}
