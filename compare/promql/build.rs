//! Writes what `src/lib.rs` includes: the Rust's files as they are, a list of them for each of its folders, and
//! `token_map`, the numbers of its kinds. The variable PROMQL_DOCS names the documents' folder, as seen from `compare`.

use std::env;
use std::fs;
use std::path::{Path, PathBuf};

/// The documents' folder where the variable names none.
const DOCUMENTS: &str = "../../shared/docs";

/// The folders of the Rust's sources, and the files of each.
const FOLDERS: [(&str, &[&str]); 2] = [
    ("parser", &["lex", "token"]),
    ("util", &["duration", "number", "string"]),
];

/// The module of ours that stands inside the one of lex.rs.
const STEPS: &str = concat!(env!("CARGO_MANIFEST_DIR"), "/src/steps.rs");

/// The names of the kinds, in order from the number of their line on. The numbers are those of document 01, section Kinds;
/// those of the Rust's crate come from its grammar, which is not among the documents. The names that bound the operators
/// and the aggregators stand next to these; what else has no number in document 01 stands from 1000 on.
const KINDS: &str = "\
    0 EOF IDENTIFIER METRIC_IDENTIFIER STRING NUMBER DURATION
    6 LEFT_PAREN RIGHT_PAREN LEFT_BRACE RIGHT_BRACE LEFT_BRACKET RIGHT_BRACKET COMMA COLON EQL
    19 OPERATORS_START
    20 ADD SUB MUL DIV MOD POW EQLC NEQ LTE LSS GTE GTR EQL_REGEX NEQ_REGEX AT
    35 LAND LOR LUNLESS ATAN2
    39 OPERATORS_END
    39 AGGREGATORS_START
    40 SUM AVG COUNT MIN MAX GROUP STDDEV STDVAR
    48 TOPK BOTTOMK COUNT_VALUES QUANTILE LIMITK LIMIT_RATIO
    54 AGGREGATORS_END
    60 OFFSET BY WITHOUT ON IGNORING GROUP_LEFT GROUP_RIGHT BOOL
    68 SMOOTHED ANCHORED FILL FILL_LEFT FILL_RIGHT
    80 START END
    1000 BLANK COMMENT ERROR OPEN_HIST CLOSE_HIST SEMICOLON SPACE TIMES STEP
    1010 KEYWORDS_START KEYWORDS_END PREPROCESSOR_START PREPROCESSOR_END
    1020 STARTSYMBOLS_START START_METRIC START_SERIES_DESCRIPTION
    1030 START_EXPRESSION START_METRIC_SELECTOR STARTSYMBOLS_END";

fn main() {
    println!("cargo:rerun-if-changed=build.rs");
    println!("cargo:rerun-if-env-changed=PROMQL_DOCS");
    let named = env::var_os("PROMQL_DOCS").map_or_else(|| DOCUMENTS.into(), PathBuf::from);
    let documents = Path::new(env!("CARGO_MANIFEST_DIR")).join("..").join(named);
    let out = PathBuf::from(env::var_os("OUT_DIR").expect("cargo sets OUT_DIR"));
    for (folder, files) in FOLDERS {
        let copies = out.join(folder);
        fs::create_dir_all(&copies).expect("OUT_DIR can be written");
        for file in files {
            let document = documents.join(format!("src--src--{folder}--{file}.rs.txt"));
            println!("cargo:rerun-if-changed={}", document.display());
            let text = fs::read(&document).unwrap_or_else(|error| {
                panic!("{}: {error} (see PROMQL_DOCS)", document.display())
            });
            write(&copies.join(format!("{file}.rs")), text);
        }
        let modules = files.iter().map(|file| module(file));
        write(&copies.join("mod.rs"), modules.collect::<String>());
    }
    write(&out.join("token_map.rs"), token_map());
}

/// The module of a file; with what the file needs that Rust 1.63 has not, or with a module of ours inside it.
fn module(file: &str) -> String {
    match file {
        "duration" => {
            format!("pub mod {file} {{ use crate::newer::*; include!(\"{file}.rs\"); }}\n")
        }
        "lex" => format!(
            "pub mod {file} {{ include!(\"{file}.rs\"); #[path = {STEPS:?}] pub mod steps; }}\n"
        ),
        _ => format!("pub mod {file};\n"),
    }
}

/// The module `token_map`.
fn token_map() -> String {
    let mut module = String::from("mod token_map {\n");
    for line in KINDS.lines() {
        let (first, names) = line.trim().split_once(' ').expect("a line has names");
        let first: u16 = first.parse().expect("a line has a number");
        for (kind, name) in (first..).zip(names.split(' ')) {
            module += &format!("    pub const T_{name}: u16 = {kind};\n");
        }
    }
    module + "}\n"
}

fn write(path: &Path, text: impl AsRef<[u8]>) {
    fs::write(path, text).expect("OUT_DIR can be written");
}
