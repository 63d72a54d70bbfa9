//! Holds the five Rust files of this build against the folder they came from, byte for byte:
//! the oracle is a judge only while its parsers are the unchanged ones. Of analyze.rs a second
//! copy is made whose table is lent; apart from that one constant it is the same, byte for byte.

use std::{env, fs, path::Path};

const FILES: [&str; 5] = [
    "src/text/analyze.rs",
    "src/text/cluster/complex.rs",
    "src/text/cluster/mod.rs",
    "src/text/cluster/myanmar.rs",
    "src/text/cluster/simple.rs",
];

const TABLE_BEGINS: &str = "const PAIR_TABLE: [[u8; 44]; 53] = [\n";
const TABLE_ENDS: &str = "\n];\n";
/// It is asked with the same signs, `PAIR_TABLE[row][column]`.
const LENT_TABLE: &str = "const PAIR_TABLE: super::LentTable = super::LentTable;\n";

fn over_a_lent_table(file: &str) -> String {
    let (before, rest) = file.split_once(TABLE_BEGINS).expect("analyze.rs has the table");
    let (cells, after) = rest.split_once(TABLE_ENDS).expect("the table ends");
    assert!(cells.bytes().all(|byte| b"[], \n0123456789".contains(&byte)), "nothing but cells is replaced");
    let derived = [before, LENT_TABLE, after].concat();
    let restored = derived.replacen(LENT_TABLE, &[TABLE_BEGINS, cells, TABLE_ENDS].concat(), 1);
    assert!(restored == file, "something else than the table was changed");
    derived
}

fn main() {
    println!("cargo:rerun-if-env-changed=ORACLE_FOLDER");
    let folder = env::var("ORACLE_FOLDER").expect("ORACLE_FOLDER: the folder of the Rust files; use oracle/build");
    for file in FILES {
        let theirs = Path::new(&folder).join(file);
        println!("cargo:rerun-if-changed={file}");
        println!("cargo:rerun-if-changed={}", theirs.display());
        assert!(fs::read(file).unwrap() == fs::read(&theirs).unwrap(), "{file} was changed");
    }
    let derived = over_a_lent_table(&fs::read_to_string(FILES[0]).unwrap());
    fs::write(Path::new(&env::var("OUT_DIR").unwrap()).join("over_a_lent_table.rs"), derived).unwrap();
}
