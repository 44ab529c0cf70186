//! The C header: a C program compiled against it, and its sizes beside the wrapper's.

use std::collections::HashMap;
use std::path::{Path, PathBuf};
use std::process::Command;

fn package() -> PathBuf {
    env!("CARGO_MANIFEST_DIR").into()
}

fn archive() -> PathBuf {
    let folder =
        option_env!("CLUE_DESK_LIB").map_or(package().join("../target/staticlib"), Into::into);
    folder.join("libclue_desk.a")
}

fn compiled() -> PathBuf {
    let program = Path::new(env!("CARGO_TARGET_TMPDIR")).join("header");
    let made = Command::new("cc")
        .args([
            "-std=c11",
            "-Wall",
            "-Wextra",
            "-Werror",
            "-pedantic",
            "-O2",
            "-I",
        ])
        .arg(package().join("include"))
        .arg(package().join("tests/header.c"))
        .arg(archive())
        .arg("-o")
        .arg(&program)
        .status()
        .expect("cc runs");
    assert!(made.success(), "cc takes the header and the archive");
    program
}

#[test]
fn a_c_program_makes_every_call() {
    let output = Command::new(compiled()).output().expect("it runs");
    assert!(output.status.success());
    let expected = "read 0\n\
        layout 0\n0 0 0 R\n1 1280 0 D\n2 1280 0 D\n3 2560 0 N\n4 2560 5120 E\n\
        search 0\n0 0 S 2\n2560 0 N 8\n2560 5120 E 0\n\
        search 9\n\
        0 0 3 0 5 0 0 5 4 0 0 1\n\
        at 0 comes back box 7 25600 0 30720 5120\n\
        at 0 comes back port 7 25600 2560 1\n\
        last end goes\nlast port goes\nlast box goes\n\
        undo 0\nundo 0\n\
        box 7 25600 0 30720 5120\nport 7 25600 2560 1\nnet 1\n\
        end 1 0 0 0\nend 1 2560 5120 0\nend 1 25600 2560 1\n\
        last end goes\nlast port goes\nlast box goes\n\
        0 0 4 0\nbox 7 25600 0 30720 5120\nbox 4294967295 25600 0 30720 5120\n\
        read 0\nnet 4294967295\n\
        read 16 at line 2 with 4\n";
    assert_eq!(String::from_utf8_lossy(&output.stdout), expected);
}

#[test]
fn the_sizes_are_the_wrappers() {
    let header =
        std::fs::read_to_string(package().join("include/clue_desk.h")).expect("it is there");
    let sizes: HashMap<_, _> = header
        .lines()
        .filter_map(|line| {
            let mut words = line.strip_prefix("#define CLUE_DESK_")?.split_whitespace();
            Some((words.next()?, words.next()?.parse::<i64>().ok()?))
        })
        .collect();
    let wrapper = [
        ("WORDS", clue_desk::DESK_WORDS as i64),
        ("REFUSAL_WORDS", clue_desk::REFUSAL_WORDS as i64),
        ("LINE_NODES", clue_desk::LINE_NODES as i64),
        ("NET_WORDS", clue_desk::NET_WORDS as i64),
        ("NETS_WORDS", clue_desk::NETS_WORDS as i64),
        ("VERTICES", clue_desk::VERTICES as i64),
        ("JUNCTION_WORDS", clue_desk::JUNCTION_WORDS as i64),
        ("JOINS_WORDS", clue_desk::JOINS_WORDS as i64),
        ("BOXES", clue_desk::BOXES as i64),
        ("PORTS", clue_desk::PORTS as i64),
        ("NETS", clue_desk::NETS as i64),
        ("ENDS", clue_desk::ENDS as i64),
        ("COPIES", clue_desk::COPIES as i64),
        ("BOXES_AT", clue_desk::BOXES_AT as i64),
        ("PORTS_AT", clue_desk::PORTS_AT as i64),
        ("NETS_AT", clue_desk::NETS_AT as i64),
        ("ENDS_AT", clue_desk::ENDS_AT as i64),
        ("ENTRIES_AT", clue_desk::ENTRIES_AT as i64),
        ("BOX_WORDS", clue_desk::BOX_WORDS as i64),
        ("PORT_WORDS", clue_desk::PORT_WORDS as i64),
        ("NET_ID_WORDS", clue_desk::NET_ID_WORDS as i64),
        ("END_WORDS", clue_desk::END_WORDS as i64),
        ("ENTRY_WORDS", clue_desk::ENTRY_WORDS as i64),
        ("ORIGIN", clue_desk::ORIGIN.into()),
        ("UNDO_ADD", clue_desk::UNDO_ADD.into()),
        ("UNDO_RETIRE", clue_desk::UNDO_RETIRE.into()),
        ("KIND_BOX", clue_desk::KIND_BOX.into()),
        ("KIND_PORT", clue_desk::KIND_PORT.into()),
        ("KIND_NET", clue_desk::KIND_NET.into()),
        ("KIND_END", clue_desk::KIND_END.into()),
        ("SEARCH_ENDS", clue_desk::SEARCH_ENDS as i64),
        ("ID", clue_desk::GREATEST_ID.into()),
        ("COORDINATE", clue_desk::GREATEST_COORDINATE.into()),
        ("STACK", clue_desk::STACK as i64),
        ("NEG_X", clue_desk::NEG_X.into()),
        ("POS_X", clue_desk::POS_X.into()),
        ("NEG_Y", clue_desk::NEG_Y.into()),
        ("POS_Y", clue_desk::POS_Y.into()),
    ];
    assert_eq!(sizes, HashMap::from(wrapper));
}
