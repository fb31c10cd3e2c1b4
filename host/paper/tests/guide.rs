//! The printed examples of the Programmers' Guide (source document 001),
//! chapters 1, 3 and 8, through whole files, labels and packs. Where they are
//! read otherwise than the guide's text shows, [`paper::make::guide`] says so.

use paper::make::guide::{self, Example};
use paper::make::Pair;
use paper::{build, label_of, pack_label, views};

/// The label of the only view, from the files and from their pack.
fn labels(example: &Example, pair: &Pair) -> [String; 2] {
    let label = label_of(&pair.table, &pair.points, 1);
    let label = label.unwrap_or_else(|why| panic!("{}: {why:?}", example.table));
    let code = &pair.points[168 + 14..168 + 18];
    let mut pack = [0; 2_000];
    let length = build(&pair.table, &pair.points, code, &mut pack).expect("a pack");
    let mut buffer = [0; 499];
    let written = pack_label(&pack[..length], 1, &mut buffer).expect("a label");
    [label, buffer[..written].to_vec()].map(|bytes| String::from_utf8(bytes).expect("ASCII"))
}

fn run(examples: &[Example]) {
    for example in examples {
        for (split, large) in [(false, false), (true, false), (false, true), (true, true)] {
            for label in labels(example, &example.files(split, large)) {
                assert_eq!(label, example.label(), "{}", example.table);
            }
        }
    }
}

#[test]
fn chapter_1_names_boxes_and_premises() {
    run(guide::CHAPTER_1_NAMES_BOXES_AND_PREMISES);
}

#[test]
fn chapter_1_thoroughfares_and_none() {
    run(guide::CHAPTER_1_THOROUGHFARES_AND_NONE);
}

#[test]
fn tables_21_to_23_exception_rule_indicators() {
    run(guide::TABLES_21_TO_23_EXCEPTION_RULE_INDICATORS);
}

#[test]
fn tables_24_and_27c_as_document_01_decides() {
    run(guide::TABLES_24_AND_27C_AS_DOCUMENT_01_DECIDES);
}

#[test]
fn tables_25_to_26_rules_1_and_2() {
    run(guide::TABLES_25_TO_26_RULES_1_AND_2);
}

#[test]
fn tables_27a_to_28_rules_3_and_4() {
    run(guide::TABLES_27A_TO_28_RULES_3_AND_4);
}

#[test]
fn tables_29a_and_29b_rule_5() {
    run(guide::TABLES_29A_AND_29B_RULE_5);
}

#[test]
fn tables_30_to_31b_rule_6() {
    run(guide::TABLES_30_TO_31B_RULE_6);
}

#[test]
fn tables_32a_and_32b_rule_7() {
    run(guide::TABLES_32A_AND_32B_RULE_7);
}

#[test]
fn chapter_8_note_l() {
    run(guide::CHAPTER_8_NOTE_L);
}

#[test]
fn one_pair_holds_chapter_3() {
    let pair = guide::pair();
    let examples = guide::examples();
    assert_eq!(views(&pair.points), Ok(examples.len()));
    for (view, example) in (1..).zip(examples) {
        let label = label_of(&pair.table, &pair.points, view).expect("a label");
        assert_eq!(label, example.label().as_bytes(), "{}", example.table);
    }
}
