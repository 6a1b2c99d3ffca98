//! Document 02, U8: "Three things hold in every list of calls as in demand 3." Every list of up to six calls on eight blocks, behind
//! several heaps. `model every WIDTH DEPTH` tries longer ones.

mod common;
use common::say;
use model::lists::every_list::{every_list_behind_all, Tried, CLAUSES};

#[test]
fn every_list_of_up_to_six_calls() {
    let mut all = Tried::default();
    // At width 1 no count falls, so that more stands are met.
    for (width, depth) in [(2, 6), (1, 4)] {
        let tried = every_list_behind_all(width, depth).unwrap_or_else(|what| panic!("{what}"));
        say(tried.text(width, depth).trim_end());
        for (clause, count) in tried.clauses {
            *all.clauses.entry(clause).or_default() += count;
        }
    }
    say(&format!("clauses of U8 met: {:?}", all.clauses));
    for clause in CLAUSES {
        assert!(all.clauses.contains_key(clause), "never met: {clause}");
    }
    assert_eq!(all.clauses.len(), CLAUSES.len());
}
