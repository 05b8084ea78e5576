//! What is shown to people, and that every view of every accepted script can be read.

use sporekettle::{
    check, Accepted, Kind, Proposition, PropositionNumber, Refusal, Rule, Space, Which,
};

use crate::input::{expected, Input};

fn bytes(records: &[[u16; 8]]) -> Vec<u8> {
    records
        .iter()
        .flatten()
        .flat_map(|number| number.to_le_bytes())
        .collect()
}

/// `fun x. (sorry : [P(x)]) : all x:D. P(x)`, the annotation's name being free.
fn ascribed() -> Vec<u8> {
    bytes(&[
        [0x444e, 0x0054, 1, 3, 3, 2, 0, 0],
        [7 + 256, 13, 0, 0, 10, 0, 0, 0],
        [7 + 256, 13, 0, 0, 10, 0, 0, 0],
        [5, 10, 12, 1, 0, 0, 0, 0],
        [4, 0, 10, 0, 1, 0, 0, 0],
        [12 + 256, 0, 0, 0, 2, 0, 0, 0],
        [13, 0, 0, 0, 0, 0, 0, 0],
    ])
}

/// `sorry : all x:D. ((P(x) & T) | (ex y:E. Q(x, y))) -> F`
fn every_kind() -> Vec<u8> {
    bytes(&[
        [0x444e, 0x0054, 1, 9, 1, 8, 0, 0],
        [7 + 256, 13, 0, 0, 10, 0, 0, 0],
        [0; 8],
        [2, 0, 1, 0, 0, 0, 0, 0],
        [7 + 2 * 256, 14, 0, 0, 10, 11, 0, 0],
        [6, 11, 15, 3, 0, 0, 0, 0],
        [3, 2, 4, 0, 0, 0, 0, 0],
        [1, 0, 0, 0, 0, 0, 0, 0],
        [4, 5, 6, 0, 0, 0, 0, 0],
        [5, 10, 12, 7, 0, 0, 0, 0],
        [13, 0, 0, 0, 0, 0, 0, 0],
    ])
}

fn goals(accepted: &Accepted<'_>) -> Vec<String> {
    accepted
        .goals()
        .map(|goal| goal.proposition.to_string())
        .collect()
}

#[test]
fn parameters_are_shown_by_their_kind() {
    let mut space = Space::new();
    let accepted = check(&ascribed(), space.rooms()).unwrap();
    let table: Vec<String> = accepted
        .propositions()
        .iter()
        .take(3)
        .map(|p| p.to_string())
        .collect();
    assert_eq!(table, ["#13(#10)", "#13(^0)", "all #10:#12. #13(^0)"]);
    assert_eq!(goals(&accepted), ["#13($0)"]);
}

#[test]
fn every_kind_of_proposition_is_shown() {
    let mut space = Space::new();
    let accepted = check(&every_kind(), space.rooms()).unwrap();
    let shown = "all #10:#12. (((#13(^0) & T) | (ex #11:#15. #14(^1, ^0))) -> F)";
    assert_eq!(goals(&accepted), [shown]);
    let goal = accepted.goals().next().unwrap();
    assert_eq!(goal.proposition.number(), PropositionNumber(8));
}

#[test]
fn numbers_outside_are_nobody() {
    let mut space = Space::new();
    let accepted = check(&every_kind(), space.rooms()).unwrap();
    assert!(accepted.tree().node(0).is_some() && accepted.tree().node(1).is_none());
    let all = accepted.propositions();
    assert_eq!((all.len(), all.own()), (9, 9));
    let there = |number| all.get(PropositionNumber(number)).is_some();
    assert!(there(8) && !there(9) && !there(u16::MAX));
}

#[test]
fn rules_stand_at_their_numbers() {
    for (i, rule) in Rule::ALL.into_iter().enumerate() {
        assert_eq!(usize::from(rule.number()), i);
    }
}

#[test]
fn each_number_has_a_reason() {
    let reason = |number| {
        Refusal {
            number,
            place: 0,
            table: Which::Old,
        }
        .reason()
    };
    for &number in Refusal::NUMBERS {
        assert!(reason(number) != reason(0), "{number}");
    }
    assert_eq!(reason(0), reason(255));
}

/// Reads all there is. A premise stands behind its parent, and a part below its whole.
fn read(accepted: &Accepted<'_>) {
    for node in accepted.tree().nodes() {
        assert!(node
            .premises()
            .all(|premise| premise.index() > node.index()));
        assert!(!format!("{node:?}").is_empty());
    }
    for (i, p) in accepted.propositions().iter().enumerate() {
        assert_eq!(usize::from(p.number().0), i);
        assert!(parts(p).iter().all(|part| part.number() < p.number()));
    }
    assert_eq!(accepted.goals().count(), accepted.goals().len());
}

fn parts(p: Proposition<'_>) -> Vec<Proposition<'_>> {
    match p.kind() {
        Kind::True | Kind::False | Kind::Atom { .. } => vec![],
        Kind::And(p, q) | Kind::Or(p, q) | Kind::Implies(p, q) => vec![p, q],
        Kind::ForAll { body, .. } | Kind::Exists { body, .. } => vec![body],
    }
}

#[test]
fn every_view_can_be_read() {
    let mut space = Space::new();
    let mut input = Input::of("trace");
    let mut accepted = 0;
    while !input.ended() {
        if let Ok(it) = check(&input.table(), space.rooms()) {
            accepted += 1;
            read(&it);
        }
    }
    let answers = expected("trace");
    let expected = answers
        .lines()
        .filter(|line| line.starts_with("accepted"))
        .count();
    assert_eq!(accepted, expected);
}
