//! Answers in the lines of the programs `trace` and `trace_fill`.

use std::fmt::Write;

use sporekettle::{
    Accepted, Conclusion, Kind, Name, Node, Parameter, Proposition, Refusal, Serial,
};

fn parameter(parameter: Parameter) -> String {
    match parameter {
        Parameter::Name(Name(n)) => format!(" fn{n}"),
        Parameter::Serial(Serial(n)) => format!(" s{n}"),
        Parameter::Bound(n) => format!(" b{n}"),
    }
}

fn proposition(p: Proposition<'_>) -> String {
    let link = |sign, p, q| format!("({sign} {} {})", proposition(p), proposition(q));
    match p.kind() {
        Kind::True => "T".into(),
        Kind::False => "F".into(),
        Kind::And(p, q) => link('&', p, q),
        Kind::Or(p, q) => link('|', p, q),
        Kind::Implies(p, q) => link('>', p, q),
        Kind::ForAll {
            name: Name(name),
            datatype: Name(datatype),
            body,
        } => {
            format!("(A n{name} n{datatype} {})", proposition(body))
        }
        Kind::Exists {
            name: Name(name),
            datatype: Name(datatype),
            body,
        } => {
            format!("(E n{name} n{datatype} {})", proposition(body))
        }
        Kind::Atom {
            predicate: Name(predicate),
            parameters,
        } => {
            format!(
                "(p n{predicate}{})",
                parameters.map(parameter).collect::<String>()
            )
        }
    }
}

fn serial(serial: Option<Serial>) -> String {
    serial.map_or("-".into(), |Serial(n)| n.to_string())
}

fn conclusion(node: Node<'_>) -> String {
    match node.conclusion() {
        Conclusion::Proposition(p) => proposition(p),
        Conclusion::Datatype(Name(n)) => format!("s{} : n{n}", serial(node.serials().first)),
    }
}

/// The node's line, then those of its premises. Records stand in the same order, so the stored
/// lines also say whether premises are found right.
fn nodes(out: &mut String, node: Node<'_>) {
    let (number, term, serials) = (node.rule().number(), node.term(), node.serials());
    let (first, second) = (serial(serials.first), serial(serials.second));
    let premises = node.premises();
    let count = premises.len();
    writeln!(
        out,
        "{number} {term} {first} {second} {count} | {}",
        conclusion(node)
    )
    .unwrap();
    for premise in premises {
        nodes(out, premise);
    }
}

pub fn accepted(accepted: &Accepted<'_>) -> String {
    let counts = accepted.counts();
    let mut out = format!("accepted {} {}\n", counts.records, counts.goals);
    nodes(&mut out, accepted.tree().root());
    for goal in accepted.goals() {
        let wanted = proposition(goal.proposition);
        writeln!(out, "goal {} {} | {wanted}", goal.term, goal.context_length).unwrap();
    }
    writeln!(
        out,
        "counts serials {} made {}",
        counts.serials, counts.made
    )
    .unwrap();
    out
}

pub fn refused(refusal: Refusal) -> String {
    format!("refused {} {}\n", refusal.number, refusal.place)
}

/// Fails with the first line that differs.
pub fn compare(got: &str, expected: &str) {
    let pairs = got.lines().zip(expected.lines()).enumerate();
    for (i, (got, expected)) in pairs {
        assert_eq!(got, expected, "line {}", i + 1);
    }
    assert_eq!(got.lines().count(), expected.lines().count(), "lines");
}
