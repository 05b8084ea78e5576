//! Filling a goal: the edited table, and the filling's run at the hole.

use crate::prop::{Props, Type};
use crate::rules::{Entry, Hole, Run};
use crate::table::{self, Record, Table};
use crate::Refusal;

/// The old table with the filling's root in the Sorry's place and its other records at the end of
/// their kind, if that passes tests 3 and 6.
pub fn edit(old: &Table, sorry: u16, filling: &Table) -> Result<Table, Refusal> {
    let (props, terms) = (old.props.len(), old.terms.len());
    table::test_counts(props + filling.props.len(), terms + filling.terms.len() - 1)?;
    let mut edited = Table {
        props: old.props.clone(),
        terms: old.terms.clone(),
        expected: old.expected,
    };
    edited.props.extend(
        filling
            .props
            .iter()
            .map(|&record| moved_prop(record, props as u16)),
    );
    for (i, &record) in filling.terms.iter().enumerate() {
        let moved = moved_term(record, props as u16, terms as u16);
        if i == 0 {
            edited.terms[sorry as usize] = moved;
        } else {
            edited.terms.push(moved);
        }
    }
    edited.test_sizes()?;
    Ok(edited)
}

fn moved_prop(mut record: Record, props: u16) -> Record {
    record
        .parts_mut()
        .iter_mut()
        .for_each(|part| *part += props);
    record
}

/// The filling's root takes no new number, so its other terms move by one less.
fn moved_term(mut record: Record, props: u16, terms: u16) -> Record {
    record
        .children_mut()
        .iter_mut()
        .for_each(|child| *child += terms - 1);
    if record.annotation().is_some() {
        record.fields[0] += props;
    }
    record
}

/// The filling's run. It starts with what the old run had reached at the hole; what that had made
/// stands behind the edited table's propositions.
pub fn run<'a>(edited: &'a Table, old: &Props, hole: &Hole) -> Result<Run<'a>, Refusal> {
    let mut run = Run::new(edited, None);
    run.props.take_over(old, hole.made);
    let props = &run.props;
    let moved = |ty: Type| match ty {
        Type::Prop(n) => Type::Prop(props.moved(old, n)),
        datatype => datatype,
    };
    let want = moved(hole.want);
    run.context = hole
        .context
        .iter()
        .map(|&e| Entry {
            ty: moved(e.ty),
            ..e
        })
        .collect();
    run.serials = hole.serials;
    run.check(hole.term, want)?;
    Ok(run)
}
