//! The rows of all nodes, children first.

use super::pairs::Group;
use super::row::{Row, Rows};
use super::siblings::Siblings;
use super::tables::Tables;
use super::words::{and, and_not, or, swap};

/// The row of the root.
pub fn root(tables: &Tables) -> Row {
    let mut rows = [Row::default(); 128];
    fill_tasks(tables, &mut rows);
    fill(tables, &mut rows, 0);
    rows[0]
}

/// The rows of all nodes but the root.
pub fn below_root(tables: &Tables) -> Rows {
    let mut rows = [Row::default(); 128];
    fill_tasks(tables, &mut rows);
    for child in tables.children(0) {
        fill(tables, &mut rows, child);
    }
    rows
}

fn fill_tasks(tables: &Tables, rows: &mut Rows) {
    let of_nodes = tables.kinds.iter().zip(&tables.conditions);
    for (row, (&kind, conditions)) in rows[..tables.nodes].iter_mut().zip(of_nodes) {
        if kind == 0 {
            *row = Row::task(conditions);
        }
    }
}

/// Fills the rows of the groups under a node.
fn fill(tables: &Tables, rows: &mut Rows, node: usize) {
    for child in tables.children(node) {
        fill(tables, rows, child);
    }
    match tables.kinds[node] {
        0 => {}
        1 => rows[node] = all_of(tables, rows, node),
        2 => rows[node] = any_of(tables, rows, node),
        _ => rows[node] = optional(tables, rows, node),
    }
}

fn any_of(tables: &Tables, rows: &Rows, group: usize) -> Row {
    let no_branch = Row {
        must_inc: [!0; 2],
        must_clobber: [!0; 2],
        ..Row::default()
    };
    choice(tables, rows, group, no_branch)
}

/// With one more branch, which is as a task without conditions.
fn optional(tables: &Tables, rows: &Rows, group: usize) -> Row {
    choice(tables, rows, group, Row::task(&[0; 6]))
}

/// The row of a choice: that of a first branch, with the group's branches taken in.
fn choice(tables: &Tables, rows: &Rows, group: usize, first: Row) -> Row {
    let mut row = first;
    for branch in tables.children(group).map(|branch| &rows[branch]) {
        row.avoids |= branch.avoids;
        row.quiet = or(row.quiet, branch.quiet);
        row.covered = or(row.covered, branch.covered);
        row.may_pre = or(row.may_pre, branch.may_pre);
        row.may_post = or(row.may_post, branch.may_post);
        row.may_inc = or(row.may_inc, branch.may_inc);
        row.must_inc = and(row.must_inc, branch.must_inc);
        row.wants = or(row.wants, branch.wants);
        row.asserts = or(row.asserts, branch.asserts);
        row.leaves = or(row.leaves, branch.leaves);
        row.may_clobber = or(row.may_clobber, branch.may_clobber);
        row.must_clobber = and(row.must_clobber, branch.must_clobber);
    }
    row
}

fn all_of(tables: &Tables, rows: &Rows, group: usize) -> Row {
    let mut row = Row {
        avoids: !0,
        quiet: [!0; 2],
        ..Row::default()
    };
    for child in tables.children(group) {
        let siblings = Siblings::new(tables, rows, group, child);
        let child = &rows[child];
        row.avoids &= child.avoids;
        row.quiet = and(row.quiet, child.quiet);
        row.covered = or(row.covered, and(child.covered, siblings.quiet_before));
        row.may_pre = or(row.may_pre, and(child.may_pre, [siblings.avoid_before; 2]));
        row.may_post = or(row.may_post, and(child.may_post, [siblings.avoid_after; 2]));
        row.may_inc = or(row.may_inc, child.may_inc);
        row.must_inc = or(row.must_inc, child.must_inc);
        row.wants = or(row.wants, child.wants);
        row.asserts = or(row.asserts, child.asserts);
        row.leaves = or(row.leaves, child.leaves);
        row.may_clobber = or(row.may_clobber, child.may_clobber);
        let undisturbed = and(child.must_clobber, [siblings.silent_apart; 2]);
        row.must_clobber = or(row.must_clobber, undisturbed);
    }
    let pairs = Group {
        tables,
        rows,
        children: tables.segment(group),
    };
    let broken = and(row.wants, swap(row.asserts));
    let opposed = and(row.leaves, swap(row.leaves));
    let wanted = and_not(or(broken, opposed), row.may_clobber);
    row.may_clobber = or(row.may_clobber, pairs.may_clobber(wanted));
    row.must_clobber = pairs.must_clobber(row.must_clobber);
    row
}
