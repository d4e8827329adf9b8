//! Members of the root (02, 111: who is aboard).

mod laws;
mod refusals;
mod rows;

use reference::model::calls::Call;
use reference::model::members::Change;
use reference::tools::scenario::members::list_of;

use crate::{fields, make, CLEAR};

/// Bytes after each list, which are kept and decide nothing.
const LATER: [u8; 2] = [7, 1];

/// Archive and reference make the call on this list.
#[track_caller]
fn change(plan: &[u8], list: &mut [u8], call: Change) -> u32 {
    make(&Call::Change(call), plan, list)
}

/// The list of these members, and two bytes after it.
fn list_with(plan: &[u8], members: &[usize]) -> Vec<u8> {
    [&list_of(&fields(plan), members)[..], &LATER].concat()
}

/// Calls one after another, from nobody: what each returns, and the members after it.
#[track_caller]
fn check(plan: &[u8], rows: &[(Change, u32, &[usize])]) {
    let mut list = list_with(plan, &[]);
    for (call, want, members) in rows {
        assert_eq!(change(plan, &mut list, *call), *want, "{call:?}");
        assert_eq!(list, list_with(plan, members), "{call:?}");
    }
}

/// What the call returns that brings the last of these members aboard, the others come before it in
/// their order and in the reverse one.
#[track_caller]
fn answers(plan: &[u8], rows: &[(&[usize], u32)]) {
    for &(members, want) in rows {
        let falling: Vec<usize> = members.iter().rev().copied().collect();
        for come in [members, &falling] {
            let mut list = list_with(plan, &[]);
            let include = |&member| change(plan, &mut list, Change::Include(member));
            let returned: Vec<u32> = come.iter().map(include).collect();
            assert!(returned.iter().all(|&answer| answer >= CLEAR));
            assert_eq!(returned.last(), Some(&want), "{come:?}");
        }
    }
}
