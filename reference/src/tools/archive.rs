//! The calls of the C archive, each with a safe wrapper.
//!
//! Nothing checks these declarations against the archive's source.
//!
//! What a call is lent is writable memory, also where it is to change no byte: behind a `&[u8]`
//! the compiler would take that for granted, and a comparison afterwards would show nothing.

use crate::model::calls::Call;
use crate::model::events::Event;
use crate::model::generated::Recipe;
use crate::model::members::Change;
use crate::tools::memory::Lent;

mod c {
    extern "C" {
        pub fn knowetop_refusal(plan: *const u8, plan_len: usize) -> u32;
        pub fn knowetop_verdict(
            plan: *const u8,
            plan_len: usize,
            blocked: *const usize,
            blocked_len: usize,
        ) -> u32;
        pub fn knowetop_summary(
            plan: *const u8,
            plan_len: usize,
            blocked: *const usize,
            blocked_len: usize,
            node: usize,
            out: *mut u8,
            out_len: usize,
        ) -> u32;
        pub fn knowetop_fresh(
            plan: *const u8,
            plan_len: usize,
            blocked: *const usize,
            blocked_len: usize,
            state: *mut u8,
            state_len: usize,
        ) -> u32;
        pub fn knowetop_start(
            plan: *const u8,
            plan_len: usize,
            blocked: *const usize,
            blocked_len: usize,
            state: *mut u8,
            state_len: usize,
            task: usize,
        ) -> u32;
        pub fn knowetop_finish(
            plan: *const u8,
            plan_len: usize,
            blocked: *const usize,
            blocked_len: usize,
            state: *mut u8,
            state_len: usize,
            task: usize,
        ) -> u32;
        pub fn knowetop_finish_together(
            plan: *const u8,
            plan_len: usize,
            blocked: *const usize,
            blocked_len: usize,
            state: *mut u8,
            state_len: usize,
            tasks: *const usize,
            tasks_len: usize,
        ) -> u32;
        pub fn knowetop_skip(
            plan: *const u8,
            plan_len: usize,
            blocked: *const usize,
            blocked_len: usize,
            state: *mut u8,
            state_len: usize,
            group: usize,
        ) -> u32;
        pub fn knowetop_status(
            plan: *const u8,
            plan_len: usize,
            blocked: *const usize,
            blocked_len: usize,
            state: *const u8,
            state_len: usize,
        ) -> u32;
        pub fn knowetop_listing(
            plan: *const u8,
            plan_len: usize,
            out: *mut u8,
            out_len: usize,
        ) -> u32;
        pub fn knowetop_sequence(plan: *const u8, plan_len: usize) -> u64;
        pub fn knowetop_include(
            plan: *const u8,
            plan_len: usize,
            members: *mut u8,
            members_len: usize,
            node: usize,
        ) -> u32;
        pub fn knowetop_exclude(
            plan: *const u8,
            plan_len: usize,
            members: *mut u8,
            members_len: usize,
            node: usize,
        ) -> u32;
        pub fn knowetop_generate(
            seed: u32,
            groups: usize,
            tasks: usize,
            out: *mut u8,
            out_len: usize,
        ) -> u32;
        pub fn knowetop_merge(
            first: *const u8,
            first_len: usize,
            second: *const u8,
            second_len: usize,
            out: *mut u8,
            out_len: usize,
        ) -> u32;
    }
}

/// Makes the call. What it is lent is an output, a state or a list of members; some calls take none.
/// The lists of blocked nodes and of tasks are lent too, and must stay as they are.
pub fn make(call: &Call, plan: &mut [u8], blocked: &[usize], lent: &mut [u8]) -> u32 {
    let tasks: &[usize] = match call {
        Call::FinishTogether(tasks) => tasks,
        _ => &[],
    };
    let (mut lists, before) = ([blocked, tasks].map(Lent::new), [blocked, tasks]);
    let returned = make_with(call, plan, lent, lists.each_mut().map(Lent::items));
    let after = lists.map(Lent::back);
    assert_eq!(after, before, "a list of nodes was written");
    returned
}

/// The verdict as it is timed, with the blocked nodes in this memory.
pub fn verdict(plan: &mut [u8], blocked: &mut [usize]) -> u32 {
    make_with(&Call::Verdict, plan, &mut [], [blocked, &mut []])
}

/// The sequence call, which alone returns a word of 64 bits, and is lent the plan only.
pub fn sequence(plan: &mut [u8]) -> u64 {
    // SAFETY: pointer and length are those of one slice, borrowed for the length of the call.
    unsafe { c::knowetop_sequence(plan.as_mut_ptr(), plan.len()) }
}

/// The generate call, which alone takes no plan, and is lent an output.
pub fn generate(recipe: Recipe, out: &mut [u8]) -> u32 {
    let Recipe {
        seed,
        groups,
        tasks,
    } = recipe;
    // SAFETY: pointer and length are those of one slice, borrowed for the length of the call.
    unsafe { c::knowetop_generate(seed, groups, tasks, out.as_mut_ptr(), out.len()) }
}

/// The merge call, which alone takes two plans, and is lent an output.
pub fn merge([first, second]: [&mut [u8]; 2], out: &mut [u8]) -> u32 {
    let [(first, first_len), (second, second_len), (out, out_len)] =
        [first, second, out].map(|lent| (lent.as_mut_ptr(), lent.len()));
    // SAFETY: each pointer and length are those of one slice, borrowed for the length of the call.
    unsafe { c::knowetop_merge(first, first_len, second, second_len, out, out_len) }
}

/// The merge call with the same memory as both plans.
pub fn merge_with_itself(plan: &mut [u8], out: &mut [u8]) -> u32 {
    let [(plan, plan_len), (out, out_len)] =
        [plan, out].map(|lent| (lent.as_mut_ptr(), lent.len()));
    // SAFETY: as above; the plan is lent twice, and to be read only.
    unsafe { c::knowetop_merge(plan, plan_len, plan, plan_len, out, out_len) }
}

/// Makes the call with the blocked nodes and with its list of tasks, as far as it is to have them,
/// in this memory.
pub fn make_with(call: &Call, plan: &mut [u8], lent: &mut [u8], lists: [&mut [usize]; 2]) -> u32 {
    let (plan, plan_len) = (plan.as_mut_ptr(), plan.len());
    let (lent, lent_len) = (lent.as_mut_ptr(), lent.len());
    let [(blocked, blocked_len), (tasks, tasks_len)] =
        lists.map(|list| (list.as_mut_ptr(), list.len()));
    // SAFETY: each pointer and length are those of one slice, borrowed for the length of the call.
    unsafe {
        match *call {
            Call::Refusal => c::knowetop_refusal(plan, plan_len),
            Call::Verdict => c::knowetop_verdict(plan, plan_len, blocked, blocked_len),
            Call::Summary(node) => {
                c::knowetop_summary(plan, plan_len, blocked, blocked_len, node, lent, lent_len)
            }
            Call::Fresh => c::knowetop_fresh(plan, plan_len, blocked, blocked_len, lent, lent_len),
            Call::Event(event) => {
                let (call, node) = (on_state(event), event.node());
                call(plan, plan_len, blocked, blocked_len, lent, lent_len, node)
            }
            Call::FinishTogether(_) => c::knowetop_finish_together(
                plan,
                plan_len,
                blocked,
                blocked_len,
                lent,
                lent_len,
                tasks,
                tasks_len,
            ),
            Call::Status => {
                c::knowetop_status(plan, plan_len, blocked, blocked_len, lent, lent_len)
            }
            Call::Listing => c::knowetop_listing(plan, plan_len, lent, lent_len),
            Call::Change(change) => {
                on_members(change)(plan, plan_len, lent, lent_len, change.node())
            }
        }
    }
}

/// With a list of blocked nodes, a state and a node.
type OnState =
    unsafe extern "C" fn(*const u8, usize, *const usize, usize, *mut u8, usize, usize) -> u32;

fn on_state(event: Event) -> OnState {
    match event {
        Event::Start(_) => c::knowetop_start,
        Event::Finish(_) => c::knowetop_finish,
        Event::Skip(_) => c::knowetop_skip,
    }
}

/// With a list of members and a node.
type OnMembers = unsafe extern "C" fn(*const u8, usize, *mut u8, usize, usize) -> u32;

fn on_members(change: Change) -> OnMembers {
    match change {
        Change::Include(_) => c::knowetop_include,
        Change::Exclude(_) => c::knowetop_exclude,
    }
}
