//! Expectations made by hand from 01 and 02, put to the reference and to the archive; the parts of
//! the reference against each other.

mod agreement;
mod blocked;
mod clobbering;
mod generated;
mod lists;
mod members;
mod memory;
mod merged;
mod monitor;
mod optional;
mod past;
mod places;
mod readings;
mod sequences;
mod together;
mod trials;
mod waits;

use std::fs;
use std::path::Path;

use reference::model::calls::Call;
use reference::model::format::Plan;
use reference::model::listing::LISTING_LEN;
use reference::model::rules::accept;
use reference::model::summary::summary_len;
use reference::tools::archive;
use reference::tools::scenario::lists::replay;
use reference::tools::scenario::{reference, Case};
use reference::tools::text;

/// What the verdict call returns.
const CLEAR: u32 = 128;
const DOOMED: u32 = 129;
const OPEN: u32 = 130;

/// The bytes of a plan in `samples/`.
fn sample(name: &str) -> Vec<u8> {
    let folder = Path::new(env!("CARGO_MANIFEST_DIR")).join("../samples");
    fs::read(folder.join(format!("{name}.plan"))).unwrap()
}

/// The bytes of a plan's text.
#[track_caller]
fn plan(text: &str) -> Vec<u8> {
    text::make(text).unwrap()
}

/// A plan with an all-of root and these lines below it.
#[track_caller]
fn below(lines: &str) -> Vec<u8> {
    let lines = lines.replace("; ", "\n");
    plan(&format!("flags 2\n0 ROOT all-of\n{lines}\n"))
}

/// Makes the call with nothing blocked.
#[track_caller]
fn make(call: &Call, plan: &[u8], lent: &mut [u8]) -> u32 {
    make_blocking(call, plan, &[], lent)
}

/// Makes the call of the reference and of the archive: both must return and leave the same.
#[track_caller]
fn make_blocking(call: &Call, plan: &[u8], blocked: &[usize], lent: &mut [u8]) -> u32 {
    let case = Case {
        call: call.clone(),
        plan: plan.to_vec(),
        blocked: blocked.to_vec(),
        lent: lent.to_vec(),
    };
    let after = case.make(reference);
    lent.copy_from_slice(&after.lent);
    case.compare(archive::make)
}

/// `make_blocking` on memory that is lent.
fn by_both(call: &Call, plan: &mut [u8], blocked: &[usize], lent: &mut [u8]) -> u32 {
    make_blocking(call, plan, blocked, lent)
}

/// A state with this flag byte, these bytes at the nodes and these places.
fn state<const N: usize>(flags: u8, statuses: [u8; N], places: [u8; N]) -> Vec<u8> {
    let places = places.map(|place| [place, 0]).concat();
    [&[flags, 0, 0, 0, 0, 0, 0, 0][..], &statuses, &places].concat()
}

#[track_caller]
fn verdict(plan: &[u8]) -> u32 {
    verdict_blocking(plan, &[])
}

#[track_caller]
fn verdict_blocking(plan: &[u8], blocked: &[usize]) -> u32 {
    make_blocking(&Call::Verdict, plan, blocked, &mut [])
}

/// The entries of a node's summary.
#[track_caller]
fn entries(plan: &[u8], node: usize) -> Vec<[u8; 8]> {
    entries_blocking(plan, &[], node)
}

/// The entries of a node's summary with these nodes blocked.
#[track_caller]
fn entries_blocking(plan: &[u8], blocked: &[usize], node: usize) -> Vec<[u8; 8]> {
    let mut out = vec![7; summary_len(&fields(plan))];
    let returned = make_blocking(&Call::Summary(node), plan, blocked, &mut out);
    assert_eq!(returned, 0);
    let entry = |bytes: &[u8]| bytes.try_into().unwrap();
    out.chunks(8).map(entry).collect()
}

/// What each call of a list returns.
fn returns<C: Clone + Into<Call>>(plan: &[u8], list: &[C]) -> Vec<u32> {
    returns_blocking(plan, &[], list)
}

/// What each call of a list returns with these nodes blocked.
fn returns_blocking<C: Clone + Into<Call>>(plan: &[u8], blocked: &[usize], list: &[C]) -> Vec<u32> {
    let calls: Vec<Call> = list.iter().cloned().map(C::into).collect();
    let afters = replay(plan, blocked, &calls, vec![7; 400], by_both);
    let mut returned = afters.iter().map(|after| after.returned);
    assert_eq!(returned.next(), Some(0), "fresh");
    returned.collect()
}

fn listed(plan: &[u8]) -> String {
    let mut out = vec![7; LISTING_LEN];
    let len = make(&Call::Listing, plan, &mut out) - 256;
    out.truncate(len as usize);
    String::from_utf8(out).unwrap()
}

fn fields(plan: &[u8]) -> Plan {
    accept(plan).unwrap()
}

fn shown(plan: &Plan) -> String {
    text::show(&plan.bytes()).unwrap()
}
