//! Lengths, longest waits and the order of lines.

use std::cmp::Ordering;

use reference::model::format::{Order, Plan, Sizes, ALL_OF, TASK};
use reference::tools::generate::{alike, any_plan};
use reference::tools::random::Random;

use crate::{listed, plan, shown};

/// The greatest wait plus length, not the greatest wait plus the greatest length.
#[test]
fn length_of_an_all_of_group() {
    let text = "flags 1\n0 ROOT all-of\n1 A--- task 10 under 0\n2 C--- task 1 under 0\n\
         3 Z--- task 1 under 0\norder 2 3\n";
    assert_eq!(listed(&plan(text)), "CLEAR 10\nZ--- 1\nA--- 0\nC--- 0\n");
}

/// Waits add up from the root down; an any-of group, and an optional one, is as long as its longest
/// child and adds no wait; of two earlier nodes the later end counts.
#[test]
fn nested_groups() {
    let text = "flags 1\n0 ROOT all-of\n1 A--- task 7 under 0\n2 GRP- all-of under 0\n\
         3 B--- task 20 under 2\n4 PICK any-of under 2\n5 C--- task 5 under 4\n\
         6 D--- task 100 under 4\n7 E--- task 2 under 0\n8 F--- task 1 under 0\n\
         9 G--- task 3 under 0\norder 1 2\norder 2 8\norder 3 4\norder 7 8\norder 8 9\n";
    let lines = "CLEAR 131\nG--- 128\nF--- 127\nC--- 27\nD--- 27\nB--- 7\nA--- 0\nE--- 0\n";
    assert_eq!(listed(&plan(text)), lines);
    assert_eq!(listed(&plan(&text.replace("any-of", "optional"))), lines);
}

/// The names of the lines of an any-of group of tasks with these names, which all wait 0.
fn lined_up(names: &[&str]) -> Vec<String> {
    let mut text = String::from("flags 1\n0 PICK any-of\n");
    for (node, name) in (1..).zip(names) {
        text += &format!("{node} {name} task 1 under 0\n");
    }
    let listed = listed(&plan(&text));
    let (first, lines) = listed.split_once('\n').unwrap();
    assert_eq!(first, "CLEAR 1");
    let name = |line: &str| line.strip_suffix(" 0").unwrap().to_string();
    lines.lines().map(name).collect()
}

/// Equal waits: by name in byte order, whatever the nodes.
#[test]
fn ties() {
    assert_eq!(lined_up(&["ZZZZ", "AAAA"]), ["AAAA", "ZZZZ"]);
    // The last character alone, and the first before all others.
    assert_eq!(
        lined_up(&["BUOC", "BUOA", "BUOB"]),
        ["BUOA", "BUOB", "BUOC"]
    );
    assert_eq!(lined_up(&["BAAA", "AZZZ"]), ["AZZZ", "BAAA"]);
    // "-" before digits before letters, at each place.
    for place in 0..4 {
        let name = |c: char| {
            let mut name = String::from("MMM");
            name.insert(place, c);
            name
        };
        let names = ['A', '9', '-', 'Z', '0'].map(name);
        let want = ['-', '0', '9', 'A', 'Z'].map(name);
        assert_eq!(lined_up(&names.each_ref().map(String::as_str)), want);
    }
    // Names may be equal.
    assert_eq!(
        lined_up(&["SAME", "SAME", "AAAA", "SAME", "SAME"]),
        ["AAAA", "SAME", "SAME", "SAME", "SAME"]
    );
}

/// A longer wait comes before any name.
#[test]
fn waits_before_names() {
    let text = "flags 1\n0 ROOT all-of\n1 AAAA task 1 under 0\n2 ZZZZ task 255 under 0\n\
         3 BBBB task 1 under 0\n4 ---- task 0 under 0\norder 1 2\norder 2 3\n";
    let lines = "CLEAR 257\nBBBB 256\nZZZZ 1\n---- 0\nAAAA 0\n";
    assert_eq!(listed(&plan(text)), lines);
}

/// The longest plan in minutes: 127 tasks of a week, one after another.
#[test]
fn longest() {
    let mut plan = Plan::flat(1, 128);
    for node in &mut plan.nodes[1..] {
        node.minutes = 10_080;
    }
    for later in 2..128 {
        plan = plan.order(later - 1, later);
    }
    let text = listed(&plan.bytes());
    assert!(text.starts_with("CLEAR 1280160\nTASK 1270080\nTASK 1260000\n"));
    assert!(text.ends_with("\nTASK 10080\nTASK 0\n"));
    assert_eq!(text.lines().count(), 128);
    assert!(text.len() <= 1_666);
}

/// Lengths and waits in 01's words, by calls that never keep a result.
fn length(plan: &Plan, node: usize) -> u32 {
    let children = plan.children(node);
    let ends = children.map(|child| match plan.nodes[node].kind {
        ALL_OF => wait_within(plan, child) + length(plan, child),
        _ => length(plan, child),
    });
    match plan.nodes[node].kind {
        TASK => u32::from(plan.nodes[node].minutes),
        _ => ends.max().unwrap(),
    }
}

fn wait_within(plan: &Plan, node: usize) -> u32 {
    let into = |order: &&Order| usize::from(order.later) == node;
    let earlier = plan
        .orders
        .iter()
        .filter(into)
        .map(|order| usize::from(order.earlier));
    let ends = earlier.map(|node| wait_within(plan, node) + length(plan, node));
    ends.max().unwrap_or(0)
}

fn longest_wait(plan: &Plan, node: usize) -> u32 {
    let above = plan.parent(node).map(|parent| longest_wait(plan, parent));
    wait_within(plan, node) + above.unwrap_or(0)
}

/// The order of two lines in 02's words, case by case.
fn before(plan: &Plan, a: usize, b: usize) -> Ordering {
    let (wait_a, wait_b) = (longest_wait(plan, a), longest_wait(plan, b));
    if wait_a != wait_b {
        return wait_b.cmp(&wait_a);
    }
    let names = plan.nodes[a].name.iter().zip(&plan.nodes[b].name);
    match names.into_iter().find(|(x, y)| x != y) {
        Some((x, y)) => x.cmp(y),
        None => a.cmp(&b),
    }
}

#[test]
fn random_plans() {
    let mut random = Random::new(61);
    let most = Sizes {
        nodes: 14,
        conditions: 10,
        orders: 16,
        flags: 4,
    };
    for _ in 0..2_000 {
        let mut plan = any_plan(&mut random, most);
        if random.below(2) == 0 {
            alike(&mut random, &mut plan);
        }
        let text = listed(&plan.bytes());
        let mut lines = text.lines();
        let (_, found) = lines.next().unwrap().split_once(' ').unwrap();
        assert_eq!(found, length(&plan, 0).to_string(), "{}", shown(&plan));
        let mut tasks: Vec<usize> = plan.tasks().collect();
        tasks.sort_by(|&a, &b| before(&plan, a, b));
        let line = |&task: &usize| {
            let name = String::from_utf8_lossy(&plan.nodes[task].name);
            format!("{name} {}", longest_wait(&plan, task))
        };
        let want: Vec<String> = tasks.iter().map(line).collect();
        assert_eq!(lines.collect::<Vec<_>>(), want, "{}", shown(&plan));
    }
}
