//! All executions of one node, judged on that node alone: the paths of a graph from its point 0.

use std::collections::HashMap;

use crate::model::events::{Event, Statuses};
use crate::model::format::{Plan, POSTCONDITION};
use crate::model::literal::Literal;

pub struct Graph {
    pub points: Vec<Point>,
}

pub struct Point {
    pub statuses: Statuses,
    /// Whether the node is complete here.
    pub completed: bool,
    /// The allowed events, and the point after each.
    pub next: Vec<(Event, usize)>,
}

impl Graph {
    /// The executions that have no event of these absent nodes.
    pub fn new(plan: &Plan, node: usize, absent: &[usize]) -> Graph {
        let stands = |event: &Event| !absent.contains(&event.node());
        let events: Vec<Event> = Event::under(plan, node).filter(stands).collect();
        let mut points = vec![Point::new(plan, node, Statuses::all_waiting(plan))];
        let mut numbers = HashMap::from([(points[0].statuses.clone(), 0)]);
        let mut at = 0;
        while at < points.len() {
            for &event in &events {
                if points[at].statuses.check(plan, node, event).is_ok() {
                    let after = points[at].statuses.after(event);
                    let number = *numbers.entry(after.clone()).or_insert(points.len());
                    if number == points.len() {
                        points.push(Point::new(plan, node, after));
                    }
                    points[at].next.push((event, number));
                }
            }
            at += 1;
        }
        Graph { points }
    }

    /// Whether at some point a task with this postcondition runs, and one with the opposite.
    pub fn opposed_at_once(&self, plan: &Plan, literal: Literal) -> bool {
        self.points.iter().any(|point| {
            let runs_one_with = |literal| {
                let mut running = point.statuses.running(plan);
                running.any(|task| plan.has(task, POSTCONDITION, literal))
            };
            runs_one_with(literal) && runs_one_with(literal.opposite())
        })
    }
}

impl Point {
    fn new(plan: &Plan, node: usize, statuses: Statuses) -> Point {
        let completed = statuses.complete(plan, node);
        Point {
            statuses,
            completed,
            next: Vec::new(),
        }
    }
}
