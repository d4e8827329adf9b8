//! Plans whose root's children have other numbers.

use crate::model::format::{Order, Plan};
use crate::tools::random::Random;

/// The plan numbered by this sequence of the root's children: the root, then the nodes under each
/// of them, in the order that they had. What was said of the first is said of node 1 now.
pub fn numbered_by(plan: &Plan, sequence: &[usize]) -> Plan {
    let nodes = 0..plan.nodes.len();
    let under = |&child: &usize| {
        nodes
            .clone()
            .filter(move |&node| plan.is_under(node, child))
    };
    let numbers: Vec<usize> = [0]
        .into_iter()
        .chain(sequence.iter().flat_map(under))
        .collect();
    plan.numbered(&numbers)
}

/// The plan with the root's children in other places, and with some of the orders between them,
/// none of which falls. If it was CLEAR by its orders, it is now under a sequence.
pub fn disordered(random: &mut Random, plan: &Plan) -> Plan {
    let mut places: Vec<usize> = plan.children(0).collect();
    random.shuffle(&mut places);
    let mut plan = numbered_by(plan, &places);
    let rarity = random.within(1, 8);
    let mut kept = |order: &Order| order.earlier < order.later && random.below(rarity) == 0;
    let of_root = |order: &Order| plan.nodes[usize::from(order.earlier)].parent == 0;
    plan.orders.retain(|order| !of_root(order) || kept(order));
    plan
}

#[cfg(test)]
mod tests {
    use super::*;
    use crate::model::rules::refusal;
    use crate::model::sequence::{children, sequence};
    use crate::tools::generate::clear::clear_plan;
    use crate::tools::generate::{Shape, LIMITS};

    #[test]
    fn is_valid_and_has_a_sequence() {
        let mut random = Random::new(5);
        for shape in [Shape::SEVEN, Shape::DEEP, Shape::EVEN] {
            for _ in 0..20 {
                let clear = clear_plan(&mut random, LIMITS, shape);
                let plan = disordered(&mut random, &clear);
                assert_eq!(refusal(&plan.bytes()), 0, "{plan:?}");
                let few = children(&plan).is_ok() && plan.children(0).count() < 6;
                assert!(!few || sequence(&plan).is_ok(), "{plan:?}");
            }
        }
    }
}
