//! The order of starts in a state (02, 107).

use crate::model::events::{Event, Statuses};
use crate::model::format::{number, Plan};

/// For each node 0 if it is not started, else the place of its start among the accepted starts,
/// from 1.
#[derive(Clone, Debug, PartialEq, Eq, Hash)]
pub struct Places(pub Vec<u16>);

impl Places {
    pub fn none(plan: &Plan) -> Places {
        Places(vec![0; plan.nodes.len()])
    }

    /// What the bytes say, whether or not it fits any statuses.
    pub fn read(bytes: &[u8]) -> Places {
        Places(bytes.chunks(2).map(number).collect())
    }

    pub fn bytes(&self) -> Vec<u8> {
        self.0
            .iter()
            .flat_map(|place| place.to_le_bytes())
            .collect()
    }

    /// No node that is not started has a place, and the started tasks have each of 1 to their
    /// count exactly once.
    pub fn fit(&self, statuses: &Statuses) -> bool {
        let nodes = 0..self.0.len();
        let (started, others): (Vec<usize>, Vec<usize>) =
            nodes.partition(|&node| statuses.started(node));
        let mut taken: Vec<u16> = started.iter().map(|&task| self.0[task]).collect();
        taken.sort_unstable();
        let in_full = (1..).zip(taken).all(|(wanted, place)| place == wanted);
        in_full && others.iter().all(|&node| self.0[node] == 0)
    }

    /// The tasks that have a place, in the order of their starts.
    pub fn in_order(&self) -> Vec<usize> {
        let nodes = 0..self.0.len();
        let mut tasks: Vec<usize> = nodes.filter(|&node| self.0[node] != 0).collect();
        tasks.sort_by_key(|&task| self.0[task]);
        tasks
    }

    /// A start takes the next place, a finish or a skip none.
    pub fn after(&self, event: Event) -> Places {
        let mut after = self.clone();
        if let Event::Start(task) = event {
            let taken = u16::try_from(self.in_order().len()).expect("at most 128 nodes");
            after.0[task] = taken + 1;
        }
        after
    }
}

#[cfg(test)]
mod tests {
    use super::*;
    use crate::model::events::Status::{Done, Running, Skipped, Waiting};

    #[test]
    fn bytes_and_places_agree() {
        let bytes = [0, 0, 1, 0, 0, 1, 255, 255];
        let places = Places(vec![0, 1, 256, 65_535]);
        assert_eq!(Places::read(&bytes), places);
        assert_eq!(places.bytes(), bytes);
    }

    /// 02's words by counting, for all statuses of three nodes and these places at each.
    #[test]
    fn fits_by_counting() {
        let mut fitting = 0;
        for [a, b, c] in triples([Waiting, Skipped, Running, Done]) {
            let statuses = Statuses(vec![a, b, c]);
            let started = |node: &usize| [Running, Done].contains(&statuses.0[*node]);
            let count = (0..3).filter(started).count() as u16;
            for places in triples([0, 1, 2, 3, 4, 257]) {
                let having = |k| (0..3).filter(started).filter(|&n| places[n] == k).count();
                let once = (1..=count).all(|k| having(k) == 1);
                let others = (0..3).filter(|node| !started(node)).all(|n| places[n] == 0);
                assert_eq!(Places(places.to_vec()).fit(&statuses), once && others);
                fitting += usize::from(once && others);
            }
        }
        // All in 8 statuses: none started; one of 3; two of 3, in 2 orders; three, in 6.
        assert_eq!(fitting, 8 * (1 + 3 + 3 * 2 + 6));
    }

    fn triples<T: Copy, const N: usize>(of: [T; N]) -> impl Iterator<Item = [T; 3]> {
        let pairs = of.into_iter().flat_map(move |a| of.map(|b| (a, b)));
        pairs.flat_map(move |(a, b)| of.map(|c| [a, b, c]))
    }

    #[test]
    fn order_of_starts() {
        let mut places = Places(vec![0; 4]);
        for event in [3, 1, 2].map(Event::Start) {
            places = places.after(event);
        }
        assert_eq!(places, Places(vec![0, 2, 3, 1]));
        assert_eq!(places.in_order(), [3, 1, 2]);
        assert_eq!(places.after(Event::Finish(1)), places);
        assert_eq!(places.after(Event::Skip(0)), places);
    }
}
