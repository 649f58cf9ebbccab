//! Strongly connected components that have an edge inside.

pub struct Graph {
    edges: Vec<Vec<usize>>,
    /// Scratch for `components`: when each node was found. Between the calls all are outside.
    found: Vec<usize>,
}

const OUTSIDE: usize = usize::MAX;
const FRESH: usize = usize::MAX - 1;
const DONE: usize = usize::MAX - 2;

impl Graph {
    pub fn new(edges: Vec<Vec<usize>>) -> Self {
        let found = vec![OUTSIDE; edges.len()];
        Graph { edges, found }
    }

    /// The components of the graph on `nodes` in which some edge stays (Tarjan's search, without recursion).
    pub fn components(&mut self, nodes: &[usize]) -> Vec<Vec<usize>> {
        let (edges, found) = (&self.edges, &mut self.found);
        nodes.iter().for_each(|x| found[*x] = FRESH);
        let (mut out, mut open, mut count) = (Vec::new(), Vec::new(), 0);
        for &root in nodes {
            if found[root] != FRESH {
                continue;
            }
            // A node, its next edge, and the earliest open node that it reaches.
            let mut path = vec![(root, 0, count)];
            found[root] = count;
            count += 1;
            open.push(root);
            while let Some((x, i, low)) = path.pop() {
                if let Some(&y) = edges[x].get(i) {
                    match found[y] {
                        OUTSIDE | DONE => path.push((x, i + 1, low)),
                        FRESH => {
                            path.push((x, i + 1, low));
                            path.push((y, 0, count));
                            found[y] = count;
                            count += 1;
                            open.push(y);
                        }
                        earlier => path.push((x, i + 1, low.min(earlier))),
                    }
                    continue;
                }
                if let Some(above) = path.last_mut() {
                    above.2 = above.2.min(low);
                }
                if low == found[x] {
                    let start = open.iter().rposition(|y| *y == x).unwrap();
                    let part = open.split_off(start);
                    part.iter().for_each(|y| found[*y] = DONE);
                    if part.len() > 1 || edges[x].contains(&x) {
                        out.push(part);
                    }
                }
            }
        }
        nodes.iter().for_each(|x| found[*x] = OUTSIDE);
        out
    }
}
