//! Solomon's instances as sheets. The unit is a tenth of Solomon's: distances are Euclidean, truncated to one decimal, and times are the same numbers. When the depot is due is the duration limit, which in the Rust is the latest return to the depot.
use crate::word::{ended, word};

struct Node {
    x: f64,
    y: f64,
    demand: u32,
    ready: u32,
    due: u32,
    service: u32,
}

/// The instance of a file, cut to its first `customers`, with its tour by number, by due time and by ready time.
pub fn sheets(text: &str, customers: usize) -> Vec<Vec<u32>> {
    let capacity = numbers(text.lines().nth(4).expect("the vehicles"))[1] as u32;
    let mut nodes: Vec<Node> = text.lines().skip(9).filter_map(node).collect();
    nodes.truncate(customers + 1);
    let calls = || (1..nodes.len()).collect::<Vec<usize>>();
    let mut by_due = calls();
    by_due.sort_by_key(|&c| nodes[c].due);
    let mut by_ready = calls();
    by_ready.sort_by_key(|&c| nodes[c].ready);
    let tours = [calls(), by_due, by_ready];
    let breaks = [None, Some([2_000, 4_000, 300])];
    let all = tours.iter().flat_map(|tour| {
        let nodes = &nodes;
        breaks
            .iter()
            .map(move |rest| sheet(nodes, capacity, tour, rest))
    });
    all.collect()
}

fn numbers(line: &str) -> Vec<f64> {
    line.split_whitespace()
        .filter_map(|n| n.parse().ok())
        .collect()
}

fn node(line: &str) -> Option<Node> {
    let n = numbers(line);
    (n.len() == 7).then(|| Node {
        x: n[1],
        y: n[2],
        demand: n[3] as u32,
        ready: 10 * n[4] as u32,
        due: 10 * n[5] as u32,
        service: 10 * n[6] as u32,
    })
}

fn leg(a: &Node, b: &Node) -> u32 {
    (10.0 * (a.x - b.x).hypot(a.y - b.y)).floor() as u32
}

fn sheet(nodes: &[Node], capacity: u32, tour: &[usize], rest: &Option<[u32; 3]>) -> Vec<u32> {
    let mut words = vec![word(1, nodes.len() as u32), word(2, capacity), word(3, 0)];
    words.push(word(5, nodes[0].due));
    words.extend(rest.iter().flatten().map(|&n| word(6, n)));
    for n in &nodes[1..] {
        words.extend([
            word(7, n.demand),
            word(8, n.service),
            word(9, n.ready),
            word(0xA, n.due),
        ]);
    }
    words.extend(
        nodes
            .iter()
            .flat_map(|a| nodes.iter().map(move |b| word(0xC, leg(a, b)))),
    );
    words.extend(tour.iter().map(|&c| word(0xE, c as u32)));
    ended(words)
}
