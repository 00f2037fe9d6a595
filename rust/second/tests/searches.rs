//! The stored files of the proved program search_cases: its searches by naive
//! definitions.

/// The most nodes and steps that the program takes.
const NODES: usize = 8;
const STEPS: usize = 16;

/// Which node has a step to which.
type Relation = Vec<Vec<bool>>;

/// The graph of a line: what slices hold at first, the number of nodes, the
/// places, the steps.
fn graph(line: &str) -> Option<Relation> {
    let numbers: Vec<usize> = line.split(',').map(|word| word.parse().unwrap()).collect();
    let nodes = Some(numbers[1]).filter(|&nodes| nodes <= NODES)?;
    let (places, steps) = numbers[2..].split_at(nodes + 1);
    let end = Some(places[nodes]).filter(|&end| end <= STEPS)?;
    let ascends = places.windows(2).all(|pair| pair[0] <= pair[1]);
    if !ascends || steps[..end].iter().any(|&step| step >= nodes) {
        return None;
    }
    let leads = |p: usize, q: usize| steps[places[p]..places[p + 1]].contains(&q);
    Some(
        (0..nodes)
            .map(|p| (0..nodes).map(|q| leads(p, q)).collect())
            .collect(),
    )
}

/// Steps of one relation, then of the other.
fn then(first: &Relation, second: &Relation) -> Relation {
    let nodes = first.len();
    let leads = |p: usize, q: usize| (0..nodes).any(|via| first[p][via] && second[via][q]);
    (0..nodes)
        .map(|p| (0..nodes).map(|q| leads(p, q)).collect())
        .collect()
}

/// Walks of exactly 1, 2, .. steps, up to as many as there are nodes.
fn walks(steps: &Relation) -> Vec<Relation> {
    let longer = |walks: &Relation| Some(then(steps, walks));
    std::iter::successors(Some(steps.clone()), longer)
        .take(steps.len())
        .collect()
}

/// How often a walk from p can take a step from which it cannot return.
fn height(walks: &[Relation], p: usize) -> usize {
    let leads = |p: usize, q: usize| walks.iter().any(|walks| walks[p][q]);
    let below = (0..walks.len()).filter(|&q| leads(p, q) && !leads(q, p));
    below.map(|q| 1 + height(walks, q)).max().unwrap_or(0)
}

fn mark(walks: &[Relation], p: usize) -> usize {
    2 * height(walks, p) + usize::from(walks.iter().any(|walks| walks[p][p]))
}

/// The nodes that the least of the shortest closed walks of q comes to.
fn closed_walk(steps: &Relation, walks: &[Relation], q: usize) -> Vec<usize> {
    let Some(fewest) = walks.iter().position(|walks| walks[q][q]) else {
        return Vec::new();
    };
    let mut nodes = vec![q];
    for left in (0..fewest).rev() {
        let at = *nodes.last().unwrap();
        let next = (0..steps.len()).find(|&p| steps[at][p] && walks[left][p][q]);
        nodes.push(next.unwrap());
    }
    nodes.push(q);
    nodes[1..].to_vec()
}

fn words(numbers: impl IntoIterator<Item = usize>) -> String {
    numbers
        .into_iter()
        .map(|number| format!(" {number}"))
        .collect()
}

fn found(line: &str) -> String {
    let Some(steps) = graph(line) else {
        return " no graph".to_string();
    };
    let walks = walks(&steps);
    let nodes = 0..steps.len();
    let marks = words(nodes.clone().map(|p| mark(&walks, p)));
    let walk = |q: usize| {
        let nodes = closed_walk(&steps, &walks, q);
        format!(";{}{}", words([nodes.len()]), words(nodes))
    };
    marks + &nodes.map(walk).collect::<String>()
}

#[test]
fn search_cases_are_answered_as_stored() {
    let input = include_str!("../../../crates/search_cases/stdin");
    let lines = input.lines().map(|line| match line.starts_with('#') {
        true => format!("{line}\n"),
        false => format!("{line}:{}\n", found(line)),
    });
    let printed: String = lines.collect();
    assert_eq!(include_str!("../../../crates/search_cases/stdout"), printed);
    // The program reads no more.
    assert!(input.len() <= 4_096);
}
