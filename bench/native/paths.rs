//! `paths SOURCE EDGES..`: for each number of edges the first path of so many or more that leads from the entry to the last error of the
//! graph of the source's blocks: how long its clauses, their solving, and the formulas of its cuts take, each apart.
//! `paths --dimacs SOURCE EDGES` prints the clauses of that path as a DIMACS text instead.
use c_graph::{EdgeId, Graph, Node};
use cdcl_solver::Answer;
use lv_base::Model;
use rstd::alloc::Global;
use std::time::Instant;

const LEARN: u64 = 10_000_000;

// For each number of edges the nodes that are reached by so many, each by the last edge of a path.
fn layers(graph: &Graph, edges: usize) -> Vec<Vec<Option<u32>>> {
    let nodes = graph.nodes().len();
    let mut found = vec![vec![None; nodes]];
    found[0][graph.entry().0 as usize] = Some(u32::MAX);
    for _ in 0..edges {
        let mut next = vec![None; nodes];
        for (number, edge) in graph.edges().iter().enumerate() {
            if found[found.len() - 1][edge.from.0 as usize].is_some() {
                next[edge.to.0 as usize] = Some(number as u32);
            }
        }
        found.push(next);
    }
    found
}

// The path of so many edges to an error, if there is one.
fn path_of(graph: &Graph, layers: &[Vec<Option<u32>>], edges: usize) -> Option<Vec<u32>> {
    let mut node = (0..graph.nodes().len())
        .rfind(|it| matches!(graph.nodes()[*it], Node::Error(_, _)) && layers[edges][*it].is_some())?;
    let mut path = Vec::new();
    for layer in (1..=edges).rev() {
        let edge = layers[layer][node]?;
        path.push(edge);
        node = graph.edges()[edge as usize].from.0 as usize;
    }
    path.reverse();
    Some(path)
}

fn measure(graph: &Graph, numbers: &[u32]) {
    let mut path = rstd::Vec::new(Global);
    for number in numbers {
        let _ = path.push(EdgeId(*number));
    }
    let begun = Instant::now();
    let query = path_formula::path_clauses(Global, graph, &path).expect("the clauses pass the limit");
    let made = Instant::now();
    let answer = cdcl_solver::solve(Global, &query.clauses, LEARN).ok().expect("the log passes the limit");
    let solved = Instant::now();
    let (chains, formulas) = match answer {
        Answer::Unsat(log) => {
            let mut terms = graph.terms().copy().expect("memory");
            let formulas = interpolants::chain(Global, graph, &path, &query, &log, &mut terms).expect("memory");
            (log.chains().len(), formulas.len())
        }
        _ => (0, 0),
    };
    let cut = Instant::now();
    println!(
        "{} edges, {} clauses of {} literals, {} chains, {} formulas: clauses {:.3} s, solving {:.3} s, formulas {:.3} s",
        numbers.len(),
        query.clauses.len(),
        query.clauses.literals(),
        chains,
        formulas,
        (made - begun).as_secs_f64(),
        (solved - made).as_secs_f64(),
        (cut - solved).as_secs_f64()
    );
}

// The clauses of a path as a text; variable n is number n + 1.
fn print_dimacs(graph: &Graph, numbers: &[u32]) {
    let mut path = rstd::Vec::new(Global);
    for number in numbers {
        let _ = path.push(EdgeId(*number));
    }
    let clauses = path_formula::path_clauses(Global, graph, &path).expect("the clauses pass the limit").clauses;
    let rows = || (0..clauses.len()).map(|number| clauses.clause(number));
    let most = rows().flatten().map(|it| it.var + 1).max().unwrap_or(0);
    let mut text = format!("p cnf {most} {}\n", clauses.len());
    for row in rows() {
        for it in row {
            text += &format!("{}{} ", if it.positive { "" } else { "-" }, it.var + 1);
        }
        text += "0\n";
    }
    print!("{text}");
}

fn main() {
    let mut words: Vec<String> = std::env::args().collect();
    let is_text = words[1] == "--dimacs";
    if is_text {
        words.remove(1);
    }
    let source = std::fs::read(&words[1]).expect("the source can't be read");
    let examined = source_graphs::examined(Global, &source, Model::Ilp32).ok().expect("the source is refused");
    let graph = source_graphs::blocks_of(Global, &examined).ok().expect("the source has no graph");
    for word in &words[2..] {
        let edges: usize = word.parse().expect("a number of edges");
        let layers = layers(&graph, edges + 64);
        match (edges..edges + 64).find_map(|it| path_of(&graph, &layers, it)) {
            Some(path) if is_text => print_dimacs(&graph, &path),
            Some(path) => measure(&graph, &path),
            None => println!("no path of {edges} to {} edges leads to an error", edges + 63),
        }
    }
}
