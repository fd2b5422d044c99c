//! `graphs SOURCE..`: how long the graphs of each source take to be made, and how large they are: that of its instructions with each call a
//! copy, and that of its blocks.
use c_graph::{Graph, Origin};
use lv_base::Model;
use rstd::alloc::Global;
use std::time::Instant;

fn tell(what: &str, graph: &Graph, took: f64) {
    let operations: usize = graph.edges().iter().map(|edge| edge.ops.as_slice().len()).sum();
    let saved = graph.cells().iter().filter(|cell| matches!(cell.origin, Origin::Saved)).count();
    let left: std::collections::HashSet<u32> = graph.edges().iter().map(|edge| edge.from.0).collect();
    println!(
        "{what} nodes {} with-edges {} edges {} operations {operations} cells {} saved {saved} terms {} seconds {took:.3}",
        graph.nodes().len(),
        left.len(),
        graph.edges().len(),
        graph.cells().len(),
        graph.terms().count()
    );
}

fn main() {
    for name in std::env::args().skip(1) {
        let source = std::fs::read(&name).expect("a source that can be read");
        let begun = Instant::now();
        let examined = match source_graphs::examined(Global, &source, Model::Lp64) {
            Ok(examined) => examined,
            Err(fail) => {
                println!("refused {fail:?} seconds {:.3}", begun.elapsed().as_secs_f64());
                continue;
            }
        };
        println!("front seconds {:.3}", begun.elapsed().as_secs_f64());
        let begun = Instant::now();
        let built = cfg_build::build(Global, &examined).map(|it| it.graphs().len());
        println!("build {built:?} seconds {:.3}", begun.elapsed().as_secs_f64());
        let begun = Instant::now();
        match source_graphs::whole_graph(Global, &examined) {
            Ok(graph) => {
                tell("whole", &graph, begun.elapsed().as_secs_f64());
                let begun = Instant::now();
                let blocks = block_join::join_blocks(Global, graph).ok().expect("memory");
                tell("blocks", &blocks, begun.elapsed().as_secs_f64());
            }
            Err(fail) => println!("refused {fail:?} seconds {:.3}", begun.elapsed().as_secs_f64()),
        }
    }
}
