//! A no of the judge is explained, a yes is not: the explanation agrees with the library on random graphs, and fits the graph.
mod common;

use common::{folder, run_with};
use tarczolin::ask;
use tarczolin::graph::{Graph, Order};
use tarczolin::program::Program;
use tarczolin::why::{why, Edge, Why};
use tarczolin_tests::files::text;
use tarczolin_tests::oracle::decode::decode;
use tarczolin_tests::random::program::{frames, ANY, SMALL};
use tarczolin_tests::random::{graph, Random};
use tarczolin_tests::share;

/// A cycle: each edge begins where the one before ends, and stands in the graph.
fn holds(graph: &Graph, cycle: &[Edge]) {
    for (k, edge) in cycle.iter().enumerate() {
        assert_eq!(edge.to, cycle[(k + 1) % cycle.len()].from, "{cycle:?}");
        let writes = || graph.writes.values().find(|writes| writes.contains(&edge.to)).expect("a write");
        let place = |event| writes().iter().position(|write| *write == event);
        match edge.order {
            Order::Program => assert!(edge.from.t == edge.to.t && edge.from.i < edge.to.i, "{edge:?}"),
            Order::ReadsFrom => assert_eq!(graph.reads[&edge.to], Some(edge.from)),
            Order::Coherence => assert!(place(edge.from) < place(edge.to), "{edge:?}"),
            Order::FromReads => {
                let source = graph.reads[&edge.from].map(|source| place(source).expect("a write of the location"));
                assert!(edge.from != edge.to && source < place(edge.to), "{edge:?}");
            }
        }
    }
}

#[test]
fn explained_exactly_where_the_library_says_no() {
    let mut random = Random::new(111);
    let (mut yes, mut misfits, mut cycles) = (0, 0, 0);
    for k in 0..share::of(30_000) {
        let file = text(&frames(&mut random, if k % 2 == 0 { SMALL } else { ANY }));
        let (_, lines) = graph::text(&mut random, &decode(&file).unwrap(), graph::ALL[k % graph::ALL.len()]);
        let Ok(answer) = ask::judge(&file, &lines) else { continue };
        let graph = Graph::of_text(&lines);
        let why = why(&Program::of_accepted(&file), &graph);
        assert_eq!(why.is_none(), answer.is_some(), "{}\n{}\n{why:?}", file.escape_ascii(), lines.escape_ascii());
        match why {
            None => yes += 1,
            Some(Why::Misfit(_)) => misfits += 1,
            Some(Why::Cycle(cycle)) => {
                holds(&graph, &cycle);
                cycles += 1;
            }
        }
    }
    assert!(!share::whole() || [yes, misfits, cycles].iter().all(|n| *n > 300), "{yes} yes, {misfits} misfits, {cycles} cycles");
}

#[test]
fn a_cycle_edge_by_edge() {
    let shown = "\
no
these go in a circle (explained by plain Rust, which is not proved; the answer is):
  T0 #0 (store x0 1) before T0 #1 (r0 = load x1): program order
  T0 #1 (r0 = load x1) before T1 #0 (store x1 1): from reads
  T1 #0 (store x1 1) before T1 #1 (r0 = load x0): program order
  T1 #1 (r0 = load x0) before T0 #0 (store x0 1): from reads
";
    let judge = |graph: &str| run_with(&["judge", "examples/store-load-pair.hex", "-"], graph.as_bytes());
    let ran = judge("400001ffff\n400101ffff\n41000000\n41010100\n");
    assert_eq!((ran.status, ran.out.as_str()), (1, shown));
    let text = folder("why").join("pair.asm");
    std::fs::write(&text, "const ONE = 1\nthread\n  store x ONE\n  n = load y\nthread\n  store y ONE\n  n = load x\n").unwrap();
    let ran = run_with(&["judge", &text.display().to_string(), "-"], b"400001ffff\n400101ffff\n41000000\n41010100\n");
    let own = "  T0 #0 (3 | store x ONE) before T0 #1 (4 | n = load y): program order\n";
    assert!(ran.out.contains(own), "the statements as they are written: {}", ran.out);
    let ran = judge("400001ffff\n41000000\n41010100\n");
    assert!(ran.out.contains("T1 #1 reads, and no 40 line says from where"), "{}", ran.out);
    let ran = judge("400001ffff\n4001010001\n41000000\n41010100\n");
    assert!(ran.out.contains("T1 #1 reads from T0 #1, which does not write"), "{}", ran.out);
    let ran = judge("400001ffff\n4001010000\n41000000\n");
    assert!(ran.out.contains("T1 #0 writes x1, and no 41 line of x1 names it"), "{}", ran.out);
}
