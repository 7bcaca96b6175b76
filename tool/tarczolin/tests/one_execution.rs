//! One execution by its schedule, by time and by thread; graphs drawn; violation by jobs.
mod common;

use common::{folder, run, run_with};
use tarczolin_tests::files::lines;

const QUEUE: &str = "examples/queue-broken.asm";

#[test]
fn by_schedule() {
    let listed = run(&["show", QUEUE, "--from", "2"]).out;
    let second = listed.split("\n\n").next().unwrap().replacen("execution 2:", "execution:", 1) + "\n";
    let ran = run(&["show", QUEUE, "00000102020201"]);
    assert_eq!((ran.status, ran.out.as_str()), (1, second.as_str()));
    assert_eq!(run(&["show", QUEUE, "00", "00", "01", "02", "02", "02", "01"]), ran);
    assert_eq!(run_with(&["show", QUEUE, "-"], b"00000102020201\n"), ran);
    let shown = run(&["violation", "--show", QUEUE]);
    assert!(shown.status == 1 && shown.out.starts_with(&format!("{second}why  ")), "{}", shown.out);
    assert_eq!(run(&["show", "examples/whole.hex", "000102"]).status, 0);
    let refused = run(&["show", QUEUE, "0000"]);
    assert!(refused.status == 2 && refused.err.contains("refusal 21 at step 2"), "{}", refused.err);
    assert!(refused.err.contains("not ended yet are threads second, consumer"), "{}", refused.err);
}

#[test]
fn by_thread() {
    let shown = "\
execution: schedule 00 00 01 02 02 02 01, fails, stands for 2 executions
#0   first     fetch_add tail 1 -> mine = 1, tail = 2  initial              9 | mine = fetch_add tail 1
#1   first     store slot1 = 7                                              11 | store slot1 ITEM
#0   second    fetch_add tail 1 -> mine = 2, tail = 3  first fetch_add #0   16 | mine = fetch_add tail 1
#1   second    store slot2 = 7                                              20 | store slot2 ITEM
#0   consumer  load tail -> filled = 3                 second fetch_add #0  23 | filled = load tail
#1   consumer  load slot1 -> item = 7                  first store #1       25 | item = load slot1
#2   consumer  load slot2 -> item = 0                  initial              28 | item = load slot2
!!   consumer  assert item == ITEM FAILS: item = 0                          29 | assert item == ITEM
memory     tail = 3, slot1 = 7, slot2 = 7
registers  first.mine = 1, second.mine = 2, consumer.filled = 3, consumer.item = 0
";
    assert_eq!(run(&["show", QUEUE, "00000102020201", "--by", "thread"]).out, shown);
    assert!(run(&["show", QUEUE, "--by", "name"]).err.contains("--by takes the word time or thread, not name"));
}

#[test]
fn violation_by_jobs() {
    let late = lines(&format!("01 {} 01 {} 23000000000001", "10000000000001 ".repeat(7), "110000 ".repeat(7)));
    for file in
        [late.clone(), lines("01 110000"), std::fs::read(tarczolin_tests::files::path("examples/queue-broken.hex")).unwrap()]
    {
        let one = run_with(&["violation", "-"], &file);
        for jobs in ["2", "5"] {
            assert_eq!(run_with(&["violation", "-", "--jobs", jobs], &file), one);
        }
    }
}

#[test]
fn graphs_for_graphviz_and_drawn() {
    let dot = run(&["graph", QUEUE, "00000102020201", "--dot"]).out;
    assert!(dot.starts_with("digraph execution {\n") && dot.ends_with("}\n"), "{dot}");
    for line in
        ["label=\"consumer\";", "t2_2 [label=\"#2 load slot2 -> item = 0\", color=red];", "initial -> t2_2", "t2_2 -> t1_1"]
    {
        assert!(dot.contains(line), "{line} in {dot}");
    }
    let svg = run(&["graph", QUEUE, "00000102020201", "--svg"]).out;
    assert!(svg.starts_with("<svg ") && svg.contains("xmlns=\"http://www.w3.org/2000/svg\"") && svg.ends_with("</svg>\n"));
    let folder = folder("drawings");
    let ran = run(&["show", QUEUE, "--svg", &folder.display().to_string()]);
    assert_eq!(ran.status, 1);
    for name in ["1.svg", "2-fails.svg", "6.svg"] {
        assert!(std::fs::read_to_string(folder.join(name)).unwrap().contains(">consumer</text>"), "{name}");
    }
}
