//! What a text says stands beside what was made of it: on the page, in columns, in JSON and in plays.
mod common;

use common::json::{parse, Value};
use common::{run, run_with};

const TEXT: &str = "const B = 2\nthread p\n  top = load x\n  if top == B goto end\n  assert top != B\nend:\n  store x B\nthread q\n  store x B\n  fail\n";

#[test]
fn on_the_page() {
    let page = run_with(&["show", "-", "--html", "-"], TEXT.as_bytes()).out;
    assert!(page.contains("<title>standard input: executions under sequential consistency</title>"), "{page}");
    assert!(page.contains("<h1>standard input <span class=\"model\">under sequential consistency</span></h1>"));
    for line in [
        "   3  top = load x\n",
        "   4  if top == B goto end  if top != 2 skip 1\n",
        "                            if top != 3 skip 2\n",
        "      end:\n",
        "   7  store x B             store x 2</pre>",
        "  10  fail",
    ] {
        assert!(page.contains(line), "{line} in {page}");
    }
    assert!(page.contains("<br/><span class=\"own\">7 | store x B</span></div></td>"), "{page}");
    let tso = run_with(&["show", "-", "--html", "-", "--model", "tso"], TEXT.as_bytes()).out;
    assert!(tso.contains("executions under total store order</title>"));
    let file = run(&["show", "examples/whole.hex", "--html", "-"]).out;
    assert!(file.contains("<pre>store x0 1</pre>") && !file.contains("class=\"own\""), "a program file has no other source");
    assert!(
        page.contains("&amp;").eq(&false)
            && run_with(&["show", "-", "--html", "-"], TEXT.replace("== B", "<= B").as_bytes())
                .out
                .contains("if top &lt;= B goto end")
    );
}

#[test]
fn in_columns_json_and_plays() {
    let shown = run_with(&["show", "-", "000001"], TEXT.as_bytes()).out;
    assert!(shown.contains("store x = 2            7 | store x B\n") || shown.contains("7 | store x B\n"), "{shown}");
    assert!(shown.contains("10 | fail\n") && shown.contains("3 | top = load x\n"), "{shown}");
    let play = run_with(&["force", "-", "--hostile", "q", "--play"], TEXT.as_bytes()).out;
    assert!(play.contains("9 | store x B\n"), "{play}");
    let object = parse(run_with(&["show", "-", "000001", "--json"], TEXT.as_bytes()).out.trim_end());
    let Some(Value::List(steps)) = object.get("steps") else { panic!("{object:?}") };
    assert_eq!(
        (steps[1].get("line"), steps[1].get("statement")),
        (Some(&Value::Number(7)), Some(&Value::Text("store x B".to_string())))
    );
    let object = parse(run(&["show", "examples/whole.hex", "000102", "--json"]).out.trim_end());
    let Some(Value::List(steps)) = object.get("steps") else { panic!("{object:?}") };
    assert_eq!((steps[0].get("line"), steps[0].get("statement")), (Some(&Value::Null), Some(&Value::Null)));
}
