//! The commands, each with its words, its options and an example.
use super::command::Command;
use super::count::{BY, CLASSES};
use super::expected::LIMIT;
use super::lent::MEMORY;
use super::models::{FOR_MODEL, MODEL};
use super::opt::Opt;
use super::outcomes::{COUNT, REGISTERS};
use super::piece::{AFTER, JOBS_OPTION, UNTIL};
use super::places::{FROM, TO};
use super::reply::JSON;
use super::violation::FEWEST;
use super::{
    asm, check, count, covers, cuts, disasm, fences, force, graph, join, judge, list, litmus, outcomes, rank, robust, sample,
    show, test, users, violation, x86,
};

const SHOW: Opt =
    Opt { name: "--show", value: None, about: "the whole execution in two columns, and from where its failure comes" };
const WHERE: Opt = Opt {
    name: "--where",
    value: Some("CONDITION"),
    about: "only these, and status 1 where some execution ends so: 'tail=2 & T2.r1!=0'; also fails, T2.fails, |, !, ( )",
};
const REMARKS: Opt = Opt { name: "--remarks", value: None, about: "with the text's names and remark lines, as remarks" };
const SHOW_OPTIONS: &[Opt] = &[
    MODEL,
    FROM,
    TO,
    Opt { name: "--only", value: Some("failing"), about: "only those that fail" },
    Opt { name: "--by", value: Some("time|thread"), about: "the left column by time, or one thread after the other" },
    Opt { name: "--html", value: Some("OUT"), about: "one page with the graphs drawn, into this file; - is standard output" },
    Opt { name: "--svg", value: Some("DIR"), about: "a drawing of each execution, into this folder" },
    MEMORY,
    JSON,
];

pub const COMMANDS: [Command; 23] = [
    Command {
        name: "list",
        words: "FILE..",
        about: "every listed schedule, a line each: 50, 01 if it fails else 00, the steps; last 51 and the two counts",
        options: &[JOBS_OPTION, MODEL, AFTER, UNTIL, FROM, TO, MEMORY, JSON],
        example: "tarczolin list examples/whole.hex --jobs 2",
        run: list::run,
    },
    Command {
        name: "count",
        words: "FILE..",
        about: "how many schedules are listed, and how many of these fail",
        options: &[CLASSES, BY, MEMORY, JOBS_OPTION, MODEL, AFTER, UNTIL, FROM, TO, JSON],
        example: "tarczolin count examples/*.hex",
        run: count::run,
    },
    Command {
        name: "violation",
        words: "FILE..",
        about: "the first listed schedule that fails, or none",
        options: &[SHOW, FEWEST, MEMORY, JOBS_OPTION, MODEL, LIMIT, JSON],
        example: "tarczolin violation --show examples/queue-broken.asm",
        run: violation::run,
    },
    Command {
        name: "force",
        words: "FILE",
        about: "can the hostile threads force a failure, stepping in turn with the others? who can, and the first step; by sequential \
                consistency",
        options: force::OPTIONS,
        example: "tarczolin force examples/queue-broken.asm --hostile first,second --play",
        run: force::run,
    },
    Command {
        name: "outcomes",
        words: "FILE..",
        about: "each different final memory and whether it fails, and the first listed execution that ends so; with registers, or how many end \
                so, by a walk over the list",
        options: &[WHERE, REGISTERS, COUNT, MEMORY, JOBS_OPTION, MODEL, LIMIT, JSON],
        example: "tarczolin outcomes examples/queue-broken.asm --where 'consumer.item = 0 & tail = 3'",
        run: outcomes::run,
    },
    Command {
        name: "covers",
        words: "OLD NEW",
        about: "can NEW end as OLD cannot? covered, or the first execution of NEW that does, and all outcomes of OLD; by sequential \
                consistency, or each under the model that --under says",
        options: covers::OPTIONS,
        example: "tarczolin covers examples/queue-repaired.asm examples/queue-broken.asm",
        run: covers::run,
    },
    Command {
        name: "robust",
        words: "FILE..",
        about: "is every execution under total store order one of sequential consistency? robust, or the first that is not, and its circle",
        options: &[JSON],
        example: "tarczolin robust examples/store-load-pair.hex",
        run: robust::run,
    },
    Command {
        name: "x86",
        words: "FILE..",
        about: "what does x86 add to sequential consistency? nothing, executions alone, or an outcome: the first execution of each kind",
        options: x86::OPTIONS,
        example: "tarczolin x86 examples/suite/dekker.asm",
        run: x86::run,
    },
    Command {
        name: "show",
        words: "FILE [SCHEDULE]",
        about: "listed executions, or one, in two columns: the steps, and the write that each read saw",
        options: SHOW_OPTIONS,
        example: "tarczolin show examples/queue-broken.asm 00000102020201",
        run: show::run,
    },
    Command {
        name: "check",
        words: "FILE..",
        about: "is this a program? accepted and what it uses of what there is, or why not; and does what it expects hold?",
        options: &[FOR_MODEL, LIMIT, JSON],
        example: "tarczolin check examples/whole.hex",
        run: check::run,
    },
    Command {
        name: "test",
        words: "PATH..",
        about: "does what the files expect hold? files and folders (.asm, .hex, .litmus), each under the models that it speaks of: a line each, \
                and one exit status",
        options: test::OPTIONS,
        example: "tarczolin test examples/suite tests/litmus --jobs 2",
        run: test::run,
    },
    Command {
        name: "fences",
        words: "FILE",
        about: "where fences must stand so that under total store order no assertion fails, and nothing that the file forbids happens: all sets \
                of the fewest, or that none does it",
        options: fences::OPTIONS,
        example: "tarczolin fences examples/suite/dekker.asm --write repaired.asm",
        run: fences::run,
    },
    Command {
        name: "graph",
        words: "FILE SCHEDULE",
        about: "the graph of a full schedule, as a text, for Graphviz, or drawn",
        options: &[
            MODEL,
            Opt { name: "--dot", value: None, about: "for Graphviz" },
            Opt { name: "--svg", value: None, about: "drawn" },
            JSON,
        ],
        example: "tarczolin graph examples/store-load-pair.hex 00000101",
        run: graph::run,
    },
    Command {
        name: "judge",
        words: "FILE GRAPH",
        about: "can this graph happen under sequential consistency? yes with the least schedule that makes it, or no and why",
        options: &[JSON],
        example: "tarczolin graph examples/store-load-pair.hex 00000101 | tarczolin judge examples/store-load-pair.hex -",
        run: judge::run,
    },
    Command {
        name: "rank",
        words: "FILE SCHEDULE",
        about: "the place of a full schedule in the list, or that it is not listed, and how many listed ones are smaller",
        options: &[MODEL, MEMORY, JSON],
        example: "tarczolin rank examples/queue-broken.asm 00000102020201",
        run: rank::run,
    },
    Command {
        name: "sample",
        words: "FILE N",
        about: "N members drawn from the whole list, each as likely as any other, with their places; by sequential consistency",
        options: sample::OPTIONS,
        example: "tarczolin sample examples/queue-broken.asm 3 --seed 7",
        run: sample::run,
    },
    Command {
        name: "cuts",
        words: "FILE N",
        about: "N schedules that cut the list into pieces of equal numbers of members, for list --after A --until B on more than one \
                machine",
        options: &[cuts::BY, MODEL, MEMORY, JSON],
        example: "tarczolin cuts examples/queue-broken.asm 4",
        run: cuts::run,
    },
    Command {
        name: "join",
        words: "PIECE..",
        about: "pieces of a list as list --after A --until B printed them, put together to the whole list",
        options: &[JSON],
        example: "tarczolin join piece-1 piece-2",
        run: join::run,
    },
    Command {
        name: "users",
        words: "",
        about: "four callers share the explorer: a line open CALLER FILE, ask CALLER, serve, close CALLER or count CALLER on standard input \
                is answered by a line; so is set, return or forget CALLER NAME, marks to come back to, a name being the digits of 1 to 8 \
                bytes; raw CALLER FIELD HEX damages a record",
        options: &[JSON],
        example: "tarczolin users < examples/two-people.users",
        run: users::run,
    },
    Command {
        name: "asm",
        words: "FILE..",
        about: "from the text form to a program file, a fence as a fetch and add of zero",
        options: &[REMARKS, FOR_MODEL, JSON],
        example: "tarczolin asm examples/queue-broken.asm > queue.hex",
        run: asm::run,
    },
    Command {
        name: "disasm",
        words: "FILE..",
        about: "from a program file to the text form, with its names and remark lines",
        options: &[JSON],
        example: "tarczolin disasm examples/whole.hex",
        run: disasm::run,
    },
    Command {
        name: "import-litmus",
        words: "FILE..",
        about: "from a litmus test for x86 to the text form, MFENCE as fence, its condition or its answers as what is expected",
        options: &[JSON],
        example: "tarczolin import-litmus sb.litmus > sb.asm",
        run: litmus::import,
    },
    Command {
        name: "export-litmus",
        words: "FILE..",
        about: "from a program to a litmus test for x86, fence as MFENCE",
        options: &[JSON],
        example: "tarczolin export-litmus examples/store-load-pair.hex",
        run: litmus::export,
    },
];
