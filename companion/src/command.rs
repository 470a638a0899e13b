//! The commands, one row each: name, words, what it says, help, options, and what runs it.

use crate::args::{Given, Opt};
use crate::desk::Desk;
use crate::trouble::Trouble;
use crate::{ask, check, page, sheet, table_commands, try_commands, water};

pub struct Command {
    pub name: &'static str,
    pub usage: &'static str,
    pub says: &'static str,
    pub help: &'static str,
    pub options: &'static [Opt],
    pub run: fn(&mut Desk, &Given) -> Result<(), Trouble>,
}

/// `-o` of every command.
const OUT: Opt = Opt {
    name: "-o",
    value: Some("FILE"),
    says: "the result goes to FILE, when all is done and at once; text where FILE ends in .txt",
};
const KEEP_GOING: Opt =
    Opt { name: "-k", value: None, says: "goes on after a refused action; the status is 1 all the same" };
const LONG: Opt = Opt { name: "-v", value: None, says: "tells what every step changed" };

/// Options of `explore`, with and without a value.
const fn bound(name: &'static str, value: &'static str, says: &'static str) -> Opt {
    Opt { name, value: Some(value), says }
}
const fn flag(name: &'static str, says: &'static str) -> Opt {
    Opt { name, value: None, says }
}
const SEARCH: &[Opt] = &[
    bound("--ask", "NAME,..", "the questions: one-holder, flanked, nearest, stuck, full, ready, or a row's name; the first three where none is named"),
    bound("--joining", "K", "a Join only while fewer than K nodes are wait or ok"),
    bound("--waiting", "K", "a Join only while fewer than K nodes are wait"),
    flag("--in-order", "a Join only after those before it in the plan"),
    flag("--expiries", "every LeaseExpired and GrantExpired too"),
    bound("--states", "N", "stops at so many states"),
    bound("--depth", "N", "stops at so many actions in turn"),
    bound("--memory", "MB", "stops at so much memory; at 4096 where it is not given"),
    bound("--time", "S", "stops after so many seconds; after 3600 where it is not given"),
    flag("--every", "asks for every step on the whole state; else each different step is asked once and remembered (docs/PLANS.md)"),
    bound("--audit", "K", "in one state of K every step is asked again on the whole state, those too that a status or a message's kind forbids (1000; 0: in none)"),
    flag("--core", "tells states apart without routing sets and grants; ends where these would be looked at"),
    bound("--evidence", "DIR", "what is found as table files and actions, DIR/QUESTION/.."),
    flag("--by-driver", "asks the driver, also where the library is linked"),
    flag("--quiet", "nothing on standard error"),
];

/// What every help page ends with.
pub const UNPROVED: &str =
    "Answers (numbers, tables, listings, settled, who covers a key) are the proved code's. This command, its reasons,\n\
     its test for safe to join and its pictures are not proved.";

pub const COMMANDS: &[Command] = &[
    Command {
        name: "new",
        usage: "M=8 L=1 ready IDS [dead IDS] [-o FILE]",
        says: "makes a table: which controllers are ready, which are dead",
        help: "The ids stand in any order, with spaces or commas between them. `ids IDS` in place of `dead IDS` lists all ids in\n\
               slot order instead. Without -o the table is printed as text.",
        options: &[OUT],
        run: table_commands::new,
    },
    Command {
        name: "show",
        usage: "TABLE [-o FILE]",
        says: "a table as text, or as a file with -o",
        help: "A refused table is shown too where its layout can be read; it is written nowhere by -o.",
        options: &[
            OUT,
            Opt { name: "--fields", value: None, says: "every field of the table file, with its offset and bytes" },
            Opt { name: "--bytes", value: None, says: "the table file on standard output, of a refused table too" },
        ],
        run: table_commands::show,
    },
    Command {
        name: "list",
        usage: "TABLE",
        says: "where each waiting lookup travels, with its path",
        help: "One line for each waiting lookup: key, where it waits, who delivers it (`-`: nobody), routings made, for each\n\
               of them `l` where the next node is in the leaf set and `r` where it is in the routing set alone (`-`: no routing), path.",
        options: &[],
        run: ask::list,
    },
    Command {
        name: "who",
        usage: "TABLE [KEY ..]",
        says: "who covers a key; without a key, what each ready node covers",
        help: "Keys that nobody or several cover are named as such.",
        options: &[],
        run: ask::who,
    },
    Command {
        name: "do",
        usage: "TABLE ACTIONS [-k] [-v] [-o FILE]",
        says: "makes actions in turn, tells what each does, and writes the table after them",
        help: "ACTIONS is a file with one action a line, or the actions themselves with commas between them:\n\
               ring do estate.table join 17 at 18 until ready, lookup 80 at 17 -o after.table\n\
               A refused action changes nothing and ends the plan; then nothing is written. With `-o -` the table is printed as\n\
               text in place of the report.",
        options: &[OUT, KEEP_GOING, LONG],
        run: try_commands::play,
    },
    Command {
        name: "why",
        usage: "TABLE [ID | ACTION]",
        says: "why a table is not settled, a node not ready, an action refused",
        help: "The rule of the scope document (01) is named, with the numbers of the table. The status is 0 where there is\n\
               nothing to explain: the table is settled, the node is ready, the action would be done.",
        options: &[],
        run: ask::why,
    },
    Command {
        name: "safe",
        usage: "TABLE",
        says: "whether it is safe to join: nobody is wait, and the clauses hold that joins in turn keep",
        help: "The test of crate join_laws (specs/Safe), as this command reads it. From a table that passes, while nobody joins as another\n\
               is wait, nobody leaves and no probe times out (T-03), no two ready nodes come to cover one key: that is\n\
               proved (docs/CLAIMS.md, Join in turn). The status is 1 where the table does not pass, and what keeps it from passing\n\
               is told.",
        options: &[],
        run: ask::safe,
    },
    Command {
        name: "diff",
        usage: "TABLE TABLE",
        says: "what differs between two tables",
        help: "By the ids of nodes and the words of messages. The status is 1 where they differ.",
        options: &[],
        run: ask::diff,
    },
    Command {
        name: "waiting",
        usage: "TABLE [ID ..]",
        says: "the first waiting message of each node",
        help: "",
        options: &[],
        run: ask::waiting,
    },
    Command {
        name: "check",
        usage: "REHEARSAL",
        says: "checks a contractor's rehearsal: accepted, or the first bad step and what is wrong with it",
        help: "REHEARSAL is a text: `from FILE`, then a line `ACTION => FILE` for each step, with the table that is said to result.\n\
               Files are looked for beside it. `#` begins a comment.",
        options: &[],
        run: check::check,
    },
    Command {
        name: "explore",
        usage: "TABLE PLAN [OPTIONS]",
        says: "searches every order of a join plan: what can go wrong, by the fewest actions",
        help: "Every order of taking messages, of lease requests and of the plan's actions. PLAN has a line for each action: `join NODE at\n\
               SEED`, `lookup KEY at NODE`, `lease expired NODE PARTNER`, `grant expired NODE PARTNER`, and those of docs/SERVICE.md; nodes\n\
               by id, and `any` for a second node is each other one. Each may be done at any time, as often as the step lets it.\n\
               `001 ROW` in place of TABLE PLAN is a row of document 001's table 4.1, with its nodes, plan and property; `001 all` the whole\n\
               table beside 001's, with times.\n\
               Status: 0 all searched and nothing found, 1 found, 3 stopped before the end and nothing found, 2 else.\n\
               Every step is made by the proved code. That every order is met is tested, not proved.",
        options: SEARCH,
        run: by_wrapper,
    },
    Command {
        name: "water",
        usage: "[TABLE RECORDS] [--store FILE]",
        says: "places water records on the settled table, all or none of them",
        help: "RECORDS are comma-separated: key, month, rain, evapotranspiration, runoff, the last three in tenths of a\n\
               millimetre; a first line may name the columns. Without TABLE and RECORDS what the store holds is told.",
        options: &[Opt {
            name: "--store",
            value: Some("FILE"),
            says: "keeps the records in FILE from one run to the next; made where it is not there",
        }],
        run: water::water,
    },
    Command {
        name: "page",
        usage: "TABLE [ACTIONS] [-k] [-o FILE]",
        says: "one page, to open in a browser and to print: the ring, step by step",
        help: "ACTIONS as for `do`. The page needs no network and nothing else. It opens at the first step, or by #last at the last, and\n\
               prints the step that is shown as one A4 sheet, with the checksum of the table file's bytes. A plan with a refused\n\
               action has its page too, which shows why; the status is 1 then.",
        options: &[OUT, KEEP_GOING],
        run: page::page,
    },
    Command {
        name: "print",
        usage: "PAGE [--step N] [-o FILE]",
        says: "prints a page as one A4 sheet (PDF), by the browser chromium",
        help: "Any browser prints the page as well. The last step is printed where none is named.",
        options: &[OUT, Opt { name: "--step", value: Some("N"), says: "the step that is shown; 0 is the table before the plan" }],
        run: sheet::print,
    },
    Command {
        name: "picture",
        usage: "TABLE [-o FILE]",
        says: "the ring as a picture (SVG)",
        help: "",
        options: &[OUT],
        run: table_commands::picture,
    },
];

/// `explore` is a program of its own, which bin/ring runs.
fn by_wrapper(_: &mut Desk, _: &Given) -> Result<(), Trouble> {
    Err(Trouble::Failed("run this command by bin/ring".to_string()))
}

pub fn named(name: &str) -> Option<&'static Command> {
    COMMANDS.iter().find(|command| command.name == name)
}
