//! Pages of scripts: what they show, against the independent engine; their form; their size.

#[path = "../common/mod.rs"]
mod common;
mod expected;
mod html;
mod json;
mod look;
mod replay;
mod script;
mod settings;

use cli::page::Page;
use common::{examples, program_on};
use expected::{marks, shown};
use html::Piece;
use independent::engine::{Theme, MOST_NODES};
use independent::{write, write_message, Definition, Engine};
use json::Json;
use look::{data, lines, made, pieces};
use replay::{Marks, Replay};
use script::{quoted, random, Folder};
use std::collections::HashMap;
use std::fs;
use std::time::{SystemTime, UNIX_EPOCH};

/// The refusal of a line with a name that no message can hold.
const UNWRITTEN: u32 = 26;

fn seed() -> u64 {
    let seed = match std::env::var("LIMUDVEK_SEED") {
        Ok(text) => text.parse().expect("LIMUDVEK_SEED is a number"),
        Err(_) => {
            let time = SystemTime::now().duration_since(UNIX_EPOCH);
            time.expect("the clock is past 1970").as_micros() as u64
        }
    };
    println!("LIMUDVEK_SEED={seed}");
    seed
}

/// After each step of random scripts the page shows what the independent engine holds, and its marks
/// are what differs there.
#[test]
fn random_scripts_show_what_the_independent_engine_holds() {
    let folder = Folder::new("random");
    let seed = seed();
    let mut tally: HashMap<&str, usize> = HashMap::new();
    for place in 0..40 {
        let theme = Theme::ALL[place % Theme::ALL.len()];
        let (script, sent) = random(seed.wrapping_add(place as u64), theme, 400, &folder);
        let page = made(script.as_bytes(), folder.path());
        let pieces = pieces(&page.html);
        let data = data(&pieces);
        let steps = data.list_at("steps");
        let mut listed = lines(&pieces)
            .into_iter()
            .filter(|line| line.class.starts_with("step"));
        let mut replay = Replay::new(&data);
        let mut model = Engine::new();
        let mut reply = vec![0; 1 << 20];
        let mut freed: HashMap<i64, i64> = HashMap::new();
        assert_eq!(steps.len(), sent.len());
        for (step, sent) in steps.iter().zip(&sent) {
            let before = model.view();
            let command = sent.call.as_ref().and_then(|call| call.command());
            let answer = command.map(|command| match write_message(&command, &mut reply) {
                Err(fault) if fault.number == UNWRITTEN => Err(fault),
                _ => model.apply(&command, &mut reply),
            });
            let after = model.view();
            let mut expected = marks(
                &before,
                &after,
                command.filter(|_| answer.is_some_and(|answer| answer.is_ok())),
            );
            for number in &expected.came {
                expected
                    .again
                    .extend(freed.get(number).map(|line| (*number, *line)));
            }
            for number in &expected.freed {
                freed.insert(*number, sent.number as i64);
            }
            let context = format!("LIMUDVEK_SEED={seed}, script {place}, line {}", sent.number);
            assert_eq!(replay.step(step), expected, "{context}");
            assert_eq!(replay.shown, shown(&after, &model), "{context}");
            let line = listed.next().expect("a line");
            let (class, answered) = (&line.class, &line.answer);
            assert_eq!(line.number, sent.number, "{context}");
            match answer {
                Some(Ok(_)) => assert!(!class.contains("re") && answered.starts_with("ok")),
                Some(Err(fault)) => {
                    let start = match fault.number {
                        UNWRITTEN => format!("refused {UNWRITTEN} before it was sent: "),
                        number => format!("refused {number}: "),
                    };
                    assert!(class.contains("refused") && answered.starts_with(&start));
                }
                None => assert!(class.contains("unread") || answered.starts_with("ok\n  0 group")),
            }
            for (what, count) in [
                ("came", expected.came.len()),
                ("moved", expected.moved.len()),
                ("freed", expected.freed.len()),
                ("changed", expected.changed.len()),
                ("numbers used before", expected.again.len()),
                ("definitions", expected.definitions.len()),
                ("definitions gone", expected.gone.len()),
                (
                    "refused",
                    usize::from(answer.is_some_and(|answer| answer.is_err())),
                ),
            ] {
                *tally.entry(what).or_default() += count;
            }
        }
        assert!(listed.next().is_none());
    }
    println!("{tally:?}");
    assert!(
        tally.len() == 8 && tally.values().all(|&count| count >= 100),
        "{tally:?}"
    );
}

#[test]
fn the_sample_show() {
    let script = fs::read(examples().join("show.txt")).expect("the script");
    let page = made(&script, &examples());
    assert!(page.all_read);
    let pieces = pieces(&page.html);
    let lines = lines(&pieces);
    // What is shown of the answers is what `play` prints.
    let steps: Vec<_> = lines
        .iter()
        .filter(|line| line.class.starts_with("step"))
        .collect();
    let kept = fs::read_to_string(examples().join("show.out")).expect("its output");
    let answers: Vec<&str> = steps.iter().flat_map(|line| line.answer.lines()).collect();
    for (answer, kept) in answers.iter().zip(kept.lines()) {
        assert!(kept.ends_with(answer), "{answer} is not {kept}");
    }
    assert_eq!(answers.len(), kept.lines().count());
    // The marks of some lines, and of all others with nothing to mark.
    let data = data(&pieces);
    let mut replay = Replay::new(&data);
    let mut found = HashMap::new();
    for (step, line) in data.list_at("steps").iter().zip(&steps) {
        let marks = replay.step(step);
        // Of a list that is refused the first commands may be done, and a save answers its version.
        let both = ["end", "save"]
            .iter()
            .any(|word| line.text.starts_with(word));
        if !both && (line.class.contains("refused") || line.answer != "ok") {
            assert_eq!(*step, Json::Object(Vec::new()), "line {}", line.number);
        }
        found.insert(line.text.split("  ").next().unwrap_or(""), marks);
    }
    let moved = &found["/n_before 2 1"];
    assert!(moved.moved.iter().eq([&2]) && moved.changed.is_empty());
    let returned = &found["/g_new 1002 1 2"];
    assert_eq!(returned.again, [(1002, 45)]);
    let retired = Marks {
        definitions: vec![(1, 3)],
        ..Marks::default()
    };
    assert_eq!(found["/d_free rain"], retired);
    assert!(found["/c_fill 7 2 0.5"].changed.iter().eq([&2000]));
    assert!(found["recall rain 1 1003"].changed.is_empty(), "dropped");
    assert_eq!(found["/g_deepFree 0"].freed.len(), 6);
    let [rain] = &replay.settings[..] else {
        panic!("{:?} is not of one name", replay.settings);
    };
    let versions: Vec<i64> = rain.versions.iter().map(|(version, _)| *version).collect();
    assert_eq!((rain.highest, versions), (3, vec![2, 3]));
}

/// A list is one step, at its end: what its commands did together is marked there.
#[test]
fn a_list_is_one_step() {
    let folder = Folder::new("list");
    let script =
        "/g_new 1 1 0\nlist\n/g_new 2 1 0\n\n/n_before 2 1\n/n_free 7 # no\n/n_free 1\nend\n\
                  list\ntree\n/n_free 1\nend\nlist\n/n_free 1\n";
    let page = made(script.as_bytes(), folder.path());
    assert!(!page.all_read);
    let pieces = pieces(&page.html);
    let short: Vec<(usize, String, String)> = lines(&pieces)
        .into_iter()
        .map(|line| (line.number, line.class, line.answer))
        .collect();
    let row =
        |number: usize, class: &str, answer: &str| (number, class.to_string(), answer.to_string());
    assert_eq!(
        short,
        [
            row(1, "step", "ok"),
            row(2, "note", ""),
            row(3, "note", ""),
            row(5, "note gap", ""),
            row(6, "note", ""),
            row(7, "note", ""),
            row(
                8,
                "step refused",
                "refused 17 at line 6, /n_free 7: there is no such node; the 2 before it stay done"
            ),
            row(9, "note", ""),
            row(
                10,
                "step unread",
                "between list and end stand commands only"
            ),
            row(11, "note", ""),
            row(12, "step refused", "not sent, since line 10 can't be read"),
            row(13, "note", ""),
            row(14, "note", ""),
            row(
                16,
                "step unread gap",
                "this list has no end, and was not sent"
            ),
        ]
    );
    let data = data(&pieces);
    let mut replay = Replay::new(&data);
    let steps = data.list_at("steps");
    replay.step(&steps[0]);
    let marks = replay.step(&steps[1]);
    assert!(marks.came.iter().eq([&2]) && marks.moved.is_empty() && marks.freed.is_empty());
    let numbers: Vec<i64> = replay.shown.nodes.iter().map(|node| node.number).collect();
    assert_eq!(numbers, [0, 2, 1]);
    assert!(steps[2..]
        .iter()
        .all(|step| *step == Json::Object(Vec::new())));
}

/// Two neighbours that change places: the one that the line names has moved.
#[test]
fn of_two_neighbours_the_named_one_moves() {
    let folder = Folder::new("neighbours");
    let script = "/g_new 1 1 0\n/g_new 2 1 0\n/n_before 2 1\n/n_after 2 1\n/g_head 0 2\n\
                  /g_tail 0 2\n/n_after 1 2\n/n_before 1 2\n/n_before 1 2\n";
    let page = made(script.as_bytes(), folder.path());
    let data = data(&pieces(&page.html));
    let mut replay = Replay::new(&data);
    let moved: Vec<Vec<i64>> = (data.list_at("steps").iter())
        .map(|step| replay.step(step).moved.into_iter().collect())
        .collect();
    let none = vec![];
    assert_eq!(moved[..2], [none.clone(), none.clone()]);
    assert_eq!(
        moved[2..8],
        [[2], [2], [2], [2], [1], [1]].map(|list| list.to_vec())
    );
    assert_eq!(moved[8], none);
}

/// Names and lines of any bytes put nothing into the page but text.
#[test]
fn whatever_the_bytes_are() {
    let folder = Folder::new("bytes");
    let all: Vec<u8> = (1..128).collect();
    let nasty = [
        all.as_slice(),
        b"</script><script>alert(1)</script>",
        b"</samp></li><img src=x onerror=alert(1)>",
        b"\"><b onclick='x'>&lt;!--",
        b"<!--<script>",
        b"@data@ @script@ @list@",
        b"\\u003c \\x3c &#60;",
        b"]]>",
    ];
    let harmless: Vec<Vec<u8>> = (0..nasty.len())
        .map(|at| format!("name{at}").into_bytes())
        .collect();
    let script = |names: &[&[u8]]| {
        let mut script = Vec::new();
        for (at, name) in names.iter().enumerate() {
            let definition = Definition {
                name: name.to_vec(),
                initial: vec![0],
                parameters: vec![(name.to_vec(), 0)],
                ..Definition::default()
            };
            let file = format!("{}.scsyndef", at);
            folder.write(&file, &write(&[definition]).bytes);
            let name = quoted(name);
            let line = format!(
                "/d_recv {file}\n/s_new {name} {} 1 0\n/s_get -1 {name}\ntree\n",
                at + 1
            );
            script.extend_from_slice(line.as_bytes());
        }
        for name in names {
            for start in ["# ", "/d_free ", "/d_recv ", "", "/s_new \""] {
                script.extend_from_slice(start.as_bytes());
                script.extend(name.iter().filter(|byte| **byte != b'\n'));
                script.push(b'\n');
            }
        }
        script.extend_from_slice(b"export\n");
        script
    };
    let nasty_page = made(&script(&nasty), folder.path());
    let names: Vec<&[u8]> = harmless.iter().map(Vec::as_slice).collect();
    let plain_page = made(&script(&names), folder.path());
    let tags = |page: &Page| -> Vec<String> {
        let pieces = pieces(&page.html).into_iter();
        let tag = |piece| match piece {
            Piece::Open(name, attributes) if name == "li" => {
                Some(format!("li {}", attributes.len()))
            }
            Piece::Open(name, attributes) if name != "span" => {
                Some(format!("{name} {attributes:?}"))
            }
            _ => None,
        };
        pieces.filter_map(tag).collect()
    };
    assert_eq!(tags(&nasty_page), tags(&plain_page));
    // The names stand in the data as they are in the files.
    let data = data(&pieces(&nasty_page.html));
    for (shape, name) in data.list_at("shapes").iter().zip(nasty) {
        assert_eq!(expected::bytes_of(shape.list()[0].string()), name);
        assert_eq!(expected::bytes_of(shape.list()[1].list()[0].string()), name);
    }
    // Lines of every byte, of letters that steer others, and of what is no UTF-8.
    let every: Vec<u8> = (0..=255).collect();
    let mut lines_of = every.clone();
    lines_of.extend_from_slice(
        "\n# \u{202e}gnp.exe\u{2066} \u{feff}é語\u{7f}\u{85}\u{2028}\n".as_bytes(),
    );
    lines_of.extend_from_slice(b"/d_free \"\xff\xc3\x28\"\n/quit \xe2\x80\xae\n");
    let page = made(&lines_of, folder.path());
    let listed = lines(&pieces(&page.html));
    assert!(!page
        .html
        .contains(['\u{202e}', '\u{2066}', '\u{feff}', '\u{85}', '\u{2028}']));
    assert!(listed
        .iter()
        .any(|line| line.text.contains("\\xe2\\x80\\xaegnp.exe") && line.text.contains("é語")));
}

#[test]
fn lines_that_cannot_be_read_stand_there() {
    let folder = Folder::new("unread");
    let page = made(
        b"/status\n\n/quit\n/n_free 5\n/d_recv none.scsyndef",
        folder.path(),
    );
    assert!(!page.all_read);
    let lines = lines(&pieces(&page.html));
    let short: Vec<(usize, &str, &str)> = (lines.iter())
        .map(|line| (line.number, line.class.as_str(), line.answer.as_str()))
        .collect();
    assert_eq!(
        short[..3],
        [
            (1, "step", "ok\n  /status.reply 0 0 1 0"),
            (3, "step unread gap", "/quit is no command"),
            (4, "step refused", "refused 17: there is no such node"),
        ]
    );
    assert_eq!((short[3].0, short[3].1), (5, "step unread"));
    assert!(short[3].2.starts_with("none.scsyndef: "));
    let empty = made(b"", folder.path());
    assert!(empty.all_read && data(&pieces(&empty.html)).list_at("steps").is_empty());
}

/// A script that fills the tree with nodes that have many controls, and then sends these lines.
fn full(lines: impl Iterator<Item = String>, folder: &Folder) -> String {
    let definition = Definition {
        name: b"wide".to_vec(),
        initial: vec![0x3f00_0000; 32],
        parameters: (0..32)
            .map(|index| (format!("control{index}").into_bytes(), index))
            .collect(),
        ..Definition::default()
    };
    folder.write("wide.scsyndef", &write(&[definition]).bytes);
    let mut script = String::from("/d_recv wide.scsyndef\n");
    for number in 1..MOST_NODES {
        let number = 2_147_000_000 + number;
        script += &match number % 3 {
            0 => format!("/g_new {number} 1 0\n"),
            _ => format!("/s_new wide {number} 1 0\n"),
        };
    }
    let rest = 2000 - MOST_NODES;
    script.extend(lines.take(rest).map(|line| line + "\n"));
    script
}

#[test]
fn two_thousand_commands_on_256_nodes_stay_under_5_mb() {
    const MOST: usize = 5_000_000;
    let folder = Folder::new("size");
    let nodes = |number: usize| 2_147_000_001 + number % (MOST_NODES - 1);
    type Line = fn(usize, usize) -> String;
    let kinds: [(&str, Line); 4] = [
        ("controls", |at, _| {
            format!("/n_fill 0 {} 20 {}", at % 12, at as f32 / 7.0)
        }),
        ("run flags", |at, _| format!("/n_run 0 {}", at % 2)),
        ("moves", |_, node| format!("/g_head 0 {node}")),
        ("trees", |at, _| {
            ["tree", "/g_queryTree 0 1", "/n_run 0 0"][at % 3].to_string()
        }),
    ];
    for (what, kind) in kinds {
        let script = full((0..).map(|at| kind(at, nodes(7 * at))), &folder);
        assert_eq!(script.lines().count(), 2000);
        let page = made(script.as_bytes(), folder.path());
        println!("{what}: {} bytes", page.html.len());
        assert!(page.all_read && page.html.len() < MOST, "{what}");
        let data = data(&pieces(&page.html));
        assert_eq!(data.list_at("steps").len(), 2000);
        assert!(!page.html.contains("step refused"), "{what}");
        // Long answers are cut where all would be too much, and say so.
        assert_eq!(page.html.contains("which play prints"), what == "trees");
    }
    let (script, _) = random(seed(), Theme::Crowd, 2000, &folder);
    let page = made(script.as_bytes(), folder.path());
    println!("random: {} bytes", page.html.len());
    assert!(page.html.len() < MOST);
}

#[test]
fn the_program_writes_the_page() {
    let run = |name: &str, input: &[u8]| {
        let (status, page, err) = program_on(&["page", name], input);
        (status, String::from_utf8(page).expect("text"), err)
    };
    let script = fs::read(examples().join("show.txt")).expect("the script");
    for (name, input, title) in [
        ("../examples/show.txt", &b""[..], "show.txt"),
        ("-", &script, "standard input"),
    ] {
        let (status, page, err) = run(name, input);
        assert_eq!((status, err.as_str()), (0, ""));
        assert_eq!(data(&pieces(&page)).list_at("steps").len(), 83);
        assert!(page.contains(&format!("<title>{title}</title>")));
    }
    let (status, page, _) = run("-", b"/quit\n");
    assert_eq!(status, 1);
    assert!(page.contains("/quit is no command"));
    let (status, page, err) = run("no such script", b"");
    assert_eq!((status, page.as_str()), (2, ""));
    assert!(err.starts_with("limudvek: no such script: "), "{err}");
}
