//! Saved settings on pages: at each step those of the independent engine's store, and no more in the data than what is another.

use super::expected::{float, name};
use super::look::{data, lines, made, pieces};
use super::replay::{Replay, ShownSettings};
use super::script::Folder;
use independent::engine::packed;
use independent::{drop_version, read_store, write, Call, Definition, Engine, Random};

/// Names of definitions and of controls, of which some stand in quotes.
const NAMES: [&str; 3] = ["rain", "\"great hall\"", "\"<b>\""];
const CONTROLS: [&str; 3] = ["amp", "", "</script>"];

fn definitions() -> Vec<Definition> {
    let definition = |name: &str| Definition {
        name: name.trim_matches('"').as_bytes().to_vec(),
        initial: vec![0x3f00_0000, 0x7fc0_0001, 0x8000_0000],
        parameters: (0..3)
            .map(|at| (CONTROLS[at].as_bytes().to_vec(), at as i32))
            .collect(),
        ..Definition::default()
    };
    NAMES.iter().map(|name| definition(name)).collect()
}

/// The settings that a store holds, as a page is to show them.
fn shown(store: &[u8]) -> Vec<ShownSettings> {
    let entries = read_store(store).expect("it is formed");
    let entry = |entry: &independent::Named| ShownSettings {
        name: name(&entry.name),
        highest: i64::from(entry.highest),
        versions: (entry.versions.iter())
            .map(|saved| {
                let settings = saved.settings.iter();
                let settings = settings.map(|own| (name(&own.name), float(own.value)));
                (i64::from(saved.version), settings.collect())
            })
            .collect(),
    };
    entries.iter().map(entry).collect()
}

/// A line about settings or controls; what the independent engine answers, and its store and itself after it.
fn line(random: &mut Random, model: &mut Engine, store: &mut [u8]) -> (String, u64) {
    let node = random.one_of(&[1, 1, 2, 2, 3, 4, 0]);
    let at = random.below(NAMES.len());
    let bare = NAMES[at].trim_matches('"').as_bytes();
    let version = 1 + random.below(30) as u32;
    let number = |answer: Result<(), independent::Fault>| packed(answer.map(|()| 0));
    match random.below(5) {
        0..=1 => {
            let answer = model.save(node, store).map(|_| 0);
            (format!("save {node}"), packed(answer))
        }
        2 => {
            let answer = number(drop_version(bare, version, store));
            (format!("drop {} {version}", NAMES[at]), answer)
        }
        3 => {
            let answer = number(model.recall(bare, version, node, store));
            (format!("recall {} {version} {node}", NAMES[at]), answer)
        }
        _ => {
            let value = random.bits() as u16;
            let call = Call::new(13, [node, 0, 0, 1, i32::from(value)], b"");
            let command = call.command().expect("it is known");
            let answer = packed(model.apply(&command, &mut []));
            (format!("/n_set {node} 0 {value}"), answer)
        }
    }
}

#[test]
fn settings_at_each_step() {
    let folder = Folder::new("settings");
    let file = write(&definitions()).bytes;
    folder.write("all.scsyndef", &file);
    for seed in 1..=8 {
        let mut random = Random::new(seed);
        let mut model = Engine::new();
        let load = Call::new(1, [0; 5], &file);
        let mut script = "/d_recv all.scsyndef\n".to_string();
        let mut calls = vec![load];
        for (number, name) in (1..).zip(NAMES) {
            let bare = name.trim_matches('"').as_bytes();
            script += &format!("/s_new {name} {number} 1 0\n");
            calls.push(Call::new(3, [number, 1, 0, 0, 0], bare));
        }
        for call in &calls {
            let command = call.command().expect("it is known");
            assert_eq!(model.apply(&command, &mut []), Ok(0));
        }
        script += "store\n";
        let mut store = vec![0; 65_536];
        let mut expected = Vec::new();
        for _ in 0..300 {
            let (line, answer) = line(&mut random, &mut model, &mut store);
            script += &format!("{line}\n");
            expected.push((answer, shown(&store), model.view()));
        }
        let page = made(script.as_bytes(), folder.path());
        let pieces = pieces(&page.html);
        let data = data(&pieces);
        let mut replay = Replay::new(&data);
        let steps = data.list_at("steps");
        let start = steps.len() - expected.len();
        steps[..start].iter().for_each(|step| _ = replay.step(step));
        assert_eq!(replay.settings, []);
        let lines = &lines(&pieces)[start..];
        for ((step, line), (answer, settings, view)) in
            steps[start..].iter().zip(lines).zip(&expected)
        {
            replay.step(step);
            assert_eq!(replay.settings, *settings, "{}", line.text);
            assert_eq!(replay.shown, super::shown(view, &Engine::of(view)));
            assert_eq!(
                line.class.contains("refused"),
                *answer != 0,
                "{}",
                line.text
            );
        }
    }
}

/// What a file's store holds comes with the line that lends it.
#[test]
fn settings_of_a_file() {
    let folder = Folder::new("kept");
    let store = b"\x01\0\x01z\x04\0\x04\0\0\0\x07\x02\0\x04\0\0\0\x05\x03\0\x05a\0\0\0\0\x01\0\x01b\x04\0\x04\0\0\0\x01";
    folder.write("evening", store);
    let page = made(b"store evening\ndrop z 5\n", folder.path());
    assert!(page.all_read);
    let data = data(&pieces(&page.html));
    let mut replay = Replay::new(&data);
    let steps = data.list_at("steps");
    replay.step(&steps[0]);
    assert_eq!(replay.settings, shown(store));
    replay.step(&steps[1]);
    assert_eq!(replay.settings[0].versions, []);
    assert_eq!(replay.settings[1].name, "b");
}

/// A page holds of each step only what is another.
#[test]
fn two_thousand_saves_stay_under_5_mb() {
    let folder = Folder::new("saves");
    let wide = Definition {
        name: b"wide".to_vec(),
        initial: vec![0x3f00_0000; 32],
        parameters: (0..32)
            .map(|index| (format!("control{index}").into_bytes(), index))
            .collect(),
        ..Definition::default()
    };
    folder.write("wide.scsyndef", &write(&[wide]).bytes);
    let mut script = "/d_recv wide.scsyndef\n/s_new wide 1 1 0\nstore\n".to_string();
    for version in 1..=1000 {
        script += "save 1\n";
        if version >= 16 {
            script += &format!("drop wide {}\n", version - 15);
        }
    }
    let page = made(script.as_bytes(), folder.path());
    println!("saves: {} bytes", page.html.len());
    assert!(page.all_read && page.html.len() < 5_000_000);
    assert!(!page.html.contains("step refused"));
}
