//! The samples beside the model, from which what is expected of them comes: their recordings, their replays, and where
//! `yesterday` and `today` part, which the manual shows.

use model::findings::Finding;
use model::lines::Form;
use model::{replay, Document01, Findings, Notation};
use std::fs;
use std::path::{Path, PathBuf};

const SAMPLES: [&str; 9] = ["s1", "night", "halves", "cleared", "halts", "freeze", "damaged", "yesterday", "today"];

fn file(name: &str) -> PathBuf {
    Path::new(env!("CARGO_MANIFEST_DIR")).join("../..").join(name)
}

fn bytes(name: &str) -> Vec<u8> {
    fs::read(file(name)).unwrap_or_else(|error| panic!("{name}: {error}"))
}

fn text(name: &str) -> String {
    String::from_utf8(bytes(name)).unwrap_or_else(|error| panic!("{name}: {error}"))
}

/// Of `damaged` the text has what stands before its first bad number.
#[test]
fn each_recording_is_its_text_packed() {
    for sample in SAMPLES {
        let packed = Document01.pack(&bytes(&format!("samples/{sample}.txt")));
        assert_eq!(packed.wrong, None, "{sample}");
        let recording = bytes(&format!("samples/{sample}"));
        assert!(recording.starts_with(&packed.bytes), "{sample}");
        assert_eq!(recording.len() == packed.bytes.len(), sample != "damaged", "{sample}");
    }
}

#[test]
fn each_replay_prints_what_is_expected() {
    for sample in SAMPLES {
        let printed = replay::text(&bytes(&format!("samples/{sample}")));
        assert_eq!(printed, text(&format!("samples/{sample}.out")), "{sample}");
    }
}

#[test]
fn yesterday_and_today_part_as_the_manual_shows() {
    let [yesterday, today] = ["samples/yesterday", "samples/today"].map(bytes);
    let found = |form| Document01.found(&yesterday, &today, form);
    let finding = |text: &str| Finding { text: text.into(), bad: None, status: 1 };
    let lines = text("samples/parting.out");
    assert_eq!(found(Form::Readable), finding(&lines));
    assert_eq!(found(Form::Numbers), finding("0 0 0 6 1 34 2 57 36\n"));
    let shown: String = lines.lines().flat_map(|line| ["    ", line, "\n"]).collect();
    assert!(text("docs/MANUAL.md").contains(&shown), "the manual's example is another one");
}
