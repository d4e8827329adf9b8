//! The plans in `samples/` are those of their texts.

use std::collections::BTreeSet;
use std::ffi::OsStr;
use std::fs;
use std::path::{Path, PathBuf};

use reference::model::calls::Call;
use reference::model::events::Event::{Finish, Skip, Start};
use reference::model::rules::refusal;
use reference::tools::archive;
use reference::tools::text::{make, show, Error, Source};

/// Each sample with its length and its refusal.
const SAMPLES: [(&str, usize, u32); 27] = [
    ("b", 82, 0),
    ("b-flag-set", 82, 0),
    ("b-without-order", 80, 0),
    ("branch-blocked", 105, 0),
    ("calibration-optional", 104, 0),
    ("equal-waits", 90, 0),
    ("fifteen-bytes", 15, 1),
    ("finish-together", 46, 0),
    ("generated", 148, 0),
    ("incondition-broken", 49, 0),
    ("large", 5136, 0),
    ("members", 133, 0),
    ("merged", 154, 0),
    ("minutes-10080", 24, 0),
    ("minutes-10081", 24, 6),
    ("nodes-0", 16, 2),
    ("nodes-128", 1040, 0),
    ("nodes-129", 1048, 2),
    ("one-byte-more", 25, 3),
    ("one-task", 24, 0),
    ("preconditions-ordered", 54, 0),
    ("preconditions-unordered", 52, 0),
    ("restored-by-choice", 77, 0),
    ("restored-in-chain", 61, 0),
    ("restored-unordered", 59, 0),
    ("sequence-found", 108, 0),
    ("sister", 80, 0),
];

fn folder() -> PathBuf {
    Path::new(env!("CARGO_MANIFEST_DIR")).join("../samples")
}

fn text_of(name: &str) -> String {
    fs::read_to_string(folder().join(format!("{name}.txt"))).unwrap()
}

fn plan_of(name: &str) -> Vec<u8> {
    fs::read(folder().join(format!("{name}.plan"))).unwrap()
}

#[test]
fn none_is_missing() {
    for extension in ["txt", "plan"] {
        let files = fs::read_dir(folder())
            .unwrap()
            .map(|file| file.unwrap().path());
        let found: BTreeSet<String> = files
            .filter(|path| path.extension() == Some(OsStr::new(extension)))
            .map(|path| path.file_stem().unwrap().to_string_lossy().into_owned())
            .collect();
        let listed: BTreeSet<String> = SAMPLES.iter().map(|(name, ..)| name.to_string()).collect();
        assert_eq!(found, listed, "*.{extension}");
    }
}

#[test]
fn lengths_and_refusals() {
    for (name, len, want) in SAMPLES {
        let mut plan = plan_of(name);
        assert_eq!(plan.len(), len, "{name}");
        assert_eq!(refusal(&plan), want, "{name}");
        let found = archive::make(&Call::Refusal, &mut plan, &[], &mut []);
        assert_eq!(found, want, "{name}");
    }
}

/// The states are those after these calls.
#[test]
fn states_of_calls() {
    let of_b = [Start(1), Finish(1), Start(4)];
    let of_calibration = [Start(1), Finish(1), Skip(2), Start(5)];
    let of_tank = [Start(1), Start(2)];
    for (name, len, events) in [
        ("b", 23, &of_b[..]),
        ("calibration-optional", 26, &of_calibration),
        ("finish-together", 17, &of_tank),
    ] {
        let (mut plan, mut state) = (plan_of(name), vec![7; len]);
        let events = events.iter().map(|&event| Call::Event(event));
        for call in [Call::Fresh].into_iter().chain(events) {
            let returned = archive::make(&call, &mut plan, &[], &mut state);
            assert_eq!(returned, 0, "{call:?}");
        }
        let path = folder().join(format!("{name}.state"));
        assert_eq!(fs::read(path).unwrap(), state, "{name}");
    }
}

#[test]
fn text_makes_plan() {
    for (name, ..) in SAMPLES {
        assert_eq!(make(&text_of(name)), Ok(plan_of(name)), "{name}");
    }
}

#[test]
fn plan_shows_text() {
    for (name, _, want) in SAMPLES {
        let text = text_of(name);
        let shown = match want {
            0 => Ok(text.clone()),
            _ => Err(Error::Refused(want)),
        };
        assert_eq!(show(&plan_of(name)), shown, "{name}");
        assert_eq!(Source::parse(&text).unwrap().to_string(), text, "{name}");
    }
}
