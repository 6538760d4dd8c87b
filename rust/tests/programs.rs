//! The two programs against the second implementation: what they write, on
//! generated inputs and where files are missing or too long.
#![cfg(feature = "library")]

use std::fs;
use std::io::Write;
use std::path::{Path, PathBuf};
use std::process::{Command, Stdio};

use fuuqidhel::paper::{net_of, replay};
use fuuqidhel::random::{self, Random, Shape};

/// A program that `tools/build` has proved and built.
fn program(name: &str) -> Command {
    let path = Path::new(env!("CARGO_MANIFEST_DIR")).join("../target/bin").join(name);
    assert!(path.exists(), "no {}: run `tools/build`", path.display());
    Command::new(path)
}

fn listing(plan: &[u8]) -> String {
    let mut child = program("listing")
        .stdin(Stdio::piped())
        .stdout(Stdio::piped())
        .spawn()
        .expect("the program starts");
    // It stops reading once the plan is too long.
    let _ = child.stdin.take().expect("a pipe").write_all(plan);
    let output = child.wait_with_output().expect("the program ends");
    assert!(output.status.success());
    String::from_utf8(output.stdout).expect("text")
}

/// Runs the replay program in a folder with the files that there are.
fn replayer(folder: &Path, plan: Option<&[u8]>, record: Option<&[u8]>) -> String {
    for (name, bytes) in [("plan", plan), ("record", record)] {
        let path = folder.join(name);
        match bytes {
            Some(bytes) => fs::write(path, bytes).expect("a file is written"),
            None if path.exists() => fs::remove_file(path).expect("a file is removed"),
            None => {}
        }
    }
    let output = program("replayer").current_dir(folder).output().expect("the program runs");
    assert!(output.status.success());
    String::from_utf8(output.stdout).expect("text")
}

fn folder(name: &str) -> PathBuf {
    let folder = Path::new(env!("CARGO_TARGET_TMPDIR")).join(name);
    fs::create_dir_all(&folder).expect("a folder is made");
    folder
}

fn plan(random: &mut Random, round: usize) -> Vec<u8> {
    let (actions, depth) = match round % 8 {
        0 => return random::near_limit(random).encode(),
        1 => (random.between(40, 256), 20),
        _ => (random.between(1, 14), 10),
    };
    let mut bytes = random::plan(random, Shape { actions, depth, names: 3, faulty: 12 }).encode();
    if round % 8 == 2 {
        random::damage(random, &mut bytes);
    }
    bytes
}

#[test]
fn listing_writes_the_paper_s_text() {
    let mut random = Random::new(41);
    for round in 0..400 {
        let plan = plan(&mut random, round);
        let expected = match net_of(&plan) {
            Ok(net) => net.to_string(),
            Err(refused) => format!("refused {} at {}\n", refused.number(), refused.carried),
        };
        assert_eq!(listing(&plan), expected, "{plan:?}");
    }
    assert_eq!(listing(&[]), "refused 8 at 0\n");
    assert_eq!(listing(&[9; 4_096]), "refused 3 at 0\n");
    for length in [4_097, 5_000, 100_000] {
        assert_eq!(listing(&vec![9; length]), "refused 1 at 0\n");
    }
}

#[test]
fn replayer_writes_one_line() {
    let folder = folder("replayer");
    let mut random = Random::new(42);
    for round in 0..400 {
        let plan = plan(&mut random, round);
        let mut record = match net_of(&plan) {
            Ok(net) => random::record(&mut random, &net, 40, 30),
            Err(_) => vec![],
        };
        if round % 6 == 5 {
            random::damage(&mut random, &mut record);
        }
        let expected = match replay(&plan, &record, &mut [0; 2_048]) {
            Ok(run) if run.finished => format!("finished {}\n", run.steps),
            Ok(run) => format!("unfinished {}\n", run.steps),
            Err(stopped) => {
                let refused = stopped.refused;
                let (number, carried) = (refused.number(), refused.carried);
                format!("refused {number} at {carried} after {}\n", stopped.steps)
            }
        };
        assert_eq!(replayer(&folder, Some(&plan), Some(&record)), expected, "{plan:?} {record:?}");
    }
    let action: &[u8] = &[1, 0, 1, 1];
    let (long_plan, long_record): (&[u8], &[u8]) = (&[9; 5_000], &[0; 20_000]);
    assert_eq!(replayer(&folder, None, None), "no file\n");
    assert_eq!(replayer(&folder, Some(action), None), "no file\n");
    assert_eq!(replayer(&folder, Some(long_plan), None), "no file\n");
    assert_eq!(replayer(&folder, None, Some(&[])), "no file\n");
    let answer = |plan, record| replayer(&folder, Some(plan), Some(record));
    assert_eq!(answer(action, &[]), "unfinished 0\n");
    assert_eq!(answer(action, long_record), "refused 20 at 0 after 0\n");
    assert_eq!(answer(action, &[0; 16_384]), "refused 22 at 0 after 0\n");
    assert_eq!(answer(long_plan, long_record), "refused 1 at 0 after 0\n");
}
