//! The gallery program: whole processes, from file to file. The model's is this program itself, with the argument `model`.
//! The scripts are `author::long_script`: 31 keepers, threshold 21, 16 kiosks in turn, every event accepted; and
//! `author::restarts_script`, in which keepers go down and up while 400 messages and more are kept.
//! An earlier gallery program is timed in the same rounds where SIGMA_BEFORE names one; its ratio is the time now over the time
//! before.

use crate::process::{memory, time};
use crate::row;
use sigma_tests::author::{long_script, restarts_script, MIXED, OFTEN, RESTARTS};
use sigma_tests::files::program;
use sigma_tests::players::WIDE;
use sigma_tests::script;
use std::fs;
use std::io::{stdin, stdout, Read, Write};
use std::path::{Path, PathBuf};
use std::time::Duration;

const LINES: [usize; 3] = [10_000, 100_000, 1_000_000];
const RESTARTS_LINES: usize = 100_000;
const ROUNDS: usize = 15;
/// The argument that makes this program the model's; the proved one takes none and looks at none.
pub const MODEL: &str = "model";

/// What is said of it, a script in a file, its events, its tries in a round, more if it is short, and the best time of each
/// program on it.
struct Course {
    name: String,
    script: PathBuf,
    events: usize,
    tries: usize,
    ours: Duration,
    theirs: Duration,
    before: Duration,
    /// Whether the earlier program answers as this one: else the two do not the same work.
    same: bool,
}

pub fn play_model() {
    let mut bytes = vec![];
    stdin().lock().read_to_end(&mut bytes).expect("the script");
    stdout().lock().write_all(&script::run(&bytes)).expect("the output is written");
}

pub fn run() {
    let gallery = program().expect("crates/gallery/out/gallery: run `rt run` in crates/gallery first");
    let model = std::env::current_exe().expect("this program");
    let folder = std::env::temp_dir().join(format!("bench-gallery-{}", std::process::id()));
    fs::create_dir_all(&folder).expect("a folder for the files");
    let [ours, theirs, old] = ["ours", "theirs", "before"].map(|name| folder.join(name));
    let before = std::env::var_os("SIGMA_BEFORE").map(PathBuf::from);

    let mut courses = vec![];
    let mut course = |name: String, events: usize, script: &[u8]| {
        let path = folder.join(format!("script-{}", courses.len()));
        fs::write(&path, script).expect("a file for the script");
        let tries = 1 + 2_000_000 / (200_000 + script.len());
        let [ours, theirs, before] = [Duration::MAX; 3];
        courses.push(Course { name, script: path, events, tries, ours, theirs, before, same: true });
    };
    course("an empty script".into(), 0, b"");
    for lines in LINES {
        course(format!("gallery program, an event of {lines}"), lines, &long_script(lines));
    }
    for (share, others) in [("a third", MIXED), ("two thirds", OFTEN)] {
        for setting in RESTARTS {
            let name = format!("{share} restarts, {} keepers, an event", setting.n);
            course(name, RESTARTS_LINES, &restarts_script(setting, others, RESTARTS_LINES));
        }
    }
    let read = |path: &Path| fs::read(path).expect("an output");
    // An earlier program's kiosks may be without a clock.
    let without_a_clock = |c: &Course| script::run_by(WIDE, &read(&c.script));
    for _ in 0..ROUNDS {
        for c in &mut courses {
            for _ in 0..c.tries {
                c.ours = c.ours.min(time(&gallery, MODEL, &c.script, &ours));
                c.theirs = c.theirs.min(time(&model, MODEL, &c.script, &theirs));
                if let Some(before) = &before {
                    c.before = c.before.min(time(before, MODEL, &c.script, &old));
                }
            }
            let output = read(&ours);
            assert!(output == read(&theirs), "both print the same");
            c.same = before.is_none() || output == read(&old);
            assert!(
                c.same || without_a_clock(c) == read(&old),
                "the earlier program prints the same, or what its time has it print"
            );
        }
    }

    let (start, courses) = courses.split_first().expect("the empty script");
    for c in courses {
        row(&c.name, c.events, c.ours - start.ours, c.theirs - start.theirs);
    }
    let last = &courses[LINES.len() - 1];
    let ms = |t: Duration| t.as_secs_f64() * 1e3;
    println!(
        "\ngallery program, {} events with its start: {:.0} ms, the model {:.0} ms",
        LINES[2],
        ms(last.ours),
        ms(last.theirs)
    );
    let resident = memory(&gallery, MODEL, &last.script, &ours);
    println!("an empty script takes it {:.2} ms; resident at most {resident} KiB", ms(start.ours));
    for c in courses.iter().filter(|c| before.is_some() && !c.same) {
        println!("{}: not compared: the earlier program, whose kiosks have no clock, answers otherwise", c.name);
    }
    for c in courses.iter().filter(|c| before.is_some() && c.same) {
        let each = |t: Duration| t.as_nanos() as f64 / c.events as f64;
        let (old, new) = (each(c.before - start.before), each(c.ours - start.ours));
        println!("{}, before and after: {old:.1} ns, {new:.1} ns, ratio {:.2}", c.name, new / old);
    }
    fs::remove_dir_all(&folder).expect("the files go");
}
