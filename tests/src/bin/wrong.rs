//! Tries wrong answers, which the prover must refuse: the edits in crates/NAME/must-fail-quick, written like the kit's own, with
//! `in: FUNCTION` where the old text stands in other functions too, and with `crate: LOWER` where the definitions that are changed are
//! those of a crate below: then that crate's definitions, without its proofs, and NAME over them are checked.
//! `cargo run --release --bin wrong [--apart] [NAME..]`, behind `rt ci` or `rt check`; with `--apart` each edit has a run of its own.
//!
//! The kit proves the whole crate again for each of its edits, and reads no folder below must-fail/. Here only what an edit touches is
//! proved again, over the libraries that `rt` has just built. A function's body is refused in that function's own proof, whatever is wrong
//! in its callers, and these know only its contract: so bodies of functions of which none calls another are edited in one run, which
//! proves them and what they call, and each must be refused at its own function.
//! An edit of a definition or of a constant is tried alone, on the whole crate. The refusal must be the edit's doing: of a body, in its own
//! function, and in a run nowhere but in functions that are edited; of a definition, in a proof and not in the definition itself. And it
//! must not be that a proof only no longer fits the code's shape. Where the prover runs out of steps it gives no verdict, which is no
//! refusal either.

use std::collections::{BTreeMap, BTreeSet, VecDeque};
use std::ffi::OsStr;
use std::fs;
use std::path::{Path, PathBuf};
use std::process::{exit, Command};
use std::sync::Mutex;
use std::time::Instant;

/// What the prover says where a proof only no longer fits the code: such a refusal shows nothing.
const SHAPE: [&str; 8] = [
    "that can be named from here",
    "has no field",
    "is not in scope",
    "exports no",
    "has no `",
    "needs a function",
    "binders, but",
    "expected type `tie.",
];

struct Change {
    file: String,
    /// The function in which `old` stands; the whole file where it is empty.
    function: String,
    old: String,
    new: String,
}

struct Edit {
    name: String,
    /// The crate below whose definitions it changes; none where it changes its own crate.
    below: Option<String>,
    changes: Vec<Change>,
    /// The functions whose bodies it changes, if it changes nothing else: then it can be tried together with others.
    functions: Option<Vec<String>>,
}

/// Edits of one crate that are tried in one run.
struct Run {
    krate: String,
    edits: Vec<Edit>,
}

/// The kit and the repository, with the line of crates.txt of each crate: the crates that it names.
struct Place {
    kit: PathBuf,
    root: PathBuf,
    needs: BTreeMap<String, Vec<String>>,
}

fn read(path: &Path) -> String {
    fs::read_to_string(path).unwrap_or_else(|e| panic!("{}: {e}", path.display()))
}

fn entries(folder: &Path) -> Vec<PathBuf> {
    let mut all: Vec<PathBuf> = fs::read_dir(folder).into_iter().flatten().map(|entry| entry.expect("an entry").path()).collect();
    all.sort();
    all
}

fn copy(from: &Path, to: &Path) {
    if from.is_dir() {
        fs::create_dir_all(to).expect("a folder");
        for entry in entries(from) {
            copy(&entry, &to.join(entry.file_name().expect("a name")));
        }
    } else if from.exists() {
        fs::copy(from, to).expect("a copy");
    }
}

/// Where a function stands in a source file; all of it for no name.
fn extent(text: &str, function: &str) -> Option<(usize, usize)> {
    if function.is_empty() {
        return Some((0, text.len()));
    }
    let from = text.find(&format!("fn {function}("))?;
    Some((from, from + text[from..].find("\n}")?))
}

/// The text with `old`, which stands once where the change is to be made, replaced; and where it stood.
fn replaced(text: &str, change: &Change) -> Option<(String, usize)> {
    let (from, to) = extent(text, &change.function)?;
    let part = &text[from..to];
    let at = part.find(&change.old)?;
    let once = part.matches(&change.old).count() == 1;
    let after = part.replace(&change.old, &change.new);
    once.then(|| ([&text[..from], after.as_str(), &text[to..]].concat(), from + at))
}

/// The function in whose body this place stands.
fn function_at(text: &str, at: usize) -> Option<String> {
    let before = &text[..at + text[at..].find('\n').unwrap_or(0)];
    let start = before.rfind("\nfn ").max(before.rfind("\npub fn ")).max(before.rfind("\npub extern \"C\" fn "))?;
    let function = &before[start..];
    let in_body = function.contains("{\n") && !function.contains("\n}");
    let name = function.split_once("fn ")?.1.split('(').next()?;
    let line = before.rsplit('\n').next().unwrap_or_default();
    (in_body && !line.contains("ensures") && !line.contains("requires")).then(|| name.to_string())
}

impl Edit {
    fn new(krate: &Path, path: &Path) -> Edit {
        let (mut file, mut function, mut old, mut changes) = (String::new(), String::new(), String::new(), vec![]);
        let mut below = None;
        for line in read(path).lines() {
            if let Some(rest) = line.strip_prefix("file: ") {
                file = rest.to_string();
            } else if let Some(rest) = line.strip_prefix("crate: ") {
                below = Some(rest.to_string());
            } else if let Some(rest) = line.strip_prefix("in: ") {
                function = rest.to_string();
            } else if let Some(rest) = line.strip_prefix("old: ") {
                old = rest.to_string();
            } else if let Some(rest) = line.strip_prefix("new: ") {
                let (file, function, old) = (file.clone(), function.clone(), old.clone());
                changes.push(Change { file, function, old, new: rest.to_string() });
            } else {
                assert!(line.is_empty() || line.starts_with('#'), "{}: {line}", path.display());
            }
        }
        let name = path.file_stem().expect("a name").to_string_lossy().into_owned();
        let functions = if below.is_some() { None } else { Edit::bodies(krate, &changes) };
        Edit { name, below, changes, functions }
    }

    fn bodies(krate: &Path, changes: &[Change]) -> Option<Vec<String>> {
        let mut text = read(&krate.join("src/lib.rt"));
        let mut functions = vec![];
        for change in changes {
            if change.file != "src/lib.rt" {
                return None;
            }
            let (next, at) = replaced(&text, change)?;
            functions.push(function_at(&text, at)?);
            text = next;
        }
        functions.sort();
        functions.dedup();
        Some(functions)
    }

    /// Makes the edit in a copy of the crate. Whether it could be made, and changed something.
    fn make(&self, copy: &Path) -> bool {
        let make = |change: &Change| {
            let path = copy.join(&change.file);
            let text = fs::read_to_string(&path).ok().and_then(|text| replaced(&text, change));
            change.old != change.new && text.is_some_and(|(text, _)| fs::write(path, text).is_ok())
        };
        !self.changes.is_empty() && self.changes.iter().all(make)
    }

    /// Whether a refusal is this edit's own: of bodies, one of a function that it changes; of a definition, one in a proof.
    fn owns(&self, refusal: &str) -> bool {
        let at = refusal.strip_prefix("proofs/").map(|rest| rest.strip_prefix('+').unwrap_or(rest));
        let of = |f: &String| at.map_or(refusal.starts_with(&format!("{f}: ")), |at| at.starts_with(&format!("{f}/")));
        self.functions.as_ref().map_or(!refusal.starts_with("specs/"), |functions| functions.iter().any(of))
    }
}

/// What the prover refuses, but for what only rests on something refused: each error with its file; and each function without a file of
/// its own in which `search` leaves a goal.
fn refusals<'a>(log: &'a str, krate: &str) -> Vec<&'a str> {
    let resting = ["was not admitted", "is not admitted: rejected", "was not checked", "were not checked"];
    let error = |line: &'a str| line.contains(": error: ").then(|| line.strip_prefix("./").unwrap_or(line));
    let left = |line: &'a str| {
        let line = line.strip_prefix("fn ")?.strip_prefix(krate)?.strip_prefix("::")?;
        line.contains("`search` did not prove").then_some(line)
    };
    let refused = log.lines().filter_map(|line| error(line).or_else(|| left(line)));
    refused.filter(|line| !resting.iter().any(|words| line.contains(words))).collect()
}

/// The functions of a crate that a run does not prove.
fn unproved<'a>(log: &'a str, krate: &str) -> Vec<&'a str> {
    let of = |line: &'a str| line.strip_prefix("fn ")?.strip_prefix(krate)?.strip_prefix("::")?.split_once(": ");
    log.lines().filter_map(of).filter(|(_, said)| *said != "proved").map(|(name, _)| name).collect()
}

/// What came of an edit, by what is refused of its own: the first of that, where none of it is of a proof's shape.
fn verdict(refused: &[&str], judged: bool) -> String {
    let shape = |refusal: &&str| SHAPE.iter().any(|words| refusal.contains(words));
    match refused.first() {
        _ if !judged => "REFUSED FOR SOMETHING ELSE".to_string(),
        None => "NOT REFUSED".to_string(),
        Some(_) if refused.iter().any(shape) => "SHOWS NOTHING".to_string(),
        Some(refusal) => format!("refused, as it must be (first at {})", refusal.split(": ").next().unwrap_or_default()),
    }
}

/// The functions of a source file, each with those that its text names before a parenthesis.
fn calls(text: &str) -> BTreeMap<String, BTreeSet<String>> {
    let name = |part: &str| part.split('(').next().unwrap_or_default().to_string();
    let bodies: Vec<(String, &str)> =
        text.split("\nfn ").flat_map(|part| part.split(" fn ")).map(|part| (name(part), part)).collect();
    let all: BTreeSet<&String> = bodies.iter().map(|(name, _)| name).collect();
    let called = |body: &str| {
        let words = body.split(|c: char| !(c.is_alphanumeric() || c == '_' || c == '('));
        words
            .filter_map(|word| word.split_once('('))
            .map(|(name, _)| name.to_string())
            .filter(|name| all.contains(name))
            .collect()
    };
    bodies.iter().map(|(name, body)| (name.clone(), called(body))).collect()
}

/// Whether one function goes through the other, itself or by those that it calls.
fn reaches(calls: &BTreeMap<String, BTreeSet<String>>, from: &str, to: &str) -> bool {
    let (mut seen, mut next) = (BTreeSet::new(), vec![from]);
    while let Some(function) = next.pop() {
        if seen.insert(function) {
            next.extend(calls.get(function).into_iter().flatten().map(String::as_str));
        }
    }
    seen.contains(to)
}

/// The edits of a crate, each in its own run or in as few as keep apart functions that go through one another: a function whose callee is
/// refused is not looked at.
fn runs(root: &Path, krate: &str, apart: bool) -> Vec<Run> {
    let folder = root.join("crates").join(krate);
    let calls = calls(&fs::read_to_string(folder.join("src/lib.rt")).unwrap_or_default());
    let mut runs: Vec<Run> = vec![];
    for path in entries(&folder.join("must-fail-quick")) {
        let edit = Edit::new(&folder, &path);
        let strangers = |f: &String, g: &String| !reaches(&calls, f, g) && !reaches(&calls, g, f);
        let joins = |other: &Edit| match (&edit.functions, &other.functions) {
            (Some(ours), Some(theirs)) => !apart && ours.iter().all(|f| theirs.iter().all(|g| strangers(f, g))),
            _ => false,
        };
        match runs.iter_mut().find(|run| run.edits.iter().all(joins)) {
            Some(run) => run.edits.push(edit),
            None => runs.push(Run { krate: krate.to_string(), edits: vec![edit] }),
        }
    }
    runs
}

impl Place {
    /// The crates of the repository below this one, and the crate itself.
    fn below(&self, krate: &str) -> BTreeSet<String> {
        let (mut found, mut next) = (BTreeSet::new(), vec![krate.to_string()]);
        while let Some(name) = next.pop() {
            if let Some(needs) = self.needs.get(&name) {
                next.extend(needs.iter().filter(|need| !found.contains(*need)).cloned());
                found.insert(name);
            }
        }
        found
    }

    fn out(&self, krate: &str) -> PathBuf {
        self.root.join("crates").join(krate).join("out/rlib")
    }

    /// Has rt build the libraries that stand below these crates. Right behind `rt ci` there is nothing to do: all are there, from one run.
    fn build(&self, names: &[String]) {
        let lower: BTreeSet<String> =
            names.iter().flat_map(|name| self.below(name).into_iter().filter(move |it| it != name)).collect();
        if Command::new("tools/fresh").args(&lower).current_dir(&self.root).status().is_ok_and(|status| status.success()) {
            return;
        }
        let mut built = BTreeSet::new();
        let mut names: Vec<(BTreeSet<String>, &String)> = names.iter().map(|name| (self.below(name), name)).collect();
        names.sort_by_key(|(below, _)| std::cmp::Reverse(below.len()));
        for (mut below, name) in names {
            below.remove(name);
            if !below.is_subset(&built) {
                let folder = self.root.join("crates").join(name);
                let output = Command::new("rt").args(["check", "--only", ""]).current_dir(folder).output().expect("the kit's rt");
                assert!(output.status.success(), "{name}: {}", String::from_utf8_lossy(&output.stdout));
                built.extend(below);
            }
        }
    }

    /// Runs `rattle check` on a crate's folder: over the libraries as rt has built them, but for those that are given as sources, each
    /// with its folder. The exit status, and what was said.
    fn check(&self, krate: &str, folder: &Path, sources: &BTreeMap<String, PathBuf>, words: &[&OsStr]) -> (Option<i32>, String) {
        let mut command = Command::new(self.kit.join("bin/rattle"));
        command.args(["check", "--crate-name", krate, "src/lib.rt", "--jobs", "1"]).current_dir(folder);
        for (name, source) in sources {
            let uses = [&self.needs[name][..], &["core".to_string(), "std".to_string()]].concat().join(",");
            command.arg("--lib").arg(format!("{name}:{uses}={}", source.join("src/lib.rt").display()));
        }
        let built = self.below(krate).into_iter().filter(|name| name != krate && !sources.contains_key(name));
        let built = built.map(|name| (self.out(&name), name));
        for (folder, name) in built.chain(["core", "std"].map(|name| (self.kit.join("rlibs"), name.to_string()))) {
            // What the crate itself doesn't name may be named by a source.
            if self.needs[krate].contains(&name) || name == "std" || !sources.is_empty() {
                command.arg("--extern").arg(format!("{name}={}", folder.join(format!("{name}.rlib")).display()));
            }
            command.arg("-L").arg(format!("dependency={}", folder.display()));
        }
        command.arg("--antt-project").arg(self.kit.join("rattle/logic/antt-project.json"));
        command.arg("--logic-built").arg(self.kit.join("logic_built")).args(words);
        let output = command.output().expect("the prover runs");
        let said = [output.stdout, output.stderr].map(|bytes| String::from_utf8_lossy(&bytes).into_owned()).concat();
        (output.status.code(), said)
    }

    /// A copy of some folders of a crate.
    fn copy_of(&self, krate: &str, parts: &[&str], to: &Path) {
        for part in parts {
            copy(&self.root.join("crates").join(krate).join(part), &to.join(part));
        }
    }

    /// What came of an edit of the definitions of a crate below: these must check, and the crate above must be refused in a proof of its
    /// own. The crate below and those between are given as sources, without their proofs: what rests on them is not asked here.
    fn tried_below(&self, krate: &str, edit: &Edit, below: &str) -> Vec<(bool, String)> {
        let folder = self.root.join("target/wrong").join(krate).join(&edit.name);
        let began = Instant::now();
        let between = self.below(krate).into_iter().filter(|name| name != krate && self.below(name).contains(below));
        let sources: BTreeMap<String, PathBuf> = between.map(|name| (name.clone(), folder.join(name))).collect();
        for (name, source) in &sources {
            self.copy_of(name, &["src", "specs"], source);
        }
        let made = edit.make(&folder.join(below));
        let (status, log) = self.check(krate, &self.root.join("crates").join(krate), &sources, &[]);
        fs::write(folder.join("log"), &log).expect("the log is kept");
        let refused = refusals(&log, krate);
        let defined = refused.iter().all(|refusal| !refusal.contains("specs/"));
        let own: Vec<&str> = refused.iter().filter(|refusal| refusal.starts_with("proofs/")).copied().collect();
        let judged = status == Some(0) || status == Some(1) && log.lines().any(|line| line == "logic=not-proved");
        let said = if made && defined { verdict(&own, judged) } else { "BAD EDIT".to_string() };
        vec![(said.starts_with("refused"), format!("{krate}/{}: {said}, {} s", edit.name, began.elapsed().as_secs()))]
    }

    /// What came of each edit of a run, and whether it was refused as it must be.
    fn tried(&self, run: &Run) -> Vec<(bool, String)> {
        if let [Edit { below: Some(below), .. }] = &run.edits[..] {
            return self.tried_below(&run.krate, &run.edits[0], below);
        }
        let folder = self.root.join("target/wrong").join(&run.krate).join(&run.edits[0].name);
        self.copy_of(&run.krate, &["src", "specs", "proofs"], &folder);
        let began = Instant::now();
        let made: Vec<bool> = run.edits.iter().map(|edit| edit.make(&folder)).collect();
        // Of bodies alone only these and what they call are proved.
        let bodies: BTreeSet<&String> = run.edits.iter().flat_map(|edit| edit.functions.iter().flatten()).collect();
        let only: Vec<&OsStr> = bodies.iter().flat_map(|name| ["--only".as_ref(), OsStr::new(name.as_str())]).collect();
        let (status, log) = self.check(&run.krate, &folder, &BTreeMap::new(), &only);
        fs::write(folder.join("log"), &log).expect("the log is kept");
        let refused = refusals(&log, &run.krate);
        let unproved = unproved(&log, &run.krate);
        let whole = log.lines().any(|line| line == "logic=not-proved" || line.starts_with("only="));
        let expected = bodies.is_empty() || unproved.iter().all(|name| bodies.iter().any(|body| body == name));
        let owned = refused.iter().all(|refusal| run.edits.iter().any(|edit| edit.owns(refusal)));
        let judged = status == Some(0) || status == Some(1) && whole && expected && owned;
        let verdict = |(edit, made): (&Edit, bool)| {
            let own: Vec<&str> = refused.iter().filter(|refusal| edit.owns(refusal)).copied().collect();
            let said = if made { verdict(&own, judged) } else { "BAD EDIT".to_string() };
            (said.starts_with("refused"), format!("{}/{}: {said}", run.krate, edit.name))
        };
        let mut all: Vec<(bool, String)> = run.edits.iter().zip(made).map(verdict).collect();
        if let Some((_, line)) = all.last_mut() {
            *line += &format!(", {} s", began.elapsed().as_secs());
        }
        all
    }
}

/// What crates.txt says: each crate, and those that it names.
fn needs(root: &Path) -> BTreeMap<String, Vec<String>> {
    let list = read(&root.join("crates.txt"));
    let lines = list.lines().map(|line| line.split('#').next().unwrap_or_default());
    let of = |line: &str| {
        let (name, needs) = line.split_once(':')?;
        Some((name.split_whitespace().next()?.to_string(), needs.split_whitespace().map(String::from).collect()))
    };
    lines.filter_map(of).collect()
}

fn place() -> Place {
    let guide = Command::new("rt").arg("doc").output().expect("the kit's rt").stdout;
    let guide = PathBuf::from(String::from_utf8_lossy(&guide).trim());
    let kit = guide.parent().expect("the kit's folder").to_path_buf();
    let root = Path::new(env!("CARGO_MANIFEST_DIR")).parent().expect("tests/ has a parent").to_path_buf();
    fs::remove_dir_all(root.join("target/wrong")).ok();
    let needs = needs(&root);
    Place { kit, root, needs }
}

fn main() {
    let place = place();
    let (options, mut names): (Vec<String>, Vec<String>) = std::env::args().skip(1).partition(|word| word.starts_with('-'));
    assert!(options.iter().all(|word| word == "--apart"), "wrong [--apart] [NAME..]");
    if names.is_empty() {
        names = place.needs.keys().cloned().collect();
    }
    names.retain(|name| place.root.join("crates").join(name).join("must-fail-quick").exists());
    place.build(&names);
    let waiting: Mutex<VecDeque<Run>> =
        Mutex::new(names.iter().flat_map(|name| runs(&place.root, name, !options.is_empty())).collect());
    let tried: Mutex<Vec<(bool, String)>> = Mutex::new(vec![]);
    std::thread::scope(|scope| {
        for _ in 0..std::thread::available_parallelism().map_or(1, |n| n.get()) {
            scope.spawn(|| loop {
                let next = waiting.lock().expect("no worker failed").pop_front();
                let Some(run) = next else { return };
                let verdicts = place.tried(&run);
                for (_, line) in &verdicts {
                    println!("wrong: {line}");
                }
                tried.lock().expect("no worker failed").extend(verdicts);
            });
        }
    });
    let tried = tried.into_inner().expect("no worker failed");
    let refused = tried.iter().filter(|(ok, _)| *ok).count();
    println!("wrong: {refused} of {} refused, as they must be", tried.len());
    exit(i32::from(tried.is_empty() || refused != tried.len()));
}
