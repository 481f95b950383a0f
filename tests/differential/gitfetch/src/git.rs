//! Two bare repositories, and `git fetch` and `git push` from one into the other.

use crate::outcome::{Outcome, Text};
use std::{
    collections::BTreeMap,
    ffi::OsStr,
    fs,
    io::Write,
    os::unix::ffi::OsStrExt,
    path::{Path, PathBuf},
    process::{Command, Output, Stdio},
    sync::atomic::{AtomicU64, Ordering},
};

/// As many refs can be set.
pub const REFS: usize = 16;

/// As many commits are beside them, for specs whose source is an object id.
pub const OBJECTS: usize = 4;

/// How Git says that it pushes nothing.
const NOTHING: &[u8] = b"No refs in common and none specified; doing nothing.";

/// A repository with refs, each at a commit of its own, and one to fetch or push into.
/// They are removed when they are dropped.
pub struct Repositories {
    folder: PathBuf,
    /// The ids of the refs' commits, in the order of the refs, and then of the objects'.
    commits: Vec<Text>,
    names: Vec<Text>,
}

impl Drop for Repositories {
    fn drop(&mut self) {
        let _ = fs::remove_dir_all(&self.folder);
    }
}

impl Repositories {
    pub fn new() -> Repositories {
        static NEXT: AtomicU64 = AtomicU64::new(0);
        let number = NEXT.fetch_add(1, Ordering::Relaxed);
        let folder = std::env::temp_dir().join(format!("vasigmon-gitfetch-{}-{number}", std::process::id()));
        fs::create_dir(&folder).expect("a temporary folder can be made");
        let mut new = Repositories { folder, commits: vec![], names: vec![] };
        let folder = new.folder.clone();
        for repository in ["from", "into"] {
            new.done(&folder, &["init", "--quiet", "--bare", "--initial-branch=unborn", repository], b"");
        }
        // What is fetched is there already, so that no pack is made.
        let objects = folder.join("from/objects");
        fs::write(
            folder.join("into/objects/info/alternates"),
            [objects.as_os_str().as_bytes(), b"\n"].concat(),
        )
        .expect("the repository can be written to");
        // Commits of the empty tree, which Git knows.
        let mut paths = String::new();
        for number in 0..REFS + OBJECTS {
            let who = "A <a@example.org> 1000000000 +0000";
            let tree = "4b825dc642cb6eb9a060e54bf8d69288fbee4904";
            let commit = format!("tree {tree}\nauthor {who}\ncommitter {who}\n\n{number}\n");
            let path = folder.join(format!("commit-{number}"));
            fs::write(&path, commit).expect("the folder can be written to");
            paths += &format!("{}\n", path.display());
        }
        let ids = new.done(
            &folder.join("from"),
            &["hash-object", "-t", "commit", "-w", "--stdin-paths"],
            paths.as_bytes(),
        );
        new.commits = ids.split(|byte| *byte == b'\n').filter(|id| !id.is_empty()).map(Text::from).collect();
        assert_eq!(new.commits.len(), REFS + OBJECTS);
        new
    }

    /// The object ids for specs.
    pub fn objects(&self) -> &[Text] {
        &self.commits[REFS..]
    }

    /// Sets the refs to fetch from, and no others. They are in the order in which Git
    /// lists them: `HEAD`, and then by name.
    pub fn set(&mut self, names: &[Text]) {
        assert!(names.len() <= REFS && names.is_sorted_by_key(|name| (name != b"HEAD", name)));
        let from = self.folder.join("from");
        let refs = |names: &[Text]| names.iter().filter(|name| *name != b"HEAD").cloned().collect::<Vec<_>>();
        let delete =
            refs(&self.names).iter().map(|name| [b"delete ", &name[..], b"\n"].concat()).collect::<Vec<_>>();
        self.done(&from, &["update-ref", "--stdin"], &delete.concat());
        let mut create = Vec::new();
        let mut head = b"ref: refs/heads/unborn".to_vec();
        for (name, commit) in names.iter().zip(&self.commits) {
            if name == b"HEAD" {
                head = commit.clone();
            } else {
                create.extend([b"create ", &name[..], b" ", commit, b"\n"].concat());
            }
        }
        self.done(&from, &["update-ref", "--stdin"], &create);
        fs::write(from.join("HEAD"), [&head[..], b"\n"].concat()).expect("the repository can be written to");
        self.names = names.to_vec();
    }

    /// Fetches, and removes again what was fetched.
    pub fn fetch(&self, specs: &[Text]) -> Outcome {
        let into = self.folder.join("into");
        let mut words = vec!["fetch", "--no-tags", "--no-auto-maintenance", "--no-write-commit-graph"];
        // Git refuses this option where there are no specs.
        if !specs.is_empty() {
            words.push("--refmap=");
        }
        words.extend(["--", "../from"]);
        let mut git = self.git(&into, &words);
        git.args(specs.iter().map(|spec| OsStr::from_bytes(spec)));
        let output = git.stdin(Stdio::null()).output().expect("git can be run");
        let refs = self.taken(&into);
        if !output.status.success() {
            return stopped(&output);
        }
        let written = refs.iter().map(|(name, id)| (name.clone(), self.source(id))).collect();
        let fetch_head = fs::read(into.join("FETCH_HEAD")).expect("git has written it");
        let fetched = lines(&fetch_head).map(|line| self.source(&line[..40])).collect();
        let left_out = lines(&output.stderr)
            .filter_map(|line| {
                line.strip_prefix(b"error: * Ignoring funny ref '")?.strip_suffix(b"' locally")
            })
            .map(Text::from)
            .collect();
        Outcome::Done { fetched, written, left_out }
    }

    /// Pushes into a repository that has the refs `there`, and removes again what is there
    /// then. With `prune` the refs of the remote go that have no source any more.
    pub fn push(&self, there: &[Text], specs: &[Text], prune: bool) -> Outcome {
        let (from, into) = (self.folder.join("from"), self.folder.join("into"));
        let old = &self.objects()[1];
        let create: Vec<Text> =
            there.iter().map(|name| [b"create ", &name[..], b" ", old, b"\n"].concat()).collect();
        self.done(&into, &["update-ref", "--stdin"], &create.concat());
        let mut words = vec!["push", "--force", "--no-follow-tags"];
        words.extend(prune.then_some("--prune"));
        words.extend(["--", "../into"]);
        let mut git = self.git(&from, &words);
        git.args(specs.iter().map(|spec| OsStr::from_bytes(spec)));
        let output = git.stdin(Stdio::null()).output().expect("git can be run");
        let mut refs = self.taken(&into);
        // Git fails where it has nothing to do.
        if !output.status.success() && !lines(&output.stderr).any(|line| line.starts_with(NOTHING)) {
            return stopped(&output);
        }
        let deleted = there.iter().filter(|name| !refs.contains_key(*name)).cloned().collect();
        refs.retain(|name, id| id != old || !there.contains(name));
        let pushed = refs.into_iter().map(|(name, id)| (self.source(&id), Some(name))).collect();
        Outcome::Pushed { pushed, deleted }
    }

    /// The refs of a repository with their commits, taken away from it.
    fn taken(&self, folder: &Path) -> BTreeMap<Text, Text> {
        let listed = self.done(folder, &["for-each-ref", "--format=%(objectname) %(refname)"], b"");
        let delete: Vec<Text> =
            lines(&listed).map(|line| [b"delete ", &line[41..], b"\n"].concat()).collect();
        self.done(folder, &["update-ref", "--stdin"], &delete.concat());
        lines(&listed).map(|line| (line[41..].to_vec(), line[..40].to_vec())).collect()
    }

    /// The source that a commit tells: a ref, or the object id itself.
    fn source(&self, id: &[u8]) -> Text {
        let number = self.commits.iter().position(|commit| commit == id).expect("no other commits are there");
        if number < REFS { self.names[number].clone() } else { id.to_vec() }
    }

    /// Git, with nothing of its surroundings.
    fn git(&self, folder: &Path, words: &[&str]) -> Command {
        let mut git = Command::new("git");
        git.env_clear()
            .env("PATH", std::env::var_os("PATH").unwrap_or_default())
            .env("HOME", &self.folder)
            .env("GIT_CONFIG_NOSYSTEM", "1")
            .env("LC_ALL", "C")
            .current_dir(folder)
            .args(words);
        git
    }

    /// What Git prints, which must succeed.
    fn done(&self, folder: &Path, words: &[&str], input: &[u8]) -> Vec<u8> {
        let mut git = self.git(folder, words);
        let mut child = git
            .stdin(Stdio::piped())
            .stdout(Stdio::piped())
            .stderr(Stdio::piped())
            .spawn()
            .expect("git can be run");
        let stdin = child.stdin.take().expect("it is piped");
        { stdin }.write_all(input).expect("git reads its input");
        let output = child.wait_with_output().expect("git ends");
        assert!(output.status.success(), "git {words:?}: {}", output.stderr.escape_ascii());
        output.stdout
    }
}

fn lines(text: &[u8]) -> impl Iterator<Item = &[u8]> {
    text.split(|byte| *byte == b'\n').filter(|line| !line.is_empty())
}

/// Why Git stopped: a conflict, or the first line that says so.
fn stopped(output: &Output) -> Outcome {
    let first = |start: &[u8]| lines(&output.stderr).find_map(|line| line.strip_prefix(start));
    let why = first(b"fatal: ").or(first(b"error: ")).unwrap_or(b"no reason");
    let why = String::from_utf8_lossy(why).into_owned();
    let conflict = why.strip_prefix("Cannot fetch both ").and_then(|rest| {
        let (one, rest) = rest.split_once(" and ")?;
        let (other, destination) = rest.split_once(" to ")?;
        let [one, other, destination] = [one, other, destination].map(Text::from);
        Some(Outcome::Conflict { sources: [one, other], destination })
    });
    conflict.unwrap_or(Outcome::Refused(format!("stop: {why}")))
}
