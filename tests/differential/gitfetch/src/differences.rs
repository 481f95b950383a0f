//! Where Git and we differ: ../differences.txt, made anew.

use crate::{
    Group,
    git::Repositories,
    ours,
    outcome::{Outcome, Text},
};

/// What stands for an object id, and for it in capitals.
const MARKS: [&str; 2] = ["<id>", "<ID>"];

/// A line of the file that is kept, and the example that it ends, if it does.
type Line<'a> = (&'a str, Option<Example>);

/// What is done with refs and specs.
enum Example {
    Fetch(Group),
    /// The remote's refs stand beside.
    Push(Group, Vec<Text>),
    Prune(Group, Vec<Text>),
}

/// The lines of the file but the indented ones, with an object id in place of its mark.
fn lines<'a>(file: &'a str, ids: &[String; 2]) -> Result<Vec<Line<'a>>, String> {
    let texts = |words: &str| -> Vec<Text> {
        let spelled = |word: &str| word.replace(MARKS[0], &ids[0]).replace(MARKS[1], &ids[1]).into_bytes();
        words.split_ascii_whitespace().map(spelled).collect()
    };
    let (mut names, mut there) = (Vec::new(), Vec::new());
    let mut example = |line: &str| {
        let (word, words) = line.split_once(' ').unwrap_or((line, ""));
        let group = |names: &[Text]| Group { names: names.to_vec(), specs: texts(words) };
        match word {
            "refs" => (names, there) = (texts(words), Vec::new()),
            "there" => there = texts(words),
            "specs" => return Ok(Some(Example::Fetch(group(&names)))),
            "push" => return Ok(Some(Example::Push(group(&names), there.clone()))),
            "prune" => return Ok(Some(Example::Prune(group(&names), there.clone()))),
            "" | "#" => {}
            _ => return Err(format!("neither a comment nor refs nor specs: {line}")),
        }
        Ok(None)
    };
    let kept = file.lines().filter(|line| !line.starts_with("    "));
    kept.map(|line| Ok((line, example(line)?))).collect()
}

/// An object id in both spellings.
fn ids(repositories: &Repositories) -> [String; 2] {
    let id = String::from_utf8(repositories.objects()[0].clone()).expect("it has digits");
    [id.clone(), id.to_ascii_uppercase()]
}

/// The file with the indented lines made anew, or what is wrong with it.
pub fn anew(file: &str) -> Result<String, String> {
    let mut repositories = Repositories::new();
    let ids = ids(&repositories);
    let marked = |text: String| text.replace(&ids[0], MARKS[0]).replace(&ids[1], MARKS[1]);
    let mut out = String::new();
    for (line, example) in lines(file, &ids)? {
        out += &format!("{line}\n");
        let Some(example) = example else { continue };
        let (git, ours) = both(&mut repositories, &example);
        if git == ours {
            return Err(format!("no difference: {line}: {git}"));
        }
        out += &format!("    git:  {}\n", marked(git.to_string()));
        out += &format!("    ours: {}\n", marked(ours.to_string()));
    }
    Ok(out)
}

/// What comes of an example in Git and by us.
fn both(repositories: &mut Repositories, example: &Example) -> (Outcome, Outcome) {
    let (Example::Fetch(group) | Example::Push(group, _) | Example::Prune(group, _)) = example;
    let Group { names, specs } = group;
    repositories.set(names);
    let push =
        |there, prune| (repositories.push(there, specs, prune), ours::push(specs, names, there, prune));
    match example {
        Example::Fetch(_) => (repositories.fetch(specs), ours::fetch(specs, names)),
        Example::Push(_, there) => push(there, false),
        Example::Prune(_, there) => push(there, true),
    }
}

#[cfg(test)]
mod tests {
    use super::*;
    use crate::agree;
    use std::collections::BTreeSet;

    #[test]
    fn what_differs_is_made_anew() {
        let made = "# a comment\n\nrefs HEAD\nspecs HEAD:heads/b\n    \
            git:  fetch HEAD; write refs/heads/b from HEAD\n    \
            ours: fetch HEAD; write refs/heads/heads/b from HEAD\n";
        assert_eq!(anew(made), Ok(made.to_owned()));
        let pushed = "refs refs/a/x\nthere refs/b/y\nprune refs/a/*:refs/b/* ^refs/b/y\n    \
            git:  push refs/a/x to refs/b/x\n    \
            ours: push refs/a/x to refs/b/x; delete refs/b/y\n";
        assert_eq!(anew(pushed), Ok(pushed.to_owned()));
        let wrong = "# a comment\n\nrefs HEAD\nspecs HEAD:heads/b\n    git:  nothing\n";
        assert_eq!(anew(wrong), Ok(made.to_owned()));
    }

    #[test]
    fn what_does_not_differ_is_refused() {
        assert!(anew("refs HEAD\nspecs HEAD:b\n").is_err());
        // Without negatives both push and prune the same.
        for group in ["push refs/a/*:refs/b/*", "prune refs/a/*:refs/b/*", "push refs/a/x:refs/b/y"] {
            assert!(anew(&format!("refs refs/a/x\nthere refs/b/x refs/b/z\n{group}\n")).is_err(), "{group}");
        }
        assert!(anew("ref HEAD\n").is_err());
    }

    /// Each reason for which groups are set aside has an example, and an example without
    /// one is in what Git says alone.
    #[test]
    fn every_reason_has_an_example() {
        let ids = ids(&Repositories::new());
        let lines = lines(include_str!("../differences.txt"), &ids).unwrap();
        let fetched = |line: Line| match line.1 {
            Some(Example::Fetch(group)) => Some(group),
            _ => None,
        };
        let groups: Vec<Group> = lines.into_iter().filter_map(fetched).collect();
        let reasons: Vec<_> = groups.iter().map(|group| agree::reason(&group.specs, &group.names)).collect();
        let all: BTreeSet<_> = reasons.iter().flatten().copied().collect();
        assert_eq!(all, BTreeSet::from(agree::REASONS));
        assert_eq!(reasons.iter().filter(|reason| reason.is_none()).count(), 1);
    }
}
