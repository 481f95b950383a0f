//! Each call keeps to the stack that [`vasigmon::stack`] states, on threads of
//! [`std::thread`]; one that has too little is stopped.
//!
//! The sizes are multiples of a page, so none is rounded up. But no thread has less than the
//! C library asks for, some 24 KB, so `stack::SPEC` is tested to the byte in C only
//! (`tests/stack/test.c`). The C library keeps the stacks of threads that have ended and
//! hands them to threads that want less: so the sizes ascend here, and there is no test
//! harness, whose threads have larger stacks.

use std::{env, os::unix::process::ExitStatusExt, process::Command, thread};
use vasigmon::{Group, Items, Operation::Fetch, Refusal, Validated, collide, list, parse, stack};

/// The largest number of rows that a test asks for: more than any row list has.
const ALL: usize = 1 << 20;

/// Makes a call on a thread with a stack of so many bytes. An overflow is told with the
/// thread's name.
fn on<T: Send>(stack: usize, name: &str, call: impl FnOnce() -> T + Send) -> T {
    let thread = thread::Builder::new().name(name.to_string()).stack_size(stack);
    thread::scope(|scope| thread.spawn_scoped(scope, call).unwrap().join().unwrap())
}

/// A text of so many bytes. In its form, `#` is a number, and `~` as many letters as are
/// missing.
fn text(form: &str, number: usize, length: usize) -> String {
    let form = form.replace('#', &format!("{number:04}"));
    form.replace('~', &"a".repeat(length + 1 - form.len()))
}

/// A list of `count` texts in `bytes` bytes, from the forms in turn.
fn texts(forms: &[&str], count: usize, bytes: usize) -> Vec<u8> {
    let mut texts = vec![];
    for number in 0..count {
        let share = (bytes - texts.len()) / (count - number);
        let length = if share < 129 { share - 1 } else { share - 2 };
        texts.extend(list::of([text(forms[number % forms.len()], number, length)]));
    }
    assert_eq!(texts.len(), bytes);
    texts
}

/// So many rows, or as many as a row list has room for. Source and destination of each are
/// made of its number, which falls from row to row.
fn rows(count: usize, ends: fn([u8; 4]) -> [Vec<u8>; 2]) -> Vec<u8> {
    let row = |number: usize| {
        let [source, destination] = ends((number as u32).to_be_bytes());
        [&[0, 0, 0, source.len() as u8], &source[..], &[destination.len() as u8 + 1], &destination].concat()
    };
    (0..count.min(1_048_576 / row(0).len())).rev().flat_map(row).collect()
}

fn one_spec() {
    let name = text("~", 0, 4096);
    on(stack::SPEC, "one spec", || {
        let spec = parse(Fetch, name.as_bytes()).unwrap();
        assert_eq!((spec.prefix(), spec.to_bstring().len()), (None, 4096));
        assert_eq!((spec.instruction(), spec.expand_prefixes().len()), (spec.instruction(), 6));
    });
    let refused = on(stack::SPEC, "a refused spec", || parse(Fetch, &[b'a'; 4097]).unwrap_err());
    assert_eq!(refused, Refusal::SpecTooLong);
}

fn two_specs() {
    let specs = ["*:refs/~*", "*:*~"].map(|form| text(form, 0, 4096).into_bytes());
    let found = on(stack::SPEC, "two specs", || collide(&specs[0], &specs[1]).unwrap());
    assert_eq!(found.map(|destination| destination.len()), Some(2 * 4093));
    let refused = on(stack::SPEC, "a refused spec of two", || collide(&specs[0], b"^").unwrap_err());
    assert_eq!((refused.refusal, refused.which), (Refusal::NegativeEmpty, 2));
}

/// The largest lists.
fn lists() -> (Group, Items) {
    let specs = texts(&["+refs/heads/*:refs/remotes/~/*", "refs/x/~/*:refs/heads/*", "#~"], 256, 65535);
    let names = texts(&["refs/heads/#~"], 1024, 65535);
    on(stack::SPEC, "two lists", || {
        let (group, items) = (Group::from_list(Fetch, specs).unwrap(), Items::from_list(names).unwrap());
        assert_eq!(group.source(&items, Some(1023), 255).map(<[u8]>::len), Ok(63));
        assert_eq!(group.source(&items, None, 0), Err(Refusal::OutsideTheLists));
        (group, items)
    })
}

fn listings(group: &Group, items: &Items) {
    let forward = on(stack::LISTS, "a forward listing", || group.match_lhs(items));
    assert_eq!(list::rows(&forward).count(), 86 * 1024);
    let reverse = on(stack::LISTS, "a reverse listing", || group.match_rhs(items));
    assert_eq!(list::rows(&reverse).count(), 85 * 1024);
    let prefixes = on(stack::LISTS, "the prefixes of a group", || group.prefixes());
    assert!(prefixes.len() > 6 * 85);
}

/// Validates rows that pass, in two ways, rows in conflict, and rows that are refused.
fn validation(count: usize, stack: usize) {
    let group = Group::from_list(Fetch, texts(&["~:#"], 256, 65535)).unwrap();
    let validated = |rows: &[u8]| on(stack, &format!("validation of {count} rows"), || group.validated(rows));

    let partial = rows(count, |_| [vec![], vec![]]);
    let number = partial.len() / 5;
    let Ok(Validated::Passed { rows: kept, fixes }) = validated(&partial) else {
        panic!("they have one source")
    };
    assert_eq!((kept.len(), list::fixes(&fixes).count()), (0, number));
    let refused = validated(&[&partial[..], &[128]].concat()).unwrap_err();
    assert_eq!((refused.refusal, refused.record), (Refusal::Malformed, Some(number)));

    let apart = rows(count, |number| [vec![], [b"refs/", &number[..]].concat()]);
    assert_eq!(validated(&apart), Ok(Validated::Passed { rows: apart, fixes: vec![] }));

    let together = rows(count, |number| [number.to_vec(), vec![]]);
    let Ok(Validated::Conflicts(conflicts)) = validated(&together) else {
        panic!("they have one destination")
    };
    assert_eq!(list::conflicts(&conflicts).next().unwrap().sources.len(), together.len() / 9);
}

/// This program, run so that it validates the longest list with the stack for 16,384 rows,
/// is stopped by an overflow.
fn too_little() {
    let run = Command::new(env::current_exe().unwrap()).arg("too-little").output().unwrap();
    assert!(run.status.signal().is_some(), "it ends with {}", run.status);
    let told = String::from_utf8(run.stderr).unwrap();
    assert!(told.contains("'validation of 1048576 rows'") && told.contains("overflowed its stack"), "{told}");
}

/// The numbers are those of the C header.
fn header() {
    let header = include_str!("../../../include/vasigmon.h");
    let stated = [
        ("SPEC", stack::SPEC),
        ("LISTS", stack::LISTS),
        ("1024_ROWS", stack::ROWS_1024),
        ("16384_ROWS", stack::ROWS_16384),
        ("ROWS", stack::ROWS),
    ];
    for (name, bytes) in stated {
        assert!(header.contains(&format!(" VASIGMON_STACK_{name} = {bytes}")), "{name}");
    }
}

fn main() {
    if env::args().any(|argument| argument == "too-little") {
        return validation(ALL, stack::ROWS_16384);
    }
    header();
    one_spec();
    two_specs();
    let (group, items) = lists();
    validation(1024, stack::ROWS_1024);
    listings(&group, &items);
    validation(16384, stack::ROWS_16384);
    validation(ALL, stack::ROWS);
    too_little();
    println!("stack: each call keeps to what is stated, and too little stops it");
}
