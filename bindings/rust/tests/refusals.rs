//! Every refusal: its number, its words, and the calls that give it.

use std::error::Error;
use vasigmon::{
    Group, Items, ListRefusal,
    Operation::{Fetch, Push},
    PairRefusal, Refusal, collide, list, parse, raw,
};

fn at(refusal: Refusal, record: usize) -> ListRefusal {
    ListRefusal { refusal, record: Some(record) }
}

fn whole(refusal: Refusal) -> ListRefusal {
    ListRefusal { refusal, record: None }
}

#[test]
fn numbers_go_back_and_forth() {
    let numbers: Vec<u64> = Refusal::ALL.iter().map(|refusal| refusal.number()).collect();
    assert!(numbers.iter().copied().eq(1..=18));
    for number in 0..100 {
        let refusal = Refusal::from_number(number);
        assert_eq!(refusal.map(Refusal::number), numbers.contains(&number).then_some(number));
    }
}

/// A line of the header's enum is `VASIGMON_NAME = NUMBER, /* WORDS */`.
#[test]
fn the_words_are_those_of_the_header() {
    let header = include_str!("../../../include/vasigmon.h");
    let (_, questions) = header.split_once("enum vasigmon_refusal {").unwrap();
    let (questions, _) = questions.split_once("};").unwrap();
    let words: Vec<&str> = questions
        .lines()
        .filter_map(|line| line.split_once("/* ")?.1.strip_suffix(" */"))
        .skip_while(|words| words.starts_with("no refusal"))
        .collect();
    let ours: Vec<String> = Refusal::ALL.iter().map(Refusal::to_string).collect();
    assert_eq!(ours, words);
}

#[test]
fn a_refusal_is_an_error_in_words() {
    fn text() -> Result<(), Box<dyn Error>> {
        parse(Fetch, b"^")?;
        Ok(())
    }
    fn lists() -> Result<(), Box<dyn Error>> {
        Items::new(["HEAD"])?;
        Group::new(Push, [":", "a..b"])?;
        Ok(())
    }
    assert_eq!(text().unwrap_err().to_string(), "no source follows `^`");
    assert_eq!(lists().unwrap_err().to_string(), "record 1: the source does not pass the name rules");
    let long = Items::from_list(vec![0; 65_536]).unwrap_err();
    assert_eq!(long.to_string(), Refusal::ListTooLong.words());
}

#[test]
fn refusals_of_one_spec() {
    assert_eq!(parse(Fetch, &[b'a'; 4097]), Err(Refusal::SpecTooLong));
    assert_eq!(parse(Push, b""), Err(Refusal::EmptyPush));
    assert_eq!(parse(Fetch, b"^a:b"), Err(Refusal::NegativeColon));
    assert_eq!(parse(Push, b"a:"), Err(Refusal::PushIntoNothing));
    assert_eq!(parse(Fetch, b"a**:b*"), Err(Refusal::SourceStars));
    assert_eq!(parse(Fetch, b"a..b"), Err(Refusal::SourceName));
    assert_eq!(parse(Fetch, b"a*:b**"), Err(Refusal::DestinationStars));
    assert_eq!(parse(Fetch, b"a:@"), Err(Refusal::DestinationName));
    assert_eq!(parse(Fetch, b"a*:b"), Err(Refusal::OneStarOfTwo));
    assert_eq!(parse(Fetch, b"^"), Err(Refusal::NegativeEmpty));
    assert_eq!(parse(Fetch, &[b"^".as_slice(), &[b'F'; 40]].concat()), Err(Refusal::NegativeObject));
}

#[test]
fn refusals_of_one_of_two_specs() {
    let of = |refusal, which| Err(PairRefusal { refusal, which });
    let digits = [b"^".as_slice(), &[b'F'; 40]].concat();
    for (spec, refusal) in [
        ([b'a'; 4097].as_slice(), Refusal::SpecTooLong),
        (b"^a:b", Refusal::NegativeColon),
        (b"a**:b*", Refusal::SourceStars),
        (b"a..b", Refusal::SourceName),
        (b"a*:b**", Refusal::DestinationStars),
        (b"a:@", Refusal::DestinationName),
        (b"a*:b", Refusal::OneStarOfTwo),
        (b"^", Refusal::NegativeEmpty),
        (&digits, Refusal::NegativeObject),
    ] {
        assert_eq!(collide(spec, b"a:b"), of(refusal, 1));
        assert_eq!(collide(b"a:b", spec), of(refusal, 2));
        assert_eq!(collide(spec, b"^"), of(refusal, 1), "the first is asked first");
        assert_eq!(collide(b"^a:b", spec), of(Refusal::NegativeColon, 1));
    }
    assert_eq!(collide(b"", b"a:"), Ok(None), "what only a push refuses");
}

#[test]
fn refusals_of_specs_in_a_group() {
    for (list, refused) in [
        (list::of(["a", "b..c"]), at(Refusal::SourceName, 1)),
        (b"\x01a\x01a\x05a".to_vec(), at(Refusal::Malformed, 2)),
        (list::of(["a"; 257]), at(Refusal::TooManyRecords, 256)),
        (vec![0; 65_536], whole(Refusal::ListTooLong)),
    ] {
        assert_eq!(Group::from_list(Fetch, list), Err(refused));
    }
}

#[test]
fn refusals_of_items() {
    for (list, refused) in [
        (list::of(["a".repeat(4096), "a".repeat(4097)]), at(Refusal::NameTooLong, 1)),
        (b"\x01a\x80\x00".to_vec(), at(Refusal::Malformed, 1)),
        (list::of([""; 1025]), at(Refusal::TooManyRecords, 1024)),
        (vec![0; 65_536], whole(Refusal::ListTooLong)),
    ] {
        assert_eq!(Items::from_list(list), Err(refused));
    }
}

/// The refusal and the record that each entry on one spec tells, as they stand.
fn told_of_a_spec(op: u64, spec: &[u8]) -> Vec<(u64, u64)> {
    let written = [raw::expand_prefixes(op, spec, &mut []), raw::to_bstring(op, spec, &mut [])];
    let mut told = vec![
        (raw::parse(op, spec).refusal, 0),
        (raw::instruction(op, spec).refusal, 0),
        (raw::prefix(op, spec).refusal, 0),
    ];
    told.extend(written.map(|answer| (answer.refusal, answer.record)));
    told
}

/// The refusal and the record that each entry on a spec list tells, as they stand. The list
/// lent beside it is one that is refused too.
fn told_of_a_list(op: u64, specs: &[u8]) -> Vec<(u64, u64)> {
    let long = vec![0; 1_048_577];
    let written = [
        raw::group_prefixes(op, specs, &mut []),
        raw::match_lhs(op, specs, &long, &mut []),
        raw::match_rhs(op, specs, &long, &mut []),
    ];
    let validation = raw::validated(op, specs, &long, &mut [], &mut []);
    let part = raw::source(op, specs, &long, 1, 0);
    let mut told = vec![(validation.refusal, validation.record), (part.refusal, part.record)];
    told.extend(written.map(|answer| (answer.refusal, answer.record)));
    told
}

#[test]
fn every_call_refuses_alike() {
    assert_eq!(told_of_a_spec(0, b"a:@"), [(8, 0); 5]);
    assert_eq!(told_of_a_spec(2, b"a:@"), [(18, 0); 5]);
    assert_eq!(told_of_a_list(0, b"\x01a\x03a:@"), [(8, 1); 5]);
    assert_eq!(told_of_a_list(0, b"\x01a\x03a:"), [(13, 1); 5]);
    assert_eq!(told_of_a_list(2, b"\x01a\x03a:@"), [(18, 0); 5]);
    for (first, second, which) in [(b"a:@", b"^".as_slice(), 1), (b"a:b", b"a:@", 2)] {
        let refused = raw::Collision { refusal: 8, which, collides: 0, length: 0 };
        assert_eq!(raw::collide(first, second, &mut []), refused);
    }
}
