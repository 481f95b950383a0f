//! What each call on lists means: its bytes, or its refusal. Buffers are the
//! caller's matter.

use crate::{Group, Items, Part, Refused, Row, Verdict, list};

/// The bytes of the forward listing.
pub fn match_lhs(op: u64, specs: &[u8], items: &[u8]) -> Result<Vec<u8>, Refused> {
    let (group, items) = read(op, specs, items)?;
    Ok(Row::list(&group.forward(&items)))
}

/// The bytes of the reverse listing.
pub fn match_rhs(op: u64, specs: &[u8], items: &[u8]) -> Result<Vec<u8>, Refused> {
    let (group, items) = read(op, specs, items)?;
    Ok(Row::list(&group.reverse(&items)))
}

/// The bytes of the group's prefix list, here in byte order.
pub fn group_prefixes(op: u64, specs: &[u8]) -> Result<Vec<u8>, Refused> {
    Ok(list(Group::read(op, specs)?.prefixes()))
}

/// The source view.
pub fn source(op: u64, specs: &[u8], items: &[u8], field: u64, spec: u64) -> Result<Part, Refused> {
    let (group, items) = read(op, specs, items)?;
    group.view(&items, field, spec)
}

/// What validation answers. Its verdict has the bytes.
pub fn validated(op: u64, specs: &[u8], rows: &[u8]) -> Result<Verdict, Refused> {
    Ok(Verdict::on(&Group::read(op, specs)?.rows(rows)?))
}

/// "Lists, after 18; the spec list wholly, then the items or rows."
fn read<'a>(op: u64, specs: &'a [u8], items: &'a [u8]) -> Result<(Group<'a>, Items<'a>), Refused> {
    Ok((Group::read(op, specs)?, Items::read(items)?))
}

#[cfg(test)]
mod tests {
    use super::*;

    #[test]
    fn the_spec_list_wholly_then_the_items() {
        let long = [0; 65_536];
        let refused = Err(Refused::at(9, 1));
        assert_eq!(match_lhs(0, b"\x01a\x02a*", &long), refused);
        assert_eq!(match_rhs(0, b"\x01a\x02a*", &long), refused);
        assert_eq!(match_lhs(0, b"\x01a", &long), Err(Refused::whole(12)));
        assert_eq!(match_lhs(2, &long, &long), Err(Refused::whole(18)));
        assert_eq!(source(0, b"\x01a", b"\x80", 9, 9), Err(Refused::at(13, 0)));
        assert_eq!(group_prefixes(0, b"\x04HEAD\x00"), Ok(b"\x04HEAD".to_vec()));
    }

    #[test]
    fn the_spec_list_wholly_then_the_rows() {
        let long = vec![0; 1_048_577];
        assert_eq!(validated(0, b"\x01a\x02a*", &long), Err(Refused::at(9, 1)));
        assert_eq!(validated(0, b"\x01a", &long), Err(Refused::whole(12)));
        assert_eq!(validated(0, b"\x01a", &long[1..]), Err(Refused::at(13, 209_715)));
        assert_eq!(validated(2, &long, &long), Err(Refused::whole(18)));
        assert_eq!(validated(1, b"\x02^a", b"\x00\x00\x02\x00\x00"), Err(Refused::at(16, 0)));
        let passed = Verdict::Passed { kept: vec![], fixes: vec![] };
        assert_eq!(validated(1, b"", b""), Ok(passed));
    }
}
