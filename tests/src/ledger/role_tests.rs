//! Lists with roles (document 02, (n)).

use super::*;
use crate::calendar::date;
use crate::call::{accept, call, dated};

/// "A call turned away by role counts among the refused ones". The ledger stays as it is, and what a carer
/// and the service may call leaves every Complete sheet what it shows.
#[test]
fn lists_with_roles() {
    let mut ledger = Ledger::fresh(10, 2);
    let day = date(2000, 1, 2);
    let mut term = [7; 496];
    term[..8].copy_from_slice(&[0, 0, 0, 1, 0, 0, 0, 1]);
    let mut answer = |call: Call, role: u32, slice: &mut [u8]| ledger.call(call.by(role), slice);
    for (call, done) in [
        (accept(1, 4, 1), Start(4, 6)),
        (call(Kind::Put, 1, 0), Done),
        (call(Kind::Complete, 1, 0), Done),
    ] {
        for role in [2, 3, 0, 4, u32::MAX] {
            assert_eq!(answer(call, role, &mut term), Some(Refused(21)), "{call}");
        }
        assert_eq!(answer(call, 1, &mut term), Some(done), "{call}");
    }
    for (role, others) in [(2, Refused(21)), (3, Done)] {
        assert_eq!(answer(call(Kind::Close, 0, 1), role, &mut []), Some(others));
        for kind in [Kind::Pause, Kind::Release, Kind::Resume] {
            assert_eq!(answer(call(kind, 1, 0), role, &mut []), Some(Refused(21)));
        }
        let start = if role == 2 { 4 } else { 0 };
        let standing = Some(Stands(entry(0x43, start, 1)));
        assert_eq!(answer(call(Kind::Standing, 1, 0), role, &mut []), standing);
        let mut shown = [0; 496];
        assert_eq!(answer(dated(1, 0, day), 2, &mut shown), Some(Done));
        assert_eq!(shown, term);
        let undated = call(Kind::Show, 1, 0);
        assert_eq!(answer(undated, role, &mut [0; 496]), Some(Refused(21)));
    }
    assert_eq!(answer(dated(1, 0, day), 3, &mut term), Some(Refused(21)));
    assert_eq!(
        answer(call(Kind::Survey, 0, 0), 4, &mut []),
        Some(Refused(21))
    );
    assert_eq!(answer(call(Kind::Survey, 0, 0), 2, &mut []), None);
}
