//! The kinds of calls, their names and their rows.

use super::*;

#[test]
fn each_kind_is_in_its_place() {
    for (at, (kind, name, _)) in CALLS.iter().enumerate() {
        assert_eq!(*kind as usize, at);
        assert_eq!(Kind::named(name), Some(*kind));
    }
}

/// Document 02, (j): "Both reserves, accept, grow and release have forms that use it", "A summary of the wrong length is
/// 1", and (l): "a lent summary is built anew, so closing joins the lists of (j)"; the other rows are those of the call without
/// it, in their order.
#[test]
fn forms_have_the_rows_of_the_call_and_the_summarys_length() {
    let forms = CALLS
        .iter()
        .filter(|(kind, ..)| kind.with_summary() != *kind);
    assert_eq!(forms.clone().count(), 6);
    for (kind, name, rows) in forms {
        let form = kind.with_summary();
        assert!(
            form.has_summary() && form.without_summary() == *kind,
            "{name}"
        );
        let mut others = form.rows().to_vec();
        others.retain(|row| *row != SummaryLength);
        assert_eq!(others, *rows, "{name}");
    }
}

/// Document 02, (m): a dated show "otherwise does and answers what show does".
#[test]
fn a_dated_show_has_the_rows_of_show_and_its_own() {
    let own = [NoYear, NoMonth, NoDay, UnsoundFirst, OutsideTerm];
    let mut others = Kind::ShowDated.rows().to_vec();
    others.retain(|row| !own.contains(row));
    assert_eq!(others, Kind::Show.rows());
}

/// Document 01, "Order: 1, 2, 4 for the entry, 5 to 8, 3, then 4 for blocks, 9, 10 or 11, and last 4 for the count", and
/// document 02, "it comes after 3", of 15, and "it takes the place of 10 there", of 17; "after 3", of 19, and "after place 0
/// has been found sound and before the place wanted is checked", of 20; "after 3 and 15, before 10, 11 and 17", of 18; "before
/// all other numbers", of 21.
#[test]
fn rows_stand_in_the_documents_order() {
    for (_, name, rows) in CALLS {
        assert!(rows.windows(2).all(|two| two[0] < two[1]), "{name}");
        let mut numbers: Vec<u32> = rows.iter().map(|row| row.number()).collect();
        numbers.dedup();
        let order = [
            21, 1, 2, 4, 5, 6, 7, 8, 3, 15, 18, 19, 4, 20, 4, 9, 10, 11, 17, 4,
        ];
        let mut order = order.into_iter();
        for number in numbers {
            // Behind the number before it.
            assert!(order.any(|next| next == number), "{name}: {number}");
        }
    }
}

/// Document 02, (k): "Eight limits go with each reserve, placed reserve, offer, accept and grow", with or without a summary.
#[test]
fn calls_with_limits() {
    let with = CALLS.iter().filter(|(kind, ..)| kind.has_limits());
    let names: Vec<&str> = with.map(|(_, name, _)| *name).collect();
    let without_summary = ["reserve", "reserve-placed", "offer", "accept", "grow"];
    let with_summary = [
        "summary-reserve",
        "summary-placed",
        "summary-accept",
        "summary-grow",
    ];
    assert_eq!(names, [&without_summary[..], &with_summary].concat());
}
