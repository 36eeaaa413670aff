//! The cases of document 01, with the answers that it gives in so many words:
//! "Plans to try", the session in full, and the ways a plan desk goes wrong.
//! Nothing here asks the second implementation.

use reference::Shape;

use crate::calls::Calls;
use crate::packed::{value, Row};
use crate::values::{Made, Matched, Plan, Routed, Verdict, Written};

const PSI: [(&str, &str); 3] = [("111", "11"), ("112", "121"), ("12", "122")];
const PHI: [(&str, &str); 3] = [("111", "122"), ("112", "121"), ("12", "11")];
const SHAPE: Shape = Shape { arity: 2, roots: 1 };

/// The value of these pairs, of shape (2,1).
fn typed(pairs: &[(&str, &str)]) -> Plan {
    let rows: Vec<Row> = pairs
        .iter()
        .map(|(f, t)| ((*f).into(), (*t).into()))
        .collect();
    value(SHAPE, &rows)
}

fn nothing() -> Plan {
    typed(&[("1", "1")])
}

/// Typed drafts and what is kept of them.
pub fn of_drafts(calls: &dyn Calls) {
    let keeps = [
        (typed(&[("11", "11"), ("12", "12")]), nothing()),
        (
            typed(&[("12", "11"), ("11", "12")]),
            typed(&[("11", "12"), ("12", "11")]),
        ),
        (typed(&PSI), typed(&PSI)),
        (
            typed(&[
                ("122", "121"),
                ("111", "111"),
                ("121", "122"),
                ("112", "112"),
            ]),
            typed(&[("11", "11"), ("121", "122"), ("122", "121")]),
        ),
    ];
    for (draft, plan) in keeps {
        let kept = calls.keep(&draft);
        assert_eq!((kept.number, kept.column, kept.plan), (0, 0, plan));
        assert_eq!(calls.is_plan(&draft), draft == plan);
        assert!(calls.is_plan(&plan));
    }
}

/// Drafts that aren't kept: the column and the reason.
pub fn of_refusals(calls: &dyn Calls) {
    let refused = [
        (typed(&[("11", "1"), ("12", "11")]), 6, b'T'),
        (typed(&[]), 7, b'F'),
        (
            typed(&[("11", "11"), ("121", "121"), ("122", "1221")]),
            7,
            b'T',
        ),
        (typed(&[("11", "11"), ("1", "1221")]), 6, b'F'),
        (typed(&[("11", "1"), ("121", "11")]), 7, b'F'),
    ];
    for (draft, number, column) in refused {
        assert_eq!(calls.verdict(&draft), Verdict { number, column });
        let kept = calls.keep(&draft);
        assert_eq!(
            (kept.number, kept.column, kept.plan),
            (number, column, Plan::ZERO)
        );
        assert!(!calls.is_plan(&draft));
    }
}

/// Products, inverses and powers of ψ and φ.
pub fn of_products(calls: &dyn Calls) {
    let (psi, phi) = (typed(&PSI), typed(&PHI));
    let squared = [
        ("111", "112"),
        ("112", "111"),
        ("121", "122"),
        ("122", "121"),
    ];
    assert_eq!(calls.power(&phi, 2), Made::plan(typed(&squared)));
    assert_eq!(calls.follow(&phi, &phi), Made::plan(typed(&squared)));
    let inverse = [("11", "12"), ("121", "112"), ("122", "111")];
    assert_eq!(calls.inverse(&phi), Made::plan(typed(&inverse)));
    assert_eq!(calls.power(&phi, 4), Made::plan(nothing()));
    assert_eq!(calls.power(&phi, 1000), Made::plan(nothing()));
    assert_eq!(calls.power(&phi, 1001), Made::refused(12));
    assert_eq!(calls.power(&psi, 1001), Made::refused(12));

    let back = calls.inverse(&psi).plan;
    assert_eq!(calls.follow(&psi, &back), Made::plan(nothing()));
    let fourteenth = calls.power(&psi, 14);
    assert_eq!((fourteenth.number, fourteenth.plan.pairs), (0, 16));
    assert_eq!(fourteenth.plan.from[0], 0x1111_1111_1111_1111);
    assert_eq!(fourteenth.plan.to[15], 0x1222_2222_2222_2222);
    assert_eq!(calls.follow(&fourteenth.plan, &psi), Made::refused(11));
    for k in [15, 16, 1000, -15] {
        assert_eq!(calls.power(&psi, k), Made::refused(11));
    }
}

/// "Following b first" and joining images that stand in another order.
pub fn of_orders(calls: &dyn Calls) {
    let (psi, phi) = (typed(&PSI), typed(&PHI));
    let psi_first = [
        ("1111", "122"),
        ("1112", "121"),
        ("112", "111"),
        ("12", "112"),
    ];
    let phi_first = [
        ("111", "1222"),
        ("112", "1221"),
        ("121", "11"),
        ("122", "121"),
    ];
    assert_eq!(calls.follow(&psi, &phi), Made::plan(typed(&psi_first)));
    assert_eq!(calls.follow(&phi, &psi), Made::plan(typed(&phi_first)));
    let alike = calls.same(&psi, &phi);
    assert_eq!((alike.number, alike.alike), (0, false));
    let alike = calls.same(&phi, &phi);
    assert_eq!((alike.number, alike.alike), (0, true));
}

/// Routes, and the listing of the session in full.
pub fn of_bytes(calls: &dyn Calls) {
    let psi = typed(&PSI);
    let routes = [
        ("1122", "1212", 2),
        ("12", "122", 3),
        ("111", "11", 1),
        ("12121", "122121", 3),
    ];
    for (code, image, place) in routes {
        let mut out = [b'.'; 8];
        let routed = calls.route(&psi, code.as_bytes(), &mut out);
        assert_eq!(routed, Routed::image(image.len(), place), "{code}");
        assert_eq!(&out[..image.len()], image.as_bytes());
        assert!(out[image.len()..].iter().all(|byte| *byte == b'.'));
    }
    for (code, number) in [("11", 13), ("1", 13), ("", 4), ("2", 4), ("113", 4)] {
        let routed = calls.route(&psi, code.as_bytes(), &mut [0; 8]);
        assert_eq!(routed, Routed::refused(number), "{code}");
        let matched = calls.unmatched(&psi, code.as_bytes());
        assert_eq!(matched, Matched::nothing(code.len()), "{code}");
    }
    for (code, tail, place) in [("1122", 1, 2), ("12", 0, 3), ("111221", 3, 1)] {
        let matched = calls.unmatched(&psi, code.as_bytes());
        assert_eq!(matched, Matched { tail, place }, "{code}");
    }
    let mut out = [b'.'; 3];
    assert_eq!(calls.route(&psi, b"1122", &mut out), Routed::refused(14));
    assert_eq!(out, [b'.'; 3]);

    let listing = "P\tB\t2\t1\nM\t1111\t11\nM\t1112\t121\nM\t112\t1221\nM\t12\t1222\nE\n";
    let square = calls.power(&psi, 2).plan;
    let mut out = [b'.'; 60];
    let written = calls.list(&square, b'B', &mut out);
    assert_eq!(written, Written::bytes(listing.len()));
    assert_eq!(&out[..listing.len()], listing.as_bytes());
    assert!(out[listing.len()..].iter().all(|byte| *byte == b'.'));
    let mut short = vec![b'.'; listing.len() - 1];
    assert_eq!(calls.list(&square, b'B', &mut short), Written::refused(14));
    assert!(short.iter().all(|byte| *byte == b'.'));
}
