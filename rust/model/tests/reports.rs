//! The report: treatment, headings, due and figures.

mod common;
use common::*;
use model::{Book, Report};

#[test]
fn a_report_is_declined_by_12_alone() {
    assert_eq!(Book::new().report(0), Err(12));
    let book = plant();
    assert!(book.report(2).is_ok());
    assert_eq!(book.report(3), Err(12));
    assert_eq!(book.report(usize::MAX), Err(12));
}

/// "A book with only part of its set-up reports zeros."
#[test]
fn a_part_of_the_set_up_reports_zeros() {
    let book = book(&[
        plan(&[(80, 2)], &[&[450_000]], 2),
        stage(0, 1, 1, &[TO_AIR]),
    ]);
    let zeros = Report {
        posts: 0,
        number: 80,
        handled: 0,
        due: false,
        store: 0,
        held: 0,
        shipped: 0,
        consumed: 0,
        destroyed: 0,
        headings: [0; 6],
        figures: None,
    };
    assert_eq!(book.report(0), Ok(zeros));
}

/// The cut is for materials only: 9,999 ppm in class 1 and 999 in class 2 count as 0.
#[test]
fn contents_below_the_cut_are_not_counted() {
    let mut book = plant();
    for post in [
        opening(0, 1_000),
        opening(1, 1_000),
        issued(0, 0, 400),
        issued(1, 1, 300),
    ] {
        book.post(&post).unwrap();
    }
    let amounts = |place| {
        book.report(place)
            .map(|r| (r.handled, r.held, r.store))
            .unwrap()
    };
    assert_eq!(amounts(0), (3_000_000, 3_000_000, 7_000_000));
    assert_eq!(amounts(1), (160_000_000, 160_000_000, 240_000_000));
    assert_eq!(amounts(2), (400_000, 400_000, 600_000));
}

/// Contents stated in a post are never cut.
#[test]
fn a_content_of_1_ppm_leaves() {
    let mut book = plant();
    book.post(&formed(0, 0, 10)).unwrap();
    book.post(&leaves(8, 0, 0, 1, 7)).unwrap();
    let report = book.report(0).unwrap();
    assert_eq!((report.held, report.headings), (3, [0, 0, 7, 0, 0, 0]));
}

/// Kinds 5 to 9 go under their own names, whatever the stage says.
#[test]
fn each_name_has_its_own_sum() {
    for place in 0..2 {
        let mut book = plant();
        book.post(&formed(place, 1, 1_000_000)).unwrap();
        for kind in 5..=9 {
            book.post(&leaves(kind, place, 1, 1, u64::from(kind)))
                .unwrap();
        }
        let report = book.report(1).unwrap();
        assert_eq!(
            (report.shipped, report.consumed, report.destroyed),
            (5, 9, 0)
        );
        assert_eq!(report.headings, [0, 0, 8, 7, 0, 6]);
        assert_eq!(report.held, 1_000_000 - 35);
    }
}

/// Stage 0: 7 to gas at r = d = 500,000 (F12), residues off site; 9 to water at r = 250,000, d = 0,
/// public water. Stage 1: sewer and landfill.
#[test]
fn treatment_and_where_its_parts_go() {
    let mut book = plant();
    for post in [
        formed(0, 0, 16),
        leaves(10, 0, 0, 1, 7),
        leaves(11, 0, 0, 1, 9),
        formed(1, 0, 1_000_100),
        leaves(10, 1, 0, 1_000, 1_000),
        leaves(11, 1, 0, 1, 100),
    ] {
        book.post(&post).unwrap();
    }
    let report = book.report(0).unwrap();
    assert_eq!(report.destroyed, 1 + 25);
    // Gas 4 and 1; public water 7; landfill 999,999 and 25; sewer 50; off site 2 and 2.
    assert_eq!(report.headings, [5, 7, 0, 1_000_024, 50, 4]);
    assert_eq!(report.held, 0);
}

/// Vapour goes to air untreated, where gas would be removed whole.
#[test]
fn vapour_is_untreated() {
    let mut book = plant();
    book.post(&formed(1, 2, 1_000_000_000_000)).unwrap();
    book.post(&vapour(1, 1, 2, [14.0, 0.62, 36_000.0, 0.0]))
        .unwrap();
    let report = book.report(2).unwrap();
    assert_eq!(report.headings, [197_887_867, 0, 0, 0, 0, 0]);
    assert_eq!(report.held, 1_000_000_000_000 - 197_887_867);
}

/// The year's total is kind 10 and what the close moved together: 3 and 4 split as 7, not each.
#[test]
fn the_close_moves_by_the_pair_s_side_before_the_split() {
    let mut book = plant();
    for post in [
        formed(0, 0, 7),
        leaves(10, 0, 0, 1, 3),
        formed(1, 0, 9),
        leaves(11, 1, 0, 1, 4),
    ] {
        book.post(&post).unwrap();
    }
    let open = book.report(0).unwrap();
    // 3 to gas: removed 1, destroyed 0. 4 to water: removed 2, destroyed 1.
    assert_eq!(
        (open.held, open.destroyed, open.headings),
        (9, 1, [2, 0, 0, 1, 2, 1])
    );
    book.post(&close()).unwrap();
    let closed = book.report(0).unwrap();
    // 7 to gas: 4, 1, 2 (F12). 9 to water: released 5, destroyed 2, residue 2.
    assert_eq!(
        (closed.held, closed.destroyed, closed.headings),
        (0, 3, [4, 0, 0, 2, 5, 2])
    );
    assert_eq!((closed.posts, closed.handled), (5, 16));
}

/// The split is made for each stage and substance, and the results are added then: 1 and 1 at
/// r = 500,000 stay 1 and 1 released, where 2 would leave 1.
#[test]
fn the_split_is_made_in_each_stage() {
    let half = (1, [500_000, 1_000_000, 0, 0]);
    let mut book = book(&[
        plan(&[(80, 1)], &[&[0]], 2),
        stage(0, 1, 1, &[half]),
        stage(1, 1, 1, &[half]),
    ]);
    for post in [formed(0, 0, 1), formed(1, 0, 1), close()] {
        book.post(&post).unwrap();
    }
    assert_eq!(book.report(0).unwrap().headings, [2, 0, 0, 0, 0, 0]);
}

/// 14.4 and 14.4 kg in two stages file as 29.
#[test]
fn figures_are_of_the_sum_over_stages() {
    let mut book = book(&[
        plan(&[(80, 1)], &[&[0]], 2),
        stage(0, 1, 1, &[TO_AIR]),
        stage(1, 1, 1, &[TO_AIR]),
    ]);
    for post in [
        formed(0, 0, 1_000_000_000_000),
        leaves(9, 0, 0, 1_000_000, 985_600),
        formed(1, 0, 14_400_000_000),
        close(),
    ] {
        book.post(&post).unwrap();
    }
    let report = book.report(0).unwrap();
    assert_eq!(report.headings[0], 28_800_000_000);
    assert_eq!(report.figures, Some([29_000_000_000, 0, 0, 0, 0, 0]));
}

#[test]
fn due_by_class_and_no_figures_below() {
    let mut book = plant();
    for (place, from) in [
        (0, 1_000_000_000_000),
        (1, 1_000_000_000_000),
        (2, 500_000_000_000),
    ] {
        book.post(&formed(0, place, from - 1)).unwrap();
        let report = book.report(usize::from(place)).unwrap();
        assert_eq!((report.due, report.figures), (false, None));
        book.post(&formed(1, place, 1)).unwrap();
        let report = book.report(usize::from(place)).unwrap();
        assert_eq!((report.due, report.figures), (true, Some([0; 6])));
    }
}
