//! What `filing` prints, to the byte.

mod common;
use common::*;
use model::filing;

const TITLE: &str = "substance handled due air water soil land sewer offsite\n";

fn prints(journal: &[u8], text: &str) {
    assert_eq!(String::from_utf8(filing(journal)).unwrap(), text);
}

/// The journal of the plant whose set-up is `blocks`, with `year` in blocks of ten.
fn journal(blocks: Vec<Block>, year: &[Post]) -> Vec<u8> {
    blocks::journal(blocks, year, &blocks::tens(year.len())).concat()
}

fn xylene_year() -> Vec<Post> {
    blocks::xylene::posts().to_vec()
}

#[test]
fn the_xylene_year() {
    prints(&journal(xylene(), &xylene_year()), blocks::xylene::PRINTED);
}

/// "225 kg rounds up; 135 kg stay in store."
#[test]
fn the_xylene_year_in_the_book() {
    let mut book = book(&xylene());
    for post in xylene_year() {
        book.post(&post).unwrap();
    }
    let report = book.report(0).unwrap();
    assert_eq!(
        (report.posts, report.store, report.held),
        (5, 135_000_000_000, 0)
    );
    assert_eq!(
        (report.shipped, report.headings[0]),
        (990_000_000_000, 225_000_000_000)
    );
    assert_eq!(report.figures, Some([230_000_000_000, 0, 0, 0, 0, 0]));
}

#[test]
fn no_bytes_print_the_title_line() {
    prints(b"", TITLE);
}

#[test]
fn a_part_of_a_journal_prints_what_the_reports_give() {
    let blocks = xylene();
    prints(&blocks[0], &format!("{TITLE}80 0 N - - - - - -\n"));
    prints(&blocks.concat(), &format!("{TITLE}80 0 N - - - - - -\n"));
    prints(
        &journal(blocks, &xylene_year()[..4]),
        &format!("{TITLE}80 1215000000000 Y 0.0 0.0 0.0 0.0 0.0 0.0\n"),
    );
}

/// "Printing 9.95 kg as 10.0; it is 10." "Under 10 kg" is asked of the rounded figure.
#[test]
fn figures_under_10_kg_print_with_one_decimal() {
    let air = |micrograms: u64, text: &str| {
        let year = [
            formed(0, 0, 1_000_000_000_000),
            leaves(9, 0, 0, 1_000_000, 1_000_000),
            formed(0, 0, micrograms),
            close(),
        ];
        let handled = 1_000_000_000_000 + micrograms;
        prints(
            &journal(xylene(), &year),
            &format!("{TITLE}80 {handled} Y {text} 0.0 0.0 0.0 0.0 0.0\n"),
        );
    };
    air(49_999_999, "0.0");
    air(50_000_000, "0.1");
    air(8_840_302_000, "8.8");
    air(9_949_999_999, "9.9");
    air(9_950_000_000, "10");
    air(99_500_000_000, "100");
    air(102_000_000_000, "100");
    air(225_000_000_000, "230");
    air(588_000_000_000, "590");
    air(1_999_999_999_999_999, "2000000");
}

/// Handled is printed exactly, 1.485 t here, also where the substance isn't due.
#[test]
fn handled_is_not_rounded() {
    let blocks = vec![
        plan(&[(80, 1), (400, 2)], &[&[450_000, 150_000]], 1),
        stage(0, 2, 2, &[(2, [0; 4]), TO_AIR]),
    ];
    let year = [opening(0, 3_300_000), issued(0, 0, 3_300_000), close()];
    prints(
        &journal(blocks, &year),
        &format!(
            "{TITLE}80 1485000000000 Y 0.0 0.0 0.0 0.0 1500 0.0\n400 495000000000 N - - - - - -\n"
        ),
    );
}

#[test]
fn all_six_headings_in_their_order() {
    let blocks = vec![
        plan(&[(80, 1)], &[&[0]], 2),
        stage(0, 1, 1, &[(1, [0; 4])]),
        stage(1, 2, 2, &[(2, [0; 4])]),
    ];
    let kg = |kind, place, kg: u64| leaves(kind, place, 0, 1_000_000, 1_000 * kg);
    let year = [
        formed(0, 0, 1_000_000_000_000),
        formed(1, 0, 55_000_000_000),
        kg(11, 0, 22),
        kg(8, 0, 33),
        kg(7, 0, 44),
        kg(6, 0, 66),
        kg(9, 0, 824),
        close(),
    ];
    prints(
        &journal(blocks, &year),
        &format!("{TITLE}80 1055000000000 Y 11 22 33 44 55 66\n"),
    );
}

#[test]
fn a_refused_journal_prints_one_line() {
    let good = journal(xylene(), &xylene_year());
    prints(&good[..511], "refused 0 1\n");
    prints(&good[..512 * 2 + 1], "refused 2 1\n");
    prints(&[&good[..], &[0]].concat(), "refused 3 1\n");
    prints(&[&good[..], &good[..512]].concat(), "refused 3 3\n");
    let mut summed = good;
    summed[512 + 510] ^= 1;
    prints(&summed, "refused 1 2\n");
    prints(
        &journal(xylene(), &[xylene_year(), vec![close()]].concat()),
        "refused 2 5\n",
    );
    prints(&journal(xylene(), &[issued(0, 0, 1)]), "refused 2 11\n");
    prints(&journal(xylene(), &[opening(1, 1)]), "refused 2 6\n");
    prints(b"\n", "refused 0 1\n");
}

/// Of two bad blocks the first is named, and what follows it is not looked at.
#[test]
fn it_stops_at_the_first_decline() {
    let mut journal = xylene().concat();
    journal.extend([0; 700]);
    prints(&journal, "refused 2 1\n");
}
