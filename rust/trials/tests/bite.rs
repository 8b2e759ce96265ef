//! The comparison bites: a model with a slip of the trade is told apart by the generated cases.

use std::fs;

use blocks::{tens, Post};
use trials::floats::of_bits;
use trials::ledger::exactly;
use trials::mixtures::Mixture;
use trials::site::WHOLE;
use trials::trial::{say, text_of, Trial};
use trials::year::Year;

/// A slip of the trade.
enum Slip {
    /// The right model answers on this other year as the slip does on the year; where it refuses, nothing shows.
    Edit(fn(&mut Year)),
    /// The same, where a refusal shows the slip too.
    Refuse(fn(&mut Year)),
    /// Whether the slip prints something else than the library's lines.
    Print(fn(&Year, &[Line]) -> bool),
}

/// The years tried.
const YEARS: u64 = 400;
/// 10 kg in micrograms.
const TEN_KG: u64 = 10_000_000_000;

/// Every removed part counts as destroyed.
fn residue_as_destroyed(year: &mut Year) {
    for pair in year
        .site
        .stages
        .iter_mut()
        .flat_map(|stage| &mut stage.pairs)
    {
        pair.rates[1] = WHOLE;
        pair.rates[3] = WHOLE;
    }
}

/// Residues go to landfill in place of off site, and back.
fn residues_elsewhere(year: &mut Year) {
    year.site
        .stages
        .iter_mut()
        .for_each(|stage| stage.residues = 3 - stage.residues);
}

/// Treated water goes to the sewer in place of public water, and back.
fn water_elsewhere(year: &mut Year) {
    year.site
        .stages
        .iter_mut()
        .for_each(|stage| stage.water = 3 - stage.water);
}

/// The close moves holdings to the other side.
fn other_side(year: &mut Year) {
    for pair in year
        .site
        .stages
        .iter_mut()
        .flat_map(|stage| &mut stage.pairs)
    {
        pair.side = 3 - pair.side;
    }
}

/// Gas is treated by the rates of waste water, and back.
fn other_rates(year: &mut Year) {
    for pair in year
        .site
        .stages
        .iter_mut()
        .flat_map(|stage| &mut stage.pairs)
    {
        pair.rates.rotate_left(2);
    }
}

/// A vapour is treated as gas is: its micrograms are posted by kind 10.
fn treated_vapour(year: &mut Year) {
    let numbers = year.site.numbers.clone();
    let lost = |post: &Post| {
        let [w, u, p, q] = post.floats;
        model::loss(post.material, numbers[post.substance as usize], w, u, p, q)
            .expect("a loss that was taken")
    };
    replace(year, 12, |post| {
        exactly(10, (post.stage, post.substance), lost(post))
    });
}

/// A block counts as its posts but for one that ships.
fn lost_shipment(year: &mut Year) {
    let first = year.posts.iter().position(|post| post.kind == 5);
    first.map(|place| year.posts.remove(place));
    year.sizes = tens(year.posts.len());
}

/// One microgram that is shipped goes to soil.
fn microgram_to_soil(year: &mut Year) {
    let mut moved = false;
    replace(year, 5, |post| {
        let amount = post.quantity * post.content as u64;
        let soil = if moved { 0 } else { 1 };
        moved = true;
        let mut posts = exactly(5, (post.stage, post.substance), amount - soil);
        posts.extend(exactly(8, (post.stage, post.substance), soil));
        posts
    });
}

/// What is found goes to landfill on site.
fn found_to_landfill(year: &mut Year) {
    replace(year, 14, |post| {
        let holding = (post.stage, post.substance);
        let amount = post.quantity * post.content as u64;
        let mut posts = vec![Post::formed(holding, amount)];
        posts.extend(exactly(7, holding, amount));
        posts
    });
}

/// What is found is held until the close.
fn found_and_held(year: &mut Year) {
    replace(year, 14, |post| {
        let amount = post.quantity * post.content as u64;
        vec![Post::formed((post.stage, post.substance), amount)]
    });
}

/// What is found leaves the holding.
fn found_from_the_holding(year: &mut Year) {
    replace(year, 14, |post| vec![Post { kind: 6, ..*post }]);
}

/// A stated content is cut as a material's is.
fn found_and_cut(year: &mut Year) {
    let classes = year.site.classes.clone();
    replace(year, 14, |post| {
        let class = classes[post.substance as usize];
        let counted = model::counted(class, post.content) != Ok(0);
        counted.then_some(*post).into_iter().collect()
    });
}

/// Puts other posts in place of each of a kind.
fn replace(year: &mut Year, kind: u8, mut other: impl FnMut(&Post) -> Vec<Post>) {
    let posts = year.posts.iter();
    year.posts = posts
        .flat_map(|post| {
            if post.kind == kind {
                other(post)
            } else {
                vec![*post]
            }
        })
        .collect();
    year.sizes = tens(year.posts.len());
}

/// What a text says of a substance.
struct Line {
    handled: u64,
    due: bool,
    /// In micrograms; none where the substance isn't due.
    figures: Vec<u64>,
}

/// A printed figure in micrograms.
fn micrograms(field: &str) -> u64 {
    let (kg, tenths) = field.split_once('.').unwrap_or((field, "0"));
    let number = |digits: &str| digits.parse::<u64>().expect("a figure is a number");
    number(kg) * 1_000_000_000 + number(tenths) * 100_000_000
}

/// The lines behind the title.
fn lines(text: &[u8]) -> Vec<Line> {
    let text = std::str::from_utf8(text).expect("a text is ASCII");
    let line = |line: &str| {
        let fields: Vec<&str> = line.split(' ').collect();
        let figures = fields[3..].iter().filter(|&&field| field != "-");
        Line {
            handled: fields[1].parse().expect("handled is a number"),
            due: fields[2] == "Y",
            figures: figures.map(|field| micrograms(field)).collect(),
        }
    };
    text.lines().skip(1).map(line).collect()
}

/// The model's reports of a year that it takes.
fn reports(year: &Year) -> Vec<model::Report> {
    let mut book = model::Book::new();
    for block in year.blocks() {
        book.block(&block).expect("a year in balance is taken");
    }
    let places = 0..book.substances();
    places.map_while(|place| book.report(place).ok()).collect()
}

/// The threshold is that of the other class, contents aside.
fn other_class(year: &Year, lines: &[Line]) -> bool {
    let differs = |(line, class): (&Line, &u8)| model::due(3 - class, line.handled) != Ok(line.due);
    lines.iter().zip(&year.site.classes).any(differs)
}

/// Handled is rounded before it is compared with the threshold.
fn rounded_handled(year: &Year, lines: &[Line]) -> bool {
    let reaches = |(line, class): (&Line, &u8)| {
        !line.due && model::due(*class, model::figure(line.handled)) == Ok(true)
    };
    lines.iter().zip(&year.site.classes).any(reaches)
}

/// What is found isn't handled, so that the threshold is met later.
fn found_not_handled(year: &Year, lines: &[Line]) -> bool {
    let mut handled: Vec<u64> = lines.iter().map(|line| line.handled).collect();
    for post in year.posts.iter().filter(|post| post.kind == 14) {
        handled[post.substance as usize] -= post.quantity * post.content as u64;
    }
    let due = handled.iter().zip(&year.site.classes);
    let due = due.map(|(handled, class)| model::due(*class, *handled));
    lines.iter().zip(due).any(|(line, due)| due != Ok(line.due))
}

/// Each stage's figures are added, in place of its amounts, and the sum is rounded again.
fn rounded_by_stage(year: &Year, lines: &[Line]) -> bool {
    let mut sums = vec![[0; 6]; lines.len()];
    for stage in 0..year.site.stages.len() {
        let mut alone = year.clone();
        let of_stage =
            |post: &Post| !matches!(post.kind, 3..=12 | 14) || post.stage as usize == stage;
        alone.posts.retain(of_stage);
        alone.sizes = tens(alone.posts.len());
        for (sum, report) in sums.iter_mut().zip(reports(&alone)) {
            (0..6).for_each(|heading| sum[heading] += model::figure(report.headings[heading]));
        }
    }
    let differs =
        |(line, sum): (&Line, [u64; 6])| line.due && line.figures != sum.map(model::figure);
    lines.iter().zip(sums).any(differs)
}

/// What rounds to 10 kg prints as 10.0.
fn ten_with_a_decimal(year: &Year, lines: &[Line]) -> bool {
    let rounded_up = |(figure, amount): (&u64, u64)| *figure == TEN_KG && amount < TEN_KG;
    lines
        .iter()
        .zip(reports(year))
        .any(|(line, report)| line.figures.iter().zip(report.headings).any(rounded_up))
}

/// What the model prints of a year with a slip.
fn slipped(edit: fn(&mut Year), year: &Year) -> Vec<u8> {
    let mut other = year.clone();
    edit(&mut other);
    model::filing(other.blocks().as_flattened())
}

/// Whether a slip shows in a year.
fn shows(slip: &Slip, year: &Year) -> bool {
    let text = text_of(year.blocks().as_flattened());
    match slip {
        Slip::Edit(edit) => {
            let other = slipped(*edit, year);
            !other.starts_with(b"refused") && other != text
        }
        Slip::Refuse(edit) => slipped(*edit, year) != text,
        Slip::Print(differs) => differs(year, &lines(&text)),
    }
}

#[test]
fn slips_show_in_the_generated_years() {
    let mut trial = Trial::new("slips");
    let slips = [
        ("residue as destroyed", Slip::Edit(residue_as_destroyed), 80),
        ("residues elsewhere", Slip::Edit(residues_elsewhere), 80),
        ("water elsewhere", Slip::Edit(water_elsewhere), 80),
        ("other side at the close", Slip::Edit(other_side), 80),
        ("other rates", Slip::Edit(other_rates), 80),
        ("treated vapour", Slip::Edit(treated_vapour), 40),
        ("lost shipment", Slip::Edit(lost_shipment), 20),
        ("microgram to soil", Slip::Edit(microgram_to_soil), 10),
        ("found to landfill", Slip::Edit(found_to_landfill), 40),
        ("found and held", Slip::Edit(found_and_held), 40),
        (
            "found from the holding",
            Slip::Refuse(found_from_the_holding),
            80,
        ),
        ("found and cut", Slip::Edit(found_and_cut), 40),
        ("found not handled", Slip::Print(found_not_handled), 80),
        ("other class", Slip::Print(other_class), 80),
        ("rounding by stage", Slip::Print(rounded_by_stage), 80),
        ("rounding handled first", Slip::Print(rounded_handled), 40),
        ("10 kg with a decimal", Slip::Print(ten_with_a_decimal), 20),
    ];
    for (name, slip, least) in slips {
        let years = (0..YEARS).map(|case| Year::any(&mut trial.rng(1, case)));
        let count = years.filter(|year| shows(&slip, year)).count();
        say(&format!("slips: {name} shows in {count} of {YEARS} years"));
        assert!(count >= least, "{name} shows in only {count} years");
    }
}

#[test]
fn a_doctored_split_differs() {
    let mut rng = Trial::new("doctored split").rng(1, 0);
    let differing = (0..1_000).filter(|_| {
        let rates = [(); 2].map(|()| rng.below(WHOLE as u64 + 1) as u32);
        let total = rng.size(u64::MAX);
        let library = prtr::split(total, rates[0], rates[1]).expect("rates within their limits");
        let mut model = model::split(total, rates[0], rates[1]).expect("rates within their limits");
        model.destroyed += model.residue;
        model.residue = 0;
        (library.destroyed, library.residue) != (model.destroyed, model.residue)
    });
    assert!(differing.count() > 800);
}

/// A partial pressure with a slip, of contents, contents over M, the named part's place and its vapour pressure.
type Slipped = fn(&[f64], &[f64], usize, f64) -> f64;

fn added_from_the_last(_: &[f64], parts: &[f64], named: usize, pressure: f64) -> f64 {
    (pressure * parts[named]) / parts.iter().rev().sum::<f64>()
}

fn named_part_left_out(_: &[f64], parts: &[f64], named: usize, pressure: f64) -> f64 {
    let others = (0..parts.len()).filter(|&place| place != named);
    (pressure * parts[named]) / others.map(|place| parts[place]).sum::<f64>()
}

fn pressure_multiplied_last(_: &[f64], parts: &[f64], named: usize, pressure: f64) -> f64 {
    pressure * (parts[named] / parts.iter().sum::<f64>())
}

fn by_weight(contents: &[f64], _: &[f64], named: usize, pressure: f64) -> f64 {
    (pressure * contents[named]) / contents.iter().sum::<f64>()
}

fn of_the_first(_: &[f64], parts: &[f64], _: usize, pressure: f64) -> f64 {
    (pressure * parts[0]) / parts.iter().sum::<f64>()
}

/// Whether a slip gives another last bit than the library.
fn shows_in_a_mixture(slip: Slipped, mixture: &Mixture) -> bool {
    let [contents, weights] = [&mixture.contents, &mixture.weights].map(|list| of_bits(list));
    let pressure = f64::from_bits(mixture.pressure);
    let library = prtr::pressure(&contents, &weights, mixture.named, pressure)
        .expect("a mixture in its ranges is taken");
    let parts: Vec<f64> = contents.iter().zip(&weights).map(|(c, m)| c / m).collect();
    slip(&contents, &parts, mixture.named, pressure).to_bits() != library.to_bits()
}

#[test]
fn slips_show_in_the_generated_mixtures() {
    let mut trial = Trial::new("slips of a mixture");
    let slips: [(&str, Slipped, usize); 5] = [
        ("added from the last", added_from_the_last, 100),
        ("named part left out", named_part_left_out, 700),
        ("pressure multiplied last", pressure_multiplied_last, 150),
        ("by weight", by_weight, 600),
        ("of the first part", of_the_first, 400),
    ];
    for (name, slip, least) in slips {
        let mixtures = (0..1_000).map(|case| Mixture::within(&mut trial.rng(1, case)));
        let count = mixtures
            .filter(|mixture| shows_in_a_mixture(slip, mixture))
            .count();
        say(&format!("slips: {name} shows in {count} of 1000 mixtures"));
        assert!(count >= least, "{name} shows in only {count} mixtures");
    }
}

#[test]
fn a_difference_is_written_down() {
    let mut trial = Trial::new("written difference");
    let journal = Year::any(&mut trial.rng(1, 0)).blocks();
    let journal = journal.as_flattened();
    let text = text_of(journal);
    assert_eq!(trial.differ(journal, &text, &text), None);
    let mut other = text.clone();
    *other.last_mut().expect("a text is never empty") = b' ';
    let path = trial
        .differ(journal, &text, &other)
        .expect("a difference is seen");
    assert_eq!(fs::read(&path).expect("the case is there"), journal);
    for path in [path.with_extension("txt"), path] {
        fs::remove_file(path).expect("the case is removed");
    }
}
