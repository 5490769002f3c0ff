//! The picture of a sale or a hall: what it must show is counted on every one on file, its text is well
//! formed, and the one in the documentation is the one that the program prints.

use kapokdrill::command::refusal;
use kapokdrill::picture::{picture, BANDS, SINGLE_NETS};
use kapokdrill::{Hall, Memory};
use std::fs::File;
use std::path::{Path, PathBuf};
use std::process::{Command, Stdio};

fn top() -> PathBuf {
    Path::new(env!("CARGO_MANIFEST_DIR")).join("../..")
}

fn on_file(name: &str) -> Vec<u8> {
    std::fs::read(top().join("sales").join(name)).expect("the sale is on file")
}

fn program() -> Command {
    Command::new(env!("CARGO_BIN_EXE_picture"))
}

/// Text between tags, or the value of an attribute: no bare `<`, `>` or `&`.
fn is_escaped(text: &str) -> bool {
    let entities = ["amp;", "lt;", "gt;", "quot;"];
    let open = |part: &str| !entities.iter().any(|entity| part.starts_with(entity));
    !text.contains(['<', '>']) && !text.split('&').skip(1).any(open)
}

/// Attributes as `name="value"`, each with a space before it and none twice.
fn attributes(mut text: &str) -> Result<(), String> {
    let mut names = Vec::new();
    while !text.is_empty() {
        let bad = || format!("attributes {text}");
        let rest = text.strip_prefix(' ').ok_or_else(bad)?;
        let (name, rest) = rest.split_once("=\"").ok_or_else(bad)?;
        let (value, rest) = rest.split_once('"').ok_or_else(bad)?;
        let plain = |c: char| c.is_ascii_alphanumeric() || c == '-';
        if name.is_empty() || !name.chars().all(plain) || !is_escaped(value) {
            return Err(bad());
        }
        if names.contains(&name) {
            return Err(format!("{name} twice"));
        }
        names.push(name);
        text = rest;
    }
    Ok(())
}

/// One element with all others in it, each closed in its turn.
fn well_formed(svg: &str) -> Result<(), String> {
    let mut open: Vec<&str> = Vec::new();
    let mut roots = 0;
    let mut rest = svg;
    while let Some((text, behind)) = rest.split_once('<') {
        let (tag, behind) = behind.split_once('>').ok_or("a tag without its end")?;
        rest = behind;
        if !is_escaped(text) || (open.is_empty() && !text.trim().is_empty()) {
            return Err(format!("text {text}"));
        }
        if let Some(name) = tag.strip_prefix('/') {
            let last = open.pop();
            if last != Some(name) {
                return Err(format!("{name} closes {last:?}"));
            }
            continue;
        }
        let (tag, closed) = match tag.strip_suffix('/') {
            Some(tag) => (tag, true),
            None => (tag, false),
        };
        let name = tag.split(' ').next().unwrap_or_default();
        if name.is_empty() || !name.chars().all(|c| c.is_ascii_alphabetic()) {
            return Err(format!("tag {tag}"));
        }
        attributes(&tag[name.len()..])?;
        roots += usize::from(open.is_empty());
        if !closed {
            open.push(name);
        }
    }
    if !open.is_empty() || roots != 1 || !rest.trim().is_empty() {
        return Err(format!("{open:?} at the end, {roots} roots"));
    }
    Ok(())
}

#[test]
fn the_checker_finds_faults() {
    assert_eq!(well_formed("<a b=\"1\"><c/>x &amp; y</a>\n"), Ok(()));
    for fault in [
        "<a>",
        "<a></b>",
        "<a><b></a></b>",
        "<a b=1/>",
        "<a b=\"1\" b=\"2\"/>",
        "<a b=\"1/>",
        "<a>x & y</a>",
        "<a>x > y</a>",
        "<a b=\"&\"/>",
        "<a/><b/>",
        "<a/>x",
        "x<a/>",
        "",
    ] {
        assert!(well_formed(fault).is_err(), "{fault}");
    }
}

fn count(svg: &str, class: &str) -> usize {
    svg.matches(&format!(" class=\"{class}\"")).count()
}

fn numbers(line: &str) -> Vec<usize> {
    let fields = line.split(',').skip(1);
    fields.filter_map(|field| field.parse().ok()).collect()
}

/// The lines of a report that begin with a word.
fn lines<'a>(report: &'a str, word: &'a str) -> impl Iterator<Item = Vec<usize>> + 'a {
    let of_word = move |line: &&str| line.starts_with(word);
    report.lines().filter(of_word).map(numbers)
}

fn run(file: &[u8]) -> (u32, String) {
    let mut memory = Memory::default();
    let (code, report) = memory.run(file);
    (code, String::from_utf8(report.to_vec()).expect("text"))
}

/// Counts in the picture of an accepted file what its report and that of its catalogue say.
fn shows_what_it_must(file: &[u8], svg: &str, report: &str) {
    let text = std::str::from_utf8(file).expect("text");
    let header = numbers(text.lines().next().expect("a line"));
    let (lots, buyers, sessions) = (header[0], header[1], header[2]);
    let catalogue: String = text.split_inclusive('\n').take(1 + lots + buyers).collect();
    let (code, draft) = run(catalogue.as_bytes());
    assert_eq!(code, 0);

    assert_eq!(count(svg, "bar"), 2 * sessions);
    let visits = |report: &str| lines(report, "BUY,").map(|fields| fields[1]).sum::<usize>();
    if buyers <= SINGLE_NETS {
        assert_eq!(count(svg, "visit"), visits(&draft) + visits(report));
        assert_eq!(count(svg, "band"), 0);
    } else {
        let bands = buyers.div_ceil(buyers.div_ceil(BANDS));
        assert!(bands <= BANDS);
        assert_eq!(count(svg, "band"), 2 * sessions * bands);
        assert_eq!(count(svg, "visit"), 0);
    }
    let end = lines(report, "LOT,").count();
    if count(svg, "lots") == 0 {
        assert_eq!(count(svg, "lot"), lots + end);
    }
    let plain = svg.replace(',', "");
    let totals = lines(report, "TOTAL,").next().expect("the totals");
    assert!(plain.contains(&format!(">Draft total {}<", totals[0])));
    assert!(plain.contains(&format!(">Result total {}<", totals[1])));
}

#[test]
fn every_sale_on_file() {
    let folder = std::fs::read_dir(top().join("sales")).expect("the folder sales");
    let mut drawn = [0; 2];
    for entry in folder {
        let path = entry.expect("an entry").path();
        if path.extension().is_none_or(|ending| ending != "sale") {
            continue;
        }
        let file = std::fs::read(&path).expect("a sale file");
        if file.starts_with(b"HALL") {
            // the engine's main entry turns it down; the picture is a hall's
            assert_eq!(picture(&file).0, Hall::new().run(&file).0, "{}", path.display());
            continue;
        }
        let (code, svg) = picture(&file);
        let (wanted, report) = run(&file);
        assert_eq!(code, wanted, "{}", path.display());
        assert_eq!(well_formed(&svg), Ok(()), "{}", path.display());
        if code == 0 {
            shows_what_it_must(&file, &svg, &report);
        } else {
            assert_eq!(svg.matches("<text").count(), 1);
            assert!(svg.contains(&refusal(code, report.as_bytes())));
        }
        drawn[usize::from(code != 0)] += 1;
    }
    assert!(drawn.iter().all(|&count| count >= 50), "{drawn:?}");
}

/// The catalogues of an accepted hall, each as a sale file without calls.
fn catalogues(file: &[u8]) -> Vec<String> {
    let text = std::str::from_utf8(file).expect("text");
    let mut lines = text.split_inclusive('\n');
    let head = numbers(lines.next().expect("a line"));
    let mut found = Vec::new();
    for _ in 0..head[0] {
        let first = lines.next().expect("a catalogue");
        let header = numbers(first);
        let rest = lines.by_ref().take(header[0] + header[1]);
        found.push([first].into_iter().chain(rest).collect());
    }
    found
}

/// The bales in each session, from the bales and the session of each lot.
fn session_bales(lots: &[(usize, usize)], sessions: usize) -> Vec<usize> {
    let mut bales = vec![0; sessions];
    for &(own, session) in lots {
        bales[session - 1] += own;
    }
    bales
}

/// Bales and session of each lot in a catalogue's draft.
fn draft_lots(catalogue: &str) -> Vec<(usize, usize)> {
    let of_lot = |fields: Vec<usize>| (fields[fields.len() - 2], fields[fields.len() - 1]);
    lines(catalogue, "LOT,").map(of_lot).collect()
}

/// Counts in the picture of an accepted hall what its report and those of its catalogues say.
fn shows_the_hall(file: &[u8], svg: &str, report: &str) {
    let catalogues = catalogues(file);
    let mut parts = svg.split("<g class=\"catalogue\">");
    let first = parts.next().expect("the hall's own part");
    let closing = report.find("TOTAL,").expect("the closing reports");
    let closings: Vec<String> = report[closing..]
        .split("TOTAL,")
        .skip(1)
        .map(|rest| format!("TOTAL,{rest}"))
        .collect();
    assert_eq!(closings.len(), catalogues.len());
    let parts: Vec<&str> = parts.collect();
    assert_eq!(parts.len(), catalogues.len());
    for (number, ((catalogue, part), closing)) in
        (1..).zip(catalogues.iter().zip(&parts).zip(&closings))
    {
        shows_what_it_must(catalogue.as_bytes(), part, closing);
        assert!(part.contains(&format!(">Catalogue {number}: ")));
        assert_eq!(count(part, "hall-bar"), 0);
    }

    let sessions = |catalogue: &String| numbers(catalogue)[2];
    let most = catalogues.iter().map(sessions).max().expect("a catalogue");
    assert_eq!(count(first, "hall-bar"), 2 * most);
    assert_eq!(count(first, "bar"), 0);
    // of the draft's bars a part for each catalogue and session that has bales, in their numbers
    let mut together = vec![0; most];
    let mut drawn = 0;
    for catalogue in &catalogues {
        let bales = session_bales(&draft_lots(catalogue), sessions(catalogue));
        drawn += bales.iter().filter(|&&bales| bales > 0).count();
        for (sum, own) in together.iter_mut().zip(bales) {
            *sum += own;
        }
    }
    let mut ends = 0;
    for closing in &closings {
        let mut visited: Vec<usize> = lines(closing, "LOT,").map(|fields| fields[1]).collect();
        visited.sort_unstable();
        visited.dedup();
        ends += visited.len();
    }
    assert_eq!(count(first, "part"), drawn + ends);
    let text = std::str::from_utf8(file).expect("text");
    let limit = numbers(text.lines().next().expect("a line"))[1];
    let plain = first.replace(',', "");
    for bales in together {
        assert!(bales <= limit);
        let words = format!(">{bales} {} %<", bales * 100 / limit);
        assert!(plain.contains(&words), "{words}");
    }
    let total = |place: usize| -> usize {
        let totals = closings
            .iter()
            .map(|closing| lines(closing, "TOTAL,").next());
        totals
            .map(|fields| fields.expect("the totals")[place])
            .sum()
    };
    assert!(plain.contains(&format!(">Draft total {}<", total(0))));
    assert!(plain.contains(&format!(">Result total {}<", total(1))));
}

#[test]
fn every_hall_on_file() {
    let folder = std::fs::read_dir(top().join("sales")).expect("the folder sales");
    let mut hall = Hall::new();
    let mut drawn = [0; 2];
    for entry in folder {
        let path = entry.expect("an entry").path();
        if path.extension().is_none_or(|ending| ending != "hall") {
            continue;
        }
        let file = std::fs::read(&path).expect("a hall file");
        let (code, svg) = picture(&file);
        assert_eq!(well_formed(&svg), Ok(()), "{}", path.display());
        if !file.starts_with(b"HALL") {
            // taken as a sale
            assert_eq!(code, run(&file).0, "{}", path.display());
            continue;
        }
        let (wanted, report) = hall.run(&file);
        assert_eq!(code, wanted, "{}", path.display());
        let report = String::from_utf8(report.to_vec()).expect("text");
        if code == 0 {
            println!("{}", path.display());
            shows_the_hall(&file, &svg, &report);
        } else {
            assert_eq!(svg.matches("<text").count(), 1);
            let words = refusal(code, report.as_bytes());
            assert!(svg.contains(&words.replace('"', "&quot;")));
        }
        drawn[usize::from(code != 0)] += 1;
    }
    assert!(drawn.iter().all(|&count| count >= 40), "{drawn:?}");
}

/// Catalogue 1 moves a lot, and its second move is above the limit. In catalogue 2 lot 1 leaves session 3,
/// which catalogue 1 has not, another comes to it, and lot 2 is withdrawn.
const TWO: &[u8] = b"HALL,2,9\nSALE,2,1,2,1000\nLOT,4,1\nLOT,2,1\nBUY,3,1,2\n\
    EST,2,1,3,1000\nLOT,2,4,3\nLOT,4,4,2,K\nBUY,7,2\n\
    1,M,1,2\n1,M,2,2\n2,M,1,1\n2,N,3,3,1\n2,X,2\n";

#[test]
fn a_hall_shows_its_limit_and_each_catalogues_changes() {
    let (code, svg) = picture(TWO);
    assert_eq!(code, 0);
    assert_eq!(well_formed(&svg), Ok(()));
    for words in [
        "Hall of 2 catalogues",
        "Limit 9 bales a session over all catalogues",
        "catalogue 1 (2 lots)",
        "Catalogue 1: sale with 2 lots, 1 buyer and 2 sessions",
        "Catalogue 2: estimate with 2 lots, 1 buyer and 3 sessions",
        // the draft has 6, 4 and 4 over the hall, the result 2 + 4, 4 and 3
        ">6, 66 %<",
        ">4, 44 %<",
        ">3, 33 %<",
        "<title>catalogue 2: 3 bales</title>",
        "Lots: 1 moved, 0 withdrawn, 0 added",
        "Lots: 1 moved, 1 withdrawn, 1 added",
        "lot 2, 4 bales: withdrawn from session 2",
        "lot 3, 3 bales: added to session 3",
        "lot 1, 4 bales: session 3 → 1",
        ">limit 9<",
    ] {
        assert!(svg.contains(words), "{words}");
    }
    // three parts in the draft: 6, 4 and 4; four in the result: 2 and 4, 4, 3
    assert_eq!(count(&svg, "hall-bar"), 6);
    assert_eq!(count(&svg, "part"), 7);
}

#[test]
fn a_limit_far_off_is_outside_the_frame() {
    let file = b"HALL,2,999999999\nSALE,1,0,2,1000\nLOT,4,1\nSALE,1,0,2,1000\nLOT,2,2\n1,M,1,2\n";
    let (code, svg) = picture(file);
    assert_eq!(code, 0);
    assert!(svg.contains(">limit 999,999,999 →<"));
    // the heaviest session has 6, so a bar of 4 has a sixth of the frame's 195
    assert!(svg.contains("width=\"32.5\""));
    let dashed = |svg: &str| svg.matches("stroke-dasharray").count();
    let near = picture(b"HALL,2,6\nSALE,1,0,2,1000\nLOT,4,1\nSALE,1,0,2,1000\nLOT,2,2\n1,M,1,2\n");
    assert_eq!(dashed(&near.1), dashed(&svg) + 2);
}

#[test]
fn a_hall_turned_down_is_told_in_words() {
    let (code, svg) = picture(b"HALL,2,5\nSALE,1,0,2,1000\nLOT,4,1\nSALE,1,0,2,1000\nLOT,2,1\n");
    assert_eq!(code, 24);
    let words = ">This file is turned down: line 5: drafts above the hall's limit together (24)<";
    assert!(svg.contains(words), "{svg}");
}

#[test]
fn a_refusal_is_one_line_in_words() {
    let (code, svg) = picture(b"SALE,1,1,2,0\nLOT,5,1\nBUY,1,1,1\n");
    assert_eq!(code, 4);
    let words = ">This file is turned down: line 3: a lot twice with one buyer (4)<";
    assert!(svg.contains(words), "{svg}");
}

#[test]
fn a_refusal_of_the_whole_file_names_no_line() {
    let (code, svg) = picture(&[b'9'; 60_001]);
    assert_eq!(code, 1);
    assert!(svg.contains(">This file is turned down: over 60,000 bytes (1)<"));
}

/// Lot 3 is withdrawn and its number used again; lot 4 comes and goes, and is in neither half.
const LATE: &[u8] = b"SALE,3,2,2,1000\nLOT,4,1\nLOT,2,2,K\nLOT,3,2\nBUY,2,1,3\nBUY,1,2\n\
    X,9\nX,3\nN,1,2,1\nN,6,1\nX,4\nM,1,2\n";

#[test]
fn withdrawn_and_added_lots_are_shown_as_such() {
    let (code, svg) = picture(LATE);
    assert_eq!(code, 0);
    assert_eq!(well_formed(&svg), Ok(()));
    for words in [
        "Lots: 1 moved, 1 withdrawn, 1 added",
        "lot 1, 4 bales: session 1 → 2",
        "lot 3, 3 bales: withdrawn from session 2",
        "lot 3, 1 bale: added to session 2",
        "lot that stays (1)",
        "lot withdrawn (1)",
        // the cap is 2 × ⌈9/2⌉
        "Cap 10 bales a session",
        "5, 50 %",
        "7, 70 %",
        "2 → 1",
    ] {
        assert!(svg.contains(words), "{words}");
    }
    assert!(!svg.contains("lot 4,"));
    // three lots in the draft, three in the result
    assert_eq!(count(&svg, "lot"), 6);
}

#[test]
fn the_cap_of_an_estimate_is_that_of_its_lows() {
    let (code, svg) = picture(b"EST,2,0,2,500\nLOT,4,5,1\nLOT,5,6,2\n");
    assert_eq!(code, 0);
    // 7.5 to the even number
    assert!(svg.contains("Cap 8 bales a session, worked out from the lows"));
    assert!(svg.contains(">5, 62 %<"));
    assert!(svg.contains(">No buyers<"));
}

#[test]
fn the_picture_in_the_documentation_is_what_the_program_prints() {
    let name = top().join("sales/worked-sale.sale");
    let by_name = program().arg(&name).output().expect("the program runs");
    let input = File::open(&name).expect("the sale is on file");
    let by_input = program().stdin(input).output().expect("the program runs");
    let shown = std::fs::read(top().join("docs/worked-sale.svg")).expect("the picture");
    for end in [by_name, by_input] {
        assert_eq!(end.status.code(), Some(0));
        assert!(end.stderr.is_empty());
        assert!(end.stdout == shown, "docs/worked-sale.svg is another one");
    }
    assert_eq!(picture(&on_file("worked-sale.sale")).1.as_bytes(), shown);
}

#[test]
fn what_fails_is_told() {
    let refused = program()
        .arg(top().join("sales/refused-4-marked-twice.sale"))
        .output()
        .expect("the program runs");
    assert_eq!(refused.status.code(), Some(4));
    let missing = program().arg("no-such.sale").output().expect("it runs");
    assert_eq!(missing.status.code(), Some(74));
    assert!(missing.stdout.is_empty());
    assert!(String::from_utf8_lossy(&missing.stderr).contains("no-such.sale"));
    let full = File::options().write(true).open("/dev/full");
    let full = program()
        .arg(top().join("sales/worked-sale.sale"))
        .stdout(full.expect("a full device"))
        .stderr(Stdio::piped())
        .output()
        .expect("the program runs");
    assert_eq!(full.status.code(), Some(74));
    assert!(!full.stderr.is_empty());
    let two = program().args(["a", "b"]).output().expect("it runs");
    assert_eq!(two.status.code(), Some(64));
    let help = program().arg("--help").output().expect("it runs");
    assert_eq!(help.status.code(), Some(0));
    assert!(help.stdout.starts_with(b"usage: picture"));
}
