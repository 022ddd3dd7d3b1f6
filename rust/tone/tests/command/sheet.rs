//! `tone report --html`: the sheet.

use std::ffi::OsStr;
use std::fs;

use crate::bench::{
    accepted, bytes_of, error_text, example_book, examples, pattern, python, text_of, unusable,
    Stage, K,
};

/// The text and the sheet of a drive.
#[track_caller]
fn report(stage: &Stage, rate: &str, drive: &str) -> (String, String) {
    let out = stage.folder.path("out.html");
    let output = stage.report_with(&[OsStr::new("--html"), out.as_os_str()], rate, drive);
    assert_eq!(output.status.code(), Some(0), "{}", error_text(&output));
    let text = String::from_utf8(output.stdout).unwrap();
    let sheet = fs::read_to_string(&out).unwrap();
    well_formed(&sheet);
    assert!(
        !sheet.contains("NaN") && !sheet.contains("inf\""),
        "{sheet}"
    );
    assert_eq!(
        stage.folder.names(),
        ["book.txt", "drive.txt", "hum.store", "out.html"]
    );
    (text, sheet)
}

/// Each tag is closed in its turn, attributes are quoted, and `&` begins one of the
/// five names of XML. The style has none of these signs.
#[track_caller]
fn well_formed(sheet: &str) {
    let body = sheet.strip_prefix("<!DOCTYPE html>\n").unwrap();
    let mut open = Vec::new();
    for part in body.split('<').skip(1) {
        let (tag, text) = part.split_once('>').expect(part);
        assert!(!text.contains('>'), "{part}");
        assert!(tag.matches('"').count().is_multiple_of(2), "{part}");
        match tag.strip_prefix('/') {
            Some(name) => assert_eq!(open.pop(), Some(name), "{part}"),
            None if tag.ends_with('/') => {}
            None => open.extend(tag.split_whitespace().next()),
        }
    }
    assert_eq!(open, [""; 0]);
    for reference in body.split('&').skip(1) {
        let (name, _) = reference.split_once(';').expect(reference);
        assert!(["amp", "lt", "gt", "quot", "#39"].contains(&name), "{name}");
    }
    let control = |c: char| c.is_control() && !['\n', '\t'].contains(&c);
    assert!(!body.contains(control), "control characters");
}

/// The texts of all cells and captions, a line each, without markup.
fn cells(sheet: &str) -> Vec<String> {
    let plain = |row: &str| {
        let texts = row.split('<').filter_map(|part| part.split_once('>'));
        let texts: Vec<&str> = texts
            .map(|(_, text)| text)
            .filter(|text| !text.is_empty())
            .collect();
        texts.join("|")
    };
    let rows = sheet.split("<tr>").skip(1);
    rows.map(|row| plain(row.split("</tr>").next().unwrap()))
        .collect()
}

#[test]
fn the_example_s_sheet() {
    let stage = Stage::new(&example_book(), &pattern(96_000), 2);
    let drive = fs::read_to_string(examples().join("drive.txt")).unwrap();
    let (text, sheet) = report(&stage, "1", &drive);
    assert!(text.ends_with("\ntotal 100000 8909216\n"), "{text}");
    let cells = cells(&sheet);
    for expected in [
        "Accepted plays|6",
        "Outputs|100000",
        "Multiplies|8909216",
        "Multiplies per output|89.09",
        "Fades|6",
        "Refused lines|0",
        "Opening rate|1",
        "7|play 12000|1|12000|1068000|89.00|0",
        "11|glide 3 36000|accepted",
        "12|play 18000|2|18000|1602048|89.00|0|0\u{2192}1 at 29999",
        "16|seek 0|accepted",
        "28|play 16000|6|16000|1427072|89.19|0|2\u{2192}1 at 86823|1\u{2192}0 at 93882",
    ] {
        assert!(
            cells.iter().any(|row| row == expected),
            "{expected}: {cells:#?}"
        );
    }
    assert!(cells
        .iter()
        .any(|row| row.ends_with("|N 12, M 64, A 40, B 20, F 64")));
    assert!(cells
        .iter()
        .any(|row| row.ends_with("hum.store|S 96000, T 2")));
    assert_eq!(sheet.matches("<svg").count(), 2);
    assert_eq!(
        sheet.matches("class=\"band\"").count(),
        6 + 1,
        "and the legend's"
    );
    assert!(sheet.contains("<title>fade from level 0 to level 1, outputs 29999 to 30031</title>"));
    assert!(sheet.contains("4N + 2B + 1 = 89 multiplies"));
}

/// Every line of the text is in the sheet.
#[test]
fn the_sheet_and_the_text_agree() {
    let stage = Stage::new(&K, &pattern(3000), 3);
    let drive: String = (0..120)
        .map(|at| format!("jump {}\nplay {}\n", 1 + at * 7 % 15, at * at % 400))
        .collect();
    let (text, sheet) = report(&stage, "1", &drive);
    let cells = cells(&sheet);
    for line in text.lines().filter(|line| !line.starts_with("total")) {
        let [number, outputs, multiplies, level] = line.split(' ').collect::<Vec<_>>()[..] else {
            panic!("{line}");
        };
        let begins = format!("|play {outputs}|{number}|{outputs}|{multiplies}|");
        let row = cells.iter().find(|row| row.contains(&begins)).expect(line);
        assert_eq!(row.split('|').nth(6), Some(level), "{row}");
    }
    let sums: Vec<&str> = text.lines().last().unwrap().split(' ').collect();
    assert!(cells.contains(&format!("Outputs|{}", sums[1])));
    assert!(cells.contains(&format!("Multiplies|{}", sums[2])));
}

#[test]
fn refused_lines_and_odd_texts() {
    let stage = Stage::small();
    let drive = "play 3\n<script>alert(\"1\")</script> & 'x'\njump 4\nplay 1048577\n\
                 stop \0\u{1b}[1m\u{202e}\u{fffe}\n]]>&#0;<!--\njump\u{e9}\n";
    let (text, sheet) = report(&stage, "1", drive);
    assert_eq!(
        text,
        format!("1 3 27 0\n{}total 3 27\n", "refused\n".repeat(6))
    );
    assert!(!sheet.contains("<script") && !sheet.contains("<!--"));
    let cells = cells(&sheet);
    let script = "&lt;script&gt;alert(&quot;1&quot;)&lt;/script&gt; &amp; &#39;x&#39;";
    let has = |begin: &str, end: &str| {
        let found = cells
            .iter()
            .any(|row| row.starts_with(begin) && row.ends_with(end));
        assert!(found, "{begin} {end}: {cells:#?}");
    };
    let no_call = "is not jump, glide, seek or play";
    has("Refused lines|6", "");
    has(&format!("2|{script}|\u{d7} refused: "), no_call);
    has("3|jump 4|\u{d7} refused 10: the rate is not from 1/16", "");
    has("4|play 1048577|\u{d7} refused 11: the count of outputs", "");
    has(
        "5|stop \\u{0}\\u{1b}[1m\\u{202e}\\u{fffe}|\u{d7} refused: ",
        no_call,
    );
    has("6|]]&gt;&amp;#0;&lt;!--|\u{d7} refused: ", no_call);
    has("7|jump\u{e9}|\u{d7} refused: ", no_call);
}

/// File names may hold markup, too.
#[cfg(unix)]
#[test]
fn names_of_files_are_escaped() {
    let stage = Stage::small();
    let book = stage.folder.write("<b>&\"book\"", text_of(&K));
    let store = stage
        .folder
        .write("st'ore\n\u{202e}", bytes_of(&stage.store));
    let drive = stage.folder.write("<script>.txt", "play 2");
    let out = stage.folder.path("out.html");
    let output = run!("report", "--html", out, book, store, "1", drive);
    assert_eq!(accepted(&output), "1 2 18 0\ntotal 2 18\n");
    let sheet = fs::read_to_string(&out).unwrap();
    well_formed(&sheet);
    for name in [
        "/&lt;b&gt;&amp;&quot;book&quot;<",
        "/st&#39;ore\\n\\u{202e}<",
        "/&lt;script&gt;.txt<",
    ] {
        assert!(sheet.contains(name), "{name}");
    }
}

#[test]
fn sheets_of_drives_with_little_in_them() {
    for top in [0, 1, 4] {
        let stage = Stage::new(&K, &[0, 1000, 2000], top);
        let (_, sheet) = report(&stage, "1", "# nothing\n");
        assert!(sheet.contains("No output was played") && sheet.contains("no calls"));
        assert!(!sheet.contains("<svg"));
        let (_, sheet) = report(&stage, "1", "play 0\n");
        assert!(cells(&sheet).contains(&"1|play 0|1|0|0|\u{2013}|0".to_owned()));
        assert!(cells(&sheet).contains(&"Multiplies per output|\u{2013}".to_owned()));
        let (_, sheet) = report(&stage, "1", "play 1\n");
        assert_eq!(sheet.matches("<svg").count(), 2);
        assert_eq!(sheet.matches("class=\"band\"").count(), 1, "the legend's");
    }
}

#[test]
fn a_drive_that_ends_in_a_fade() {
    let mut book = K;
    book[4] = 255;
    let stage = Stage::new(&book, &pattern(2000), 2);
    // the second fade begins in the middle of an output, and does not end
    let (text, sheet) = report(&stage, "1", "play 10\njump 5\nplay 20\njump 1\nplay 200\n");
    assert!(text.ends_with("3 200 3400 2\ntotal 230 3830\n"), "{text}");
    let cells = cells(&sheet);
    assert!(
        cells.contains(&"Fades|2|the last has not ended".to_owned()),
        "{cells:#?}"
    );
    assert!(sheet.contains("fade from level 0 to level 2, outputs 10 to 137.5<"));
    assert!(sheet.contains("fade from level 2 to level 0, outputs 137.5 to 230<"));
}

/// Seeks and refused lines are marked where they stand: 100 outputs are 200 pixels.
#[test]
fn marks_along_the_drive() {
    let stage = Stage::small();
    let drive = "play 100\nseek 0\nplay 100\njump 99\nstop\nplay 100\nseek 9\nseek 3\n";
    let (_, sheet) = report(&stage, "1", drive);
    for seek in ["M262 22m-3.5 0a", "M662 22m-3.5 0a"] {
        assert_eq!(sheet.matches(seek).count(), 1, "{seek}");
    }
    assert_eq!(sheet.matches("M462 8m-3.5 -3.5l").count(), 1);
    assert_eq!(
        sheet.matches("class=\"cross\"").count(),
        1 + 1,
        "and the legend's"
    );
}

/// The table ends, and says so; the sums do not.
#[test]
fn a_drive_of_very_many_lines() {
    let stage = Stage::small();
    let (text, sheet) = report(&stage, "1", &"play 2\n".repeat(2000));
    assert_eq!(text.lines().count(), 2001);
    assert!(!sheet.contains("not shown") && sheet.contains(">2000</td>"));
    let drive = "play 2\n".repeat(2100) + "stop\n";
    let (text, sheet) = report(&stage, "1", &drive);
    assert!(text.ends_with("2100 2 18 0\nrefused\ntotal 4200 37800\n"));
    assert!(sheet.contains("101 more lines of the drive are not shown here, 1 of them refused."));
    let cells = cells(&sheet);
    assert!(cells.contains(&"Outputs|4200".to_owned()));
    assert!(cells.contains(&"Refused lines|1".to_owned()));
    assert!(cells.contains(&"2000|play 2|2000|2|18|9.00|0".to_owned()));
    assert!(!sheet.contains(">2001</td>"));
}

/// Some hundreds of fades in some millions of outputs.
#[test]
fn the_sheet_of_a_long_drive_is_small() {
    let stage = Stage::new(&K, &pattern(3000), 4);
    let drive =
        "jump 17\nplay 9000\njump 1\nplay 9000\njump 3\nseek 0\nstop\nplay 500\n".repeat(120);
    let (text, sheet) = report(&stage, "1", &drive);
    assert!(text.ends_with("total 2220000 19981440\n"), "{text}");
    let (pictures, _) = sheet.split_once("<h2>Calls</h2>").unwrap();
    assert!(pictures.len() < 120_000, "{}", pictures.len());
}

/// What an XML parser of other authorship says of a sheet.
#[test]
fn a_parser_accepts_the_sheet() {
    let stage = Stage::new(&example_book(), &pattern(9000), 2);
    report(
        &stage,
        "1",
        "play 100\njump 5\nplay 3\nst\u{7}op <&>\njump 9\nseek 7\nplay 70\n",
    );
    let parse = "import sys, xml.etree.ElementTree as tree; tree.parse(sys.argv[1])";
    let out = stage.folder.path("out.html");
    if let Some(output) = python(&[OsStr::new("-c"), OsStr::new(parse), out.as_os_str()]) {
        assert_eq!(accepted(&output), "");
    }
}

#[test]
fn forms_of_the_option() {
    let stage = Stage::small();
    let out = stage.folder.path("out.html");
    let joined = format!("--html={}", out.display());
    accepted(&stage.report_with(&[OsStr::new(&joined)], "1", "play 2"));
    well_formed(&fs::read_to_string(&out).unwrap());
    // another sheet may be replaced
    fs::write(&out, "older").unwrap();
    report(&stage, "1", "play 2");
}

#[test]
fn sheets_that_cannot_be_written() {
    let stage = Stage::small();
    let folder = &stage.folder;
    for name in ["book.txt", "hum.store", "drive.txt"] {
        let input = folder.path(name);
        let output = stage.report_with(&[OsStr::new("--html"), input.as_os_str()], "1", "play 3");
        unusable(&output, &[name, "one of the inputs"]);
    }
    assert_eq!(
        fs::read_to_string(folder.path("drive.txt")).unwrap(),
        "play 3"
    );
    for (out, why) in [
        (folder.path.clone(), "not a regular file"),
        (folder.path("nowhere/out.html"), "nowhere/out.html"),
        ("".into(), "no name for a file"),
    ] {
        let output = stage.report_with(&[OsStr::new("--html"), out.as_os_str()], "1", "play 3");
        unusable(&output, &[why]);
    }
    stage.left_nothing();
    // nothing is written where the opening is refused
    let out = folder.path("out.html");
    let output = stage.report_with(&[OsStr::new("--html"), out.as_os_str()], "9", "play 3");
    assert_eq!(output.status.code(), Some(1));
    stage.left_nothing();
}
