//! The page that a check writes for the archive's file: it says all that was found, needs nothing else, and nothing in it is markup of others.

mod desk;

use desk::{plan, Desk, CHECK, CHECK_ASKED};
use std::fs;

/// Fails unless the page is whole: every element is closed in its turn, and there is nothing in it that loads or runs.
fn is_a_whole_page(page: &str) {
    assert!(page.starts_with("<!DOCTYPE html>\n<html lang=\"en\">\n"));
    let mut open: Vec<&str> = Vec::new();
    for tag in page.split('<').skip(2) {
        let inside = tag.split('>').next().unwrap();
        assert_ne!(inside.len(), tag.len(), "an element does not end: {tag}");
        let name = inside
            .trim_start_matches('/')
            .split([' ', '/'])
            .next()
            .unwrap();
        let known = [
            "html", "head", "meta", "title", "style", "body", "h1", "h2", "p", "b", "br", "bdi",
            "table", "thead", "tbody", "tr", "th", "td", "ul", "li", "code", "span", "svg", "g",
            "rect", "text", "circle", "polyline", "path",
        ];
        assert!(
            known.contains(&name),
            "<{inside}> is no element of the page"
        );
        if inside.starts_with('/') {
            assert_eq!(open.pop(), Some(name), "</{name}>");
        } else if !inside.ends_with('/') && !["meta", "br"].contains(&name) {
            open.push(name);
        }
    }
    assert!(open.is_empty(), "{open:?} are not closed");
    for loads in [
        "script", " src=", " href=", "url(", "@import", "http:", "https:", " on",
    ] {
        let markup: Vec<&str> = page
            .split('<')
            .map(|tag| tag.split('>').next().unwrap())
            .collect();
        assert!(
            !markup.iter().skip(1).any(|tag| tag.contains(loads)),
            "{loads}"
        );
    }
    assert!(page.contains("default-src 'none'; style-src 'unsafe-inline'"));
    assert!(!page.chars().any(|c| c.is_control() && c != '\n'));
}

#[test]
fn the_page_of_an_acceptance() {
    let desk = Desk::asked("report-accepted");
    desk.run(&format!("{CHECK_ASKED} --report r.html")).says(
        0,
        &["verdict: accepted: 3 records", "the report is in r.html"],
    );
    let page = desk.text("r.html");
    is_a_whole_page(&page);
    let root = desk.value("plan.txt.seal/root.txt");
    for text in [
        "✓ ACCEPTED",
        "accepted: 3 records and the tail, fewer than the 40 positions of the profile default",
        "It stands for the file plan.txt of 960 bytes",
        "Asked by: not said",
        "Positions drawn, after the holder&#39;s roots were there: 20",
        &root,
        "tail</td><td class=\"mark\">✓ accepted",
        "level 0: 256 words",
        "level 6: 4 words",
    ] {
        assert!(page.contains(text), "{text:?} is not in {page}");
    }
    let positions = desk.text("plan.txt.asked/positions.txt");
    for position in positions.lines().skip(1) {
        let row =
            format!("position {position}</td><td class=\"mark\">✓ accepted</td><td>it shows ");
        assert!(page.contains(&row), "{row}");
        assert!(page.contains(&format!("<title>position {position}: accepted</title>")));
    }
    for root in desk.text("plan.txt.asked/roots.txt").lines().skip(1) {
        assert!(page.contains(root), "{root}");
    }
    assert!(!page.contains("✗"));
}

#[test]
fn the_page_of_a_refusal() {
    let desk = Desk::opened("report-refused");
    desk.damage("plan.txt.opening/query-7.record", 60);
    fs::remove_file(desk.path("plan.txt.opening/query-127.record")).unwrap();
    desk.run(&format!("{CHECK} --report r.html --json"))
        .says(1, &["\"verdict\": \"refused\"", "\"report\": \"r.html\""]);
    let page = desk.text("r.html");
    is_a_whole_page(&page);
    for text in [
        "✗ REFUSED",
        "refused: 2 refused, 2 accepted",
        "✗ refused</td><td>18 at level 0: the group and the path of a do not lead to this level&#39;s root<br><span class=\"ask\">Ask for the record",
        "✗ refused</td><td>the opening has no record at this position; ask the holder for it",
        "query-7.record. They were damaged or changed on the holder&#39;s side or on the way",
        "drawn from the seed text dice",
        "as text: <code>a ground plan, and a section through the stairs\\na ground",
    ] {
        assert!(page.contains(text), "{text:?} is not in {page}");
    }
    // What was refused stands first.
    let found = page.split("What was found").nth(1).unwrap();
    assert!(found.find("position 127").unwrap() < found.find("position 0<").unwrap());
    assert_eq!(found.matches("✓ accepted").count(), 2);
}

#[test]
fn the_page_of_a_check_by_the_holder_s_own_questions_and_of_one_that_was_not_begun() {
    let desk = Desk::opened("report-own");
    let own = "check plan.txt.opening --seal plan.txt.seal --own-questions --report";
    desk.run(&format!("{own} own.html"))
        .says(3, &["the report is in own.html"]);
    let page = desk.text("own.html");
    is_a_whole_page(&page);
    for text in [
        "– NO ACCEPTANCE",
        "This is no acceptance",
        "the challenges: the holder&#39;s own",
        "the positions: the holder&#39;s own",
    ] {
        assert!(page.contains(text), "{text}");
    }
    assert!(!page.contains("ACCEPTED"));
    for i in 0..200 {
        desk.write(&format!("plan.txt.opening/query-{}.record", 1000 + i), b"");
    }
    desk.run(&format!("{own} many.html")).says(
        1,
        &["holds more than 148 files", "the report is in many.html"],
    );
    let page = desk.text("many.html");
    is_a_whole_page(&page);
    assert!(page.contains("✗ REFUSED") && page.contains("holds more than 148 files"));
    // Positions that no level has are refused, and are not drawn.
    for i in 3..200 {
        fs::remove_file(desk.path(&format!("plan.txt.opening/query-{}.record", 1000 + i))).unwrap();
    }
    desk.run(&format!("{own} outside.html"))
        .says(1, &["position 1001: refused, 11"]);
    let page = desk.text("outside.html");
    is_a_whole_page(&page);
    assert_eq!(page.matches("<polyline").count(), 3);
}

#[test]
fn names_of_others_are_no_markup() {
    let desk = Desk::new("report-names");
    let hostile = "</td><script>alert('1')</script>&\"план 市役所 قلعة\u{202e}\u{1b}[2J\n.txt";
    let name = hostile.replace('/', "∕");
    desk.write(&name, &[plan(), b"</code><script>".repeat(9)].concat());
    desk.seal(["commit", &name, "--out", "s"]).says(0, &[]);
    let by = "</li><img src=x onerror=alert(1)> & Архив";
    desk.seal(["ask", "--seal", "s", "--out", "q", "--by", by])
        .says(0, &[]);
    desk.seal([
        "open", &name, "--seal", "s", "--asked", "q", "--out", "answer",
    ])
    .says(0, &[]);
    desk.run("ask --seal s --asked q --answer answer --count 256")
        .says(0, &[]);
    let opening = format!("o{name}");
    desk.seal([
        "open", &name, "--seal", "s", "--asked", "q", "--out", &opening,
    ])
    .says(0, &[]);
    desk.write(&format!("{opening}/{name}"), b"");
    desk.seal([
        "check", &opening, "--seal", "s", "--asked", "q", "--report", "r.html",
    ])
    .says(0, &["accepted: 256 records"]);
    let page = desk.text("r.html");
    is_a_whole_page(&page);
    for text in [
        "Asked by: &lt;/li&gt;&lt;img src=x onerror=alert(1)&gt; &amp; Архив",
        "&lt;∕td&gt;&lt;script&gt;alert(&#39;1&#39;)&lt;∕script&gt;&amp;&quot;план 市役所 قلعة\\u{202e}\\u{1b}[2J\\u{a}.txt",
        "Not checked: &lt;",
        "&lt;/code&gt;&lt;script&gt;",
    ] {
        assert!(page.contains(text), "{text:?} is not in {page}");
    }
    assert!(!page.contains("\u{202e}"));
    assert_eq!(page.matches("<polyline").count(), 64);
}

#[test]
fn a_report_replaces_nothing() {
    let desk = Desk::opened("report-replaces");
    desk.write("r.html", b"keep");
    desk.run(&format!("{CHECK} --report r.html"))
        .says(2, &["r.html exists; it is left alone"]);
    assert_eq!(desk.read("r.html"), b"keep");
    desk.run(&format!("{CHECK} --report plan.txt.opening/r.html"))
        .says(2, &["would lie in the opening"]);
    // A folder's link of the holder's leads where the holder chose.
    desk.folder("else");
    std::os::unix::fs::symlink("../else", desk.path("plan.txt.opening/link")).unwrap();
    desk.run(&format!("{CHECK} --report plan.txt.opening/link/r.html"))
        .says(2, &["would lie in the opening, or leads through it"]);
    assert!(desk.names("else").is_empty());
    std::fs::remove_file(desk.path("plan.txt.opening/link")).unwrap();
    desk.run(&format!("{CHECK} --report absent/r.html"))
        .says(2, &["there is no folder absent"]);
    std::os::unix::fs::symlink("elsewhere", desk.path("linked.html")).unwrap();
    desk.run(&format!("{CHECK} --report linked.html"))
        .says(2, &["linked.html exists"]);
    // The verdict is not lost with the page.
    let long = "r".repeat(300);
    desk.run(&format!("{CHECK} --report {long}")).says(
        2,
        &[
            "File name too long",
            "The check itself ended: accepted: 3 records and the tail",
        ],
    );
    // Where the check could not run, there is no page.
    desk.run("check plan.txt.opening --seal absent --seed dice --at 7 --report n.html")
        .says(2, &[]);
    assert!(!desk.path("n.html").exists());
    assert_eq!(desk.names("plan.txt.opening").len(), 10);
}
