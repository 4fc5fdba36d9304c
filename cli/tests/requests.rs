//! Requests as they may come back from a disk or a stranger: whatever is wrong with one is said of the request, and never of the holder.

mod desk;

use desk::{Desk, CHECK_ASKED, OPEN_ASKED};
use std::fs;
use std::os::unix::fs::symlink;

#[test]
fn damaged_files_of_any_kind_are_the_request_s_own() {
    let desk = Desk::asked("request-damage");
    for name in desk.names("plan.txt.asked") {
        let path = format!("plan.txt.asked/{name}");
        let sound = desk.read(&path);
        let half = sound[..sound.len() / 2].to_vec();
        let mut changed = sound.clone();
        // The last digit of a value; of the check lines, whose last is the summary's, the first.
        let digit = if name == "check.txt" {
            0
        } else {
            sound.len() - 2
        };
        changed[digit] = if sound[digit] == b'1' { b'2' } else { b'1' };
        for damaged in [
            vec![],
            half,
            changed,
            b"\xff\xfe\n".to_vec(),
            b"0\n".to_vec(),
            vec![b'f'; 5000],
        ] {
            desk.write(&path, &damaged);
            let run = desk.run(CHECK_ASKED);
            if name == "summary.txt" {
                run.says(0, &["verdict: accepted"]);
                continue;
            }
            run.says(
                2,
                &["the request in plan.txt.asked is damaged or cannot be read"],
            );
            run.does_not_say(&["verdict", "refused", "sk the holder"]);
            desk.run(&format!("{OPEN_ASKED} --out again"))
                .says(2, &["the request in plan.txt.asked is damaged"]);
        }
        fs::remove_file(desk.path(&path)).unwrap();
        let run = desk.run(CHECK_ASKED);
        match name.as_str() {
            "summary.txt" => run.says(0, &[]),
            "roots.txt" | "claim.txt" => {
                run.says(2, &["the request in plan.txt.asked is out of order"])
            }
            _ => run.says(
                2,
                &["the request in plan.txt.asked is damaged or cannot be read"],
            ),
        }
        desk.write(&path, &sound);
    }
    desk.run(CHECK_ASKED).says(0, &[]);
    assert!(!desk.path("again").exists());
}

/// Blanks and line ends that a mail program changes are no damage, as in a seal.
#[test]
fn blanks_and_line_ends_are_passed_over() {
    let desk = Desk::asked("request-blanks");
    for name in desk
        .names("plan.txt.asked")
        .iter()
        .filter(|name| *name != "summary.txt")
    {
        let path = format!("plan.txt.asked/{name}");
        let sound = desk.text(&path);
        for changed in [
            sound.replace('\n', "\r\n"),
            format!("{sound}\n\n"),
            sound.trim_end().into(),
        ] {
            desk.write(&path, changed.as_bytes());
            desk.run(CHECK_ASKED)
                .says(0, &["verdict: accepted: 3 records"]);
        }
        desk.write(&path, sound.as_bytes());
    }
}

#[test]
fn nothing_but_files_is_opened_and_no_more_is_read_than_a_request_has() {
    let desk = Desk::asked("request-hostile");
    for name in ["positions.txt", "roots.txt", "asked.txt", "check.txt"] {
        let path = desk.path("plan.txt.asked").join(name);
        let sound = fs::read(&path).unwrap();
        fs::remove_file(&path).unwrap();
        symlink("/dev/zero", &path).unwrap();
        desk.limited(CHECK_ASKED)
            .says(2, &["it is a link, not a file"]);
        fs::remove_file(&path).unwrap();
        fs::write(&path, &sound).unwrap();
        let file = fs::OpenOptions::new().write(true).open(&path).unwrap();
        file.set_len(1 << 40).unwrap();
        desk.limited(CHECK_ASKED).says(2, &["it has more than the"]);
        fs::write(&path, &sound).unwrap();
    }
    desk.limited(CHECK_ASKED).says(0, &[]);
}

/// A name that somebody wrote into a request by hand is shown, and no terminal or page acts on it.
#[test]
fn a_name_in_a_request_cannot_act_on_a_page() {
    let desk = Desk::asked("request-name");
    let asked = desk.text("plan.txt.asked/asked.txt");
    let named = asked.replace("format 1\n", "format 1\nby <b>\u{1b}[2J\u{202e}\n");
    desk.write("plan.txt.asked/asked.txt", named.as_bytes());
    desk.vouch("plan.txt.asked");
    desk.run(&format!("{CHECK_ASKED} --report r.html"))
        .says(0, &[]);
    let page = desk.text("r.html");
    assert!(
        page.contains("Asked by: &lt;b&gt;\\u{1b}[2J\\u{202e}"),
        "{page}"
    );
    assert!(!page.contains('\u{1b}') && !page.contains('\u{202e}'));
}
