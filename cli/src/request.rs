//! A request: what a checker asks of a holder, in a folder of plain files that goes to the holder, and that the check is run by. The challenges
//! come first. The positions are drawn when the holder's roots are there, and the request then keeps those roots and the claim.
//!
//! ```text
//! parameters.txt     as in the seal
//! root.txt           as in the seal: which one this is about
//! asked.txt          who asks, and when: `by TEXT`, `challenges DATE`, `positions DATE`
//! challenges.txt     n words, one to a line
//! roots.txt          from the answer on: the roots of levels 0 to n that the holder answered with
//! claim.txt          from the answer on: the terminal claim that the holder answered with
//! positions.txt      from the answer on: the positions, one to a line, rising
//! summary.txt        for a person
//! check.txt          as in the seal
//! ```

use crate::check_lines::{with_check_lines, CheckLines, CHECK};
use crate::folder::{Kind, Named, SUMMARY};
use crate::format::{all_known, marked, signature, Body};
use crate::lines::{self, items, most_bytes, one};
use crate::opening::{CHALLENGES, CLAIM, ROOTS};
use crate::outcome::Failure;
use crate::reading::{inside, shown_name, text_inside, Unread};
use crate::seal::{Seal, ROOT};
use crate::shape::{Shape, PARAMETERS};
use crate::statement::Roots;
use dequmlo::{Root, Word};
use std::ffi::OsStr;
use std::path::Path;

const ASKED: &str = "asked.txt";
const POSITIONS: &str = "positions.txt";

/// The most bytes of a name of who asks, and of `asked.txt`.
const MOST_OF_A_NAME: usize = 200;
const MOST_BYTES: usize = 1024;

/// The most bytes of a line with a position.
const POSITION_DIGITS: usize = 8;

#[derive(Clone, Debug, PartialEq)]
pub struct Request {
    pub shape: Shape,
    pub root: Root,
    /// Who asks, where that was said.
    pub by: Option<String>,
    /// When the challenges were drawn.
    pub when: String,
    pub challenges: Vec<Word>,
    pub answered: Option<Answered>,
}

/// What a request has from the holder's answer on.
#[derive(Clone, Debug, PartialEq)]
pub struct Answered {
    pub roots: Vec<Root>,
    pub claim: Word,
    /// When the positions were drawn.
    pub when: String,
    pub positions: Vec<usize>,
}

impl Answered {
    /// The roots that the checker kept before the positions were told.
    pub fn kept(&self) -> Roots {
        Roots {
            all: self.roots.clone(),
            kept: true,
        }
    }
}

impl Request {
    /// Reads a request about this seal. One that is damaged, of another seal or out of order is a failure: it is the checker's, and no holder
    /// is to blame.
    pub fn read(folder: &Path, seal: &Seal) -> Result<Request, Failure> {
        let shown = folder.display();
        if !folder.is_dir() {
            return Err(Failure(format!(
                "there is no request {shown}: give the folder that `seal ask` wrote"
            )));
        }
        all_known(
            folder,
            &[PARAMETERS, ROOT, ASKED, CHALLENGES, ROOTS, CLAIM, POSITIONS],
        )?;
        in_order(folder)?;
        let request = parts(folder).map_err(|Failure(what)| {
            Failure(format!(
                "the request in {shown} is damaged or cannot be read, so nothing was done by it: {what}. Take it from a copy, or ask for it again"
            ))
        })?;
        if request.root != seal.root {
            return Err(Failure(format!(
                "the request in {shown} is about another seal: it names the root {}, and this seal's is {}",
                request.root, seal.root
            )));
        }
        if request.shape != seal.shape {
            let assumed = seal.assumed.as_ref();
            return Err(Failure(format!(
                "the request in {shown} is about another seal: it names another n, k, base domain, set of widths or key{}",
                assumed.map_or(String::new(), |assumed| format!(". Note that {assumed}"))
            )));
        }
        Ok(request)
    }

    /// The files of a request.
    pub fn files(&self) -> Vec<Named> {
        let mut files = self.contents(self.shape.file());
        files.push((SUMMARY.into(), self.summary().into_bytes()));
        with_check_lines(files)
    }

    /// Who asked what and when, in words.
    pub fn told(&self) -> Vec<String> {
        let by = self.by.as_ref();
        let mut told = vec![
            by.map_or("Asked by: not said".into(), |by| format!("Asked by: {by}")),
            format!("Challenges drawn: {}", self.when),
        ];
        told.extend(self.answered.as_ref().map(|answered| {
            let count = answered.positions.len();
            format!(
                "Positions drawn, after the holder's roots were there: {}; {count} of {}",
                answered.when,
                self.shape.positions()
            )
        }));
        told.iter()
            .map(|line| shown_name(OsStr::new(line)))
            .collect()
    }

    /// What is wrong with the numbers of a request that no `seal ask` wrote.
    fn fits(&self) -> Result<(), &'static str> {
        if self.challenges.len() != self.shape.n {
            return Err("it does not have one challenge for each level");
        }
        let answered = match &self.answered {
            Some(answered) => answered,
            None => return Ok(()),
        };
        if answered.roots.len() != self.shape.n + 1 || answered.roots[0] != self.root {
            return Err(
                "its roots are not those of the levels of this deposit, beginning with its root",
            );
        }
        if !answered.positions.windows(2).all(|pair| pair[0] < pair[1]) {
            return Err("its positions do not rise");
        }
        Ok(())
    }

    /// The files that are read back, with these bytes of `parameters.txt`.
    fn contents(&self, parameters: Vec<u8>) -> Vec<Named> {
        let by = self.by.as_ref().map(|by| format!("by {by}\n"));
        let when = self
            .answered
            .as_ref()
            .map(|answered| format!("positions {}\n", answered.when));
        let asked = format!(
            "{}challenges {}\n{}",
            by.unwrap_or_default(),
            self.when,
            when.unwrap_or_default()
        );
        let mut files: Vec<Named> = vec![
            (PARAMETERS.into(), parameters),
            (ROOT.into(), lines::file(&[self.root])),
            (ASKED.into(), marked(&asked).into_bytes()),
            (CHALLENGES.into(), lines::file(&self.challenges)),
        ];
        if let Some(answered) = &self.answered {
            files.push((ROOTS.into(), lines::file(&answered.roots)));
            files.push((CLAIM.into(), lines::file(&[answered.claim])));
            files.push((POSITIONS.into(), lines::file(&answered.positions)));
        }
        files
    }

    fn summary(&self) -> String {
        let next = if self.answered.is_some() {
            "The holder opens these positions with `seal open FILE --seal FOLDER --asked FOLDER`, and the checker checks what comes back with\n\
             `seal check OPENING --seal FOLDER --asked FOLDER`."
        } else {
            "No position is drawn yet. The holder answers with roots, claim and tail, by `seal open FILE --seal FOLDER --asked FOLDER`; then the\n\
             checker draws the positions with `seal ask --seal FOLDER --asked FOLDER --answer ANSWER`."
        };
        format!(
            "{}\n\n{}\nFor the root: {}\n\n{next}\n\n{}",
            Kind::Request.heading(),
            self.told().join("\n"),
            self.root,
            signature()
        )
    }
}

/// A name of who asks: one line that a terminal does not act on.
pub fn name_of_a_checker(text: String) -> Result<String, Failure> {
    let plain = !text.trim().is_empty() && !text.chars().any(char::is_control);
    if plain && text.trim() == text && text.len() <= MOST_OF_A_NAME {
        return Ok(text);
    }
    Err(Failure(format!(
        "--by takes a name on one line, of at most {MOST_OF_A_NAME} bytes, without blanks around it"
    )))
}

/// Positions before the holder's roots are there would let the holder make the roots to fit them.
fn in_order(folder: &Path) -> Result<(), Failure> {
    let there = |name| !matches!(inside(folder, name, 0), Err(Unread::Missing));
    if there(POSITIONS) && !(there(ROOTS) && there(CLAIM)) {
        return Err(Failure(format!(
            "the request in {} is out of order: it asks for positions, and does not have the roots and the claim that the holder has to answer with \
             before any position is told. Ask again, with `seal ask`",
            folder.display()
        )));
    }
    Ok(())
}

fn parts(folder: &Path) -> Result<Request, Failure> {
    let parameters = Shape::read(folder)?;
    let shape = parameters.shape;
    let text = |name, lines, digits| text_inside(folder, name, most_bytes(lines, digits));
    let at = |name| folder.join(name);
    let asked = text_inside(folder, ASKED, MOST_BYTES)?;
    let asked = Body::of(&at(ASKED), &asked)?.text;
    let said = |key: &str| {
        let value = |line: &str| line.strip_prefix(key)?.strip_prefix(' ').map(String::from);
        asked.lines().map(str::trim_end).find_map(value)
    };
    let when = |key: &str| {
        said(key).ok_or_else(|| Failure(format!("{ASKED} does not say when the {key} were drawn")))
    };
    let answered = if said("positions").is_some() {
        let positions = text(POSITIONS, shape.positions(), POSITION_DIGITS)?;
        Some(Answered {
            roots: items(&at(ROOTS), &text(ROOTS, shape.n + 1, 64)?)?,
            claim: one(&at(CLAIM), &text(CLAIM, 1, 32)?)?,
            when: when("positions")?,
            positions: items(&at(POSITIONS), &positions)?,
        })
    } else {
        None
    };
    let request = Request {
        root: one(&at(ROOT), &text(ROOT, 1, 64)?)?,
        by: said("by"),
        when: when("challenges")?,
        challenges: items(&at(CHALLENGES), &text(CHALLENGES, shape.n, 32)?)?,
        shape,
        answered,
    };
    agreed(folder, &request.contents(parameters.written.into_bytes()))?;
    request.fits().map_err(|what| Failure(what.into()))?;
    Ok(request)
}

/// Fails unless the check lines are those of what was read, in its written form.
fn agreed(folder: &Path, files: &[Named]) -> Result<(), Failure> {
    let lines = CheckLines::read(folder, 16)?
        .ok_or_else(|| Failure(format!("there is no {CHECK} in it")))?;
    match files.iter().find(|(name, bytes)| !lines.agree(name, bytes)) {
        Some((name, _)) => Err(Failure(format!(
            "{name} and its line in {CHECK} do not agree"
        ))),
        None => Ok(()),
    }
}
