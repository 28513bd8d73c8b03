//! The peers that a user could take instead: validators that compile a schema
//! and check its restrictions. Each model is written as two schemas, and a
//! driver of this folder measures a peer on them. A peer that is not
//! installed is named as such; nothing is installed here.

use std::collections::HashMap;
use std::fs;
use std::path::Path;
use std::process::{Command, Stdio};

use common::{answers, schema};

use crate::models::{self, Model};
use crate::subjects::{self, Subject};
use crate::time;

const FOLDER: &str = "target/compare/peers";
const JAVA: &str = "compare/bench/Peers.java";
const PYTHON: &str = "compare/bench/peers.py";
/// Where Debian's package puts Xerces-J.
const JARS: &str = "/usr/share/java/xercesImpl.jar:/usr/share/java/xml-apis.jar";
/// xmlschema may be installed for one of these only.
const PYTHONS: [&str; 2] = ["python3", "/usr/bin/python3"];
/// A driver's exit status where its peer is missing.
const MISSING: i32 = 3;

/// What a driver says of a model, times in nanoseconds.
struct Found {
    restricting: f64,
    apart: f64,
    answer: String,
}

impl Found {
    /// What the check adds to compiling the same two types apart. A schema
    /// that is rejected is not compiled to its end.
    fn check(&self) -> String {
        let added = self.restricting - self.apart;
        if self.answer != "accepted" {
            "".into()
        } else if added < 0.02 * self.restricting {
            "under 2%".into()
        } else {
            format!("{:.0}", added / 1000.0)
        }
    }
}

struct Peer {
    name: &'static str,
    /// By the model's name; nothing where the peer is not installed.
    found: Option<HashMap<String, Found>>,
}

pub fn print(rounds: usize) -> std::io::Result<()> {
    let models = models::every();
    fs::create_dir_all(FOLDER)?;
    for model in &models {
        let file = |part| Path::new(FOLDER).join(format!("{}.{part}.xsd", model.name));
        let (derived, base) = (model.derived(), model.base());
        fs::write(file("restricting"), schema::restricting(&derived, &base))?;
        fs::write(file("apart"), schema::apart(&derived, &base))?;
    }
    let peers = measured(&models);
    println!("\n| model | records | who | answer | compiling, µs | the check, µs |");
    println!("|---|---|---|---|---|---|");
    for model in &models {
        print_ours(model, rounds);
        peers.iter().for_each(|peer| print_peer(model, peer));
    }
    Ok(())
}

fn print_ours(model: &Model, rounds: usize) {
    let subjects = subjects::ready(model.name, &[model.sheet()]);
    let subjects: Vec<&Subject> = subjects.iter().collect();
    let times = time::marking(&subjects, rounds);
    let records = format!("{} and {}", model.derived().records(), model.base().records());
    let answer = answers::text(subjects[0].mark);
    let row = |who, time: f64| {
        println!("| {} | {records} | {who} | {answer} | | {:.2} |", model.name, time / 1000.0);
    };
    row("Rattle, from bytes", times.library.least);
    row("Rust, particles ready", times.ready.expect("a short marking").least);
}

fn print_peer(model: &Model, peer: &Peer) {
    let cells = match peer.found.as_ref().map(|found| found.get(model.name)) {
        None => "not installed | |".into(),
        Some(None) => "not measured | |".into(),
        Some(Some(found)) => {
            format!("{} | {:.0} | {}", found.answer, found.restricting / 1000.0, found.check())
        }
    };
    println!("| {} | | {} | {cells} |", model.name, peer.name);
}

fn measured(models: &[Model]) -> Vec<Peer> {
    let jars = std::env::var("XERCES_JARS").unwrap_or(JARS.into());
    let run = |words: &[&str]| {
        let names = models.iter().map(|model| model.name);
        drive(Command::new(words[0]).args(&words[1..]).arg(FOLDER).args(names))
    };
    let python = PYTHONS.iter().find_map(|python| run(&[python, PYTHON]));
    let java = run(&["java", JAVA, "jdk"]);
    let xerces = run(&["java", "-cp", &jars, JAVA, "xerces"]);
    vec![
        Peer { name: "Java's own validator", found: java },
        Peer { name: "Xerces-J", found: xerces },
        Peer { name: "Python's xmlschema", found: python },
    ]
}

/// What a driver writes, line by line; nothing where it or its peer is missing.
fn drive(command: &mut Command) -> Option<HashMap<String, Found>> {
    let output = command.stderr(Stdio::inherit()).output().ok()?;
    if output.status.code() == Some(MISSING) {
        return None;
    }
    let text = String::from_utf8_lossy(&output.stdout).into_owned();
    Some(text.lines().filter_map(found).collect())
}

fn found(line: &str) -> Option<(String, Found)> {
    let mut words = line.split('\t');
    let model = words.next()?.into();
    let restricting = words.next()?.parse().ok()?;
    let apart = words.next()?.parse().ok()?;
    Some((model, Found { restricting, apart, answer: words.next()?.into() }))
}
