//! Runs a call script of the second program (tests/second/oracle) and gives an answer for each line.

use std::fmt::Write;

use crate::archive::{archive_query, back, forward};
use crate::graph::{entries, packages, Filter, Graph, Part, Refusal};
use crate::names;
use crate::routes::{Candidates, Offers};

/// What an output list and an output buffer hold before a query, as the script language says.
const LIST_FILL: u32 = 0xDEAD_0000;
const VERSION_FILL: u16 = 0xBE00;
const BYTE_FILL: u8 = 0xA5;

/// What stands between two lines: the graph, the archive and the name sheet.
#[derive(Default)]
struct State {
    graph: Graph,
    archive: Vec<u8>,
    sheet: Vec<u8>,
}

pub fn run(script: &str) -> String {
    let mut state = State::default();
    let mut answers = String::new();
    for line in script.lines().filter(|l| !l.is_empty() && !l.starts_with('#')) {
        let words: Vec<&str> = line.split(' ').collect();
        let answer = keep(&mut state, &words)
            .or_else(|| change(&mut state.graph, &words))
            .or_else(|| judge(&state, &words))
            .unwrap_or_else(|| query(&state.graph, &words));
        writeln!(answers, "{answer}").expect("a String takes every line");
    }
    answers
}

/// The answer to a line that keeps bytes, or `None` where it does not.
fn keep(state: &mut State, words: &[&str]) -> Option<String> {
    match words[0] {
        "archive" => state.archive = bytes(words[1]),
        "sheet" => state.sheet = bytes(words[1]),
        _ => return None,
    }
    Some("0".into())
}

/// The answer to a line that asks the bytes that stand, or `None` where it does not.
fn judge(state: &State, words: &[&str]) -> Option<String> {
    let n = |i: usize| number(words[i]);
    match words[0] {
        "query" => Some(archive_query(&state.archive, n(1), n(2), n(3), version(words[4])).to_string()),
        "forward" => Some(written(n(1), |out| forward(&state.archive, out))),
        "back" => Some(written(n(1), |out| back(&state.archive, out))),
        "lookup" => Some(match names::look_up(&state.sheet, n(1), n(2)) {
            Ok(name) => format!("0 {} {}", names::start(&state.sheet, name), name.len()),
            Err(refusal) => format!("{} 0 0", refusal as u32),
        }),
        _ => None,
    }
}

/// The number of a changing call, or `None` where the line is a query.
fn change(graph: &mut Graph, words: &[&str]) -> Option<String> {
    let n = |i: usize| number(words[i]);
    let done = match words[0] {
        "start" => start(graph, words[1]),
        "lent" => Graph::read(&bytes(words[1])).map(|read| *graph = read),
        "add" => graph.add_region(n(1)),
        "remove" => graph.remove_region(n(1)),
        "install" => graph.install(n(1), n(2), &packages(&list(words[3]), &versions(words[4])), &list(words[5])),
        "uninstall" => graph.uninstall(n(1)),
        "connect" => {
            let listed = |numbers: &str| entries(&list(numbers), &versions(words[5]), &versions(words[6]));
            let (bundles, packages) = (list(words[3]), part(words[4], listed));
            graph.connect(n(1), n(2), &Filter { bundles, packages, services: part(words[7], list) })
        }
        "disconnect" => graph.disconnect(n(1), n(2)),
        _ => return None,
    };
    Some(done.map_or_else(|refusal| refusal as u32, |()| 0).to_string())
}

fn query(graph: &Graph, words: &[&str]) -> String {
    let n = |i: usize| number(words[i]);
    match words[0] {
        "bfind" => hook(n(2), |out| graph.bundle_find(n(1), &list(words[3]), out)),
        "sfind" => hook(n(2), |out| graph.service_find(n(1), &list(words[3]), out)),
        "resolve" => {
            let (exporters, packages, versions) = (&list(words[3])[..], &list(words[4])[..], &versions(words[5])[..]);
            resolve(graph, n(1), &list(words[2]), Candidates { exporters, packages, versions })
        }
        "bevent" => hook(n(1), |out| graph.bundle_event(&list(words[3]), n(2), out)),
        "sevent" => hook(n(1), |out| graph.service_event(&list(words[3]), n(2), out)),
        "route" => {
            let mut out = vec![BYTE_FILL; n(5) as usize];
            let answer = graph.route(n(1), n(2), n(3), version(words[4]), &mut out);
            shown(answer.map(|count| count.map_or("hidden".into(), |c| c.to_string())), hex(&out))
        }
        "write" => written(n(1), |out| graph.write(out)),
        "image" => hex(&graph.image()),
        other => panic!("unknown call: {other}"),
    }
}

/// A refused read leaves the empty graph.
fn start(graph: &mut Graph, image: &str) -> Result<(), Refusal> {
    *graph = Graph::default();
    if image != "empty" {
        *graph = Graph::read(&bytes(image))?;
    }
    Ok(())
}

/// A call that writes an archive to a buffer of so many bytes.
fn written(room: u32, call: impl FnOnce(&mut [u8]) -> Result<usize, Refusal>) -> String {
    let mut out = vec![BYTE_FILL; room as usize];
    let answer = call(&mut out);
    shown(answer.map(|length| length.to_string()), hex(&out))
}

fn hook(places: u32, call: impl FnOnce(&mut [u32]) -> Result<usize, Refusal>) -> String {
    let mut out = output(places);
    let answer = call(&mut out);
    shown(answer.map(|count| count.to_string()), joined(&out))
}

/// A resolve, with so many places in each output list.
fn resolve(graph: &Graph, location: u32, places: &[u32], candidates: Candidates) -> String {
    let (exporters, packages) = (&mut output(places[0])[..], &mut output(places[1])[..]);
    let mut versions: Vec<u16> = (0..places[2] as u16).map(|i| VERSION_FILL.wrapping_add(i)).collect();
    let mut out = Offers { exporters, packages, versions: &mut versions };
    let answer = graph.resolve(location, candidates, &mut out);
    let lists = [joined(out.exporters), joined(out.packages), joined(out.versions)];
    shown(answer.map(|count| count.to_string()), lists.join(" "))
}

/// An output list before a call.
fn output(places: u32) -> Vec<u32> {
    (0..places).map(|i| LIST_FILL + i).collect()
}

fn joined<T: ToString>(numbers: &[T]) -> String {
    or_dash(numbers.iter().map(T::to_string).collect::<Vec<_>>().join(","))
}

fn shown(answer: Result<String, Refusal>, out: String) -> String {
    match answer {
        Ok(count) => format!("0 {count} {out}"),
        Err(refusal) => format!("{} - {out}", refusal as u32),
    }
}

fn number(word: &str) -> u32 {
    word.parse().unwrap_or_else(|_| panic!("not a number: {word}"))
}

fn version(word: &str) -> u16 {
    number(word).try_into().unwrap_or_else(|_| panic!("not a version: {word}"))
}

fn list(word: &str) -> Vec<u32> {
    if word == "-" {
        return Vec::new();
    }
    word.split(',').map(number).collect()
}

fn versions(word: &str) -> Vec<u16> {
    if word == "-" {
        return Vec::new();
    }
    word.split(',').map(version).collect()
}

fn part<T>(word: &str, listed: impl FnOnce(&str) -> Vec<T>) -> Part<T> {
    if word == "*" {
        Part::All
    } else {
        Part::Listed(listed(word))
    }
}

fn bytes(word: &str) -> Vec<u8> {
    let digits = if word == "-" { "" } else { word };
    let byte = |i| u8::from_str_radix(&digits[i..i + 2], 16).expect("two digits of base 16");
    (0..digits.len()).step_by(2).map(byte).collect()
}

fn hex(bytes: &[u8]) -> String {
    or_dash(bytes.iter().map(|byte| format!("{byte:02x}")).collect())
}

fn or_dash(text: String) -> String {
    if text.is_empty() {
        "-".into()
    } else {
        text
    }
}
