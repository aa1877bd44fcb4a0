//! Measures the calls. Prints a line for each: name, nanoseconds of one call, and what the call answered.
//! bench/README.md says what is measured; the programs of the other implementations measure the same.

use std::hint::black_box;
use std::io;
use std::path::Path;
use std::time::{Duration, Instant};

use crate::archive::{archive_query, back, forward};
use crate::graph::{Entry, Filter, Graph, Package, Part, Refusal, HIGHEST_VERSION};
use crate::names;
use crate::routes::{Candidates, Offers, ROUTE_BYTES};

/// Short rounds, so that some of them pass without a break by the system.
const ROUNDS: usize = 100;
const ROUND: Duration = Duration::from_millis(2);
/// Calls between two looks at the clock, where that many go into a round.
const BATCH: usize = 64;
/// Graphs on which a changing call is made one after another before the opposite call is.
const COPIES: usize = 8;

const HIDDEN: i64 = -101;
const ASKER: u32 = 2000;
/// Held in region 15, five connections away from the asker; where there are 64 regions, in region 63.
const SEEN_ITEM: u32 = 511;
/// Held in region 15, and passed by every connection but those to region 15.
const HIDDEN_ITEM: u32 = 504;
const UNHELD_ITEM: u32 = 1000;
/// Has packages 504 to 511.
const EXPORTER: u32 = ASKER + 63;
const LISTED: [u32; 8] = [HIDDEN_ITEM, 505, 506, 507, 508, 509, 510, SEEN_ITEM];
const LISTED_TO_15: [u32; 8] = [505, 506, 507, 508, 509, 510, SEEN_ITEM, UNHELD_ITEM];
const HELD: u32 = 512;
const LIST: u32 = 1000;
/// The version of the packages in the graph "ranges", and what its entries pass; other packages have version 0.
const VERSION: u16 = 5;
const RANGE: (u16, u16) = (1, 9);
const ANY: (u16, u16) = (0, HIGHEST_VERSION);
/// Entries of the sheet that the program makes.
const ENTRIES: u32 = 1000;

pub fn run(examples: &Path) -> io::Result<()> {
    let all = full_graph(0, |_| ALL);
    packages("all", &all, UNHELD_ITEM, 0);
    services("all", &all, UNHELD_ITEM);
    let listed = listed_graph(0, ANY);
    packages("listed", &listed, HIDDEN_ITEM, 0);
    services("listed", &listed, HIDDEN_ITEM);
    packages("ranges", &listed_graph(VERSION, RANGE), HIDDEN_ITEM, VERSION);
    changes(&listed);
    archives(&std::fs::read(examples.join("g.archive"))?, &std::fs::read(examples.join("longest.archive"))?);
    long_route(&row_graph());
    lookups(&std::fs::read(examples.join("g.names"))?, &sheet());
    Ok(())
}

const ALL: Filter = Filter { bundles: vec![], packages: Part::All, services: Part::All };

fn filter(numbers: &[u32], (lowest, highest): (u16, u16)) -> Filter {
    let entries = numbers.iter().map(|&number| Entry { number, lowest, highest }).collect();
    let listed = || numbers.to_vec();
    Filter { bundles: listed(), packages: Part::Listed(entries), services: Part::Listed(listed()) }
}

/// The services of bundle i, and its packages in a version.
fn provided(i: u32) -> Vec<u32> {
    (8 * i..8 * i + 8).collect()
}

fn exported(i: u32, version: u16) -> Vec<Package> {
    provided(i).into_iter().map(|number| (number, version)).collect()
}

/// 16 regions, 64 bundles, 48 connections; the filter of a connection by its target.
fn full_graph(version: u16, filter: impl Fn(u32) -> Filter) -> Graph {
    let mut graph = Graph::default();
    (0..16).for_each(|r| accepted(graph.add_region(r)));
    (0..64).for_each(|i| accepted(graph.install(i % 16, ASKER + i, &exported(i, version), &provided(i))));
    for r in 0..16 {
        for target in (1..=3).map(|step| (r + step) % 16) {
            accepted(graph.connect(r, target, &filter(target)));
        }
    }
    graph
}

/// The same with connections that list 8 numbers in each part, the packages with a range of versions.
fn listed_graph(version: u16, range: (u16, u16)) -> Graph {
    full_graph(version, |target| filter(if target == 15 { &LISTED_TO_15 } else { &LISTED }, range))
}

/// 64 regions with a bundle each; 48 connections, from region 15 to region 63 in a row, that pass all packages and services.
fn row_graph() -> Graph {
    let mut graph = Graph::default();
    for i in 0..64 {
        accepted(graph.add_region(i));
        accepted(graph.install(i, ASKER + i, &exported(i, 0), &provided(i)));
    }
    (15..63).for_each(|r| accepted(graph.connect(r, r + 1, &ALL)));
    graph
}

fn accepted(done: Result<(), Refusal>) {
    done.expect("the call is accepted");
}

/// Routes and resolves for packages of a version.
fn packages(filters: &str, graph: &Graph, hidden: u32, version: u16) {
    let mut bytes = [0; ROUTE_BYTES];
    for (name, item) in [("seen", SEEN_ITEM), ("hidden", hidden)] {
        best(&format!("route_{name}_{filters}"), || {
            counted(graph.route(black_box(ASKER), 1, black_box(item), black_box(version), &mut bytes))
        });
    }
    resolves(filters, graph, hidden, version);
}

/// The items of lists, in turn.
fn in_turn() -> Vec<u32> {
    (0..LIST).map(|i| i % HELD).collect()
}

/// Finds and events for services.
fn services(filters: &str, graph: &Graph, hidden: u32) {
    let mut out = [0; LIST as usize];
    for (name, item) in [("seen", SEEN_ITEM), ("hidden", hidden)] {
        best(&format!("find_1_{name}_{filters}"), || {
            answer(graph.service_find(black_box(ASKER), black_box(&[item]), &mut out).map(|c| c as i64))
        });
    }
    let candidates = in_turn();
    best(&format!("find_1000_{filters}"), || {
        answer(graph.service_find(ASKER, black_box(&candidates), &mut out).map(|c| c as i64))
    });
    let listeners: Vec<u32> = (0..LIST).map(|i| ASKER + i % 64).collect();
    best(&format!("event_1000_{filters}"), || {
        answer(graph.service_event(black_box(&listeners), SEEN_ITEM, &mut out).map(|c| c as i64))
    });
}

fn resolves(filters: &str, graph: &Graph, hidden: u32, version: u16) {
    let (mut out_exporters, mut out_packages, mut out_versions) =
        ([0; LIST as usize], [0; LIST as usize], [0; LIST as usize]);
    let mut out = Offers { exporters: &mut out_exporters, packages: &mut out_packages, versions: &mut out_versions };
    let versions = [version; LIST as usize];
    let mut resolve = |exporters: &[u32], packages: &[u32]| {
        let candidates = Candidates { exporters, packages, versions: &versions[..packages.len()] };
        answer(graph.resolve(ASKER, black_box(candidates), &mut out).map(|c| c as i64))
    };
    for (name, item) in [("seen", SEEN_ITEM), ("hidden", hidden)] {
        best(&format!("resolve_1_{name}_{filters}"), || resolve(&[EXPORTER], &[item]));
    }
    let packages = in_turn();
    let exporters: Vec<u32> = packages.iter().map(|package| ASKER + package / 8).collect();
    best(&format!("resolve_1000_{filters}"), || resolve(&exporters, &packages));
}

/// The route of the bundle in region 15 to an item in region 63.
fn long_route(graph: &Graph) {
    let mut bytes = [0; ROUTE_BYTES];
    best("route_48", || counted(graph.route(black_box(ASKER + 15), 1, black_box(SEEN_ITEM), 0, &mut bytes)));
}

fn changes(graph: &Graph) {
    let filter = filter(&LISTED, ANY);
    let (packages, services) = (exported(32, 0), provided(32));
    let mut full = graph.clone();
    best("refused_add", || number(full.add_region(black_box(9))));
    best("refused_install", || number(full.install(0, black_box(ASKER + 32), &packages, &services)));
    best_pair(
        graph,
        ("uninstall", |g| g.uninstall(black_box(ASKER + 32))),
        ("install", |g| g.install(0, black_box(ASKER + 32), &packages, &services)),
    );
    best_pair(
        graph,
        ("disconnect", |g| g.disconnect(black_box(7), 9)),
        ("connect", |g| g.connect(black_box(7), 9, &filter)),
    );
    best_pair(graph, ("remove", |g| g.remove_region(black_box(9))), ("add", |g| g.add_region(black_box(9))));
}

fn archives(g: &[u8], longest: &[u8]) {
    let mut graph = Graph::default();
    best("read_longest", || {
        graph = Graph::read(black_box(longest)).expect("an archive");
        0
    });
    let mut versioned = graph.image();
    best("write_longest", || answer(graph.write(black_box(&mut versioned)).map(|length| length as i64)));
    best("read_longest_3", || {
        graph = Graph::read(black_box(&versioned)).expect("an archive");
        0
    });
    best("query_g", || archive_query(black_box(g), 10, 1, 1, 0).into());
    best("query_longest", || archive_query(black_box(longest), 1000, 1, 600, 0).into());
    best("query_longest_3", || archive_query(black_box(&versioned), 1000, 1, 600, 0).into());
    let mut out = graph.image();
    best("forward_longest", || answer(forward(black_box(longest), &mut out).map(|length| length as i64)));
    best("back_longest", || answer(back(black_box(&versioned), &mut out).map(|length| length as i64)));
}

/// Bundles 0 to 999, each with a name of 20 bytes.
fn sheet() -> Vec<u8> {
    let mut entries = Vec::new();
    for i in 0..ENTRIES {
        let name = format!("bundle number {i:06}");
        entries.extend((name.len() as u16 + 5).to_be_bytes());
        entries.push(0);
        entries.extend(i.to_be_bytes());
        entries.extend(name.as_bytes());
    }
    let mut sheet = vec![1];
    sheet.extend((entries.len() as u32).to_be_bytes());
    sheet.extend(entries);
    sheet
}

fn lookups(g: &[u8], sheet: &[u8]) {
    best("name_g", || name_in(black_box(g), 3, 1));
    for (name, number) in [("first", 0), ("last", ENTRIES - 1), ("missing", ENTRIES)] {
        best(&format!("name_1000_{name}"), || name_in(black_box(sheet), 0, number));
    }
}

/// Where a name starts and how long it is, in one number, or the refusal below zero.
fn name_in(sheet: &[u8], kind: u32, number: u32) -> i64 {
    answer(
        names::look_up(sheet, black_box(kind), black_box(number))
            .map(|name| (names::start(sheet, name) * 100 + name.len()) as i64),
    )
}

/// The count of connections of a route.
fn counted(route: Result<Option<usize>, Refusal>) -> i64 {
    answer(route.map(|count| count.map_or(HIDDEN, |c| c as i64)))
}

fn answer(given: Result<i64, Refusal>) -> i64 {
    given.unwrap_or_else(|refusal| -(refusal as i64))
}

/// What a changing call returns.
fn number(done: Result<(), Refusal>) -> i64 {
    done.map_or_else(|refusal| refusal as i64, |()| 0)
}

/// Prints the best average of the rounds.
fn best(name: &str, mut call: impl FnMut() -> i64) {
    let answer = call();
    let start = Instant::now();
    call();
    let batch = if start.elapsed() * BATCH as u32 > ROUND { 1 } else { BATCH };
    let mut least = f64::INFINITY;
    for _ in 0..ROUNDS {
        let mut calls = 0;
        let start = Instant::now();
        while start.elapsed() < ROUND {
            (0..batch).for_each(|_| assert_eq!(black_box(call()), answer));
            calls += batch;
        }
        least = least.min(nanoseconds(start.elapsed(), calls));
    }
    println!("{name} {least:.1} {answer}");
}

/// Prints the best averages of a call that removes and of the one that puts back.
fn best_pair<D, U>(graph: &Graph, down: (&str, D), up: (&str, U))
where
    D: Fn(&mut Graph) -> Result<(), Refusal>,
    U: Fn(&mut Graph) -> Result<(), Refusal>,
{
    let mut copies = vec![graph.clone(); COPIES];
    let mut least = [f64::INFINITY; 2];
    for _ in 0..ROUNDS {
        let mut spent = [Duration::ZERO; 2];
        let mut calls = 0;
        while spent[0] + spent[1] < ROUND {
            spent[0] += time(&mut copies, &down.1);
            spent[1] += time(&mut copies, &up.1);
            calls += COPIES;
        }
        least = [0, 1].map(|i| least[i].min(nanoseconds(spent[i], calls)));
    }
    println!("{} {:.1} 0", down.0, least[0]);
    println!("{} {:.1} 0", up.0, least[1]);
}

fn time(copies: &mut [Graph], call: impl Fn(&mut Graph) -> Result<(), Refusal>) -> Duration {
    let start = Instant::now();
    copies.iter_mut().for_each(|graph| accepted(call(graph)));
    start.elapsed()
}

fn nanoseconds(spent: Duration, calls: usize) -> f64 {
    spent.as_nanos() as f64 / calls as f64
}
