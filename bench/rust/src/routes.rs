//! The route call and the five hooks.

use std::collections::HashMap;

use crate::graph::{Bundle, Graph, Item, Kind, Refusal, RegionSet, REGIONS};

pub const ROUTE_BYTES: usize = 64;

/// From so many candidates on, a find gathers the holders of every item first.
const GATHER_FROM: usize = 16;

/// The candidates of a resolve: an exporter, a package number and a version at equal places of three lists; the shortest one counts them.
#[derive(Clone, Copy)]
pub struct Candidates<'a> {
    pub exporters: &'a [u32],
    pub packages: &'a [u32],
    pub versions: &'a [u16],
}

impl Candidates<'_> {
    fn len(&self) -> usize {
        self.exporters.len().min(self.packages.len()).min(self.versions.len())
    }
}

/// The output lists of a resolve.
pub struct Offers<'a> {
    pub exporters: &'a mut [u32],
    pub packages: &'a mut [u32],
    pub versions: &'a mut [u16],
}

impl Offers<'_> {
    fn len(&self) -> usize {
        self.exporters.len().min(self.packages.len()).min(self.versions.len())
    }
}

impl Graph {
    /// Writes the route to an item and gives its count of connections, or `None` where the item is hidden.
    pub fn route(
        &self,
        location: u32,
        kind: u32,
        number: u32,
        version: u16,
        out: &mut [u8],
    ) -> Result<Option<usize>, Refusal> {
        let start = self.region_of(location)?;
        let item = Item { kind: Kind::try_from(kind)?, number, version };
        if out.len() < ROUTE_BYTES {
            return Err(Refusal::NoPlace);
        }
        Ok(self.search(start, item, self.holders(item)).map(|search| {
            let route = search.path();
            out[..route.len()].copy_from_slice(&route);
            route.len() - 1
        }))
    }

    pub fn bundle_find(&self, location: u32, candidates: &[u32], out: &mut [u32]) -> Result<usize, Refusal> {
        self.find(Kind::Bundle, location, candidates, out)
    }

    pub fn resolve(&self, location: u32, candidates: Candidates, out: &mut Offers) -> Result<usize, Refusal> {
        let region = self.region_of(location)?;
        if out.len() < candidates.len() {
            return Err(Refusal::NoPlace);
        }
        let mut kept = 0;
        for i in 0..candidates.len() {
            let (exporter, number, version) = (candidates.exporters[i], candidates.packages[i], candidates.versions[i]);
            if self.is_offered(region, exporter, Item { kind: Kind::Package, number, version }) {
                out.exporters[kept] = exporter;
                out.packages[kept] = number;
                out.versions[kept] = version;
                kept += 1;
            }
        }
        Ok(kept)
    }

    pub fn service_find(&self, location: u32, candidates: &[u32], out: &mut [u32]) -> Result<usize, Refusal> {
        self.find(Kind::Service, location, candidates, out)
    }

    pub fn bundle_event(&self, listeners: &[u32], bundle: u32, out: &mut [u32]) -> Result<usize, Refusal> {
        self.event(Kind::Bundle, listeners, bundle, out)
    }

    pub fn service_event(&self, listeners: &[u32], service: u32, out: &mut [u32]) -> Result<usize, Refusal> {
        self.event(Kind::Service, listeners, service, out)
    }

    fn find(&self, kind: Kind, location: u32, candidates: &[u32], out: &mut [u32]) -> Result<usize, Refusal> {
        let region = self.region_of(location)?;
        if out.len() < candidates.len() {
            return Err(Refusal::NoPlace);
        }
        let sees = |item, holders| self.search(region, item, holders).is_some();
        if candidates.len() < GATHER_FROM {
            let seen = |&number: &u32| sees(unversioned(kind, number), self.holders(unversioned(kind, number)));
            return Ok(write_kept(candidates, seen, out));
        }
        let held = self.held(kind);
        let seen = |number: &u32| held.get(number).is_some_and(|&holders| sees(unversioned(kind, *number), holders));
        Ok(write_kept(candidates, seen, out))
    }

    /// Whether the exporter is installed and exports the package, and a route for it ends in the exporter's region.
    fn is_offered(&self, region: u8, exporter: u32, package: Item) -> bool {
        let Ok(bundle) = self.bundle(exporter) else {
            return false;
        };
        bundle.provides(package) && self.search(region, package, RegionSet::of(bundle.region)).is_some()
    }

    fn event(&self, kind: Kind, listeners: &[u32], item: u32, out: &mut [u32]) -> Result<usize, Refusal> {
        let regions = listeners.iter().map(|&l| self.region_of(l)).collect::<Result<Vec<_>, _>>()?;
        if out.len() < listeners.len() {
            return Err(Refusal::NoPlace);
        }
        let seers = self.seers(unversioned(kind, item));
        let mut regions = regions.into_iter();
        Ok(write_kept(listeners, |_| regions.next().is_some_and(|r| seers.contains(r)), out))
    }

    /// The regions that hold an item.
    fn holders(&self, item: Item) -> RegionSet {
        let mut set = RegionSet::default();
        for bundle in self.bundles.iter().filter(|b| b.provides(item)) {
            set.insert(bundle.region);
        }
        set
    }

    /// For every bundle, or every service, that is held, its holders.
    fn held(&self, kind: Kind) -> HashMap<u32, RegionSet> {
        let mut held: HashMap<u32, RegionSet> = HashMap::new();
        for bundle in &self.bundles {
            for &number in numbers(bundle, kind) {
                held.entry(number).or_default().insert(bundle.region);
            }
        }
        held
    }

    /// The regions that see an item: from the holders back along the connections that pass it.
    pub fn seers(&self, item: Item) -> RegionSet {
        let mut seers = self.holders(item);
        let passing: Vec<_> = self.connections.iter().filter(|c| c.filter.passes(item)).map(|c| c.ends()).collect();
        loop {
            let before = seers;
            for &(source, target) in &passing {
                if seers.contains(target) {
                    seers.insert(source);
                }
            }
            if seers == before {
                return seers;
            }
        }
    }

    /// Searches from a region for the nearest holder, breadth first. The queue holds the smallest path of each
    /// region in order, so the first holder that leaves it ends the route that document 01 asks for.
    fn search(&self, start: u8, item: Item, holders: RegionSet) -> Option<Search> {
        let mut search = Search::new(start);
        while let Some(region) = search.next() {
            if holders.contains(region) {
                return Some(search);
            }
            for c in self.leaving(region) {
                if !search.reached.contains(c.target) && c.filter.passes(item) {
                    search.reach(c.target, region);
                }
            }
        }
        None
    }
}

/// An item that is no package.
fn unversioned(kind: Kind, number: u32) -> Item {
    Item { kind, number, version: 0 }
}

/// The numbers of a kind that a bundle brings into its region; packages are not numbers alone.
fn numbers(bundle: &Bundle, kind: Kind) -> &[u32] {
    match kind {
        Kind::Bundle => std::slice::from_ref(&bundle.location),
        Kind::Package => &[],
        Kind::Service => &bundle.services,
    }
}

/// A search under way: the regions reached, in order, each with the region it was reached from.
struct Search {
    queue: [u8; REGIONS as usize],
    taken: usize,
    count: usize,
    parent: [u8; REGIONS as usize],
    reached: RegionSet,
}

impl Search {
    fn new(start: u8) -> Search {
        let none = [0; REGIONS as usize];
        let mut search = Search { queue: none, taken: 0, count: 0, parent: none, reached: RegionSet::default() };
        search.reach(start, start);
        search
    }

    fn reach(&mut self, region: u8, from: u8) {
        self.reached.insert(region);
        self.parent[usize::from(region)] = from;
        self.queue[self.count] = region;
        self.count += 1;
    }

    fn next(&mut self) -> Option<u8> {
        let region = *self.queue[..self.count].get(self.taken)?;
        self.taken += 1;
        Some(region)
    }

    /// From the start to the region that was taken last.
    fn path(&self) -> Vec<u8> {
        let mut region = self.queue[self.taken - 1];
        let mut path = vec![region];
        while region != self.queue[0] {
            region = self.parent[usize::from(region)];
            path.push(region);
        }
        path.reverse();
        path
    }
}

/// Writes the numbers that are kept, in order, and gives their count.
fn write_kept(numbers: &[u32], mut keep: impl FnMut(&u32) -> bool, out: &mut [u32]) -> usize {
    let mut count = 0;
    for number in numbers.iter().filter(|n| keep(n)) {
        out[count] = *number;
        count += 1;
    }
    count
}
