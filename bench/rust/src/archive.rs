//! The archive: reading, writing, the archive query and the conversions.

use std::ops::RangeInclusive;

use crate::graph::{
    ascends, Bundle, Connection, Entry, Filter, Graph, Item, Kind, Package, Part, Refusal, RegionSet, HIGHEST_VERSION,
    MOST_BUNDLES, MOST_CONNECTIONS, MOST_LISTED, MOST_PROVIDED, REGIONS,
};

/// Version 1 has the regions below this number alone, version 2 has one that is not below it.
const EARLY_REGIONS: u8 = 16;
const VERSIONS: RangeInclusive<u8> = 1..=3;
const OLDER_VERSIONS: RangeInclusive<u8> = 1..=2;
/// The version that has versions of packages, and is written.
const VERSIONED: u8 = 3;
const HEAD: usize = 5;
const EVERYTHING: u8 = 255;
const SEEN: u32 = 100;
const HIDDEN: u32 = 101;

impl Graph {
    pub fn read(bytes: &[u8]) -> Result<Graph, Refusal> {
        Graph::read_of(VERSIONS, bytes)
    }

    /// The graph of an archive, where some versions are admitted.
    fn read_of(versions: RangeInclusive<u8>, bytes: &[u8]) -> Result<Graph, Refusal> {
        if bytes.len() < HEAD || !versions.contains(&bytes[0]) {
            return Err(Refusal::NotAnArchive);
        }
        let (head, body) = bytes.split_at(HEAD);
        if u32::from_be_bytes([head[1], head[2], head[3], head[4]]) as usize != body.len() {
            return Err(Refusal::WrongLength);
        }
        Fields(body, head[0]).graph().ok_or(Refusal::BrokenLayout)
    }

    /// Writes the image and gives its length.
    pub fn write(&self, out: &mut [u8]) -> Result<usize, Refusal> {
        put(&self.image(), out)
    }

    pub fn image(&self) -> Vec<u8> {
        self.image_in(VERSIONED)
    }

    fn image_in(&self, version: u8) -> Vec<u8> {
        let mut image = vec![version, 0, 0, 0, 0];
        image.push(self.regions.len() as u8);
        image.extend(self.regions.iter());
        image.push(self.bundles.len() as u8);
        for bundle in &self.bundles {
            put_record(&mut image, |record| put_bundle(record, version, bundle));
        }
        image.push(self.connections.len() as u8);
        for connection in &self.connections {
            put_record(&mut image, |record| put_connection(record, version, connection));
        }
        let length = (image.len() - HEAD) as u32;
        image[1..HEAD].copy_from_slice(&length.to_be_bytes());
        image
    }

    /// Whether all packages have version 0, and all entries pass every version.
    fn is_unversioned(&self) -> bool {
        let whole = |entry: &Entry| (entry.lowest, entry.highest) == (0, HIGHEST_VERSION);
        self.bundles.iter().all(|bundle| bundle.packages.iter().all(|&(_, version)| version == 0))
            && self.connections.iter().all(|connection| match &connection.filter.packages {
                Part::All => true,
                Part::Listed(entries) => entries.iter().all(whole),
            })
    }
}

/// An archive of version 1 or 2 as one of version 3; gives its length.
pub fn forward(bytes: &[u8], out: &mut [u8]) -> Result<usize, Refusal> {
    Graph::read_of(OLDER_VERSIONS, bytes)?.write(out)
}

/// An archive of version 3 as one of version 1 or 2; gives its length.
pub fn back(bytes: &[u8], out: &mut [u8]) -> Result<usize, Refusal> {
    let graph = Graph::read_of(VERSIONED..=VERSIONED, bytes)?;
    if !graph.is_unversioned() {
        return Err(Refusal::HasVersions);
    }
    put(&graph.image_in(if graph.regions.reaches(EARLY_REGIONS) { 2 } else { 1 }), out)
}

/// Puts an image at the start of a buffer and gives its length.
fn put(image: &[u8], out: &mut [u8]) -> Result<usize, Refusal> {
    out.get_mut(..image.len()).ok_or(Refusal::NoPlace)?.copy_from_slice(image);
    Ok(image.len())
}

/// 100 where the bundle sees the item in the graph of an archive, 101 where it does not, or a refusal's number.
pub fn archive_query(bytes: &[u8], location: u32, kind: u32, number: u32, version: u16) -> u32 {
    let answer = || -> Result<bool, Refusal> {
        let graph = Graph::read(bytes)?;
        let region = graph.region_of(location)?;
        Ok(graph.seers(Item { kind: Kind::try_from(kind)?, number, version }).contains(region))
    };
    match answer() {
        Ok(true) => SEEN,
        Ok(false) => HIDDEN,
        Err(refusal) => refusal as u32,
    }
}

/// Whether a file of a version may have these regions.
fn fits(version: u8, regions: RegionSet) -> bool {
    version == VERSIONED || (version == 2) == regions.reaches(EARLY_REGIONS)
}

fn put_record(image: &mut Vec<u8>, put: impl FnOnce(&mut Vec<u8>)) {
    let start = image.len();
    image.extend([0, 0]);
    put(image);
    let length = (image.len() - start - 2) as u16;
    image[start..start + 2].copy_from_slice(&length.to_be_bytes());
}

fn put_bundle(image: &mut Vec<u8>, version: u8, bundle: &Bundle) {
    image.extend(bundle.location.to_be_bytes());
    image.push(bundle.region);
    put_list(image, &bundle.packages, |image, package| put_package(image, version, package));
    put_list(image, &bundle.services, put_number);
}

fn put_connection(image: &mut Vec<u8>, version: u8, connection: &Connection) {
    image.extend([connection.source, connection.target]);
    put_list(image, &connection.filter.bundles, put_number);
    put_part(image, &connection.filter.packages, |image, entry| put_entry(image, version, entry));
    put_part(image, &connection.filter.services, put_number);
}

fn put_number(image: &mut Vec<u8>, number: &u32) {
    image.extend(number.to_be_bytes());
}

fn put_package(image: &mut Vec<u8>, version: u8, package: &Package) {
    put_number(image, &package.0);
    if version == VERSIONED {
        image.extend(package.1.to_be_bytes());
    }
}

fn put_entry(image: &mut Vec<u8>, version: u8, entry: &Entry) {
    put_number(image, &entry.number);
    if version == VERSIONED {
        image.extend(entry.lowest.to_be_bytes());
        image.extend(entry.highest.to_be_bytes());
    }
}

fn put_list<T>(image: &mut Vec<u8>, elements: &[T], put: impl Fn(&mut Vec<u8>, &T)) {
    image.push(elements.len() as u8);
    elements.iter().for_each(|element| put(image, element));
}

fn put_part<T>(image: &mut Vec<u8>, part: &Part<T>, put: impl Fn(&mut Vec<u8>, &T)) {
    match part {
        Part::All => image.push(EVERYTHING),
        Part::Listed(elements) => put_list(image, elements, put),
    }
}

/// The bytes that are still to be read, and the version of their file. A reader gives `None` where they break the layout.
struct Fields<'a>(&'a [u8], u8);

impl<'a> Fields<'a> {
    fn graph(mut self) -> Option<Graph> {
        let regions = self.regions()?;
        if !fits(self.1, regions) {
            return None;
        }
        let bundles = self.records(MOST_BUNDLES, |fields| fields.bundle(regions))?;
        let connections = self.records(MOST_CONNECTIONS, |fields| fields.connection(regions))?;
        let ordered = ascends_by(&bundles, |b| b.location) && ascends_by(&connections, Connection::ends);
        (ordered && self.0.is_empty()).then_some(Graph { regions, bundles, connections })
    }

    fn regions(&mut self) -> Option<RegionSet> {
        let count = usize::from(self.byte()?);
        let numbers = self.bytes(count)?;
        if !ascends(numbers) || numbers.iter().any(|&r| u32::from(r) >= REGIONS) {
            return None;
        }
        let mut set = RegionSet::default();
        numbers.iter().for_each(|&r| set.insert(r));
        Some(set)
    }

    /// A count within the limit, and so many records, each read to its end.
    fn records<T>(&mut self, most: usize, read: impl Fn(&mut Fields<'a>) -> Option<T>) -> Option<Vec<T>> {
        let count = usize::from(self.byte()?);
        if count > most {
            return None;
        }
        let mut records = Vec::with_capacity(count);
        for _ in 0..count {
            let length = u16::from_be_bytes(self.array()?);
            let mut fields = Fields(self.bytes(usize::from(length))?, self.1);
            records.push(read(&mut fields)?);
            if !fields.0.is_empty() {
                return None;
            }
        }
        Some(records)
    }

    fn bundle(&mut self, regions: RegionSet) -> Option<Bundle> {
        let location = u32::from_be_bytes(self.array()?);
        let region = self.region(regions)?;
        let packages = self.list(MOST_PROVIDED, Fields::package)?;
        let services = self.list(MOST_PROVIDED, Fields::number)?;
        (ascends(&packages) && ascends(&services)).then_some(Bundle { location, region, packages, services })
    }

    fn connection(&mut self, regions: RegionSet) -> Option<Connection> {
        let source = self.region(regions)?;
        let target = self.region(regions)?;
        if source == target {
            return None;
        }
        let bundles = self.list(MOST_LISTED, Fields::number)?;
        let packages = self.part(Fields::entry)?;
        let services = self.part(Fields::number)?;
        let ordered = ascends(&bundles) && entries_hold(&packages) && numbers_hold(&services);
        ordered.then_some(Connection { source, target, filter: Filter { bundles, packages, services } })
    }

    fn part<T>(&mut self, read: impl Fn(&mut Fields<'a>) -> Option<T>) -> Option<Part<T>> {
        if self.0.first() == Some(&EVERYTHING) {
            self.byte()?;
            return Some(Part::All);
        }
        self.list(MOST_LISTED, read).map(Part::Listed)
    }

    fn list<T>(&mut self, most: usize, read: impl Fn(&mut Fields<'a>) -> Option<T>) -> Option<Vec<T>> {
        let count = usize::from(self.byte()?);
        if count > most {
            return None;
        }
        let mut elements = Vec::with_capacity(count);
        for _ in 0..count {
            elements.push(read(self)?);
        }
        Some(elements)
    }

    fn number(&mut self) -> Option<u32> {
        self.array().map(u32::from_be_bytes)
    }

    /// An exported package; those of older files have version 0.
    fn package(&mut self) -> Option<Package> {
        let number = self.number()?;
        Some((number, self.version_or(0)?))
    }

    /// An entry of a package part; those of older files pass every version.
    fn entry(&mut self) -> Option<Entry> {
        let number = self.number()?;
        let lowest = self.version_or(0)?;
        Some(Entry { number, lowest, highest: self.version_or(HIGHEST_VERSION)? })
    }

    /// The version that follows, or another where the file has none.
    fn version_or(&mut self, other: u16) -> Option<u16> {
        if self.1 < VERSIONED {
            return Some(other);
        }
        self.array().map(u16::from_be_bytes)
    }

    fn region(&mut self, regions: RegionSet) -> Option<u8> {
        let region = self.byte()?;
        (u32::from(region) < REGIONS && regions.contains(region)).then_some(region)
    }

    fn byte(&mut self) -> Option<u8> {
        self.array().map(|[byte]: [u8; 1]| byte)
    }

    fn array<const N: usize>(&mut self) -> Option<[u8; N]> {
        let (array, rest) = self.0.split_first_chunk()?;
        self.0 = rest;
        Some(*array)
    }

    fn bytes(&mut self, count: usize) -> Option<&'a [u8]> {
        let (bytes, rest) = self.0.split_at_checked(count)?;
        self.0 = rest;
        Some(bytes)
    }
}

/// Whether there is one entry for a number, in order, and none is reversed.
fn entries_hold(part: &Part<Entry>) -> bool {
    match part {
        Part::All => true,
        Part::Listed(entries) => ascends_by(entries, |entry| entry.number) && !entries.iter().any(Entry::is_reversed),
    }
}

fn numbers_hold(part: &Part<u32>) -> bool {
    match part {
        Part::All => true,
        Part::Listed(numbers) => ascends(numbers),
    }
}

fn ascends_by<T, K: Ord>(items: &[T], key: impl Fn(&T) -> K) -> bool {
    items.windows(2).all(|pair| key(&pair[0]) < key(&pair[1]))
}
