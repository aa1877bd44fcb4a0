//! The region graph of document 01 and the requests C-13 and C-15: regions, bundles, connections, and the six calls that change them.

pub const REGIONS: u32 = 64;
pub const MOST_BUNDLES: usize = 64;
pub const MOST_CONNECTIONS: usize = 48;
pub const MOST_PROVIDED: usize = 8;
pub const MOST_LISTED: usize = 16;
pub const HIGHEST_VERSION: u16 = u16::MAX;

/// The questions of document 01 and of the requests C-11 and C-15, each named after the answer "no".
#[derive(Clone, Copy, Debug, PartialEq, Eq)]
pub enum Refusal {
    NotARegion = 1,
    RegionUsed,
    NoSuchRegion,
    EndsEqual,
    Connected,
    NotConnected,
    ListTooLong,
    ListOutOfOrder,
    Installed,
    Filtered,
    Full,
    NotInstalled,
    NotAKind,
    NoPlace,
    NotAnArchive,
    WrongLength,
    BrokenLayout,
    BrokenSheet,
    NoEntry,
    RangeReversed,
    HasVersions,
}

#[derive(Clone, Copy, Debug, PartialEq, Eq)]
pub enum Kind {
    Bundle,
    Package,
    Service,
}

impl TryFrom<u32> for Kind {
    type Error = Refusal;

    fn try_from(number: u32) -> Result<Self, Refusal> {
        match number {
            0 => Ok(Kind::Bundle),
            1 => Ok(Kind::Package),
            2 => Ok(Kind::Service),
            _ => Err(Refusal::NotAKind),
        }
    }
}

/// What a bundle may see. The version is that of a package, and is not looked at for the other kinds.
#[derive(Clone, Copy, Debug)]
pub struct Item {
    pub kind: Kind,
    pub number: u32,
    pub version: u16,
}

/// A number and a version; ordered by both.
pub type Package = (u32, u16);

/// What a filter passes of a number: the versions from the lowest to the highest.
#[derive(Clone, Copy, Debug, PartialEq, Eq)]
pub struct Entry {
    pub number: u32,
    pub lowest: u16,
    pub highest: u16,
}

impl Entry {
    pub fn is_reversed(&self) -> bool {
        self.lowest > self.highest
    }

    fn passes(&self, version: u16) -> bool {
        (self.lowest..=self.highest).contains(&version)
    }
}

/// A set of regions, one bit each.
#[derive(Clone, Copy, Debug, Default, PartialEq, Eq)]
pub struct RegionSet(u64);

impl RegionSet {
    /// The set with one region in it.
    pub fn of(region: u8) -> RegionSet {
        RegionSet(1 << region)
    }

    pub fn contains(self, region: u8) -> bool {
        self.0 >> region & 1 == 1
    }

    pub fn insert(&mut self, region: u8) {
        self.0 |= 1 << region;
    }

    pub fn remove(&mut self, region: u8) {
        self.0 &= !(1 << region);
    }

    pub fn len(self) -> usize {
        self.0.count_ones() as usize
    }

    /// Whether the set has a region from this one on.
    pub fn reaches(self, region: u8) -> bool {
        self.0 >> region != 0
    }

    pub fn iter(self) -> impl Iterator<Item = u8> {
        (0..REGIONS as u8).filter(move |&region| self.contains(region))
    }
}

#[derive(Clone, Debug, PartialEq, Eq)]
pub struct Bundle {
    pub location: u32,
    pub region: u8,
    pub packages: Vec<Package>,
    pub services: Vec<u32>,
}

impl Bundle {
    /// Whether the bundle brings an item into its region.
    pub fn provides(&self, item: Item) -> bool {
        match item.kind {
            Kind::Bundle => self.location == item.number,
            Kind::Package => self.packages.binary_search(&(item.number, item.version)).is_ok(),
            Kind::Service => self.services.binary_search(&item.number).is_ok(),
        }
    }
}

#[derive(Clone, Debug, PartialEq, Eq)]
pub enum Part<T> {
    All,
    Listed(Vec<T>),
}

impl<T> Part<T> {
    fn passes(&self, listed: impl FnOnce(&[T]) -> bool) -> bool {
        match self {
            Part::All => true,
            Part::Listed(elements) => listed(elements),
        }
    }

    fn listed(&self) -> &[T] {
        match self {
            Part::All => &[],
            Part::Listed(elements) => elements,
        }
    }
}

#[derive(Clone, Debug, PartialEq, Eq)]
pub struct Filter {
    pub bundles: Vec<u32>,
    pub packages: Part<Entry>,
    pub services: Part<u32>,
}

impl Filter {
    pub fn passes(&self, item: Item) -> bool {
        let number = item.number;
        match item.kind {
            Kind::Bundle => self.bundles.binary_search(&number).is_ok(),
            Kind::Package => self.packages.passes(|entries| {
                let place = entries.binary_search_by_key(&number, |entry| entry.number);
                place.is_ok_and(|place| entries[place].passes(item.version))
            }),
            Kind::Service => self.services.passes(|services| services.binary_search(&number).is_ok()),
        }
    }

    /// Questions 7, 8 and 20.
    fn check(&self) -> Result<(), Refusal> {
        let entries = self.packages.listed();
        let numbers: Vec<u32> = entries.iter().map(|entry| entry.number).collect();
        check_counts(&[self.bundles.len(), entries.len(), self.services.listed().len()], MOST_LISTED)?;
        check_order(&[ascends(&self.bundles), ascends(&numbers), ascends(self.services.listed())])?;
        if entries.iter().any(Entry::is_reversed) {
            return Err(Refusal::RangeReversed);
        }
        Ok(())
    }
}

#[derive(Clone, Debug, PartialEq, Eq)]
pub struct Connection {
    pub source: u8,
    pub target: u8,
    pub filter: Filter,
}

impl Connection {
    pub fn ends(&self) -> (u8, u8) {
        (self.source, self.target)
    }
}

/// Bundles ascend by location, connections by source and target.
#[derive(Clone, Debug, Default, PartialEq, Eq)]
pub struct Graph {
    pub(crate) regions: RegionSet,
    pub(crate) bundles: Vec<Bundle>,
    pub(crate) connections: Vec<Connection>,
}

impl Graph {
    pub fn add_region(&mut self, region: u32) -> Result<(), Refusal> {
        let region = region_number(region)?;
        if self.regions.contains(region) {
            return Err(Refusal::RegionUsed);
        }
        self.regions.insert(region);
        Ok(())
    }

    pub fn remove_region(&mut self, region: u32) -> Result<(), Refusal> {
        let region = self.known(region_number(region)?)?;
        self.regions.remove(region);
        self.bundles.retain(|b| b.region != region);
        self.connections.retain(|c| c.source != region && c.target != region);
        Ok(())
    }

    pub fn install(
        &mut self,
        region: u32,
        location: u32,
        packages: &[Package],
        services: &[u32],
    ) -> Result<(), Refusal> {
        let region = self.known(region_number(region)?)?;
        check_counts(&[packages.len(), services.len()], MOST_PROVIDED)?;
        check_order(&[ascends(packages), ascends(services)])?;
        let Err(place) = self.place(location) else {
            return Err(Refusal::Installed);
        };
        if self.leaving(region).iter().any(|c| c.filter.bundles.binary_search(&location).is_ok()) {
            return Err(Refusal::Filtered);
        }
        if self.bundles.len() >= MOST_BUNDLES {
            return Err(Refusal::Full);
        }
        let (packages, services) = (packages.to_vec(), services.to_vec());
        self.bundles.insert(place, Bundle { location, region, packages, services });
        Ok(())
    }

    pub fn uninstall(&mut self, location: u32) -> Result<(), Refusal> {
        let place = self.place(location).map_err(|_| Refusal::NotInstalled)?;
        self.bundles.remove(place);
        Ok(())
    }

    pub fn connect(&mut self, source: u32, target: u32, filter: &Filter) -> Result<(), Refusal> {
        let (source, target) = self.ends(source, target)?;
        let Err(place) = self.connection(source, target) else {
            return Err(Refusal::Connected);
        };
        filter.check()?;
        if self.connections.len() >= MOST_CONNECTIONS {
            return Err(Refusal::Full);
        }
        self.connections.insert(place, Connection { source, target, filter: filter.clone() });
        Ok(())
    }

    pub fn disconnect(&mut self, source: u32, target: u32) -> Result<(), Refusal> {
        let (source, target) = self.ends(source, target)?;
        let place = self.connection(source, target).map_err(|_| Refusal::NotConnected)?;
        self.connections.remove(place);
        Ok(())
    }

    pub fn bundle(&self, location: u32) -> Result<&Bundle, Refusal> {
        let place = self.place(location).map_err(|_| Refusal::NotInstalled)?;
        Ok(&self.bundles[place])
    }

    /// The region in which a location is installed.
    pub fn region_of(&self, location: u32) -> Result<u8, Refusal> {
        self.bundle(location).map(|bundle| bundle.region)
    }

    /// The connections that leave a region, ascending by target.
    pub fn leaving(&self, region: u8) -> &[Connection] {
        let from = self.connections.partition_point(|c| c.source < region);
        let count = self.connections[from..].partition_point(|c| c.source == region);
        &self.connections[from..from + count]
    }

    fn place(&self, location: u32) -> Result<usize, usize> {
        self.bundles.binary_search_by_key(&location, |b| b.location)
    }

    fn connection(&self, source: u8, target: u8) -> Result<usize, usize> {
        self.connections.binary_search_by_key(&(source, target), Connection::ends)
    }

    fn known(&self, region: u8) -> Result<u8, Refusal> {
        if self.regions.contains(region) {
            Ok(region)
        } else {
            Err(Refusal::NoSuchRegion)
        }
    }

    /// Questions 1, 3 and 4 for the two ends of a connection.
    fn ends(&self, source: u32, target: u32) -> Result<(u8, u8), Refusal> {
        let (source, target) = (region_number(source)?, region_number(target)?);
        let ends = (self.known(source)?, self.known(target)?);
        if source == target {
            return Err(Refusal::EndsEqual);
        }
        Ok(ends)
    }
}

fn region_number(region: u32) -> Result<u8, Refusal> {
    if region < REGIONS {
        Ok(region as u8)
    } else {
        Err(Refusal::NotARegion)
    }
}

/// Question 7 for lists with these counts.
fn check_counts(counts: &[usize], most: usize) -> Result<(), Refusal> {
    if counts.iter().any(|&count| count > most) {
        return Err(Refusal::ListTooLong);
    }
    Ok(())
}

/// Question 8 for lists of which each is in order or not.
fn check_order(ordered: &[bool]) -> Result<(), Refusal> {
    if !ordered.iter().all(|&ordered| ordered) {
        return Err(Refusal::ListOutOfOrder);
    }
    Ok(())
}

/// The packages of a call that has their numbers and their versions in two lists; the shorter one counts them.
pub fn packages(numbers: &[u32], versions: &[u16]) -> Vec<Package> {
    numbers.iter().copied().zip(versions.iter().copied()).collect()
}

/// The entries of a call that has their parts in three lists; the shortest one counts them.
pub fn entries(numbers: &[u32], lowest: &[u16], highest: &[u16]) -> Vec<Entry> {
    let ranges = lowest.iter().zip(highest);
    numbers.iter().zip(ranges).map(|(&number, (&lowest, &highest))| Entry { number, lowest, highest }).collect()
}

pub fn ascends<T: Ord>(list: &[T]) -> bool {
    list.windows(2).all(|pair| pair[0] < pair[1])
}
