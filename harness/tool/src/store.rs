//! The store that a command is about: by itself, or in the chain that it makes with others on its disk.

use lurdempos::{Bill, Capacities, Chain, Each, Listing, Message, Refusal, Restored, Rights, Tally, NO_LIMIT};

/// The number of the store that a command is about, in its chain.
const FIRST: u32 = 0;

/// A sound store. The calls on one that is in a chain are made on the chain: every store of it is then checked, and this
/// one alone is altered.
pub enum Store {
    Alone(lurdempos::Store),
    Chained(Chained),
}

/// A store with the others on its disk.
pub struct Chained {
    chain: Chain,
    /// The cells that all of them may occupy after a backup.
    pub limit: Option<u32>,
    /// The cells that all of them occupied when they were read.
    pub before: u32,
}

impl Chained {
    /// How many stores there are.
    pub fn stores(&self) -> u32 {
        self.chain.stores()
    }

    /// The cells that all of them occupy now.
    pub fn cells(&self) -> u32 {
        cells(&self.chain)
    }

    /// The limit that a call brings.
    fn most(&self) -> u32 {
        self.limit.unwrap_or(NO_LIMIT)
    }
}

fn cells(chain: &Chain) -> u32 {
    chain.cells().expect("every store was read as a sound one")
}

/// Up to eight stores in a chain.
pub fn chain(stores: impl IntoIterator<Item = Store>) -> Chain {
    Chain::of(stores.into_iter().map(Store::alone)).expect("a command line names up to eight")
}

impl Store {
    /// An empty store.
    pub fn new(capacities: Capacities) -> Result<Store, Refusal> {
        lurdempos::Store::new(capacities).map(Store::Alone)
    }

    /// A store from pool and table kept elsewhere, if they are a sound one.
    pub fn from_parts(pool: Vec<u8>, table: Vec<u32>) -> Result<Store, Refusal> {
        lurdempos::Store::from_parts(pool, table).map(Store::Alone)
    }

    /// Its pool and its table, without those of others.
    pub fn into_parts(self) -> (Vec<u8>, Vec<u32>) {
        self.alone().into_parts()
    }

    /// The store in a chain with up to seven others.
    pub fn chained(self, others: Vec<Store>, limit: Option<u32>) -> Store {
        let chain = chain(std::iter::once(self).chain(others));
        Store::Chained(Chained { limit, before: cells(&chain), chain })
    }

    fn alone(self) -> lurdempos::Store {
        match self {
            Store::Alone(store) => store,
            Store::Chained(all) => all.chain.store(FIRST).expect("it is the chain's first"),
        }
    }

    /// The chain that it is in, if it is in one.
    pub fn in_chain(&self) -> Option<&Chained> {
        match self {
            Store::Alone(_) => None,
            Store::Chained(chained) => Some(chained),
        }
    }

    pub fn table(&self) -> &[u32] {
        match self {
            Store::Alone(store) => store.table(),
            Store::Chained(all) => all.chain.part(FIRST).expect("it is the chain's first").1,
        }
    }

    /// The capacities that it was laid out with.
    pub fn capacities(&self) -> Capacities {
        Capacities::of_table(self.table()).expect("the store is sound")
    }

    pub fn backup(&mut self, user: u32, till: u32, image: &[u8]) -> Result<u32, Refusal> {
        match self {
            Store::Alone(store) => store.backup(user, till, image),
            Store::Chained(all) => all.chain.backup(FIRST, all.most(), user, till, image),
        }
    }

    pub fn backup_dated(&mut self, user: u32, till: u32, day: u32, image: &[u8]) -> Result<u32, Refusal> {
        match self {
            Store::Alone(store) => store.backup_dated(user, till, day, image),
            Store::Chained(all) => all.chain.backup_dated(FIRST, all.most(), user, till, day, image),
        }
    }

    pub fn backup_sent(&mut self, user: u32, till: u32, message: Message) -> Result<u32, Refusal> {
        match self {
            Store::Alone(store) => store.backup_sent(user, till, message),
            Store::Chained(all) => all.chain.backup_sent(FIRST, all.most(), user, till, message),
        }
    }

    pub fn backup_all(&mut self, user: u32, images: &[(u32, &[u8])]) -> Result<Each, Refusal> {
        match self {
            Store::Alone(store) => store.backup_all(user, images),
            Store::Chained(all) => all.chain.backup_all(FIRST, all.most(), user, images),
        }
    }

    pub fn restore(&self, user: u32, till: u32, version: u32, output: &mut [u8]) -> Result<Restored, Refusal> {
        match self {
            Store::Alone(store) => store.restore(user, till, version, output),
            Store::Chained(all) => all.chain.restore(FIRST, user, till, version, output),
        }
    }

    pub fn image(&self, user: u32, till: u32, version: u32) -> Result<Vec<u8>, Refusal> {
        match self {
            Store::Alone(store) => store.image(user, till, version),
            Store::Chained(all) => all.chain.image(FIRST, user, till, version),
        }
    }

    pub fn stream(&self, user: u32, till: u32, version: u32) -> Result<Vec<u8>, Refusal> {
        match self {
            Store::Alone(store) => store.stream(user, till, version),
            Store::Chained(all) => all.chain.stream(FIRST, user, till, version),
        }
    }

    pub fn offer(&self, user: u32, till: u32, fingerprints: &[u8]) -> Result<Vec<u8>, Refusal> {
        match self {
            Store::Alone(store) => store.offer(user, till, fingerprints),
            Store::Chained(all) => all.chain.offer(FIRST, user, till, fingerprints),
        }
    }

    pub fn retire(&mut self, user: u32, till: u32, version: u32) -> Result<u32, Refusal> {
        match self {
            Store::Alone(store) => store.retire(user, till, version),
            Store::Chained(all) => all.chain.retire(FIRST, user, till, version),
        }
    }

    pub fn listing(&self, user: u32, till: u32) -> Result<Listing, Refusal> {
        match self {
            Store::Alone(store) => store.listing(user, till),
            Store::Chained(all) => all.chain.listing(FIRST, user, till),
        }
    }

    pub fn version_on(&self, user: u32, till: u32, day: u32) -> Result<u32, Refusal> {
        match self {
            Store::Alone(store) => store.version_on(user, till, day),
            Store::Chained(all) => all.chain.version_on(FIRST, user, till, day),
        }
    }

    pub fn set_rights(&mut self, user: u32, subject: u32, till: u32, rights: Rights) -> Result<(), Refusal> {
        match self {
            Store::Alone(store) => store.set_rights(user, subject, till, rights),
            Store::Chained(all) => all.chain.set_rights(FIRST, user, subject, till, rights),
        }
    }

    pub fn tally(&self, user: u32) -> Result<Tally, Refusal> {
        match self {
            Store::Alone(store) => store.tally(user),
            Store::Chained(all) => all.chain.tally(FIRST, user),
        }
    }

    pub fn bill(&self, user: u32, price: u32) -> Result<Bill, Refusal> {
        match self {
            Store::Alone(store) => store.bill(user, price),
            Store::Chained(all) => all.chain.bill(FIRST, user, price),
        }
    }
}
