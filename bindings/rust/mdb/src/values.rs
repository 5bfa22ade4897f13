//! Replies, facts and errors.

use mdb_sys as c;
use std::fmt;

/// A call was not done, and nothing changed.
#[derive(Clone, Copy, Debug, PartialEq, Eq)]
#[non_exhaustive]
pub enum Error {
    /// There was no memory. The call may be made again.
    NoMemory,
    /// The line spells no such step, or a text or a number means nothing.
    Malformed,
    /// A text did not fit into its buffer.
    NoRoom,
    /// The driver is closed.
    Closed,
    /// The slot holds a driver already.
    Opened,
    /// There is no such fact, pool, server or text.
    NoEntry,
    /// SRV or TXT records break a rule.
    BadRecords,
    /// A number that this crate does not know.
    Unknown(u32),
}

impl Error {
    pub(crate) fn check(status: u32) -> Result<(), Error> {
        match status {
            c::MDB_OK => Ok(()),
            c::MDB_NO_MEMORY => Err(Error::NoMemory),
            c::MDB_MALFORMED => Err(Error::Malformed),
            c::MDB_NO_ROOM => Err(Error::NoRoom),
            c::MDB_CLOSED => Err(Error::Closed),
            c::MDB_OPENED => Err(Error::Opened),
            c::MDB_NO_ENTRY => Err(Error::NoEntry),
            c::MDB_BAD_RECORDS => Err(Error::BadRecords),
            other => Err(Error::Unknown(other)),
        }
    }
}

impl fmt::Display for Error {
    fn fmt(&self, f: &mut fmt::Formatter<'_>) -> fmt::Result {
        match self {
            Error::NoMemory => f.write_str("out of memory"),
            Error::Malformed => f.write_str("malformed"),
            Error::NoRoom => f.write_str("the text does not fit"),
            Error::Closed => f.write_str("the driver is closed"),
            Error::Opened => f.write_str("the driver is open already"),
            Error::NoEntry => f.write_str("there is no such fact, pool, server or text"),
            Error::BadRecords => f.write_str("the records break a rule"),
            Error::Unknown(number) => write!(f, "unknown number {number}"),
        }
    }
}

impl std::error::Error for Error {}

/// The kind of a reply.
#[derive(Clone, Copy, Debug, PartialEq, Eq)]
#[non_exhaustive]
pub enum Kind {
    Pooled = 1,
    Establishing = 2,
    Waiting = 3,
    Ended = 4,
    Job = 5,
    NoJob = 6,
    Changed = 7,
    Count = 8,
    Done = 9,
    Refused = 10,
}

impl Kind {
    fn of(number: u32) -> Result<Kind, Error> {
        match number {
            1 => Ok(Kind::Pooled),
            2 => Ok(Kind::Establishing),
            3 => Ok(Kind::Waiting),
            4 => Ok(Kind::Ended),
            5 => Ok(Kind::Job),
            6 => Ok(Kind::NoJob),
            7 => Ok(Kind::Changed),
            8 => Ok(Kind::Count),
            9 => Ok(Kind::Done),
            10 => Ok(Kind::Refused),
            other => Err(Error::Unknown(other)),
        }
    }
}

/// How a request ended.
#[derive(Clone, Copy, Debug, PartialEq, Eq)]
#[non_exhaustive]
pub enum End {
    Cleared = 1,
    Failed = 2,
    Closed = 3,
    Warmed = 4,
    Filled = 5,
    GaveUp = 6,
    TimedOut = 7,
}

impl End {
    fn of(number: u32) -> Result<End, Error> {
        match number {
            1 => Ok(End::Cleared),
            2 => Ok(End::Failed),
            3 => Ok(End::Closed),
            4 => Ok(End::Warmed),
            5 => Ok(End::Filled),
            6 => Ok(End::GaveUp),
            7 => Ok(End::TimedOut),
            other => Err(Error::Unknown(other)),
        }
    }
}

/// Why a step was refused: the first reason that holds, in this order.
#[derive(Clone, Copy, Debug, PartialEq, Eq)]
#[non_exhaustive]
pub enum Why {
    TimeBack = 1,
    UnknownServer = 2,
    RequestKnown = 3,
    UnknownRequest = 4,
    NotHolder = 5,
    NotPending = 6,
    Unpinned = 7,
    PinInUse = 8,
    PinState = 9,
    CheckRunning = 10,
    NotChecking = 11,
    WrongMode = 12,
    Exhausted = 13,
}

impl Why {
    fn of(number: u32) -> Result<Why, Error> {
        match number {
            1 => Ok(Why::TimeBack),
            2 => Ok(Why::UnknownServer),
            3 => Ok(Why::RequestKnown),
            4 => Ok(Why::UnknownRequest),
            5 => Ok(Why::NotHolder),
            6 => Ok(Why::NotPending),
            7 => Ok(Why::Unpinned),
            8 => Ok(Why::PinInUse),
            9 => Ok(Why::PinState),
            10 => Ok(Why::CheckRunning),
            11 => Ok(Why::NotChecking),
            12 => Ok(Why::WrongMode),
            13 => Ok(Why::Exhausted),
            other => Err(Error::Unknown(other)),
        }
    }
}

/// How a connection was used by the party that returns it.
#[derive(Clone, Copy, Debug, PartialEq, Eq)]
#[non_exhaustive]
pub enum Use {
    Ok = 0,
    Errored = 1,
    Dropped = 2,
    Streaming = 3,
}

/// The kind of a fact.
#[derive(Clone, Copy, Debug, PartialEq, Eq)]
#[non_exhaustive]
pub enum FactKind {
    Opened = 1,
    Pool = 2,
    Granted = 3,
    Ended = 4,
    Raised = 5,
    Sdam = 6,
    CheckNow = 7,
    Cancel = 8,
}

impl FactKind {
    fn of(number: u32) -> Result<FactKind, Error> {
        match number {
            1 => Ok(FactKind::Opened),
            2 => Ok(FactKind::Pool),
            3 => Ok(FactKind::Granted),
            4 => Ok(FactKind::Ended),
            5 => Ok(FactKind::Raised),
            6 => Ok(FactKind::Sdam),
            7 => Ok(FactKind::CheckNow),
            8 => Ok(FactKind::Cancel),
            other => Err(Error::Unknown(other)),
        }
    }
}

/// The event of a fact of a pool (CMAP, "Events"), or of a server or the topology (SDAM monitoring).
#[derive(Clone, Copy, Debug, PartialEq, Eq)]
#[non_exhaustive]
pub enum Event {
    None = 0,
    PoolCreated = 1,
    PoolReady = 2,
    PoolCleared = 3,
    PoolClosed = 4,
    ConnectionCreated = 5,
    ConnectionReady = 6,
    ConnectionClosed = 7,
    CheckoutStarted = 8,
    CheckoutFailed = 9,
    CheckedOut = 10,
    CheckedIn = 11,
    ServerChanged = 32,
    ServerOpening = 33,
    ServerClosed = 34,
    TopologyChanged = 35,
    TopologyOpening = 36,
    TopologyClosed = 37,
    HeartbeatStarted = 38,
    HeartbeatSucceeded = 39,
    HeartbeatFailed = 40,
}

impl Event {
    fn of(number: u32) -> Result<Event, Error> {
        match number {
            0 => Ok(Event::None),
            1 => Ok(Event::PoolCreated),
            2 => Ok(Event::PoolReady),
            3 => Ok(Event::PoolCleared),
            4 => Ok(Event::PoolClosed),
            5 => Ok(Event::ConnectionCreated),
            6 => Ok(Event::ConnectionReady),
            7 => Ok(Event::ConnectionClosed),
            8 => Ok(Event::CheckoutStarted),
            9 => Ok(Event::CheckoutFailed),
            10 => Ok(Event::CheckedOut),
            11 => Ok(Event::CheckedIn),
            32 => Ok(Event::ServerChanged),
            33 => Ok(Event::ServerOpening),
            34 => Ok(Event::ServerClosed),
            35 => Ok(Event::TopologyChanged),
            36 => Ok(Event::TopologyOpening),
            37 => Ok(Event::TopologyClosed),
            38 => Ok(Event::HeartbeatStarted),
            39 => Ok(Event::HeartbeatSucceeded),
            40 => Ok(Event::HeartbeatFailed),
            other => Err(Error::Unknown(other)),
        }
    }
}

/// A connection, by the number of its pool and its own.
#[derive(Clone, Copy, Debug, PartialEq, Eq)]
pub struct Connection {
    pub pool: u32,
    pub id: u32,
}

impl Connection {
    pub(crate) fn numbers(self) -> c::mdb_connection {
        c::mdb_connection { pool: self.pool, id: self.id }
    }
}

/// What the one who makes a step is told. A number that the kind does not have is 0.
#[derive(Clone, Copy, Debug, PartialEq, Eq)]
pub struct Reply {
    pub kind: Kind,
    pub pool: u32,
    pub id: u32,
    pub why: u32,
    pub number: u64,
}

impl Reply {
    pub(crate) fn of(told: c::mdb_reply) -> Result<Reply, Error> {
        Ok(Reply { kind: Kind::of(told.kind)?, pool: told.pool, id: told.id, why: told.why, number: told.number })
    }

    /// The connection of `Pooled`, `Establishing` and `Job`.
    pub fn connection(&self) -> Option<Connection> {
        matches!(self.kind, Kind::Pooled | Kind::Establishing | Kind::Job).then_some(Connection { pool: self.pool, id: self.id })
    }

    /// How a request ended, of `Ended`.
    pub fn end(&self) -> Option<End> {
        if self.kind == Kind::Ended {
            End::of(self.why).ok()
        } else {
            None
        }
    }

    /// Why the step was refused, of `Refused`.
    pub fn refusal(&self) -> Option<Why> {
        if self.kind == Kind::Refused {
            Why::of(self.why).ok()
        } else {
            None
        }
    }
}

/// A fact of the last entry, with its text. A number that the kind does not have is 0.
#[derive(Clone, Debug, PartialEq, Eq)]
pub struct Fact {
    pub kind: FactKind,
    pub event: Event,
    pub pool: u32,
    pub id: u32,
    pub party: u32,
    pub why: u32,
    pub number: u64,
    pub text: String,
    /// The address that it names, if it names one.
    pub address: Option<String>,
    /// The types before and after, of a change of a server or of the topology.
    pub change: Option<Change>,
}

/// The types before and after a change.
#[derive(Clone, Copy, Debug, PartialEq, Eq)]
#[non_exhaustive]
pub enum Change {
    /// Of a server.
    Server(ServerKind, ServerKind),
    /// Of the topology.
    Topology(TopologyKind, TopologyKind),
}

impl Change {
    pub(crate) fn of(event: Event, types: c::mdb_types) -> Result<Change, Error> {
        if event == Event::TopologyChanged {
            Ok(Change::Topology(TopologyKind::of(types.before)?, TopologyKind::of(types.after)?))
        } else {
            Ok(Change::Server(ServerKind::of(types.before)?, ServerKind::of(types.after)?))
        }
    }
}

impl Fact {
    pub(crate) fn of(told: c::mdb_fact, text: String, address: Option<String>) -> Result<Fact, Error> {
        let (kind, event) = (FactKind::of(told.kind)?, Event::of(told.event)?);
        Ok(Fact { kind, event, pool: told.pool, id: told.id, party: told.party, why: told.why, number: told.number, text, address, change: None })
    }

    pub(crate) fn tells_types(&self) -> bool {
        matches!(self.event, Event::ServerChanged | Event::TopologyChanged)
    }
}

/// The type of a topology (SDAM, "TopologyType").
#[derive(Clone, Copy, Debug, PartialEq, Eq)]
#[non_exhaustive]
pub enum TopologyKind {
    Unknown = 1,
    Single = 2,
    ReplicaSetNoPrimary = 3,
    ReplicaSetWithPrimary = 4,
    Sharded = 5,
    LoadBalanced = 6,
}

impl TopologyKind {
    fn of(number: u32) -> Result<TopologyKind, Error> {
        match number {
            1 => Ok(TopologyKind::Unknown),
            2 => Ok(TopologyKind::Single),
            3 => Ok(TopologyKind::ReplicaSetNoPrimary),
            4 => Ok(TopologyKind::ReplicaSetWithPrimary),
            5 => Ok(TopologyKind::Sharded),
            6 => Ok(TopologyKind::LoadBalanced),
            other => Err(Error::Unknown(other)),
        }
    }
}

/// The type of a server (SDAM, "ServerType").
#[derive(Clone, Copy, Debug, PartialEq, Eq)]
#[non_exhaustive]
pub enum ServerKind {
    Unknown = 1,
    Standalone = 2,
    Mongos = 3,
    RsPrimary = 4,
    RsSecondary = 5,
    RsArbiter = 6,
    RsOther = 7,
    RsGhost = 8,
    LoadBalancer = 9,
}

impl ServerKind {
    fn of(number: u32) -> Result<ServerKind, Error> {
        match number {
            1 => Ok(ServerKind::Unknown),
            2 => Ok(ServerKind::Standalone),
            3 => Ok(ServerKind::Mongos),
            4 => Ok(ServerKind::RsPrimary),
            5 => Ok(ServerKind::RsSecondary),
            6 => Ok(ServerKind::RsArbiter),
            7 => Ok(ServerKind::RsOther),
            8 => Ok(ServerKind::RsGhost),
            9 => Ok(ServerKind::LoadBalancer),
            other => Err(Error::Unknown(other)),
        }
    }
}

/// A text of a server; the first three are also texts of a topology.
#[derive(Clone, Copy, Debug, PartialEq, Eq)]
#[non_exhaustive]
pub enum Text {
    SetName = 1,
    ElectionId = 2,
    Error = 3,
    Address = 4,
    Info = 5,
    Me = 6,
    Primary = 7,
    Hosts = 8,
    Passives = 9,
    Arbiters = 10,
    Reply = 11,
}

/// What is known of the topology (SDAM, "TopologyDescription").
#[derive(Clone, Copy, Debug, PartialEq, Eq)]
pub struct Topology {
    pub kind: TopologyKind,
    pub servers: usize,
    pub max_set_version: Option<i32>,
    pub cluster_time: Option<u64>,
    /// The least session timeout of the servers that hold data, in minutes.
    pub session_minutes: Option<u64>,
    /// Whether the driver can speak to each of the servers.
    pub compatible: bool,
    /// Whether its SRV records are looked up again from time to time.
    pub polled: bool,
}

impl Topology {
    pub(crate) fn of(told: c::mdb_topology) -> Result<Topology, Error> {
        Ok(Topology {
            kind: TopologyKind::of(told.kind)?,
            servers: told.servers as usize,
            max_set_version: (told.has_max_set_version == 1).then_some(told.max_set_version),
            cluster_time: (told.has_cluster_time == 1).then_some(told.cluster_time),
            session_minutes: (told.has_session_minutes == 1).then_some(told.session_minutes),
            compatible: told.compatible == 1,
            polled: told.polled == 1,
        })
    }
}

/// What is known of a server (SDAM, "ServerDescription").
#[derive(Clone, Copy, Debug, PartialEq, Eq)]
pub struct Server {
    pub kind: ServerKind,
    /// Nanoseconds, on average.
    pub round_trip: Option<u64>,
    /// The moment of the last reply.
    pub updated: Option<i64>,
    pub min_wire: i32,
    pub max_wire: i32,
    pub set_version: Option<i32>,
    /// Whether its last check or an operation failed.
    pub has_error: bool,
}

impl Server {
    pub(crate) fn of(told: c::mdb_server) -> Result<Server, Error> {
        Ok(Server {
            kind: ServerKind::of(told.kind)?,
            round_trip: (told.has_round_trip == 1).then_some(told.round_trip),
            updated: (told.has_updated == 1).then_some(told.updated),
            min_wire: told.min_wire,
            max_wire: told.max_wire,
            set_version: (told.has_set_version == 1).then_some(told.set_version),
            has_error: told.has_error == 1,
        })
    }
}

/// What a check of a server does.
#[derive(Clone, Copy, Debug, PartialEq, Eq)]
#[non_exhaustive]
pub enum Action {
    /// It makes a connection, whose first command is the check.
    Connect = 1,
    /// It sends nothing and reads the next reply.
    Read = 2,
    /// It sends the command over the connection that there is.
    Hello = 3,
}

impl Action {
    fn of(number: u32) -> Result<Action, Error> {
        match number {
            1 => Ok(Action::Connect),
            2 => Ok(Action::Read),
            3 => Ok(Action::Hello),
            other => Err(Error::Unknown(other)),
        }
    }
}

/// With what a server answers a hello when something changes, and may answer several times.
#[derive(Clone, Copy, Debug, PartialEq, Eq)]
pub struct Awaited {
    /// The process of the topology version, and its counter.
    pub process: [u8; 12],
    pub counter: i64,
    /// The greatest time for which the server may wait, in milliseconds.
    pub most: u64,
}

/// What the check of a server does that begins now (SDAM, "Server Monitoring").
#[derive(Clone, Copy, Debug, PartialEq, Eq)]
pub struct Check {
    pub action: Action,
    /// The driver's number of the connection that it uses or makes.
    pub connection: u32,
    /// After how many milliseconds it counts as a network timeout.
    pub timeout: u64,
    pub awaited: Option<Awaited>,
    /// Whether the command is `isMaster`, and not `hello`.
    pub legacy: bool,
    /// Whether an `isMaster` says `helloOk: true`.
    pub asks: bool,
}

impl Check {
    pub(crate) fn of(told: c::mdb_check) -> Result<Check, Error> {
        Ok(Check {
            action: Action::of(told.action)?,
            connection: told.connection,
            timeout: told.timeout,
            awaited: (told.awaits == 1).then_some(Awaited { process: told.process, counter: told.counter, most: told.most }),
            legacy: told.legacy == 1,
            asks: told.asks == 1,
        })
    }
}

/// What a monitor does after a check.
#[derive(Clone, Copy, Debug, PartialEq, Eq)]
#[non_exhaustive]
pub enum Next {
    /// It checks again at once: a server that was available may have restarted.
    Retry = 1,
    /// It waits until the time between two checks is over, or a check is wanted.
    Sleep = 2,
    /// It checks at once: the server answers when something changes.
    Continue = 3,
}

impl Next {
    pub(crate) fn of(number: u32) -> Result<Next, Error> {
        match number {
            1 => Ok(Next::Retry),
            2 => Ok(Next::Sleep),
            3 => Ok(Next::Continue),
            other => Err(Error::Unknown(other)),
        }
    }
}
