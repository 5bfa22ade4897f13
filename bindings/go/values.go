package mdb

// #include "mdb.h"
import "C"

import "fmt"

// A Status is why a call was not done. Nothing changed then.
type Status uint32

const (
	NoMemory   Status = C.MDB_NO_MEMORY
	Malformed  Status = C.MDB_MALFORMED
	NoRoom     Status = C.MDB_NO_ROOM
	Closed     Status = C.MDB_CLOSED
	Opened     Status = C.MDB_OPENED
	NoEntry    Status = C.MDB_NO_ENTRY
	BadRecords Status = C.MDB_BAD_RECORDS
)

var words = map[Status]string{
	NoMemory: "out of memory", Malformed: "malformed", NoRoom: "the text does not fit", Closed: "the driver is closed",
	Opened: "the driver is open already", NoEntry: "there is no such fact, pool, server or text",
	BadRecords: "the records break a rule",
}

func (s Status) Error() string {
	if word, known := words[s]; known {
		return word
	}
	return fmt.Sprintf("status %d", uint32(s))
}

// A Kind is the kind of a reply.
type Kind uint32

const (
	Pooled       Kind = C.MDB_POOLED
	Establishing Kind = C.MDB_ESTABLISHING
	Waiting      Kind = C.MDB_WAITING
	Ended        Kind = C.MDB_ENDED
	Job          Kind = C.MDB_JOB
	NoJob        Kind = C.MDB_NO_JOB
	Changed      Kind = C.MDB_CHANGED
	Count        Kind = C.MDB_COUNT
	Done         Kind = C.MDB_DONE
	Refused      Kind = C.MDB_REFUSED
)

// A Use is how a connection was used by the party that returns it.
type Use uint32

const (
	Used      Use = C.MDB_USE_OK
	Errored   Use = C.MDB_USE_ERRORED
	Dropped   Use = C.MDB_USE_DROPPED
	Streaming Use = C.MDB_USE_STREAMING
)

// A Connection is named by the number of its pool and its own.
type Connection struct{ Pool, ID uint32 }

// A Reply is what the one who makes a step is told. A number that the kind does not have is 0.
type Reply struct {
	Kind          Kind
	Pool, ID, Why uint32 // Why is read by End and Refusal
	Number        uint64 // Changed: 0 or 1; Count: the count; WhyTimeBack: the last moment; WhyExhausted: what passed its limit
}

// Connection is that of Pooled, Establishing and Job.
func (r Reply) Connection() Connection { return Connection{r.Pool, r.ID} }

// End is how the request ended, of Ended, and else 0.
func (r Reply) End() End {
	if r.Kind != Ended {
		return 0
	}
	return End(r.Why)
}

// Refusal is why the step was refused, of Refused, and else 0.
func (r Reply) Refusal() Why {
	if r.Kind != Refused {
		return 0
	}
	return Why(r.Why)
}

// An End is how a request ended.
type End uint32

const (
	EndCleared  End = C.MDB_END_CLEARED   // its pool was new or paused when it asked, or was cleared while it waited
	EndFailed   End = C.MDB_END_FAILED    // its connection could not be established
	EndClosed   End = C.MDB_END_CLOSED    // its pool was closed
	EndWarmed   End = C.MDB_END_WARMED    // a warm request found enough connections
	EndFilled   End = C.MDB_END_FILLED    // a warm request's connection was established
	EndGaveUp   End = C.MDB_END_GAVE_UP   // the one who asked gave up
	EndTimedOut End = C.MDB_END_TIMED_OUT // a caller waited for as long as a caller may
)

// A Why is why a step was refused: the first reason that holds, in this order.
type Why uint32

const (
	WhyTimeBack       Why = C.MDB_WHY_TIME_BACK       // the moment is before that of the last accepted step
	WhyUnknownServer  Why = C.MDB_WHY_UNKNOWN_SERVER  // no pool is open at the address
	WhyRequestKnown   Why = C.MDB_WHY_REQUEST_KNOWN   // the number was used by an earlier party
	WhyUnknownRequest Why = C.MDB_WHY_UNKNOWN_REQUEST // the request is not open
	WhyNotHolder      Why = C.MDB_WHY_NOT_HOLDER      // the party holds no connection
	WhyNotPending     Why = C.MDB_WHY_NOT_PENDING     // no such connection is pending
	WhyUnpinned       Why = C.MDB_WHY_UNPINNED        // the connection has no pin
	WhyPinInUse       Why = C.MDB_WHY_PIN_IN_USE      // the pinned connection is held
	WhyPinState       Why = C.MDB_WHY_PIN_STATE       // the connection is pinned already
	WhyCheckRunning   Why = C.MDB_WHY_CHECK_RUNNING   // the monitor's check has no result yet
	WhyNotChecking    Why = C.MDB_WHY_NOT_CHECKING    // no check runs there
	WhyWrongMode      Why = C.MDB_WHY_WRONG_MODE      // the step does not go with the mode, normal or load balanced
	WhyExhausted      Why = C.MDB_WHY_EXHAUSTED       // a number would pass its limit
)

// A FactKind is the kind of a fact.
type FactKind uint32

const (
	FactOpened   FactKind = C.MDB_FACT_OPENED    // a pool was opened
	FactPool     FactKind = C.MDB_FACT_POOL      // the pool made an event (CMAP, "Events")
	FactGranted  FactKind = C.MDB_FACT_GRANTED   // a connection was granted to the party
	FactEnded    FactKind = C.MDB_FACT_ENDED     // the party's request ended
	FactRaised   FactKind = C.MDB_FACT_RAISED    // the generation of the pool, or of one service behind it, was raised
	FactSDAM     FactKind = C.MDB_FACT_SDAM      // a server or the topology made an event (SDAM monitoring)
	FactCheckNow FactKind = C.MDB_FACT_CHECK_NOW // the monitor of an address should check now
	FactCancel   FactKind = C.MDB_FACT_CANCEL    // the check of an address that runs should be cancelled
)

// An Event is the event of a fact of FactPool or FactSDAM.
type Event uint32

const (
	EventPoolCreated        Event = C.MDB_POOL_CREATED
	EventPoolReady          Event = C.MDB_POOL_READY
	EventPoolCleared        Event = C.MDB_POOL_CLEARED
	EventPoolClosed         Event = C.MDB_POOL_CLOSED
	EventConnectionCreated  Event = C.MDB_CONNECTION_CREATED
	EventConnectionReady    Event = C.MDB_CONNECTION_READY
	EventConnectionClosed   Event = C.MDB_CONNECTION_CLOSED
	EventCheckOutStarted    Event = C.MDB_CHECKOUT_STARTED
	EventCheckOutFailed     Event = C.MDB_CHECKOUT_FAILED
	EventCheckedOut         Event = C.MDB_CHECKED_OUT
	EventCheckedIn          Event = C.MDB_CHECKED_IN
	EventServerChanged      Event = C.MDB_SDAM_SERVER_CHANGED
	EventServerOpening      Event = C.MDB_SDAM_SERVER_OPENING
	EventServerClosed       Event = C.MDB_SDAM_SERVER_CLOSED
	EventTopologyChanged    Event = C.MDB_SDAM_TOPOLOGY_CHANGED
	EventTopologyOpening    Event = C.MDB_SDAM_TOPOLOGY_OPENING
	EventTopologyClosed     Event = C.MDB_SDAM_TOPOLOGY_CLOSED
	EventHeartbeatStarted   Event = C.MDB_SDAM_HEARTBEAT_STARTED
	EventHeartbeatSucceeded Event = C.MDB_SDAM_HEARTBEAT_SUCCEEDED
	EventHeartbeatFailed    Event = C.MDB_SDAM_HEARTBEAT_FAILED
)

// A CloseReason is why a connection was closed (CMAP, "ConnectionClosedEvent").
type CloseReason uint32

const (
	ClosedStale      CloseReason = C.MDB_CLOSED_STALE
	ClosedIdle       CloseReason = C.MDB_CLOSED_IDLE
	ClosedError      CloseReason = C.MDB_CLOSED_ERROR
	ClosedDropped    CloseReason = C.MDB_CLOSED_DROPPED
	ClosedPoolClosed CloseReason = C.MDB_CLOSED_POOL_CLOSED
)

// A FailReason is why a check-out failed (CMAP, "ConnectionCheckOutFailedEvent").
type FailReason uint32

const (
	FailedTimeout         FailReason = C.MDB_FAILED_TIMEOUT
	FailedConnectionError FailReason = C.MDB_FAILED_CONNECTION_ERROR
)

// A TopologyKind is the type of a topology (SDAM, "TopologyType").
type TopologyKind uint32

const (
	TopologyUnknown      TopologyKind = C.MDB_TOPOLOGY_UNKNOWN
	TopologySingle       TopologyKind = C.MDB_TOPOLOGY_SINGLE
	TopologyNoPrimary    TopologyKind = C.MDB_TOPOLOGY_NO_PRIMARY
	TopologyWithPrimary  TopologyKind = C.MDB_TOPOLOGY_WITH_PRIMARY
	TopologySharded      TopologyKind = C.MDB_TOPOLOGY_SHARDED
	TopologyLoadBalanced TopologyKind = C.MDB_TOPOLOGY_LOAD_BALANCED
)

// A ServerKind is the type of a server (SDAM, "ServerType").
type ServerKind uint32

const (
	ServerUnknown      ServerKind = C.MDB_SERVER_UNKNOWN
	ServerStandalone   ServerKind = C.MDB_SERVER_STANDALONE
	ServerMongos       ServerKind = C.MDB_SERVER_MONGOS
	ServerRSPrimary    ServerKind = C.MDB_SERVER_RS_PRIMARY
	ServerRSSecondary  ServerKind = C.MDB_SERVER_RS_SECONDARY
	ServerRSArbiter    ServerKind = C.MDB_SERVER_RS_ARBITER
	ServerRSOther      ServerKind = C.MDB_SERVER_RS_OTHER
	ServerRSGhost      ServerKind = C.MDB_SERVER_RS_GHOST
	ServerLoadBalancer ServerKind = C.MDB_SERVER_LOAD_BALANCER
)

// A Fact of the last entry, with its text. A number that the kind does not have is 0.
type Fact struct {
	Kind          FactKind
	Event         Event // of FactPool and FactSDAM
	Pool, ID      uint32
	Party, Why    uint32 // Why is an End of FactEnded, a CloseReason of EventConnectionClosed, a FailReason of EventCheckOutFailed
	Number        uint64 // milliseconds of EventConnectionReady, EventCheckedOut and EventCheckOutFailed, nanoseconds of a heartbeat that ended; 1 of a clear that interrupts
	Text          string // as a log has it
	Address       string // that it names, or empty
	Before, After uint32 // ServerKind of EventServerChanged, TopologyKind of EventTopologyChanged
}

// A Text is a text of a server; the first three are also texts of a topology.
type Text uint32

const (
	SetName    Text = C.MDB_TEXT_SET_NAME
	ElectionID Text = C.MDB_TEXT_ELECTION_ID
	ErrorText  Text = C.MDB_TEXT_ERROR
	Address    Text = C.MDB_TEXT_ADDRESS
	Info       Text = C.MDB_TEXT_INFO
	Me         Text = C.MDB_TEXT_ME
	Primary    Text = C.MDB_TEXT_PRIMARY
	Hosts      Text = C.MDB_TEXT_HOSTS
	Passives   Text = C.MDB_TEXT_PASSIVES
	Arbiters   Text = C.MDB_TEXT_ARBITERS
	ReplyText  Text = C.MDB_TEXT_REPLY
)

// A Topology is what is known of the topology. A number whose Has is false is 0.
type Topology struct {
	Kind                                                TopologyKind
	Servers                                             int
	MaxSetVersion                                       int32
	ClusterTime, SessionMinutes                         uint64
	HasMaxSetVersion, HasClusterTime, HasSessionMinutes bool
	Compatible                                          bool
	Polled                                              bool // its SRV records are looked up again from time to time
}

// A Server is what is known of a server. A number whose Has is false is 0.
type Server struct {
	Kind                                              ServerKind
	RoundTrip                                         uint64 // nanoseconds, on average
	Updated                                           int64  // the moment of the last reply
	MinWire, MaxWire, SetVersion                      int32
	HasRoundTrip, HasUpdated, HasSetVersion, HasError bool
}

// An Action is what a check does.
type Action uint32

const (
	ActionConnect Action = C.MDB_CHECK_CONNECT // it makes a connection, whose first command is the check
	ActionRead    Action = C.MDB_CHECK_READ    // it sends nothing and reads the next reply
	ActionHello   Action = C.MDB_CHECK_HELLO   // it sends the command over the connection that there is
)

// A Check is what the check of a server does that begins now. A number that the check does not have is 0.
type Check struct {
	Action        Action
	Connection    uint32
	Timeout, Most uint64 // milliseconds
	Process       [12]byte
	Counter       int64
	Awaits        bool // it is answered when something changes
	Legacy, Asks  bool // the command is `isMaster`; it says `helloOk: true`
}

// A Next is what a monitor does after a check.
type Next uint32

const (
	Retry    Next = C.MDB_NEXT_RETRY
	Sleep    Next = C.MDB_NEXT_SLEEP
	Continue Next = C.MDB_NEXT_CONTINUE
)
