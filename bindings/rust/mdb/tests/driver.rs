use mdb::srv::{accepted_hosts, rescan_seconds, txt_options, Refusal, Strangers};
use mdb::{Action, Awaited, Connection, Driver, End, Error, Event, Kind, Next, ServerKind, Text, TopologyKind, Use, Why};

fn opened() -> Driver {
    let mut driver = Driver::open("open seeds=a:27017 max=2 wait=5").unwrap();
    let reply = driver.line(0, "hello 1 a:27017 0 ok rtt=5 minWireVersion=0 maxWireVersion=21").unwrap();
    assert_eq!(reply.kind, Kind::Changed);
    driver
}

#[test]
fn the_ordinary_path_is_done() {
    let mut driver = opened();
    let reply = driver.request(2, 1, "a").unwrap();
    assert_eq!((reply.kind, reply.connection()), (Kind::Establishing, Some(Connection { pool: 0, id: 1 })));
    assert_eq!(driver.claim(2).unwrap().kind, Kind::Job);
    assert_eq!(driver.job_address(Connection { pool: 0, id: 1 }).unwrap().as_deref(), Some("a:27017"));
    assert_eq!(driver.job_address(Connection { pool: 0, id: 2 }), Ok(None));
    assert_eq!(driver.established(3, Connection { pool: 0, id: 1 }, 21, "", None).unwrap().kind, Kind::Done);
    let events: Vec<_> = driver.facts().unwrap().iter().map(|fact| fact.event).collect();
    assert_eq!(events, [Event::ConnectionReady, Event::CheckedOut]);
    assert_eq!(driver.collect(3, 1).unwrap().kind, Kind::Pooled);
    assert_eq!(driver.return_connection(4, 1, Use::Ok).unwrap().kind, Kind::Done);
    assert_eq!(driver.entry_text().unwrap(), "return 4 1 ok | Done | Pool 0 ConnectionCheckedIn a:27017 1\n");
    assert_eq!(driver.facts().unwrap()[0].text, "Pool 0 ConnectionCheckedIn a:27017 1");
}

#[test]
fn refusals_and_ends_are_told() {
    let mut driver = opened();
    assert_eq!(driver.request(2, 1, "b:1").unwrap().refusal(), Some(Why::UnknownServer));
    for party in 1..=3 {
        driver.request(2, party, "a:27017").unwrap();
    }
    driver.expire(7, "a:27017").unwrap();
    assert_eq!(driver.collect(7, 3).unwrap().end(), Some(End::TimedOut));
    assert_eq!(driver.claim(0).unwrap().number, 7);
}

#[test]
fn malformed_texts_change_nothing() {
    let mut driver = opened();
    let before = driver.entry_text();
    assert_eq!(driver.request(2, 1, "a:0"), Err(Error::Malformed));
    assert_eq!(driver.request(2, 1, ""), Err(Error::Malformed));
    assert_eq!(driver.line(0, ""), Err(Error::Malformed));
    assert_eq!(driver.established(2, Connection { pool: 0, id: 1 }, -1, "", None), Err(Error::Malformed));
    assert_eq!(driver.entry_text(), before);
    assert_eq!(Driver::open("open").err(), Some(Error::Malformed));
}

#[test]
fn errors_and_outcomes_are_told() {
    let mut driver = opened();
    let connection = driver.request(2, 1, "a:27017").unwrap().connection().unwrap();
    assert_eq!(driver.failed(2, connection, "pre network msg=refused").unwrap().kind, Kind::Done);
    assert_eq!(driver.collect(2, 1).unwrap().end(), Some(End::Failed));
    assert_eq!(driver.hello(3, "a:27017", 0, "err network msg=x").unwrap().number, 1);
    assert_eq!(driver.beat(4, "a:27017", 0).unwrap().kind, Kind::Done);
    assert_eq!(driver.beaten(5, "a:27017", 0, "9 ok minWireVersion=0 maxWireVersion=21").unwrap().kind, Kind::Changed);
    assert_eq!(driver.error(6, 1, "network msg=late").unwrap().refusal(), Some(Why::NotHolder));
    assert_eq!(driver.error(6, 1, "network"), Err(Error::Malformed));
}

#[test]
fn what_is_known_is_told() {
    let mut driver = opened();
    assert_eq!((driver.last_moment(), driver.published()), (Ok(1), Ok(2)));
    assert_eq!((driver.open_pool("A"), driver.open_pool("b:1"), driver.open_pool("b:0")), (Ok(Some(0)), Ok(None), Err(Error::Malformed)));
}

#[test]
fn servers_and_the_topology_are_told() {
    let mut driver = Driver::open("open seeds=a:1,b:2").unwrap();
    assert_eq!(driver.topology().unwrap().kind, TopologyKind::Unknown);
    driver.hello(3, "a:1", 0, "ok rtt=9 isWritablePrimary=true hosts=a:1,c:3 setVersion=7 setName=rs maxWireVersion=21").unwrap();
    let facts = driver.facts().unwrap();
    assert!(facts.iter().any(|fact| fact.event == Event::ServerChanged && fact.address.as_deref() == Some("a:1")));
    let topology = driver.topology().unwrap();
    assert_eq!((topology.kind, topology.servers, topology.max_set_version), (TopologyKind::ReplicaSetWithPrimary, 2, Some(7)));
    assert_eq!(driver.topology_text(Text::SetName).unwrap().as_deref(), Some("rs"));
    assert_eq!(driver.topology_text(Text::Error), Ok(None));
    assert_eq!((driver.server_at("A:1"), driver.server_at("b:2")), (Ok(Some(0)), Ok(None)));
    let server = driver.server(0).unwrap().unwrap();
    assert_eq!((server.kind, server.round_trip, server.updated, server.set_version), (ServerKind::RsPrimary, Some(9), Some(3), Some(7)));
    assert_eq!(driver.server_text(0, Text::Hosts).unwrap().as_deref(), Some("a:1,c:3"));
    assert_eq!((driver.server(2), driver.server_text(2, Text::Address)), (Ok(None), Ok(None)));
    assert_eq!(driver.cluster_time(4, 5).unwrap().kind, Kind::Done);
    assert_eq!(driver.topology().unwrap().cluster_time, Some(5));
    assert_eq!(driver.rtt(4, "a:1", 0, 7).unwrap().kind, Kind::Count);
    assert_eq!(driver.hosts(4, "B:2"), Err(Error::Malformed));
}

#[test]
fn long_texts_are_told_whole() {
    let seeds: Vec<String> = (0..128).map(|n| format!("h{n}:1")).collect();
    let mut driver = Driver::open(&format!("open seeds={}", seeds.join(","))).unwrap();
    let text = driver.entry_text().unwrap();
    assert!(text.len() > 8192 && text.ends_with('\n'));
    assert_eq!(driver.facts().unwrap().len() + 1, text.matches(" | ").count());
}

#[test]
fn pins_hold_a_connection() {
    let mut driver = Driver::open("open seeds=a:1 lb").unwrap();
    let connection = driver.request(1, 1, "a:1").unwrap().connection().unwrap();
    driver.established(1, connection, 21, "0102030405060708090a0b0c", Some(5)).unwrap();
    assert_eq!(driver.pin(2, 1).unwrap().kind, Kind::Done);
    assert_eq!(driver.return_connection(2, 1, Use::Ok).unwrap().kind, Kind::Done);
    assert_eq!(driver.take(2, 2, connection).unwrap().connection(), Some(connection));
    assert_eq!(driver.take(2, 3, connection).unwrap().refusal(), Some(Why::PinInUse));
}

#[test]
fn threads_share_a_driver() {
    use std::sync::{Arc, Mutex};
    let driver = Arc::new(Mutex::new(opened()));
    let crew: Vec<_> = (0..4u32)
        .map(|seat| {
            let driver = Arc::clone(&driver);
            std::thread::spawn(move || {
                for n in 0..500 {
                    let (party, mut driver) = (1 + seat * 500 + n, driver.lock().unwrap());
                    let reply = driver.request(5, party, "a:27017").unwrap();
                    if reply.kind == Kind::Establishing {
                        driver.established(5, reply.connection().unwrap(), 21, "", None).unwrap();
                    }
                    assert_eq!(driver.return_connection(5, party, Use::Ok).unwrap().kind, Kind::Done);
                }
            })
        })
        .collect();
    for one in crew {
        one.join().unwrap();
    }
}

#[test]
fn checks_are_told_beforehand() {
    let news = "9 ok isWritablePrimary=true helloOk=true maxWireVersion=21 topologyVersion=0102030405060708090a0b0c.7";
    let mut driver = Driver::open("open seeds=a:1 connect=5000").unwrap();
    let first = driver.next_check("A:1").unwrap().unwrap();
    assert_eq!((first.action, first.timeout, first.awaited, first.legacy, first.asks), (Action::Connect, 5000, None, true, true));
    driver.beat(1, "a:1", 0).unwrap();
    assert_eq!(driver.facts().unwrap()[0].id, first.connection);
    assert_eq!(driver.next_after("a:1", 0, news), Ok(Some(Next::Continue)));
    driver.beaten(1, "a:1", 0, news).unwrap();
    let second = driver.next_check("a:1").unwrap().unwrap();
    let awaited = Awaited { process: [1, 2, 3, 4, 5, 6, 7, 8, 9, 10, 11, 12], counter: 7, most: 10000 };
    assert_eq!((second.action, second.timeout, second.awaited, second.legacy, second.asks), (Action::Hello, 15000, Some(awaited), false, false));
    driver.beat(2, "a:1", 0).unwrap();
    assert_eq!(driver.next_after("a:1", 0, "9 err network msg=x"), Ok(Some(Next::Retry)));
    assert_eq!(driver.next_after("a:1", 0, "9 cancelled network msg=x"), Ok(Some(Next::Sleep)));
    assert_eq!((driver.next_check("b:1"), driver.next_after("b:1", 0, news)), (Ok(None), Ok(None)));
    assert_eq!(driver.next_after("a:1", 0, "ok"), Err(Error::Malformed));
}

#[test]
fn records_are_judged() {
    let name = "cluster.example.com";
    assert_eq!(accepted_hosts(name, "b.example.com:1,a.evil.com:1", Strangers::LeftOut).as_deref(), Ok("b.example.com:1"));
    let refusal = "SRV lookup for cluster.example.com returned result a.evil.com, which does not match domain name example.com";
    assert_eq!(accepted_hosts(name, "a.evil.com:1", Strangers::Refuse), Err(Refusal::Records(refusal.to_string())));
    assert_eq!(accepted_hosts(name, "b.example.com:0", Strangers::Refuse), Err(Refusal::Call(Error::Malformed)));
    assert_eq!(txt_options(name, &[]).as_deref(), Ok(""));
    assert_eq!(txt_options(name, &[b"replicaSet=rs&AUTHSOURCE=admin"]).as_deref(), Ok("&authSource=admin&replicaSet=rs"));
    assert!(matches!(txt_options(name, &[b"replicaSet=rs", b"replicaSet=rs"]), Err(Refusal::Records(_))));
    assert_eq!((rescan_seconds(1, 5, 10), rescan_seconds(1, 300, 10), rescan_seconds(0, 300, 90)), (60, 300, 90));
    assert!(Driver::open("open seeds=a:1").unwrap().topology().unwrap().polled);
}

#[test]
fn a_change_tells_the_types_before_and_after() {
    let mut driver = Driver::open("open seeds=a:27017").unwrap();
    driver.set_seat(3);
    driver.hello(1, "a:27017", 0, "ok rtt=5 maxWireVersion=21").unwrap();
    let changes: Vec<_> = driver.facts().unwrap().into_iter().filter_map(|fact| fact.change).collect();
    let server = mdb::Change::Server(mdb::ServerKind::Unknown, mdb::ServerKind::Standalone);
    let topology = mdb::Change::Topology(mdb::TopologyKind::Unknown, mdb::TopologyKind::Single);
    assert_eq!(changes, [server, topology]);
    assert!(format!("{driver:?}").contains("seat: 3"));
}

#[test]
fn a_refused_lookup_is_an_error_of_the_language() -> Result<(), Box<dyn std::error::Error>> {
    mdb::srv::accepted_hosts("a.b.example.com", "c.b.example.com:1", mdb::srv::Strangers::Refuse)?;
    let refused = mdb::srv::accepted_hosts("a.b.example.com", "evil.com:1", mdb::srv::Strangers::Refuse).unwrap_err();
    assert!(Box::<dyn std::error::Error>::from(refused).to_string().contains("does not match domain name"));
    Ok(())
}
