//! A station from outside: refusals, notices, maintenance, counters, and what each call returns.
use ddcmp::{Config, Error, Notice, NoticeKind, State, Station};

/// Carries frames both ways until there are none; returns the notices of both stations.
fn exchange(one: &mut Station, other: &mut Station) -> [Vec<Notice>; 2] {
    let mut notices = [Vec::new(), Vec::new()];
    loop {
        let mut carried = 0;
        for way in 0..2 {
            let (source, target) = if way == 0 {
                (&mut *one, &mut *other)
            } else {
                (&mut *other, &mut *one)
            };
            while let Some(frame) = source.poll() {
                let (frame, mut at) = (frame.to_vec(), 0);
                while at < frame.len() {
                    let fed = target.feed(&frame[at..]).unwrap();
                    at += fed.used;
                    notices[1 - way].extend(fed.notice);
                }
                carried += 1;
            }
        }
        if carried == 0 {
            return notices;
        }
    }
}

fn running(config: Config) -> (Station, Station) {
    let mut ends = (Station::new(config).unwrap(), Station::new(config).unwrap());
    assert_eq!((ends.0.start(), ends.1.start()), (Ok(0), Ok(0)));
    assert_eq!(ends.0.state(), State::Istart);
    exchange(&mut ends.0, &mut ends.1);
    assert_eq!(
        (ends.0.state(), ends.1.state()),
        (State::Running, State::Running)
    );
    ends
}

#[test]
fn sizes() {
    let usual = Config::default();
    for (config, error) in [
        (Config { window: 0, ..usual }, Error::Window),
        (
            Config {
                window: 256,
                ..usual
            },
            Error::Window,
        ),
        (Config { inbox: 0, ..usual }, Error::Inbox),
        (
            Config {
                max: 16384,
                ..usual
            },
            Error::Max,
        ),
        (Config { syn: 17, ..usual }, Error::Syn),
    ] {
        assert_eq!(Station::new(config).unwrap_err(), error);
    }
    let largest = Config {
        window: 255,
        inbox: 255,
        max: 16383,
        syn: 16,
        restart: true,
    };
    assert_eq!(Station::new(largest).unwrap().config(), largest);
}

#[test]
fn refusals() {
    let config = Config {
        window: 2,
        inbox: 1,
        max: 3,
        ..Config::default()
    };
    let (mut one, mut other) = running(config);
    assert_eq!(one.send(b""), Err(Error::Empty));
    assert_eq!(one.send(b"abcd"), Err(Error::TooLong));
    assert_eq!(
        (one.send_refusal(b"abcd"), one.send_refusal(b"abc")),
        (Some(Error::TooLong), None)
    );
    assert_eq!(
        (one.send(b"abc"), one.room(), one.send(b"de")),
        (Ok(1), true, Ok(2))
    );
    assert_eq!(
        (one.room(), one.send(b"f")),
        (false, Err(Error::WindowFull))
    );
    assert_eq!(
        (one.start(), one.clear_line()),
        (Err(Error::NotHalted), false)
    );
    assert_eq!(one.send_maintenance(b"a"), Err(Error::WrongState));
    let frame = one.poll().unwrap().to_vec();
    let notice = Some(Notice {
        kind: NoticeKind::HandedUp,
        count: 0,
    });
    let fed = other.feed(&frame).unwrap();
    assert_eq!(
        (fed.used, fed.notice, other.waiting()),
        (frame.len(), notice, 1)
    );
    other.halt();
    assert_eq!(
        (other.state(), other.start()),
        (State::Halted, Err(Error::Untaken))
    );
    assert_eq!((other.take(), other.take()), (Some(b"abc".to_vec()), None));
    assert_eq!((other.clear_line(), other.start()), (true, Ok(0)));
    assert_eq!(Error::Untaken.to_string(), "the inbox isn't empty");
}

#[test]
fn messages() {
    let (mut one, mut other) = running(Config {
        window: 255,
        inbox: 255,
        ..Config::default()
    });
    for i in 1..=200 {
        assert_eq!(one.send(&[i; 1500]), Ok(i));
    }
    let notices = exchange(&mut one, &mut other);
    assert!(notices[0]
        .iter()
        .all(|it| it.kind == NoticeKind::Acknowledged));
    assert_eq!(
        notices[0].iter().map(|it| u32::from(it.count)).sum::<u32>(),
        200
    );
    for i in 1..=200 {
        assert_eq!(other.take(), Some(vec![i; 1500]));
    }
    let (sent, received) = (one.counters(), other.counters());
    assert_eq!(
        (sent.messages_sent, received.messages_up, sent.bytes_sent),
        (200, 200, 300_000)
    );
    assert_eq!(
        (one.numbers().a, other.numbers().r, one.outgoing()),
        (200, 200, 0)
    );
}

#[test]
fn lost() {
    let (mut one, mut other) = running(Config::default());
    one.send(b"lost").unwrap();
    assert!(one.poll().is_some());
    assert_eq!(
        (one.take_arm(), one.take_arm(), one.timer_on()),
        (true, false, true)
    );
    assert_eq!((one.expire(), one.expire()), (true, false));
    exchange(&mut one, &mut other);
    assert_eq!((other.take(), one.outgoing()), (Some(b"lost".to_vec()), 0));
    assert_eq!(
        (one.counters().expiries, one.counters().messages_again),
        (1, 1)
    );
}

#[test]
fn maintenance() {
    let mut one = Station::new(Config::default()).unwrap();
    let mut other = Station::new(Config::default()).unwrap();
    assert_eq!(
        (one.enter_maintenance(), other.enter_maintenance()),
        (Ok(0), Ok(0))
    );
    one.send_maintenance(b"boot").unwrap();
    let notices = exchange(&mut one, &mut other);
    assert_eq!(
        notices[1],
        [Notice {
            kind: NoticeKind::MaintenanceHandedUp,
            count: 0
        }]
    );
    assert_eq!(
        (other.take(), one.state()),
        (Some(b"boot".to_vec()), State::Maintenance)
    );
}

#[test]
fn moved_and_dropped() {
    let mut stations = Vec::new();
    for _ in 0..1000 {
        stations.push(running(Config::default()));
    }
    stations.reverse();
    for (one, other) in &mut stations {
        one.send(b"x").unwrap();
        exchange(one, other);
        assert_eq!(other.take(), Some(b"x".to_vec()));
    }
    assert_eq!(ddcmp::version(), 200);
}
