//! Ticks, by which a node sees that its peer is there.

use std::thread;
use std::time::Duration;

use super::*;

const TIME: Duration = Duration::from_secs(10);

/// The node gives up a peer from which nothing has come for some 5 s.
#[test]
#[ignore = "takes 10 s and needs erl: make check-interop"]
fn who_answers_ticks_stays_connected_and_who_does_not_is_given_up() {
    let (mapper, mut node) = real(&["-kernel", "net_ticktime", "4"]);
    assert_eq!(node.eval(WATCH), "ok");
    let [mut called, mut calling, mut silent] =
        ["called", "calling", "silent"].map(|name| Host::new(&mapper, name));
    silent.answers_ticks = false;
    assert_eq!(called.called_by(&mut node), "true");
    assert_eq!(silent.called_by(&mut node), "true");
    calling.call("real").expect("a start");
    calling.settle();
    let start = Instant::now();
    let mut given_up = None;
    while start.elapsed() < TIME {
        for host in [&mut called, &mut calling, &mut silent] {
            host.turn();
        }
        if silent.taken() == 0 {
            given_up.get_or_insert(start.elapsed());
        }
        thread::sleep(Duration::from_millis(5));
    }
    let given_up = given_up.expect("its end").as_secs_f64();
    assert!((3.0..8.0).contains(&given_up), "{given_up}");
    println!("given up after {given_up:.1} s");
    assert_eq!(node.eval(DOWN), "[{'silent@127.0.0.1',net_tick_timeout}]");
    assert_eq!(
        node.eval("lists:sort(nodes(hidden))."),
        "['called@127.0.0.1','calling@127.0.0.1']"
    );
    for host in [called, calling] {
        assert_eq!(host.connected().len(), 1);
        assert!(host.traffic.ticks > 5, "{:?}", host.traffic);
        assert_eq!(host.traffic.others, 0);
    }
}
