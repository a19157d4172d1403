//! A store whose server answers slowly, too much, or nothing of Redis.
use rignolda_machine::net::Turn;
use rignolda_redis::{Login, Redis};
use std::io::{Read, Write};
use std::net::{TcpListener, TcpStream};
use std::thread;
use std::time::{Duration, Instant};

const TIMEOUT: Duration = Duration::from_millis(600);

/// A server that answers the commands of a connection, each as a function says.
fn server(answer: impl Fn(&str, &mut TcpStream) + Send + 'static) -> String {
    let listener = TcpListener::bind("127.0.0.1:0").unwrap();
    let address = listener.local_addr().unwrap().to_string();
    thread::spawn(move || {
        let (mut socket, _) = listener.accept().unwrap();
        let (mut input, mut space) = (String::new(), [0; 4_096]);
        while let Ok(count @ 1..) = socket.read(&mut space) {
            input += &String::from_utf8_lossy(&space[..count]);
            // (a command begins with how many words it has, and its first word is the third line)
            while let Some(lines) = input.split_once("\r\n").and_then(|(head, _)| {
                let count: usize = head.strip_prefix('*')?.parse().ok()?;
                (input.matches("\r\n").count() > 2 * count).then_some(1 + 2 * count)
            }) {
                let command: Vec<&str> = input.splitn(lines + 1, "\r\n").collect();
                let (word, rest) = (command[2].to_string(), command[lines].to_string());
                answer(&word, &mut socket);
                input = rest;
            }
        }
    });
    address
}

/// What came of a turn whose get is answered so, and how long that took.
fn got(
    answer: impl Fn(&mut TcpStream) + Send + 'static,
) -> (Result<Vec<Vec<u8>>, String>, Duration) {
    let address = server(move |word, socket| match word {
        "GETRANGE" => answer(socket),
        "EXEC" => drop(socket.write_all(b"*1\r\n+OK\r\n")),
        _ => drop(socket.write_all(b"+OK\r\n")),
    });
    let mut store = Redis::new(&address, "p", "a", Login::default(), TIMEOUT);
    let sets = vec![("a:b:up".to_string(), b"1".to_vec())];
    let begun = Instant::now();
    let got = store.turn(&Turn { sets, gets: vec![("a:b:down".into(), 1_000)] });
    (got, begun.elapsed())
}

#[test]
fn a_store_that_drips_is_given_up_in_time() {
    let drip = |socket: &mut TcpStream| {
        let _ = socket.write_all(b"$900\r\n");
        while socket.write_all(b"x").is_ok() {
            thread::sleep(Duration::from_millis(20));
        }
    };
    let (got, took) = got(drip);
    assert_eq!(got, Err("it does not answer in time".into()));
    // (its 900 bytes would take 18 seconds)
    assert!(took < Duration::from_secs(9), "{took:?}");
}

/// As where another process of its name has set the key that its transactions watch.
#[test]
fn a_transaction_that_is_not_done_fails() {
    let address = server(|word, socket| match word {
        "EXEC" => drop(socket.write_all(b"*-1\r\n")),
        _ => drop(socket.write_all(b"+OK\r\n")),
    });
    let mut store = Redis::new(&address, "p", "a", Login::default(), TIMEOUT);
    let sets = vec![("a:b:up".to_string(), b"1".to_vec())];
    let got = store.turn(&Turn { sets, gets: vec![] });
    let why = got;
    assert_eq!(why, Err("another process writes there under this agent's name".into()));
}

#[test]
fn what_a_store_answers_is_bounded_before_it_is_read() {
    type Case = (&'static [u8], Result<&'static [u8], &'static str>);
    let cases: [Case; 11] = [
        (b"$3\r\na\r\n\r\n", Ok(b"a\r\n")),
        (b"$-1\r\n", Err("its answer is none to GETRANGE")),
        (b"-WRONGTYPE it is a list\r\n", Ok(b"")),
        (b"-ERR no\r\n", Err("ERR no")),
        (b"$2000000000\r\nxxxx", Err("its answer is too long")),
        (b"*400000000\r\n", Err("its answer is too long")),
        // (lists of many words are as long where bytes are due)
        (b"*2\r\n+a\r\n+b\r\n", Err("its answer is too long")),
        (b"*1\r\n*1\r\n*1\r\n:1\r\n", Err("its answer is too long")),
        (b"+a\r\n", Err("its answer is none to GETRANGE")),
        (b"$-5\r\n", Err("its answer is too long")),
        (b"HTTP/1.1 400 Bad Request\r\n", Err("its answer is none of Redis")),
    ];
    for (bytes, expected) in cases {
        let (got, _) = got(move |socket| drop(socket.write_all(bytes)));
        let expected = expected.map(|it| vec![it.to_vec()]).map_err(String::from);
        assert_eq!(got, expected, "{}", String::from_utf8_lossy(bytes));
    }
    let (got, _) = got(|socket| drop(socket.write_all(&[b'+'; 1 << 20])));
    assert_eq!(got, Err("its answer is none of Redis".into()));
}

/// As many words as there were sets, each of which may be a list, or a text, of any length.
#[test]
fn the_answers_in_a_list_are_bounded_too() {
    for (list, expected) in [
        ("*1\r\n*1\r\n+OK\r\n", "its answer is none of Redis"),
        ("*1\r\n$1\r\nO\r\n", "its answer is too long"),
        ("*2\r\n+OK\r\n+OK\r\n", "its answer is too long"),
    ] {
        let address = server(move |word, socket| match word {
            "EXEC" => drop(socket.write_all(list.as_bytes())),
            _ => drop(socket.write_all(b"+OK\r\n")),
        });
        let mut store = Redis::new(&address, "p", "a", Login::default(), TIMEOUT);
        let sets = vec![("a:b:up".to_string(), b"1".to_vec())];
        let got = store.turn(&Turn { sets, gets: vec![] });
        assert_eq!(got, Err(expected.into()), "{list}");
    }
}
