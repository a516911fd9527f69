//! Whole fetches, over answers that are given.

use std::sync::{Arc, Mutex};
use std::thread;

use fiorrudda::*;

/// A fetch over one answer to each request, in pieces; and what was done.
fn run(fetch: &mut Fetch, book: &Mutex<Book>, answer: &[u8], piece: usize) -> Result<Vec<Act>> {
    let mut acts = Vec::new();
    let mut rest: &[u8] = &[];
    while let Some(act) = fetch.act()? {
        match act {
            Act::Ask(_) => drop(fetch.ask(&mut book.lock().expect("no thread panics"))?),
            Act::Send(_) => {
                rest = answer;
                fetch.sent()?;
            }
            Act::ReadHead | Act::ReadBody => {
                let used = fetch.feed(&rest[..piece.min(rest.len())])?;
                rest = &rest[used..];
            }
            Act::Tell(_) => fetch.told()?,
        }
        acts.push(act);
    }
    Ok(acts)
}

const READABLE: &[u8] = b"HTTP/1.1 200 OK\r\nAccess-Control-Allow-Origin: *\r\nAccess-Control-Allow-Methods: PUT\r\n\
    Access-Control-Max-Age: 3\r\nX-Hidden: 1\r\nContent-Length: 5\r\n\r\nhello";

#[test]
fn a_fetch_with_a_preflight_in_pieces_of_each_size() -> Result<()> {
    let (page, asked) = (Client::new("https://a.example/")?, Request::new("PUT", "https://b.example/x")?);
    for piece in [1, 7, 4096] {
        let book = Mutex::new(Book::new()?);
        let mut fetch = Fetch::begin(&page, &asked, 0, 1 << 20)?;
        assert_eq!(fetch.outcome()?, None);
        let acts = run(&mut fetch, &book, READABLE, piece)?;
        let sent: Vec<_> = acts.iter().filter_map(|act| if let Act::Send(it) = act { Some(it) } else { None }).collect();
        assert_eq!(sent.len(), 2);
        assert_eq!((sent[0].preflight, sent[0].method.as_str(), sent[0].origin.as_str()), (true, "OPTIONS", "https://b.example"));
        assert_eq!((sent[1].preflight, sent[1].method.as_str(), sent[1].url.as_str()), (false, "PUT", "/x"));
        assert!(sent[1].request.starts_with(b"PUT /x HTTP/1.1\r\n"));
        match fetch.outcome()? {
            Some(Outcome::Response(it)) => {
                assert_eq!((it.kind.as_str(), it.status, it.end), ("cors", 200, BodyEnd::Whole));
                assert_eq!((it.count, it.body), (Some(5), Some(b"hello".to_vec())));
                assert!(it.headers.iter().all(|(name, _)| name != b"X-Hidden"));
            }
            other => panic!("{other:?}"),
        }
    }
    Ok(())
}

#[test]
fn errors_and_violations() -> Result<()> {
    let mut page = Client::new("https://a.example/")?;
    page.policy("img-src 'self'", true)?.cookie("https://a.example/", "c=d")?;
    let book = Mutex::new(Book::new()?);
    let mut fetch = Fetch::begin(&page, &Request::load(Kind::Image, "https://b.example/i")?, 0, 0)?;
    let acts = run(&mut fetch, &book, b"", 1)?;
    let wanted = Told { policy: 0, enforced: true, directive: "img-src".into(), url: "https://b.example/i".into() };
    assert_eq!(acts, [Act::Tell(wanted)]);
    assert_eq!(fetch.outcome()?, Some(Outcome::Error { error: NetworkError::CspRequest, header: None }));

    let mut fetch = Fetch::begin(&page, &Request::new("GET", "/")?, 0, 0)?;
    assert_eq!(fetch.feed(b"HTTP"), Err(Error::NotAwaited));
    match fetch.act()? {
        Some(Act::Send(it)) => assert!(it.headers.contains(&(b"Cookie".to_vec(), b"c=d".to_vec()))),
        other => panic!("{other:?}"),
    }
    fetch.failed()?;
    assert_eq!(fetch.outcome()?, Some(Outcome::Error { error: NetworkError::LinkFault, header: None }));
    Ok(())
}

#[test]
fn a_fetch_that_goes_on_by_itself() -> Result<()> {
    let mut page = Client::new("https://a.example/")?;
    page.policy("img-src 'self'", true)?.policy("connect-src 'none', default-src 'none'", false)?;
    let mut book = Book::new()?;
    let mut fetch = Fetch::begin(&page, &Request::load(Kind::Image, "https://b.example/i")?, 0, 0)?;
    let told = fetch.judge(&mut book)?;
    assert_eq!(told.iter().map(|it| (it.policy, it.enforced)).collect::<Vec<_>>(), [(2, false), (0, true)]);
    assert_eq!((told[1].directive.as_str(), told[1].url.as_str()), ("img-src", "https://b.example/i"));
    assert_eq!(fetch.outcome()?, Some(Outcome::Error { error: NetworkError::CspRequest, header: None }));
    assert_eq!(fetch.judge(&mut book)?, []);

    let mut fetch = Fetch::begin(&page, &Request::new("PUT", "https://b.example/x")?, 0, 1 << 20)?;
    let (mut preflights, mut told) = (Vec::new(), fetch.judge(&mut book)?);
    while let Some(act) = fetch.act()? {
        match act {
            Act::Send(it) => {
                preflights.push(it.preflight);
                fetch.sent()?;
            }
            Act::ReadHead | Act::ReadBody => drop(fetch.feed(READABLE)?),
            other => panic!("{other:?}"),
        }
        told.extend(fetch.judge(&mut book)?);
    }
    assert_eq!(preflights, [true, false]);
    // By the request, and then by its response.
    assert_eq!(told.iter().map(|it| it.policy).collect::<Vec<_>>(), [1, 2, 1, 2]);
    Ok(())
}

#[test]
fn a_request_that_is_none() -> Result<()> {
    let (page, mut asked) = (Client::new("https://a.example/")?, Request::new("GET", "/")?);
    asked.header("a", "1")?.header("a b", "1")?;
    let fault = Error::NoRequest { fault: Some(RequestFault::BadHeader), header: Some(1) };
    assert_eq!(Fetch::begin(&page, &asked, 0, 0).unwrap_err(), fault);
    assert_eq!(Fetch::begin(&page, &Request::new("GET", "/")?, 1 << 48, 0).unwrap_err(), Error::TooLate);
    Ok(())
}

#[test]
fn a_book_of_the_callers_own() -> Result<()> {
    let mut fetch = Fetch::begin(&Client::new("http://a.example/")?, &Request::new("GET", "/b")?, 7, 0)?;
    match fetch.act()? {
        Some(Act::Ask(call)) => {
            assert_eq!((call.kind, call.time, call.host.as_deref()), (CallKind::Match, 7, Some("a.example")))
        }
        other => panic!("{other:?}"),
    }
    assert_eq!(fetch.reply(None), Err(Error::NotAwaited));
    fetch.reply(Some(true))?;
    match fetch.act()? {
        Some(Act::Send(it)) => assert_eq!(it.origin, "https://a.example"),
        other => panic!("{other:?}"),
    }
    Ok(())
}

#[test]
fn threads_share_a_book() -> Result<()> {
    let book = Arc::new(Mutex::new(Book::new()?));
    let threads: Vec<_> = (0..4)
        .map(|_| {
            let book = Arc::clone(&book);
            thread::spawn(move || -> Result<usize> {
                let (page, asked) = (Client::new("https://a.example/")?, Request::new("PUT", "https://b.example/")?);
                let mut passed = 0;
                for now in 0..50 {
                    let mut fetch = Fetch::begin(&page, &asked, now, 1 << 20)?;
                    run(&mut fetch, &book, READABLE, 4096)?;
                    passed += usize::from(matches!(fetch.outcome()?, Some(Outcome::Response(it)) if it.status == 200));
                }
                Ok(passed)
            })
        })
        .collect();
    for it in threads {
        assert_eq!(it.join().expect("no thread panics")?, 50);
    }
    let text = book.lock().expect("no thread panics").export()?;
    assert_eq!(Book::read(&text)?.export()?, text);
    Ok(())
}

#[test]
fn things_go_to_other_threads() -> Result<()> {
    let (page, asked) = (Client::new("https://a.example/")?, Request::load(Kind::Image, "http://b.example/")?);
    let upgraded = thread::spawn(move || is_mixed_upgraded(&page, &asked, "")).join().expect("no thread panics")?;
    assert!(upgraded);
    Ok(())
}
