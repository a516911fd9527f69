//! Rules, each by a case of the C library's own checks.

use fiorrudda::*;

type Done = std::result::Result<(), Box<dyn std::error::Error>>;

#[test]
fn lists() -> Done {
    let mut list = Headers::of([("Vary", "Origin"), ("vary", "Accept")])?;
    assert_eq!(list.get("VARY")?, Some(b"Origin, Accept".to_vec()));
    assert_eq!(list.get("Age")?, None);
    assert_eq!(list.append("a b", "1"), Err(Error::NotAHeader));
    list.append("X", b"\xff")?;
    let pairs = list.pairs()?;
    assert_eq!(pairs.len(), 3);
    assert_eq!(pairs[2], (b"X".to_vec(), b"\xff".to_vec()));
    let long = "v".repeat(5000);
    list.append("Long", &long)?;
    assert_eq!(list.get("long")?, Some(long.into_bytes()));
    Ok(())
}

#[test]
fn urls() -> Done {
    assert_eq!(origin("HTTPS://A.Example:443/p")?, "https://a.example");
    assert_eq!(origin("data:,x"), Err(Error::NotHttp));
    assert_eq!(origin("/p"), Err(Error::NotAUrl));
    assert!(same_origin("https://a.example/", "https://a.example:443/x")?);
    assert!(!same_origin("https://a.example/", "http://a.example/")?);
    assert!(same_site("https://a.b.example/", "http://b.example/")?);
    assert!(is_trustworthy("http://localhost/")?);
    assert!(is_bad_port("http://a.example:25/")?);
    let told = referrer(ReferrerPolicy::Default, "https://u:p@a.example/b?c#d", "https://b.example/")?;
    assert_eq!(told.as_deref(), Some("https://a.example/"));
    assert_eq!(referrer(ReferrerPolicy::NoReferrer, "https://a.example/", "https://a.example/")?, None);
    Ok(())
}

#[test]
fn cors() -> Done {
    let star = Headers::of([("Access-Control-Allow-Origin", "*")])?;
    assert!(passes_cors_check("https://a.example", false, &star)?);
    assert!(!passes_cors_check("https://a.example", true, &star)?);
    assert!(is_safelisted("Accept", "text/html")?);
    assert!(!is_safelisted("Content-Type", "application/json")?);
    assert!(is_forbidden_method("trace")?);
    assert!(is_forbidden_header("Cookie", "a")?);
    let asked = Headers::of([("X-B", "1"), ("Accept", "a"), ("X-A", "1")])?;
    assert_eq!(unsafe_names(&asked)?, ["x-a", "x-b"]);
    let corp = Headers::of([("Cross-Origin-Resource-Policy", "same-site")])?;
    assert!(keeps_from("https://a.test/", "https://b.example/", &corp)?);
    Ok(())
}

#[test]
fn answers() -> Done {
    let answer = Headers::of([
        ("X-Content-Type-Options", "nosniff"),
        ("Content-Type", "Text/HTML;a=b"),
        ("X-Total", "40"),
        ("Access-Control-Expose-Headers", "x-total"),
    ])?;
    assert!(says_nosniff(&answer)?);
    assert_eq!(essence(&answer)?.as_deref(), Some("text/html"));
    assert_eq!(exposed_names(&answer, true)?, ["x-total"]);
    let (page, script) = (Client::new("https://a.example/")?, Request::load(Kind::Script, "https://b.example/s")?);
    assert!(is_nosniff_blocked(&script, &answer)?);
    assert!(!is_type_blocked(&script, &answer)?);
    let asked = Request::new("GET", "https://b.example/")?;
    let shown = seen(&page, &asked, 200, &answer, Tainting::Cors)?;
    assert_eq!(shown.status, 200);
    assert_eq!(shown.headers.get("x-total")?, Some(b"40".to_vec()));
    assert_eq!(shown.headers.get("x-content-type-options")?, None);
    assert_eq!(seen(&page, &asked, 200, &answer, Tainting::Opaque)?.status, 0);
    let metadata = "sha384-H8BRh8j48O9oYatfu5AZzq6A9RINhZO5H16dQZngK7T62em8MUt1FLm52t+eX6xO";
    assert!(matches_integrity(metadata, "alert('Hello, world.');")?);
    assert!(!matches_integrity(metadata, "")?);
    Ok(())
}

#[test]
fn policies() -> Done {
    let (page, image) = (Client::new("https://a.example/")?, Request::load(Kind::Image, "http://b.example/i#f")?);
    let enforced = Policies::enforced(["img-src 'self', default-src *; upgrade-insecure-requests"])?;
    let wanted = Violation { policy: 0, enforced: true, directive: "img-src".into(), url: "http://b.example/i".into() };
    assert_eq!(enforced.violations(&page, &image, "", Check::Enforced)?, [wanted]);
    assert_eq!(enforced.violations(&page, &image, "", Check::ReportOnly)?, []);
    assert!(enforced.upgrades()?);
    assert!(is_mixed_upgraded(&page, &image, "")?);
    assert!(!is_mixed_blocked(&page, &image, "https://b.example/")?);
    assert_eq!(is_mixed_blocked(&page, &image, "data:,x"), Err(Error::NotHttp));
    let none = Request::load(Kind::Image, "http://[")?;
    assert_eq!(is_mixed_blocked(&page, &none, ""), Err(Error::NoRequest { fault: None, header: None }));
    assert!(source_matches("https://*.example", "https://a.example/", "https://p.test/", 0)?);
    Ok(())
}

#[test]
fn preflights() -> Done {
    let page = Client::new("https://a.example/")?;
    let mut asked = Request::new("PUT", "https://b.example/d")?;
    asked.header("X-A", "1")?;
    let sent = preflight(&page, &asked)?.expect("a PUT is preflighted");
    assert!(sent.starts_with(b"OPTIONS /d HTTP/1.1\r\n"));
    assert_eq!(preflight(&page, &Request::new("GET", "https://b.example/")?)?, None);
    let mut answer = Headers::of([("Access-Control-Allow-Origin", "*"), ("Access-Control-Allow-Methods", "PUT")])?;
    let refused = Verdict::Refused { error: NetworkError::PreflightHeader, header: Some("x-a".into()) };
    assert_eq!(preflight_verdict(&page, &asked, 204, &answer)?, refused);
    answer.append("Access-Control-Allow-Headers", "*")?;
    assert_eq!(preflight_verdict(&page, &asked, 204, &answer)?, Verdict::Passes { age: 5 });
    Ok(())
}

#[test]
fn books() -> Done {
    assert_eq!(parse_sts("max-age=15 ; includeSubDomains")?, Some(Sts { max_age: 15, include_subdomains: true }));
    assert_eq!(parse_sts("includeSubDomains")?, None);
    let mut book = Book::new()?;
    assert!(book.note("a.example", "max-age=10", 0)?);
    assert!(book.is_known("a.example", 9)?);
    assert!(!book.is_known("a.example", 10)?);
    assert_eq!(book.is_known("a.example", 1 << 48), Err(Error::TooLate));
    assert_eq!(book.is_known("A.example", 0), Err(Error::NotAHost));
    let text = book.export()?;
    assert_eq!(text, b"fiorrudda book 1\nhosts 1\n10 0 9:a.example\nentries 0\n");
    assert_eq!(Book::read(&text)?.export()?, text);
    let fault = Book::read("fiorrudda book 2\n").unwrap_err();
    assert_eq!(fault, Error::NotABook { line: 1, fault: BookFault::OtherFormat });
    assert_eq!(fault.to_string(), "no book: line 1: OtherFormat");
    Ok(())
}

#[test]
fn parts_that_are_not_there() -> Done {
    let (mut load, mut asked) = (Request::load(Kind::Font, "/")?, Request::new("GET", "/")?);
    assert_eq!(load.mode(Mode::Cors).unwrap_err(), Error::NoSuchPart);
    assert_eq!(load.body("x").unwrap_err(), Error::NoSuchPart);
    assert_eq!(asked.nonce("x").unwrap_err(), Error::NoSuchPart);
    assert_eq!(asked.parser(true).unwrap_err(), Error::NoSuchPart);
    Ok(())
}

#[test]
fn plays() -> Done {
    let script = r#"{"format": 1, "servers": [{"origin": "https://a.test", "rules": [{"status": 200, "body": "hi"}]}],
        "documents": [{"url": "https://a.test/", "script": [{"fetch": {"url": "/"}}]}]}"#;
    let text = play(script)?;
    assert!(text.starts_with("fetchplay 1\ndocument 0 https://a.test\nfetch 0\n"), "{text}");
    assert!(text.ends_with("\n  body whole 2: hi\nend finished\nhistory\ndone\n"), "{text}");
    assert_eq!(play("{}"), Err(Error::NotAScenario("/format".into())));
    Ok(())
}

#[test]
fn numbers_have_their_names() {
    assert_eq!(NetworkError::of(12), Some(NetworkError::CorsCheck));
    assert_eq!(NetworkError::CorsCheck.name(), "CorsCheck");
    assert_eq!(NetworkError::of(0), None);
    assert!(NetworkError::ALL.iter().all(|it| NetworkError::of(*it as u32) == Some(*it)));
}
