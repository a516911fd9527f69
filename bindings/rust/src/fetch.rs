//! A whole fetch, by its acts.

use crate::asked::{Client, Request};
use crate::book::Book;
use crate::error::{told, Error, Result};
use crate::handle::{each, word, written, Owned};
use crate::numbers::{BodyEnd, CallKind, NetworkError};
use crate::policies::{listed, Violation};
use crate::sys;

/// A whole fetch that touches nothing (Fetch, section 4): it says what is to be done, and is told what came of it.
///
/// ```
/// use fiorrudda::{Act, Book, Client, Fetch, Outcome, Request};
///
/// let (page, asked) = (Client::new("https://app.example/")?, Request::new("GET", "/cart")?);
/// let (mut book, mut fetch) = (Book::new()?, Fetch::begin(&page, &asked, 0, 1 << 20)?);
/// let mut answer: &[u8] = b"HTTP/1.1 200 OK\r\nContent-Length: 2\r\n\r\nhi";
/// let mut violations = fetch.judge(&mut book)?;
/// while let Some(act) = fetch.act()? {
///     match act {
///         Act::Send(_) => fetch.sent()?, // over a connection to the server of its origin
///         _ => answer = &answer[fetch.feed(answer)?..],
///     }
///     violations.extend(fetch.judge(&mut book)?);
/// }
/// match fetch.outcome()? {
///     Some(Outcome::Response(it)) => assert_eq!((it.status, it.body), (200, Some(b"hi".to_vec()))),
///     other => panic!("{other:?}"),
/// }
/// # Ok::<(), fiorrudda::Error>(())
/// ```
#[derive(Debug)]
pub struct Fetch(Owned);

/// What a fetch does next.
#[derive(Clone, Debug, PartialEq, Eq)]
pub enum Act {
    /// The book is to be asked or told: [`Fetch::ask`], or [`Fetch::reply`] with what another book says.
    Ask(Call),
    /// A request is to be sent: [`Fetch::sent`] or [`Fetch::failed`].
    Send(Sent),
    /// The head of the answer is to be read: [`Fetch::feed`], [`Fetch::ended`] or [`Fetch::failed`].
    ReadHead,
    /// The body is to be read, in the same way: first what was left of the last piece, be there some or none.
    ReadBody,
    /// The document is to be told of a violation of its policies: [`Fetch::told`].
    Tell(Told),
}

/// A call of the book, at a time, with what is of that kind.
#[derive(Clone, Debug, PartialEq, Eq)]
pub struct Call {
    /// What it asks or tells.
    pub kind: CallKind,
    /// When, in seconds.
    pub time: u64,
    /// The host that is asked for or noted.
    pub host: Option<String>,
    /// For how many seconds a host or an entry is known.
    pub age: Option<u64>,
    /// Whether the names under the host are known too.
    pub include_subdomains: Option<bool>,
    /// The key of the preflight cache's part.
    pub key: Option<String>,
    /// The origin of the request.
    pub origin: Option<String>,
    /// The URL of the request.
    pub url: Option<String>,
    /// Whether the credentials mode is include.
    pub include: Option<bool>,
    /// The method that the preflight cache is asked for.
    pub method: Option<String>,
    /// The header names that it is asked for or learns.
    pub names: Vec<String>,
    /// The methods that it learns.
    pub methods: Vec<String>,
}

/// A request that is to be sent.
#[derive(Clone, Debug, PartialEq, Eq)]
pub struct Sent {
    /// The server's serialised origin.
    pub origin: String,
    /// All its bytes.
    pub request: Vec<u8>,
    /// Whether it is a preflight.
    pub preflight: bool,
    /// Its method.
    pub method: String,
    /// Its target.
    pub url: String,
    /// Its headers.
    pub headers: Vec<(Vec<u8>, Vec<u8>)>,
    /// Its body.
    pub body: Option<Vec<u8>>,
}

/// A violation that the document is told of.
#[derive(Clone, Debug, PartialEq, Eq)]
pub struct Told {
    /// The policy's number.
    pub policy: u64,
    /// Whether it is enforced.
    pub enforced: bool,
    /// The effective directive.
    pub directive: String,
    /// The URL that is reported.
    pub url: String,
}

/// What a fetch came to.
#[derive(Clone, Debug, PartialEq, Eq)]
pub enum Outcome {
    /// A response as a script sees it.
    Response(Response),
    /// A load that succeeded.
    Loaded,
    /// A network error, and the header that a preflight did not allow.
    Error {
        /// The error.
        error: NetworkError,
        /// The header.
        header: Option<String>,
    },
}

/// A response as a script sees it.
#[derive(Clone, Debug, PartialEq, Eq)]
pub struct Response {
    /// `basic`, `cors`, `opaque` or `opaqueredirect`.
    pub kind: String,
    /// The status, or 0.
    pub status: u64,
    /// The URL.
    pub url: Option<String>,
    /// The headers.
    pub headers: Vec<(Vec<u8>, Vec<u8>)>,
    /// How the body ended.
    pub end: BodyEnd,
    /// How many bytes of it came.
    pub count: Option<u64>,
    /// The body, where it came whole.
    pub body: Option<Vec<u8>>,
}

impl Fetch {
    /// Begins the fetch of a request for a client, at a time in seconds, with bodies of at most `limit` bytes. All
    /// fetches that ask one book count from one moment. [`Error::NoRequest`] where no request can be made of it.
    pub fn begin(client: &Client, request: &Request, now: u64, limit: u32) -> Result<Fetch> {
        let (made, mut fault, mut header) = (Owned::empty(), 0, 0);
        // SAFETY: the handles are three, and nothing else has them; the numbers are lent to this call alone.
        let code = unsafe {
            sys::fiorrudda_fetch(
                made.lent(),
                client.0.lent(),
                request.0.lent(),
                now,
                limit,
                &mut fault,
                &mut header,
            )
        };
        match code {
            sys::OK => Ok(Fetch(made)),
            sys::NO_REQUEST => Err(Error::NoRequest {
                fault: crate::numbers::RequestFault::of(fault),
                header: (fault == sys::FAULT_BAD_HEADER).then_some(header as usize),
            }),
            other => Err(Error::of(other)),
        }
    }

    /// What is to be done next; nothing, once the fetch is over. [`Error::OutOfMemory`] where it was lost for that.
    pub fn act(&self) -> Result<Option<Act>> {
        Ok(match self.act_number()? {
            sys::ACT_OVER => None,
            sys::ACT_ASK => Some(Act::Ask(self.asks()?)),
            sys::ACT_SEND => Some(Act::Send(self.sends()?)),
            sys::ACT_READ_HEAD => Some(Act::ReadHead),
            sys::ACT_READ_BODY => Some(Act::ReadBody),
            sys::ACT_TELL => Some(Act::Tell(self.tells()?)),
            sys::ACT_GONE => return Err(Error::OutOfMemory),
            other => return Err(Error::Unknown(other)),
        })
    }

    /// Goes on without the network: asks a book, and tells the document of violations, until something is to be sent or
    /// read, or the fetch is over. The violations on the way, report-only ones too, as [`Act::Tell`] tells each.
    ///
    /// ```
    /// use fiorrudda::{Act, Book, Client, Fetch, Kind, Request};
    ///
    /// let mut page = Client::new("https://app.example/")?;
    /// page.policy("img-src 'self'; upgrade-insecure-requests", true)?;
    /// let asked = Request::load(Kind::Image, "http://app.example/i")?;
    /// let mut fetch = Fetch::begin(&page, &asked, 0, 0)?;
    /// assert!(fetch.judge(&mut Book::new()?)?.is_empty());
    /// match fetch.act()? {
    ///     Some(Act::Send(it)) => assert_eq!(it.origin, "https://app.example"),
    ///     other => panic!("{other:?}"), // it is over, and `outcome` says why
    /// }
    /// # Ok::<(), fiorrudda::Error>(())
    /// ```
    pub fn judge(&mut self, book: &mut Book) -> Result<Vec<Violation>> {
        let (found, mut on_the_way, mut act) = (Owned::empty(), Vec::new(), sys::ACT_ASK);
        // A call that goes on for long ends before the network is needed.
        while act == sys::ACT_ASK || act == sys::ACT_TELL {
            // SAFETY: the handles are three, and nothing else has them; the number is lent to this call alone.
            told(unsafe {
                sys::fiorrudda_judge(self.0.lent(), book.0.lent(), found.lent(), &mut act)
            })?;
            on_the_way.extend(listed(&found)?);
        }
        Ok(on_the_way)
    }

    /// Asks a book what the act asks. Its reply to a question is a bool.
    pub fn ask(&mut self, book: &mut Book) -> Result<Option<bool>> {
        let mut reply = 0;
        // SAFETY: the handles are two, and nothing else has them; the number is lent to this call alone.
        told(unsafe { sys::fiorrudda_ask(self.0.lent(), book.0.lent(), &mut reply) })?;
        Ok(match reply {
            sys::INPUT_YES => Some(true),
            sys::INPUT_NO => Some(false),
            _ => None,
        })
    }

    /// What a book of the caller's own replied: a bool to a question, and else nothing.
    pub fn reply(&mut self, reply: Option<bool>) -> Result<()> {
        self.input(match reply {
            None => sys::INPUT_DONE,
            Some(true) => sys::INPUT_YES,
            Some(false) => sys::INPUT_NO,
        })
    }

    /// The request was sent.
    pub fn sent(&mut self) -> Result<()> {
        self.input(sys::INPUT_SENT)
    }

    /// The document was told.
    pub fn told(&mut self) -> Result<()> {
        self.input(sys::INPUT_TOLD)
    }

    /// The answer ended: no more bytes come.
    pub fn ended(&mut self) -> Result<()> {
        self.input(sys::INPUT_ENDED)
    }

    /// The connection failed.
    pub fn failed(&mut self) -> Result<()> {
        self.input(sys::INPUT_FAILED)
    }

    /// The next bytes of the answer came: how many of them were read. Those behind a head are fed again.
    pub fn feed(&mut self, piece: &[u8]) -> Result<usize> {
        let mut used = 0;
        // SAFETY: the slice is as long as is said, and nothing else has the handle.
        told(unsafe {
            sys::fiorrudda_feed(self.0.lent(), piece.as_ptr(), piece.len(), &mut used)
        })?;
        Ok(used)
    }

    /// What it came to, once it is over.
    pub fn outcome(&self) -> Result<Option<Outcome>> {
        if self.act_number()? != sys::ACT_OVER {
            return Ok(None);
        }
        Ok(Some(match self.known(sys::NUMBER_OUTCOME)? as u32 {
            sys::OUTCOME_RESPONSE => Outcome::Response(self.response()?),
            sys::OUTCOME_LOADED => Outcome::Loaded,
            _ => {
                let number = self.known(sys::NUMBER_ERROR)? as u32;
                let error = NetworkError::of(number).ok_or(Error::Unknown(number))?;
                Outcome::Error { error, header: self.word(sys::TEXT_REFUSED)? }
            }
        }))
    }

    fn response(&self) -> Result<Response> {
        let end = self.known(sys::NUMBER_END)? as u32;
        Ok(Response {
            kind: self.word(sys::TEXT_WORD)?.unwrap_or_default(),
            status: self.known(sys::NUMBER_STATUS)?,
            url: self.word(sys::TEXT_URL)?,
            headers: self.headers()?,
            end: BodyEnd::of(end).ok_or(Error::Unknown(end))?,
            count: self.number(sys::NUMBER_COUNT)?,
            body: self.text(sys::TEXT_BODY)?,
        })
    }

    fn asks(&self) -> Result<Call> {
        let kind = self.known(sys::NUMBER_CALL)? as u32;
        Ok(Call {
            kind: CallKind::of(kind).ok_or(Error::Unknown(kind))?,
            time: self.known(sys::NUMBER_TIME)?,
            host: self.word(sys::TEXT_HOST)?,
            age: self.number(sys::NUMBER_AGE)?,
            include_subdomains: self.flag(sys::NUMBER_SUBDOMAINS)?,
            key: self.word(sys::TEXT_KEY)?,
            origin: self.word(sys::TEXT_ORIGIN)?,
            url: self.word(sys::TEXT_URL)?,
            include: self.flag(sys::NUMBER_INCLUDE)?,
            method: self.word(sys::TEXT_METHOD)?,
            names: self.texts(sys::TEXT_NAME)?.into_iter().map(word).collect(),
            methods: self.texts(sys::TEXT_LEARNT)?.into_iter().map(word).collect(),
        })
    }

    fn sends(&self) -> Result<Sent> {
        // SAFETY: nothing else has the handle, and the room is another.
        let request = written(|room, size, len| unsafe {
            sys::fiorrudda_to_send(self.0.lent(), room, size, len)
        })?;
        Ok(Sent {
            origin: self.word(sys::TEXT_ORIGIN)?.unwrap_or_default(),
            request: request.unwrap_or_default(),
            preflight: self.flag(sys::NUMBER_PREFLIGHT)?.unwrap_or_default(),
            method: self.word(sys::TEXT_METHOD)?.unwrap_or_default(),
            url: self.word(sys::TEXT_URL)?.unwrap_or_default(),
            headers: self.headers()?,
            body: self.text(sys::TEXT_BODY)?,
        })
    }

    fn tells(&self) -> Result<Told> {
        Ok(Told {
            policy: self.known(sys::NUMBER_POLICY)?,
            enforced: self.flag(sys::NUMBER_ENFORCED)?.unwrap_or_default(),
            directive: self.word(sys::TEXT_WORD)?.unwrap_or_default(),
            url: self.word(sys::TEXT_URL)?.unwrap_or_default(),
        })
    }

    fn act_number(&self) -> Result<u32> {
        let mut act = 0;
        // SAFETY: nothing else has the handle; the number is lent to this call alone.
        told(unsafe { sys::fiorrudda_act(self.0.lent(), &mut act) })?;
        Ok(act)
    }

    fn input(&mut self, number: u32) -> Result<()> {
        // SAFETY: nothing else has the handle.
        told(unsafe { sys::fiorrudda_input(self.0.lent(), number) })?;
        Ok(())
    }

    fn number(&self, which: u32) -> Result<Option<u64>> {
        let mut number = 0;
        // SAFETY: as above; the number is lent to this call alone.
        let is_there =
            told(unsafe { sys::fiorrudda_number(self.0.lent(), which, &mut number) })?;
        Ok(is_there.then_some(number))
    }

    /// A number that each act or outcome of this kind has.
    fn known(&self, which: u32) -> Result<u64> {
        self.number(which)?.ok_or(Error::NoSuchPart)
    }

    fn flag(&self, which: u32) -> Result<Option<bool>> {
        Ok(self.number(which)?.map(|number| number == 1))
    }

    fn text(&self, which: u32) -> Result<Option<Vec<u8>>> {
        // SAFETY: nothing else has the handle, and the room is another.
        written(|room, size, len| unsafe {
            sys::fiorrudda_text(self.0.lent(), which, 0, room, size, len)
        })
    }

    fn word(&self, which: u32) -> Result<Option<String>> {
        Ok(self.text(which)?.map(word))
    }

    fn texts(&self, which: u32) -> Result<Vec<Vec<u8>>> {
        // SAFETY: as above.
        each(|at, room, size, len| unsafe {
            sys::fiorrudda_text(self.0.lent(), which, at, room, size, len)
        })
    }

    fn headers(&self) -> Result<Vec<(Vec<u8>, Vec<u8>)>> {
        let names = self.texts(sys::TEXT_HEADER_NAME)?;
        Ok(names.into_iter().zip(self.texts(sys::TEXT_HEADER_VALUE)?).collect())
    }
}
