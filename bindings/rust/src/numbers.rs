//! The numbers of the C library as enums. Written by embed/header from the sources of the C library: do not edit.

/// A network error, by the rule that refuses.
#[derive(Clone, Copy, Debug, PartialEq, Eq, Hash)]
#[non_exhaustive]
#[repr(u32)]
pub enum NetworkError {
    Scheme = 1,
    BadPort = 2,
    Mixed = 3,
    CspRequest = 4,
    SameOriginMode = 5,
    NoCorsRedirectMode = 6,
    PreflightCors = 7,
    PreflightStatus = 8,
    PreflightList = 9,
    PreflightMethod = 10,
    PreflightHeader = 11,
    CorsCheck = 12,
    Corp = 13,
    RedirectMode = 14,
    BadLocation = 15,
    RedirectScheme = 16,
    TooManyRedirects = 17,
    RedirectCredentials = 18,
    CspResponse = 19,
    Mime = 20,
    NoSniff = 21,
    Integrity = 22,
    Coding = 23,
    LinkFault = 24,
    BadHead = 25,
    HeadTooBig = 26,
}

impl NetworkError {
    /// All of them, in the order of their numbers.
    pub const ALL: &'static [NetworkError] = &[
        NetworkError::Scheme,
        NetworkError::BadPort,
        NetworkError::Mixed,
        NetworkError::CspRequest,
        NetworkError::SameOriginMode,
        NetworkError::NoCorsRedirectMode,
        NetworkError::PreflightCors,
        NetworkError::PreflightStatus,
        NetworkError::PreflightList,
        NetworkError::PreflightMethod,
        NetworkError::PreflightHeader,
        NetworkError::CorsCheck,
        NetworkError::Corp,
        NetworkError::RedirectMode,
        NetworkError::BadLocation,
        NetworkError::RedirectScheme,
        NetworkError::TooManyRedirects,
        NetworkError::RedirectCredentials,
        NetworkError::CspResponse,
        NetworkError::Mime,
        NetworkError::NoSniff,
        NetworkError::Integrity,
        NetworkError::Coding,
        NetworkError::LinkFault,
        NetworkError::BadHead,
        NetworkError::HeadTooBig,
    ];

    /// The one of a number.
    pub fn of(number: u32) -> Option<NetworkError> {
        match number {
            1 => Some(NetworkError::Scheme),
            2 => Some(NetworkError::BadPort),
            3 => Some(NetworkError::Mixed),
            4 => Some(NetworkError::CspRequest),
            5 => Some(NetworkError::SameOriginMode),
            6 => Some(NetworkError::NoCorsRedirectMode),
            7 => Some(NetworkError::PreflightCors),
            8 => Some(NetworkError::PreflightStatus),
            9 => Some(NetworkError::PreflightList),
            10 => Some(NetworkError::PreflightMethod),
            11 => Some(NetworkError::PreflightHeader),
            12 => Some(NetworkError::CorsCheck),
            13 => Some(NetworkError::Corp),
            14 => Some(NetworkError::RedirectMode),
            15 => Some(NetworkError::BadLocation),
            16 => Some(NetworkError::RedirectScheme),
            17 => Some(NetworkError::TooManyRedirects),
            18 => Some(NetworkError::RedirectCredentials),
            19 => Some(NetworkError::CspResponse),
            20 => Some(NetworkError::Mime),
            21 => Some(NetworkError::NoSniff),
            22 => Some(NetworkError::Integrity),
            23 => Some(NetworkError::Coding),
            24 => Some(NetworkError::LinkFault),
            25 => Some(NetworkError::BadHead),
            26 => Some(NetworkError::HeadTooBig),
            _ => None,
        }
    }

    /// Its name, as `fetchplay` prints those of errors and faults.
    pub fn name(self) -> &'static str {
        match self {
            NetworkError::Scheme => "Scheme",
            NetworkError::BadPort => "BadPort",
            NetworkError::Mixed => "Mixed",
            NetworkError::CspRequest => "CspRequest",
            NetworkError::SameOriginMode => "SameOriginMode",
            NetworkError::NoCorsRedirectMode => "NoCorsRedirectMode",
            NetworkError::PreflightCors => "PreflightCors",
            NetworkError::PreflightStatus => "PreflightStatus",
            NetworkError::PreflightList => "PreflightList",
            NetworkError::PreflightMethod => "PreflightMethod",
            NetworkError::PreflightHeader => "PreflightHeader",
            NetworkError::CorsCheck => "CorsCheck",
            NetworkError::Corp => "Corp",
            NetworkError::RedirectMode => "RedirectMode",
            NetworkError::BadLocation => "BadLocation",
            NetworkError::RedirectScheme => "RedirectScheme",
            NetworkError::TooManyRedirects => "TooManyRedirects",
            NetworkError::RedirectCredentials => "RedirectCredentials",
            NetworkError::CspResponse => "CspResponse",
            NetworkError::Mime => "Mime",
            NetworkError::NoSniff => "NoSniff",
            NetworkError::Integrity => "Integrity",
            NetworkError::Coding => "Coding",
            NetworkError::LinkFault => "LinkFault",
            NetworkError::BadHead => "BadHead",
            NetworkError::HeadTooBig => "HeadTooBig",
        }
    }
}

impl std::fmt::Display for NetworkError {
    fn fmt(&self, into: &mut std::fmt::Formatter<'_>) -> std::fmt::Result {
        into.write_str(self.name())
    }
}

/// Why no request can be made of what is asked for.
#[derive(Clone, Copy, Debug, PartialEq, Eq, Hash)]
#[non_exhaustive]
#[repr(u32)]
pub enum RequestFault {
    BadUrl = 1,
    UrlCredentials = 2,
    BadMethod = 3,
    ForbiddenMethod = 4,
    BodyWithGet = 5,
    NoCorsMethod = 6,
    BadHeader = 7,
    NavigateMode = 8,
    TooLong = 9,
    LongUrl = 10,
}

impl RequestFault {
    /// All of them, in the order of their numbers.
    pub const ALL: &'static [RequestFault] = &[
        RequestFault::BadUrl,
        RequestFault::UrlCredentials,
        RequestFault::BadMethod,
        RequestFault::ForbiddenMethod,
        RequestFault::BodyWithGet,
        RequestFault::NoCorsMethod,
        RequestFault::BadHeader,
        RequestFault::NavigateMode,
        RequestFault::TooLong,
        RequestFault::LongUrl,
    ];

    /// The one of a number.
    pub fn of(number: u32) -> Option<RequestFault> {
        match number {
            1 => Some(RequestFault::BadUrl),
            2 => Some(RequestFault::UrlCredentials),
            3 => Some(RequestFault::BadMethod),
            4 => Some(RequestFault::ForbiddenMethod),
            5 => Some(RequestFault::BodyWithGet),
            6 => Some(RequestFault::NoCorsMethod),
            7 => Some(RequestFault::BadHeader),
            8 => Some(RequestFault::NavigateMode),
            9 => Some(RequestFault::TooLong),
            10 => Some(RequestFault::LongUrl),
            _ => None,
        }
    }

    /// Its name, as `fetchplay` prints those of errors and faults.
    pub fn name(self) -> &'static str {
        match self {
            RequestFault::BadUrl => "BadUrl",
            RequestFault::UrlCredentials => "UrlCredentials",
            RequestFault::BadMethod => "BadMethod",
            RequestFault::ForbiddenMethod => "ForbiddenMethod",
            RequestFault::BodyWithGet => "BodyWithGet",
            RequestFault::NoCorsMethod => "NoCorsMethod",
            RequestFault::BadHeader => "BadHeader",
            RequestFault::NavigateMode => "NavigateMode",
            RequestFault::TooLong => "TooLong",
            RequestFault::LongUrl => "LongUrl",
        }
    }
}

impl std::fmt::Display for RequestFault {
    fn fmt(&self, into: &mut std::fmt::Formatter<'_>) -> std::fmt::Result {
        into.write_str(self.name())
    }
}

/// What an element loads.
#[derive(Clone, Copy, Debug, PartialEq, Eq, Hash)]
#[non_exhaustive]
#[repr(u32)]
pub enum Kind {
    Image = 1,
    Audio = 2,
    Video = 3,
    Style = 4,
    Script = 5,
    Font = 6,
    Manifest = 7,
}

impl Kind {
    /// All of them, in the order of their numbers.
    pub const ALL: &'static [Kind] = &[
        Kind::Image,
        Kind::Audio,
        Kind::Video,
        Kind::Style,
        Kind::Script,
        Kind::Font,
        Kind::Manifest,
    ];

    /// The one of a number.
    pub fn of(number: u32) -> Option<Kind> {
        match number {
            1 => Some(Kind::Image),
            2 => Some(Kind::Audio),
            3 => Some(Kind::Video),
            4 => Some(Kind::Style),
            5 => Some(Kind::Script),
            6 => Some(Kind::Font),
            7 => Some(Kind::Manifest),
            _ => None,
        }
    }

    /// Its name, as `fetchplay` prints those of errors and faults.
    pub fn name(self) -> &'static str {
        match self {
            Kind::Image => "Image",
            Kind::Audio => "Audio",
            Kind::Video => "Video",
            Kind::Style => "Style",
            Kind::Script => "Script",
            Kind::Font => "Font",
            Kind::Manifest => "Manifest",
        }
    }
}

impl std::fmt::Display for Kind {
    fn fmt(&self, into: &mut std::fmt::Formatter<'_>) -> std::fmt::Result {
        into.write_str(self.name())
    }
}

/// The mode of a request (Fetch, section 2.2.5).
#[derive(Clone, Copy, Debug, PartialEq, Eq, Hash)]
#[non_exhaustive]
#[repr(u32)]
pub enum Mode {
    SameOrigin = 0,
    NoCors = 1,
    Cors = 2,
    Navigate = 3,
}

impl Mode {
    /// All of them, in the order of their numbers.
    pub const ALL: &'static [Mode] = &[
        Mode::SameOrigin,
        Mode::NoCors,
        Mode::Cors,
        Mode::Navigate,
    ];

    /// The one of a number.
    pub fn of(number: u32) -> Option<Mode> {
        match number {
            0 => Some(Mode::SameOrigin),
            1 => Some(Mode::NoCors),
            2 => Some(Mode::Cors),
            3 => Some(Mode::Navigate),
            _ => None,
        }
    }

    /// Its name, as `fetchplay` prints those of errors and faults.
    pub fn name(self) -> &'static str {
        match self {
            Mode::SameOrigin => "SameOrigin",
            Mode::NoCors => "NoCors",
            Mode::Cors => "Cors",
            Mode::Navigate => "Navigate",
        }
    }
}

impl std::fmt::Display for Mode {
    fn fmt(&self, into: &mut std::fmt::Formatter<'_>) -> std::fmt::Result {
        into.write_str(self.name())
    }
}

/// The credentials mode of a request (Fetch, section 2.2.5).
#[derive(Clone, Copy, Debug, PartialEq, Eq, Hash)]
#[non_exhaustive]
#[repr(u32)]
pub enum Credentials {
    Omit = 0,
    SameOrigin = 1,
    Include = 2,
}

impl Credentials {
    /// All of them, in the order of their numbers.
    pub const ALL: &'static [Credentials] = &[
        Credentials::Omit,
        Credentials::SameOrigin,
        Credentials::Include,
    ];

    /// The one of a number.
    pub fn of(number: u32) -> Option<Credentials> {
        match number {
            0 => Some(Credentials::Omit),
            1 => Some(Credentials::SameOrigin),
            2 => Some(Credentials::Include),
            _ => None,
        }
    }

    /// Its name, as `fetchplay` prints those of errors and faults.
    pub fn name(self) -> &'static str {
        match self {
            Credentials::Omit => "Omit",
            Credentials::SameOrigin => "SameOrigin",
            Credentials::Include => "Include",
        }
    }
}

impl std::fmt::Display for Credentials {
    fn fmt(&self, into: &mut std::fmt::Formatter<'_>) -> std::fmt::Result {
        into.write_str(self.name())
    }
}

/// The redirect mode of a request (Fetch, section 2.2.5).
#[derive(Clone, Copy, Debug, PartialEq, Eq, Hash)]
#[non_exhaustive]
#[repr(u32)]
pub enum Redirect {
    Follow = 0,
    Error = 1,
    Manual = 2,
}

impl Redirect {
    /// All of them, in the order of their numbers.
    pub const ALL: &'static [Redirect] = &[
        Redirect::Follow,
        Redirect::Error,
        Redirect::Manual,
    ];

    /// The one of a number.
    pub fn of(number: u32) -> Option<Redirect> {
        match number {
            0 => Some(Redirect::Follow),
            1 => Some(Redirect::Error),
            2 => Some(Redirect::Manual),
            _ => None,
        }
    }

    /// Its name, as `fetchplay` prints those of errors and faults.
    pub fn name(self) -> &'static str {
        match self {
            Redirect::Follow => "Follow",
            Redirect::Error => "Error",
            Redirect::Manual => "Manual",
        }
    }
}

impl std::fmt::Display for Redirect {
    fn fmt(&self, into: &mut std::fmt::Formatter<'_>) -> std::fmt::Result {
        into.write_str(self.name())
    }
}

/// The `crossorigin` attribute of an element that loads.
#[derive(Clone, Copy, Debug, PartialEq, Eq, Hash)]
#[non_exhaustive]
#[repr(u32)]
pub enum CrossOrigin {
    Absent = 0,
    Anonymous = 1,
    UseCredentials = 2,
}

impl CrossOrigin {
    /// All of them, in the order of their numbers.
    pub const ALL: &'static [CrossOrigin] = &[
        CrossOrigin::Absent,
        CrossOrigin::Anonymous,
        CrossOrigin::UseCredentials,
    ];

    /// The one of a number.
    pub fn of(number: u32) -> Option<CrossOrigin> {
        match number {
            0 => Some(CrossOrigin::Absent),
            1 => Some(CrossOrigin::Anonymous),
            2 => Some(CrossOrigin::UseCredentials),
            _ => None,
        }
    }

    /// Its name, as `fetchplay` prints those of errors and faults.
    pub fn name(self) -> &'static str {
        match self {
            CrossOrigin::Absent => "Absent",
            CrossOrigin::Anonymous => "Anonymous",
            CrossOrigin::UseCredentials => "UseCredentials",
        }
    }
}

impl std::fmt::Display for CrossOrigin {
    fn fmt(&self, into: &mut std::fmt::Formatter<'_>) -> std::fmt::Result {
        into.write_str(self.name())
    }
}

/// A referrer policy (Referrer Policy, section 3).
#[derive(Clone, Copy, Debug, PartialEq, Eq, Hash)]
#[non_exhaustive]
#[repr(u32)]
pub enum ReferrerPolicy {
    Default = 0,
    NoReferrer = 1,
    NoReferrerWhenDowngrade = 2,
    SameOrigin = 3,
    Origin = 4,
    StrictOrigin = 5,
    OriginWhenCrossOrigin = 6,
    StrictOriginWhenCrossOrigin = 7,
    UnsafeUrl = 8,
}

impl ReferrerPolicy {
    /// All of them, in the order of their numbers.
    pub const ALL: &'static [ReferrerPolicy] = &[
        ReferrerPolicy::Default,
        ReferrerPolicy::NoReferrer,
        ReferrerPolicy::NoReferrerWhenDowngrade,
        ReferrerPolicy::SameOrigin,
        ReferrerPolicy::Origin,
        ReferrerPolicy::StrictOrigin,
        ReferrerPolicy::OriginWhenCrossOrigin,
        ReferrerPolicy::StrictOriginWhenCrossOrigin,
        ReferrerPolicy::UnsafeUrl,
    ];

    /// The one of a number.
    pub fn of(number: u32) -> Option<ReferrerPolicy> {
        match number {
            0 => Some(ReferrerPolicy::Default),
            1 => Some(ReferrerPolicy::NoReferrer),
            2 => Some(ReferrerPolicy::NoReferrerWhenDowngrade),
            3 => Some(ReferrerPolicy::SameOrigin),
            4 => Some(ReferrerPolicy::Origin),
            5 => Some(ReferrerPolicy::StrictOrigin),
            6 => Some(ReferrerPolicy::OriginWhenCrossOrigin),
            7 => Some(ReferrerPolicy::StrictOriginWhenCrossOrigin),
            8 => Some(ReferrerPolicy::UnsafeUrl),
            _ => None,
        }
    }

    /// Its name, as `fetchplay` prints those of errors and faults.
    pub fn name(self) -> &'static str {
        match self {
            ReferrerPolicy::Default => "Default",
            ReferrerPolicy::NoReferrer => "NoReferrer",
            ReferrerPolicy::NoReferrerWhenDowngrade => "NoReferrerWhenDowngrade",
            ReferrerPolicy::SameOrigin => "SameOrigin",
            ReferrerPolicy::Origin => "Origin",
            ReferrerPolicy::StrictOrigin => "StrictOrigin",
            ReferrerPolicy::OriginWhenCrossOrigin => "OriginWhenCrossOrigin",
            ReferrerPolicy::StrictOriginWhenCrossOrigin => "StrictOriginWhenCrossOrigin",
            ReferrerPolicy::UnsafeUrl => "UnsafeUrl",
        }
    }
}

impl std::fmt::Display for ReferrerPolicy {
    fn fmt(&self, into: &mut std::fmt::Formatter<'_>) -> std::fmt::Result {
        into.write_str(self.name())
    }
}

/// A response tainting (Fetch, section 2.2.5).
#[derive(Clone, Copy, Debug, PartialEq, Eq, Hash)]
#[non_exhaustive]
#[repr(u32)]
pub enum Tainting {
    /// Response taintings (Fetch, section 2.2.5): of an answer of the page's own origin.
    Basic = 0,
    /// Of an answer of another origin that passed the CORS check.
    Cors = 1,
    /// Of an answer of another origin, to a request in mode no-cors.
    Opaque = 2,
}

impl Tainting {
    /// All of them, in the order of their numbers.
    pub const ALL: &'static [Tainting] = &[
        Tainting::Basic,
        Tainting::Cors,
        Tainting::Opaque,
    ];

    /// The one of a number.
    pub fn of(number: u32) -> Option<Tainting> {
        match number {
            0 => Some(Tainting::Basic),
            1 => Some(Tainting::Cors),
            2 => Some(Tainting::Opaque),
            _ => None,
        }
    }

    /// Its name, as `fetchplay` prints those of errors and faults.
    pub fn name(self) -> &'static str {
        match self {
            Tainting::Basic => "Basic",
            Tainting::Cors => "Cors",
            Tainting::Opaque => "Opaque",
        }
    }
}

impl std::fmt::Display for Tainting {
    fn fmt(&self, into: &mut std::fmt::Formatter<'_>) -> std::fmt::Result {
        into.write_str(self.name())
    }
}

/// Which policies are asked, and of what.
#[derive(Clone, Copy, Debug, PartialEq, Eq, Hash)]
#[non_exhaustive]
#[repr(u32)]
pub enum Check {
    /// Checks of a request: by the enforced policies, before it is sent.
    Enforced = 0,
    /// By the report-only policies, before it is sent.
    ReportOnly = 1,
    /// By all policies, of its response.
    Response = 2,
}

impl Check {
    /// All of them, in the order of their numbers.
    pub const ALL: &'static [Check] = &[
        Check::Enforced,
        Check::ReportOnly,
        Check::Response,
    ];

    /// The one of a number.
    pub fn of(number: u32) -> Option<Check> {
        match number {
            0 => Some(Check::Enforced),
            1 => Some(Check::ReportOnly),
            2 => Some(Check::Response),
            _ => None,
        }
    }

    /// Its name, as `fetchplay` prints those of errors and faults.
    pub fn name(self) -> &'static str {
        match self {
            Check::Enforced => "Enforced",
            Check::ReportOnly => "ReportOnly",
            Check::Response => "Response",
        }
    }
}

impl std::fmt::Display for Check {
    fn fmt(&self, into: &mut std::fmt::Formatter<'_>) -> std::fmt::Result {
        into.write_str(self.name())
    }
}

/// How a body ended.
#[derive(Clone, Copy, Debug, PartialEq, Eq, Hash)]
#[non_exhaustive]
#[repr(u32)]
pub enum BodyEnd {
    Null = 0,
    Whole = 1,
    Cut = 2,
    Fault = 3,
    TooBig = 4,
}

impl BodyEnd {
    /// All of them, in the order of their numbers.
    pub const ALL: &'static [BodyEnd] = &[
        BodyEnd::Null,
        BodyEnd::Whole,
        BodyEnd::Cut,
        BodyEnd::Fault,
        BodyEnd::TooBig,
    ];

    /// The one of a number.
    pub fn of(number: u32) -> Option<BodyEnd> {
        match number {
            0 => Some(BodyEnd::Null),
            1 => Some(BodyEnd::Whole),
            2 => Some(BodyEnd::Cut),
            3 => Some(BodyEnd::Fault),
            4 => Some(BodyEnd::TooBig),
            _ => None,
        }
    }

    /// Its name, as `fetchplay` prints those of errors and faults.
    pub fn name(self) -> &'static str {
        match self {
            BodyEnd::Null => "Null",
            BodyEnd::Whole => "Whole",
            BodyEnd::Cut => "Cut",
            BodyEnd::Fault => "Fault",
            BodyEnd::TooBig => "TooBig",
        }
    }
}

impl std::fmt::Display for BodyEnd {
    fn fmt(&self, into: &mut std::fmt::Formatter<'_>) -> std::fmt::Result {
        into.write_str(self.name())
    }
}

/// What a book is asked or told.
#[derive(Clone, Copy, Debug, PartialEq, Eq, Hash)]
#[non_exhaustive]
#[repr(u32)]
pub enum CallKind {
    /// What a book is asked or told: is a host known?
    Match = 0,
    /// A host becomes known.
    Note = 1,
    /// Does the preflight cache cover a request?
    Covers = 2,
    /// The preflight cache learns what a preflight allowed.
    Learn = 3,
    /// It forgets what it has learnt of an origin and a URL.
    Clear = 4,
}

impl CallKind {
    /// All of them, in the order of their numbers.
    pub const ALL: &'static [CallKind] = &[
        CallKind::Match,
        CallKind::Note,
        CallKind::Covers,
        CallKind::Learn,
        CallKind::Clear,
    ];

    /// The one of a number.
    pub fn of(number: u32) -> Option<CallKind> {
        match number {
            0 => Some(CallKind::Match),
            1 => Some(CallKind::Note),
            2 => Some(CallKind::Covers),
            3 => Some(CallKind::Learn),
            4 => Some(CallKind::Clear),
            _ => None,
        }
    }

    /// Its name, as `fetchplay` prints those of errors and faults.
    pub fn name(self) -> &'static str {
        match self {
            CallKind::Match => "Match",
            CallKind::Note => "Note",
            CallKind::Covers => "Covers",
            CallKind::Learn => "Learn",
            CallKind::Clear => "Clear",
        }
    }
}

impl std::fmt::Display for CallKind {
    fn fmt(&self, into: &mut std::fmt::Formatter<'_>) -> std::fmt::Result {
        into.write_str(self.name())
    }
}

/// Why a text is not that of a book.
#[derive(Clone, Copy, Debug, PartialEq, Eq, Hash)]
#[non_exhaustive]
#[repr(u32)]
pub enum BookFault {
    /// Why a text is not that of a book: its first line does not begin as that of a book.
    NoBook = 0,
    /// Its first line begins so, but is not that of this format: another version, other line ends,
    /// or cut short.
    OtherFormat = 1,
    /// The line is not what stands at its place, or not whole.
    BadLine = 2,
    /// The line's host does not come after the one before it, or its key comes before that of the
    /// entry before it.
    Order = 3,
    /// The key of the line's entry has 64 entries before it.
    Full = 4,
    /// The text goes on behind its last line.
    TooLong = 5,
}

impl BookFault {
    /// All of them, in the order of their numbers.
    pub const ALL: &'static [BookFault] = &[
        BookFault::NoBook,
        BookFault::OtherFormat,
        BookFault::BadLine,
        BookFault::Order,
        BookFault::Full,
        BookFault::TooLong,
    ];

    /// The one of a number.
    pub fn of(number: u32) -> Option<BookFault> {
        match number {
            0 => Some(BookFault::NoBook),
            1 => Some(BookFault::OtherFormat),
            2 => Some(BookFault::BadLine),
            3 => Some(BookFault::Order),
            4 => Some(BookFault::Full),
            5 => Some(BookFault::TooLong),
            _ => None,
        }
    }

    /// Its name, as `fetchplay` prints those of errors and faults.
    pub fn name(self) -> &'static str {
        match self {
            BookFault::NoBook => "NoBook",
            BookFault::OtherFormat => "OtherFormat",
            BookFault::BadLine => "BadLine",
            BookFault::Order => "Order",
            BookFault::Full => "Full",
            BookFault::TooLong => "TooLong",
        }
    }
}

impl std::fmt::Display for BookFault {
    fn fmt(&self, into: &mut std::fmt::Formatter<'_>) -> std::fmt::Result {
        into.write_str(self.name())
    }
}
