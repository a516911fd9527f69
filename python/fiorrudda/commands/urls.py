"""What the rules of secure contexts ask of a URL (docs/rules/origins.md, docs/rules/mixed-content.md)."""
from __future__ import annotations

import functools
import ipaddress
import re
from typing import TYPE_CHECKING
from urllib.parse import parse_qsl, urljoin, urlsplit

if TYPE_CHECKING:
    from urllib.parse import SplitResult

# Local Network Access, section 2: of this machine, and of its network.
LOCAL_NETWORKS = ("127.0.0.0/8", "::1/128", "10.0.0.0/8", "172.16.0.0/12", "192.168.0.0/16", "169.254.0.0/16",
                  "100.64.0.0/10", "fc00::/7", "fe80::/10")
# Words of a host or a path that a login has.
LOGIN = re.compile(r"(?<![a-z])(?:log-?[io]n|sign-?in|auth(?:orize|enticate)?|sso|oauth|accounts?|sessions?)(?![a-z])")
# A URL whose authority is a host in lower case alone, as most are.
PLAIN = re.compile(r"[a-z]+://([a-z0-9-]+(?:\.[a-z0-9-]+)*)(?=[/?#]|\Z)")


def scheme_of(url: str) -> str:
    return url.strip().partition(":")[0].lower()


def host_of(url: str) -> str:
    """The host of a URL; an empty text where there is none."""
    plain = PLAIN.match(url)
    if plain:
        return plain.group(1)
    try:
        return urlsplit(url).hostname or ""
    except ValueError:
        return ""


@functools.lru_cache(1024)
def is_address(host: str) -> bool:
    """Whether a host is an IP address."""
    try:
        return bool(ipaddress.ip_address(host))
    except ValueError:
        return False


def is_trustworthy(url: str) -> bool:
    """Whether the URL's origin is potentially trustworthy."""
    host = host_of(url).rstrip(".")
    loopback = is_address(host) and ipaddress.ip_address(host).is_loopback
    return scheme_of(url) in ("https", "wss") or loopback or host == "localhost" or host.endswith(".localhost")


@functools.lru_cache(1024)
def is_local(host: str) -> bool:
    """Whether a host is this machine, or of a local network, as far as its name tells."""
    if not is_address(host):
        return host.rstrip(".").rpartition(".")[2] in ("localhost", "local")
    return any(ipaddress.ip_address(host) in network for network in map(ipaddress.ip_network, LOCAL_NETWORKS))


def is_same_site(origin: str, other: str) -> bool:
    """Whether two origins are of one site, with its scheme. A site is the last two labels (docs/rules/origins.md)."""
    hosts = host_of(origin).rstrip("."), host_of(other).rstrip(".")
    sites = [host if is_address(host) else ".".join(host.split(".")[-2:]) for host in hosts]
    return sites[0] == sites[1] and scheme_of(origin) == scheme_of(other)


def secure(url: str) -> str:
    """The URL with the secure scheme in the place of its own, as an upgrade sets it; as it is where it is none."""
    try:
        parts = urlsplit(url)
    except ValueError:
        return url
    host = parts.netloc[:-4] if parts.netloc.endswith(":443") else parts.netloc
    return parts._replace(scheme="wss" if parts.scheme in ("ws", "wss") else "https", netloc=host).geturl()


def without_user_info(url: str) -> str:
    """The URL without a user name and a password."""
    parts = urlsplit(url)
    return parts._replace(netloc=parts.netloc.rpartition("@")[2]).geturl()


def differences(url: str, other: str) -> list[str] | None:
    """What differs in two http URLs that are likely those of one resource: the same path, but for a slash at its end
    and the case of its letters, with the same query. None where they are not."""
    one, two = urlsplit(url), urlsplit(other)
    path, other_path = one.path or "/", two.path or "/"
    bare, other_bare = path.rstrip("/"), other_path.rstrip("/")
    if (bare.lower(), one.query) != (other_bare.lower(), two.query):
        return None
    rows = [("a slash at its end", path.endswith("/") != other_path.endswith("/")),
            ("the case of its path", bare != other_bare), ("its scheme", one.scheme != two.scheme),
            ("its host", one.hostname != two.hostname), ("its port", port_of(one) != port_of(two))]
    return [name for name, is_other in rows if is_other]


def port_of(parts: SplitResult) -> int | None:
    """The port of a URL; None where it is the one that its scheme has."""
    return None if parts.port == {"http": 80, "https": 443}.get(parts.scheme) else parts.port


def login_words(url: str) -> set[str]:
    """The words of a login that its host and its path have."""
    parts = urlsplit(url)
    text = re.sub("([a-z])([A-Z])", r"\1-\2", parts.netloc.lower() + parts.path).replace("_", "-")
    return set(LOGIN.findall(text.lower()))


def comes_from(url: str, other: str) -> bool:
    """Whether a URL has another one in its query, as that to which it is to lead back."""
    values = [value for _, value in parse_qsl(urlsplit(url).query) if re.match("/|https?:", value)]
    return any(urljoin(other, value).partition("?")[0] == other.partition("?")[0] for value in values)
