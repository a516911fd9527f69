"""What browsers call a failure in a recording, as far as it is no matter of a fetch's rules."""
from __future__ import annotations

import re
from typing import Optional

NETWORK = [
    (r"NAME_NOT_RESOLVED|NAME_RESOLUTION|UNKNOWN_HOST|Name or service not known", "the name of the host was not found"),
    (r"CERT|SSL|TLS|SEC_ERROR|BAD_CERT|Certificate", "TLS failed, or the certificate is not trusted"),
    (r"CONNECTION|SOCKET|ADDRESS|NET_RESET|NET_INTERRUPT|NET_TIMEOUT|TIMED_OUT|INTERNET_DISCONNECTED|NETWORK_|OFFLINE|"
     r"PROXY|TUNNEL|EMPTY_RESPONSE|NET_PARTIAL|QUIC|HTTP2|HTTP_1_1", "the connection failed"),
    (r"INVALID_HTTP|INVALID_RESPONSE|CHUNKED|CONTENT_LENGTH|CONTENT_DECODING|RESPONSE_HEADERS(?!_MULTIPLE_LOC)",
     "the bytes of the answer were faulty"),
    (r"^mitmproxy: (?!.*client)", "the proxy got no answer"),
]
REDIRECTS = [("TOO_MANY_REDIRECTS", "its redirects do not end"),
             ("INVALID_REDIRECT", "it is redirected to what is no URL"),
             ("MULTIPLE_LOCATION", "its answer has several Location headers, which differ")]
ABORTED = re.compile(r"ERR_ABORTED|BINDING_ABORTED|^cancel|^mitmproxy: .*client", re.I)
EMBEDDER = re.compile(r"COEP|DefaultedToSameOrigin", re.I)
OUTSIDE = re.compile(r"BLOCKED_BY_CLIENT|BLOCKED_BY_ADMINISTRATOR|BLOCKED_BY_FINGERPRINT|TRACKING_URI|MALWARE|PHISHING")
ORB = re.compile(r"BLOCKED_BY_ORB")


def of_network(error: str) -> Optional[str]:
    """What went wrong below HTTP, in a sentence; None where nothing did, as far as it is told."""
    return next((told for form, told in NETWORK if re.search(form, error)), None)


def other(error: str, status: int) -> Optional[str]:
    """Why it failed, where no rule of a fetch has refused what is recorded."""
    if ABORTED.search(error) and status >= 400:
        return f"the answer is {status}, so the element fails"
    if ABORTED.search(error):
        return "the page gave it up, or was left before the answer came"
    if OUTSIDE.search(error):
        return "an extension or a setting of the browser blocked it"
    if EMBEDDER.search(error):
        return "the page's Cross-Origin-Embedder-Policy kept it back, which is not played here"
    return next((told for word, told in REDIRECTS if word in error), None)


def is_orb(error: str) -> bool:
    return ORB.search(error) is not None
