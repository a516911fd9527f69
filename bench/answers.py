"""What a fetch to the own origin sees of the bytes of an answer, by docs/rules/answers.md, written anew for
bench/fuzz.py."""
import re

MOST_HEADS = 65536
TOKEN = rb"[!#$%&'*+.^_`|~0-9A-Za-z-]+"
STATUS_LINE = re.compile(rb'HTTP/1\.[01] ([0-9]{3})(?: [\t\x20-\x7e\x80-\xff]*)?\r?\n')
HEADER_LINE = re.compile(rb'(' + TOKEN + rb'):([\t\x20-\x7e\x80-\xff]*)\r?\n')
BLOCK = re.compile(rb'[\r\n]*[^\r\n](?s:.*?)\n\r?\n')
CHUNK = re.compile(rb'([0-9A-Fa-f]{1,16})[\t ]*(?:;[^\r\n]*)?\r\n')
TRAILERS = re.compile(rb'(?:[^\r\n]+\r\n)*\r\n')


def escaped(text):
    return b''.join(bytes([byte]) if 0x20 <= byte < 0x7f and byte != 0x5c else b'\\x%02x' % byte for byte in text)


def head_in(block):
    """Status and header list of a block that is a head, or nothing."""
    text = re.sub(rb'\A(?:\r?\n)+', b'', block)
    line = STATUS_LINE.match(text)
    if not line:
        return None
    place, headers = line.end(), []
    while text[place:] not in (b'\n', b'\r\n'):
        line = HEADER_LINE.match(text, place)
        if not line:
            return None
        spelling = next((name for name, _ in headers if name.lower() == line[1].lower()), line[1])
        headers.append((spelling, line[2].strip(b'\t\n\r ')))
        place = line.end()
    return (int(STATUS_LINE.match(text)[1]), headers) if len(headers) <= 128 else None


def final_head(answer):
    """Status, headers and place of the final head, or the network error."""
    place = 0
    while True:
        block = BLOCK.match(answer, place)
        if block is None or block.end() > MOST_HEADS:
            return None, b'26 HeadTooBig' if len(answer) > MOST_HEADS else b'25 BadHead'
        head = head_in(block[0])
        if head is None:
            return None, b'25 BadHead'
        place = block.end()
        if not 100 <= head[0] <= 199 or head[0] == 101:
            return head, place


def values_of(headers, name):
    """All values of a name, split at commas; nothing where the name is not there."""
    values = [value for other, value in headers if other.lower() == name]
    return [part.strip(b'\t ') for part in b', '.join(values).split(b',')] if values else None


def chunks(text, limit):
    place, body = 0, b''
    while True:
        line = CHUNK.match(text, place)
        if not line or len(line[0]) > 4096:
            return b'  body cut %d\n' % len(body)
        place, size = line.end(), int(line[1], 16)
        if size == 0:
            end = TRAILERS.match(text, place)
            if end and len(end[0]) <= 8192:
                return whole(body)
            return b'  body cut %d\n' % len(body)
        body += text[place:place + size]
        if len(body) > limit:
            return b'  body toobig\n'
        place += size
        if text[place:place + 2] != b'\r\n':
            return b'  body cut %d\n' % len(body)
        place += 2


def whole(body):
    return b'  body whole %d: %s\n' % (len(body), escaped(body))


def body_of(status, headers, text, limit):
    """The line of a body, or the network error."""
    if status in (101, 103, 204, 205, 304):
        return b'  body none\n'
    if any(value not in (b'', b'identity') for value in values_of(headers, b'content-encoding') or []):
        return None
    codings = [value for name, value in headers if name.lower() == b'transfer-encoding']
    if codings:
        if b', '.join(codings).lower() != b'chunked':
            return b'  body cut 0\n'
        return chunks(text, limit)
    lengths = values_of(headers, b'content-length')
    if lengths is not None:
        if not all(re.fullmatch(rb'[0-9]+', one) for one in lengths) or len({one.lstrip(b'0') for one in lengths}) > 1:
            return b'  body cut 0\n'
        length = int(lengths[0])
        text = text[:length]
        if len(text) > limit:
            return b'  body toobig\n'
        return whole(text) if len(text) == length else b'  body cut %d\n' % len(text)
    return b'  body toobig\n' if len(text) > limit else whole(text)


def seen(answer, url, limit):
    """The lines of the result; nothing where a redirect is followed."""
    head, place = final_head(answer)
    if head is None:
        return b'result error ' + place + b'\n'
    status, headers = head
    if status in (301, 302, 303, 307, 308) and values_of(headers, b'location') is not None:
        return None
    body = body_of(status, headers, answer[place:], limit)
    if body is None:
        return b'result error 23 Coding\n'
    shown = [header for header in headers if header[0].lower() not in (b'set-cookie', b'set-cookie2')]
    return b'result basic %d %s\n' % (status, url) + b''.join(
        b'  ' + escaped(name + b': ' + value) + b'\n' for name, value in shown) + body
