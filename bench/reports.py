"""Prints a scenario for reports.sh: its kind, and then its numbers."""
import json
import sys

REPORT_ONLY = "Content-Security-Policy-Report-Only"
BODY = ('{"csp-report":{"blocked-uri":"http://a.test/x","disposition":"report","document-uri":"http://a.test/",'
        '"effective-directive":"connect-src"}}')


def scenario(rules, documents):
    return {"format": 2, "servers": [{"origin": "http://a.test", "rules": rules}], "documents": documents}


def violating(count, policy):
    """One document, whose fetches each violate a report-only policy twice."""
    script = [{"repeat": count, "do": [{"fetch": {"url": "/x", "referrer": "none"}}]}]
    document = {"url": "http://a.test/", "headers": [[REPORT_ONLY, policy]], "script": script}
    return scenario([{"status": 200}], [document])


def posts(count):
    """One document that sends what a report sends, twice as often."""
    post = {"url": "/r", "method": "POST", "mode": "no-cors", "body": BODY,
            "headers": [["Content-Type", "text/plain;charset=utf-8"]]}
    script = [{"repeat": 2 * count, "do": [{"fetch": post}]}]
    return scenario([{"status": 200}], [{"url": "http://a.test/", "script": script}])


def alike(documents, rules, policies, url):
    """So many documents that fetch one URL up to a limit."""
    fetch = {"fetch": {"url": url, "referrer": "none"}}
    script = [{"repeat": 1000, "do": [fetch]}, {"repeat": 24, "do": [fetch]}]
    return scenario(rules, [{"url": f"http://a.test/{number}", "headers": policies, "script": script}
                            for number in range(documents)])


def long(documents):
    """Long URLs and bodies."""
    rules = [{"method": "POST", "status": 200, "body": "r" * 9000}, {"status": 200, "body": "b" * 9000}]
    return alike(documents, rules, [[REPORT_ONLY, "connect-src 'none'; report-uri /r /s"]], f"/{'x' * 8000}#f")


def circles(documents, length):
    """Each request is redirected to its own URL, 20 times, and 16 policies are violated."""
    url = f"/{'p' * length}"
    rules = [{"status": 302, "headers": [["Location", url]]}]
    return alike(documents, rules, [[REPORT_ONLY, "connect-src 'none'; report-uri /r"]] * 16, url)


KINDS = {"reported": lambda count: violating(count, "connect-src 'none'; report-uri /r"),
         "unreported": lambda count: violating(count, "connect-src 'none'"),
         "posts": posts, "long": long, "circles": circles}
print(json.dumps(KINDS[sys.argv[1]](*map(int, sys.argv[2:]))))
