"""What the servers answer, by the rules in rules.json: a handler as wptserve has them."""
import json
import os

with open(os.path.join(os.path.dirname(os.path.abspath(__file__)), "rules.json"), encoding="utf-8") as file:
    SERVERS = {server["origin"]: server["rules"] for server in json.load(file)}


def is_asked(url):
    return any(url.startswith(f"{origin}/") for origin in SERVERS)


def rule_for(origin, method, target):
    for rule in SERVERS.get(origin, []):
        if rule.get("method", method) == method and rule.get("path", target) == target:
            return rule
    return {"status": 404}


def main(request, response):
    parts = request.url_parts
    port = "" if parts.port in (None, 80, 443) else f":{parts.port}"
    target = f"{parts.path}?{parts.query}" if parts.query else parts.path
    rule = rule_for(f"{parts.scheme}://{parts.hostname}{port}", request.method, target)
    if "raw" in rule:
        response.writer.write(rule["raw"].encode("utf-8"))
        response.close_connection = True
        return None
    return rule["status"], [tuple(header) for header in rule.get("headers", [])], rule.get("body", "")
