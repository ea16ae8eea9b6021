"""The session table: effects of events, and verdicts (this product's own; docs/FORMATS.md)."""
from models.events import PREFIX, TYPES
from models.subjects import covers, same
from models.values import dump

# A type of CAEP that changes nothing, and adds no row (CAEP 1.0, section 3.8).
RISK = PREFIX + "caep/event-type/risk-level-change"


def change(row, uri, payload):
    name = uri.rsplit("/", 1)[1]
    if name in ["session-revoked", "sessions-revoked", "identifier-recycled"]:
        row["session"] = "revoked"
    elif name == "session-established":
        row["session"] = "live"
    elif name == "session-presented":
        row["session"] = "live" if row["session"] == "unseen" else row["session"]
    elif name in ["token-claims-change", "identifier-changed", "recovery-activated", "recovery-information-changed"]:
        row["stale"] = "yes"
    elif name == "credential-change" and payload["change_type"] in ["create", "update"]:
        row["reset"] = "no"
    elif name == "credential-change":
        row["stale"] = "yes"
    elif name == "assurance-level-change":
        row["level"] = dump(payload["current_level"])
    elif name == "device-compliance-change":
        row["device"] = payload["current_status"]
    elif name in ["account-credential-change-required", "credential-compromise"]:
        row["reset"] = "yes"
    elif name in ["account-purged", "account-disabled"]:
        row.update(account=name[len("account-") :], session="revoked")
    elif name == "account-enabled":
        row["account"] = "enabled"
    else:
        row["opt"] = {"opt-out-initiated": "leaving", "opt-out-effective": "out"}.get(name, "in")


def take(rows, subject, events):
    for uri in sorted(events):
        if uri not in TYPES or "/ssf/" in uri or uri == RISK:
            continue
        if not any(same(row["subject"], subject) for row in rows):
            row = dict.fromkeys(["session", "account", "device", "opt"], "unseen")
            rows.append(dict(row, subject=subject, reset="no", stale="no", level="-"))
        for row in rows:
            if covers(subject, row["subject"]):
                change(row, uri, events[uri])


def row_text(place, row):
    known = " ".join(f"{name}={row[name]}" for name in "session account device reset stale opt level".split())
    return f"row {place} {dump(row['subject'])} {known}"


def verdict(rows, subject):
    own = [row for row in rows if same(row["subject"], subject)]
    covering = [row for row in rows if covers(row["subject"], subject)]

    def greatest(name, order):
        return max([row[name] for row in covering] + ["unseen"], key=order.index)

    session = own[0]["session"] if own else greatest("session", ["unseen", "live", "revoked"])
    account = greatest("account", ["unseen", "enabled", "disabled", "purged"])
    device = greatest("device", ["unseen", "compliant", "not-compliant"])
    reset = any(row["reset"] == "yes" for row in covering)
    allow = session != "revoked" and account in ["unseen", "enabled"] and device != "not-compliant" and not reset
    return {"account": account, "allow": allow, "device": device, "known": own != [], "reset": reset, "session": session}
