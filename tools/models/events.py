"""Payloads of events (CAEP 1.0, sections 2 and 3; RISC 1.0, section 2; Shared Signals Framework 1.0, section 8.1)."""
from models.subjects import refuse
from models.values import FRACTION, has_fraction

PREFIX = "https://schemas.openid.net/secevent/"
COMMON = [
    ("event_timestamp", False, "whole"),
    ("initiating_entity", False, ["admin", "user", "policy", "system"]),
    ("reason_admin", False, "reason"),
    ("reason_user", False, "reason"),
]
STATUS = ["compliant", "not-compliant"]
LEVELS = ["LOW", "MEDIUM", "HIGH"]
CAEP = {
    "session-revoked": [],
    "token-claims-change": [("claims", True, "filled")],
    "credential-change": [
        ("credential_type", True, "text"),
        ("change_type", True, ["create", "revoke", "update", "delete"]),
    ],
    "assurance-level-change": [
        ("namespace", False, "text"),
        ("current_level", True, "text"),
        ("change_direction", False, ["increase", "decrease"]),
    ],
    "device-compliance-change": [("previous_status", True, STATUS), ("current_status", True, STATUS)],
    "session-established": [
        ("acr", False, "text"),
        ("amr", False, "texts"),
        ("ext_id", False, "text"),
        ("fp_ua", False, "text"),
    ],
    "session-presented": [("ext_id", False, "text"), ("fp_ua", False, "text")],
    "risk-level-change": [
        ("principal", True, ["USER", "DEVICE", "SESSION", "TENANT", "ORG_UNIT", "GROUP"]),
        ("current_level", True, LEVELS),
        ("previous_level", False, LEVELS),
        ("risk_reason", False, "text"),
    ],
}
RISC = {
    "account-credential-change-required": [],
    "account-purged": [],
    "account-disabled": [("reason", False, "text")],
    "account-enabled": [],
    "identifier-changed": [("new-value", False, "text")],
    "identifier-recycled": [],
    "credential-compromise": [("credential_type", True, "text")],
    "opt-in": [],
    "opt-out-initiated": [],
    "opt-out-cancelled": [],
    "opt-out-effective": [],
    "recovery-activated": [],
    "recovery-information-changed": [],
    "sessions-revoked": [],
}
SSF = {
    "verification": [("state", False, "text")],
    "stream-updated": [("status", True, ["enabled", "paused", "disabled"]), ("reason", False, "text")],
}
TYPES = {PREFIX + "caep/event-type/" + name: rules + COMMON for name, rules in CAEP.items()}
TYPES.update({PREFIX + "risc/event-type/" + name: rules for name, rules in RISC.items()})
TYPES.update({PREFIX + "ssf/event-type/" + name: rules for name, rules in SSF.items()})
ON_IDENTIFIERS = [PREFIX + "risc/event-type/identifier-changed", PREFIX + "risc/event-type/identifier-recycled"]


def is_of_kind(kind, value):
    if kind == "whole":
        return value is FRACTION or isinstance(value, int) and not isinstance(value, bool)
    if kind == "filled":
        return isinstance(value, dict) and value != {}
    if kind == "reason":
        return isinstance(value, (str, dict))
    if kind == "texts":
        return isinstance(value, str) or isinstance(value, list) and all(isinstance(item, str) for item in value)
    return isinstance(value, str)


def check_event(uri, payload, subject):
    """The payload that is written of the event, or the first check that fails."""
    if not isinstance(payload, dict):
        refuse("not-object")
    written = {}
    for name, is_required, kind in TYPES.get(uri, []):
        if name not in payload:
            if is_required:
                refuse("missing", name)
            continue
        value = payload[name]
        if not is_of_kind(kind, value):
            refuse("kind", name)
        if isinstance(kind, list) and value not in kind:
            refuse("value", name)
        if has_fraction(value):
            refuse("fraction", name)
        written[name] = value
    if uri in ON_IDENTIFIERS and subject["format"] not in ["email", "phone_number"]:
        refuse("subject")
    return written
