"""Subjects (RFC 9493, section 3.2; OpenID Shared Signals Framework 1.0, section 4)."""
from models.values import Fault, dump, has_fraction

FORMATS = {
    "account": ["uri"],
    "email": ["email"],
    "iss_sub": ["iss", "sub"],
    "opaque": ["id"],
    "phone_number": ["phone_number"],
    "did": ["url"],
    "uri": ["uri"],
    "jwt_id": ["iss", "jti"],
    "saml_assertion_id": ["issuer", "assertion_id"],
    "aliases": ["identifiers"],
}
PREFIXES = {"account": "acct:", "did": "did:"}
PARTS_OF_SUBJECTS = ["user", "device", "session", "application", "tenant", "org_unit", "group"]


def refuse(fault, name=None):
    raise Fault(fault if name is None else fault + " " + dump(name))


def format_of(value):
    if not isinstance(value, dict) or not isinstance(value.get("format"), str):
        refuse("format")
    return value["format"]


def check_members(value, form):
    for name in FORMATS[form]:
        held = value.get(name)
        if name == "identifiers":
            good = isinstance(held, list)
        else:
            good = isinstance(held, str) and held != "" and held.startswith(PREFIXES.get(form, ""))
        if not good:
            refuse("member", name)
    for name in sorted(value):
        if name not in ["format"] + FORMATS[form]:
            refuse("member", name)


def check_inner(value, name, forbidden):
    if not isinstance(value, dict):
        refuse("member", name)
    if format_of(value) in forbidden:
        refuse("nested")
    check_subject(value)


def check_subject(value):
    """Raises the first check that fails. What is read is written again as the same value."""
    form = format_of(value)
    if form == "complex":
        if not any(name in value for name in PARTS_OF_SUBJECTS):
            refuse("empty")
        for name in sorted(value):
            if name != "format":
                check_inner(value[name], name, ["complex"])
    elif form not in FORMATS:
        if has_fraction(value):
            refuse("fraction")
    else:
        check_members(value, form)
        if form == "aliases":
            if not value["identifiers"]:
                refuse("empty")
            for item in value["identifiers"]:
                check_inner(item, "identifiers", ["aliases", "complex"])
    return value


def is_subject(value):
    try:
        check_subject(value)
    except Fault:
        return False
    return True


def same(one, two):
    """Equal JSON values: true and 1 differ, as in their texts, which only values that Python takes for equal have alike."""
    return one == two and dump(one) == dump(two)


def parts_of(subject):
    return {name: part for name, part in subject.items() if name != "format"}


def matches(one, two):
    if (one["format"] == "complex") != (two["format"] == "complex"):
        return False
    if one["format"] != "complex":
        return same(one, two)
    return all(same(part, two[name]) for name, part in parts_of(one).items() if name in two)


def covers(general, special):
    if general["format"] == "complex":
        return special["format"] == "complex" and all(
            name in special and same(part, special[name]) for name, part in parts_of(general).items()
        )
    if special["format"] == "complex":
        return any(same(general, part) for part in parts_of(special).values())
    return same(general, special)
