"""The cases of streams: the words `want`, `publish`, `conf`, `delivers` and `fits` of `sig_cases`.

What a body may want of a stream and how a configuration is told is of OpenID Shared Signals Framework 1.0, sections 6.1 and
8.1.1, the URL of an endpoint of RFC 3986, section 3, a publication of docs/FORMATS.md, and its name of RFC 9562, section 4.
Each row has what it shows, its line and its answer by hand. `lines` gives them; `tools/models/streams.py` computes the answers
by the tables, and has to give the same.

Nothing here comes from the program under test.
"""
import json

CAEP, RISC, SSF = ("https://schemas.openid.net/secevent/" + name + "/event-type/" for name in ["caep", "risc", "ssf"])
SR = CAEP + "session-revoked"
SUPPORTED = [CAEP + name for name in [
    "session-revoked", "token-claims-change", "credential-change", "assurance-level-change", "device-compliance-change",
    "session-established", "session-presented", "risk-level-change",
]] + [RISC + name for name in [
    "account-credential-change-required", "account-purged", "account-disabled", "account-enabled", "identifier-changed",
    "identifier-recycled", "credential-compromise", "opt-in", "opt-out-initiated", "opt-out-cancelled", "opt-out-effective",
    "recovery-activated", "recovery-information-changed", "sessions-revoked",
]]
OF_STREAMS = [SSF + "verification", SSF + "stream-updated"]
PUSH, POLL = '"urn:ietf:rfc:8935"', '"urn:ietf:rfc:8936"'
BY_POLL = '{"method":"poll"}'
TYPES = '["urn:example:secevent:events:type_2","urn:example:secevent:events:type_3","urn:example:secevent:events:type_4"]'
NO_TEXT = ["null", "true", "7", "1.5", "[]", "{}"]
NO_OBJECT = ["null", "false", "0", "1.5", '"{}"', "[]", "[{}]"]


def text(value):
    """A JSON value as it stands in an answer."""
    return json.dumps(value, separators=(",", ":"), sort_keys=True, ensure_ascii=False)


def wanted(delivery="null", description="null", requested="null"):
    return f'ok {{"delivery":{delivery},"description":{description},"requested":{requested}}}'


def pushed(url, host, path="/", port=80, secure=False, shown=None):
    """Delivery by push, as it was understood."""
    return text({"authorization": shown, "host": host, "method": "push", "path": path, "port": port, "secure": secure, "url": url})


def member(name):
    return f'member "{name}"'


def each(shows, made, values, answer):
    """A row for each value; the first one says what they show."""
    return [(shows if not place else "", made(value), answer) for place, value in enumerate(values)]


def by_push(url, gateway="no"):
    """A body that wants delivery by push; the URL is a text as JSON escapes it."""
    return f'want {gateway} {{"delivery":{{"endpoint_url":{text(url)},"method":{PUSH}}}}}'


def reached(shows, url, host, path="/", port=80):
    return (shows, by_push(url), wanted(pushed(url, host, path, port)))


def shown(value):
    return f'want no {{"delivery":{{"authorization_header":{value},"endpoint_url":"http://rx.example","method":{PUSH}}}}}'


def in_field(value):
    return wanted(pushed("http://rx.example", "rx.example", shown=value))


RECEIVER = '{"method":"urn:ietf:rfc:8935","endpoint_url":"https://receiver.example.com/events"}'
RECEIVED = pushed("https://receiver.example.com/events", "receiver.example.com", "/events", 443, True)

WANTS = [
    ("Shared Signals Framework 1.0, section 8.1.1.1: the figure of a request for a stream. Its endpoint is https, which a gateway dials", f'want yes {{"delivery": {RECEIVER}, "events_requested": {TYPES}, "description" : "Stream for Receiver ABC"}}', wanted(RECEIVED, '"Stream for Receiver ABC"', TYPES)),
    ("Without a gateway there is no such endpoint", f'want no {{"delivery": {RECEIVER}, "events_requested": {TYPES}, "description" : "Stream for Receiver ABC"}}', "endpoint"),
    ("Section 8.1.1.3: the figure of a change names the stream, which is read elsewhere", f'want no {{"stream_id": "f67e39a0a4d34d56b3aa1bc4cff0069f", "events_requested": {TYPES}}}', wanted(requested=TYPES)),
    ("Section 8.1.1.4: the figure of a replacement has members that the transmitter supplies. They are passed over", f'want yes {{"stream_id": "f67e39a0a4d34d56b3aa1bc4cff0069f", "iss": "https://tr.example.com", "aud": ["https://receiver.example.com/web", "https://receiver.example.com/mobile"], "delivery": {RECEIVER}, "events_requested": {TYPES}, "description" : "Stream for Receiver ABC"}}', wanted(RECEIVED, '"Stream for Receiver ABC"', TYPES)),
    ("Nothing is wanted, with and without a gateway", "want no {}", wanted()),
    ("", "want yes {}", wanted()),
    ("", "want no  { } ", wanted()),
    ("Members without a name here are passed over, whatever they are: fractions, and names in another case", 'want no {"x":1.5,"aud":null,"events_delivered":7,"Delivery":[],"DESCRIPTION":0,"min_verification_interval":-0}', wanted()),
    ("Of a repeated member the last stands", 'want no {"description":7,"description":"a"}', wanted(description='"a"')),
    ("", 'want no {"delivery":{"method":"a","method":%s}}' % POLL, wanted(BY_POLL)),
    ("", 'want no {"delivery":{},"delivery":[]}', member("delivery")),
    *each("The body is an object", "want no {}".format, NO_OBJECT, member("body")),
    *each("It is JSON, and a word for the gateway stands before it", "want {}".format, ["no {", "no", "no ", "yes", "no {}{}", "no {'description':'a'}", 'no {"x":1e400}', "{}", "maybe {}", "Yes {}", "no\t{}", " no {}", "true {}", ""], "bad-case"),
    # delivery
    *each("Section 6.1: a delivery is an object", 'want no {{"delivery":{}}}'.format, ["null", "true", "0", '"urn:ietf:rfc:8936"', "[]", "[{}]"], member("delivery")),
    ("One without a method is by poll", 'want no {"delivery":{}}', wanted(BY_POLL)),
    ("", 'want no {"delivery":{"method":%s}}' % POLL, wanted(BY_POLL)),
    ("RFC 8936 has no endpoint at the receiver and no field: by poll neither is read", 'want no {"delivery":{"method":%s,"endpoint_url":7,"authorization_header":"\\n"}}' % POLL, wanted(BY_POLL)),
    ("", 'want no {"delivery":{"endpoint_url":"https://rx.example","authorization_header":[]}}', wanted(BY_POLL)),
    ("", 'want no {"delivery":{"method":%s,"endpoint_url":"http://tx.example/poll/acme-1"}}' % POLL, wanted(BY_POLL)),
    *each("A method is one of the two names, to the letter; one that is no text is neither", 'want no {{"delivery":{{"method":{},"endpoint_url":"http://rx.example"}}}}'.format, [*NO_TEXT, '""', '"poll"', '"push"', '"urn:ietf:rfc:8937"', '"urn:ietf:rfc:893"', '"urn:ietf:rfc:89355"', '"URN:ietf:rfc:8935"', '"urn:ietf:rfc:8935 "', '" urn:ietf:rfc:8936"', '"https://schemas.openid.net/secevent/risc/delivery-method/push"', '["urn:ietf:rfc:8935"]'], "method"),
    ("A name is compared as JSON spells it", 'want no {"delivery":{"method":"urn:ietf:rfc:893\\u0036"}}', wanted(BY_POLL)),
    # endpoint
    ("RFC 8935, section 2: a push needs an endpoint", f'want no {{"delivery":{{"method":{PUSH}}}}}', "endpoint"),
    *each("which is a text", f'want no {{{{"delivery":{{{{"method":{PUSH},"endpoint_url":{{}}}}}}}}}}'.format, [*NO_TEXT, '["http://rx.example"]'], "endpoint"),
    reached("RFC 3986, section 3: a host alone. The port is that of http, and the path is the root", "http://rx.example", "rx.example"),
    reached("", "http://rx.example/", "rx.example"),
    reached("A port and a path", "http://rx.example:8080/events", "rx.example", "/events", 8080),
    reached("", "http://rx.example:8080", "rx.example", port=8080),
    ("The port of https is 443", by_push("https://rx.example", "yes"), wanted(pushed("https://rx.example", "rx.example", port=443, secure=True))),
    ("", by_push("https://rx.example:80/a", "yes"), wanted(pushed("https://rx.example:80/a", "rx.example", "/a", 80, True))),
    ("", by_push("http://rx.example:443", "yes"), wanted(pushed("http://rx.example:443", "rx.example", port=443))),
    ("https needs a gateway", by_push("https://rx.example"), "endpoint"),
    ("", by_push("https://rx.example:80/"), "endpoint"),
    *each("The scheme is one of two, in lower case, with its colon and two slashes", by_push, ["", "rx.example", "//rx.example", "HTTP://rx.example", "Http://rx.example", "ftp://rx.example", "ws://rx.example", "http:rx.example", "http:/rx.example", "http//rx.example", "htt://rx.example", "httpss://rx.example", " http://rx.example", "http ://rx.example", "http", "http:", "http:/"], "endpoint"),
    *each("There is a host", by_push, ["http://", "http:///", "http:///events", "http://:80", "http://:80/", "http://:"], "endpoint"),
    reached("of one letter, digit, dot or hyphen at least", "http://a", "a"),
    reached("", "http://0", "0"),
    reached("", "http://.", "."),
    reached("", "http://-/", "-"),
    reached("An address in four numbers is one", "http://127.0.0.1:9/", "127.0.0.1", port=9),
    reached("A host is kept in its case, and its letters are from A to Z, its digits from 0 to 9", "http://AZ-az.09", "AZ-az.09"),
    reached("It may be long", "http://" + "a" * 300, "a" * 300),
    *each("The characters next to these in ASCII are none of a host", lambda one: by_push(f"http://rx{one}example/"), list(",;@[`{"), "endpoint"),
    *each("Nor are user names, addresses in brackets, escapes, spaces, and what isn't ASCII", by_push, ["http://u@rx.example/", "http://u:p@rx.example/", "http://[::1]/", "http://rx%2Eexample/", "http://rx example/", "http://rx_example", "http://*.example", "http://rx.example\n", "http://rx.example\u0000", "http://réx.example", "http://rx.example\u3002", "http://rx\\example"], "endpoint"),
    reached("A port is from 1 to 65535, each end included", "http://rx.example:1", "rx.example", port=1),
    reached("", "http://rx.example:65535/a", "rx.example", "/a", 65535),
    *each("in decimal, without leading zeros and signs, and once", lambda port: by_push(f"http://rx.example:{port}/"), ["", "0", "65536", "65540", "70000", "100000", "655350", "99999", "4294967376", "18446744073709551696", "080", "00", "01", "+80", "-1", " 80", "80 ", "8 0", "8a", "a", "0x50", "80.", "80:80", ":80", "٨٠", "８０"], "endpoint"),
    *each("Without a path too", lambda port: by_push(f"http://rx.example:{port}"), ["", "0", "65536", "080", "80a", "80:80"], "endpoint"),
    reached("A path has visible ASCII, from `!` to `~`", "http://rx.example/!~", "rx.example", "/!~"),
    reached("A query is part of it as it stands", "http://rx.example/a?b=c&d=%20", "rx.example", "/a?b=c&d=%20"),
    reached("", "http://rx.example/?", "rx.example", "/?"),
    *each("A fragment is not: no target of a request has one (RFC 9110, section 7.1)", by_push, ["http://rx.example/#", "http://rx.example/a#e", "http://rx.example/a?b=c#e", "http://rx.example/#/a", "http://rx.example/a##"], "endpoint"),
    ("", by_push("https://rx.example/a#e", "yes"), "endpoint"),
    reached("An escaped number sign is none", "http://rx.example/%23", "rx.example", "/%23"),
    reached("A URL has at most 2,048 bytes", "http://rx.example/" + "a" * 2030, "rx.example", "/" + "a" * 2030),
    reached("", "http://" + "a" * 2041, "a" * 2041),
    reached("", "http://rx.example:8080/?" + "~" * 2024, "rx.example", "/?" + "~" * 2024, 8080),
    *each("One of 2,049 bytes is refused, wherever they stand", by_push, ["http://rx.example/" + "a" * 2031, "http://" + "a" * 2042, "http://" + "a" * 2041 + "/", "http://rx.example:8080/?" + "~" * 2025, "http://rx.example/" + "a" * 5000], "endpoint"),
    reached("and so are slashes, colons and a backslash", "http://rx.example:80/a//b:c/..\\", "rx.example", "/a//b:c/..\\"),
    reached("", "http://rx.example//rx.example:80", "rx.example", "//rx.example:80"),
    *each("It has no other", lambda end: by_push("http://rx.example/" + end), [" ", "a b", "\t", "\n", "\u0000", "\u001f", "\u007f", "é", "\u0080", "\U0001f600"], "endpoint"),
    *each("What stands after host and port begins with a slash", by_push, ["http://rx.example?a", "http://rx.example#a", "http://rx.example:80?a", "http://rx.example:80#a", "http://rx.example:80 "], "endpoint"),
    # authorization
    ("Section 6.1.1: a field may be sent with each push", shown('"Bearer eyJ0b2tlbiI6ImV4YW1wbGUifQo="'), in_field("Bearer eyJ0b2tlbiI6ImV4YW1wbGUifQo=")),
    ("It has visible ASCII and spaces, and may be empty", shown('""'), in_field("")),
    ("", shown('" ! ~ "'), in_field(" ! ~ ")),
    ("", shown('"\\"\\\\\\/"'), in_field('"\\/')),
    *each("and nothing else, lest it end the line of its head", shown, ['"Bearer a\\r\\nhost: b"', '"\\n"', '"\\r"', '"\\t"', '"\\u0000"', '"\\u001f"', '"\\u007f"', '"\\u0080"', '"é"', '"Bearer \\ud83d\\ude00"', *NO_TEXT], member("authorization_header")),
    ("It has at most 8,192 bytes", shown('"' + "a" * 8192 + '"'), in_field("a" * 8192)),
    ("", shown('"Bearer ' + "\\u0020" * 8185 + '"'), in_field("Bearer " + " " * 8185)),
    *each("One of 8,193 bytes is refused", shown, ['"' + "a" * 8193 + '"', '"Bearer ' + " " * 8186 + '"', '"' + "~" * 20000 + '"'], member("authorization_header")),
    ("", f'want no {{"delivery":{{"authorization_header":"{"a" * 8193}","endpoint_url":"http://rx.example/#","method":{PUSH}}}}}', "endpoint"),
    ("The method comes before the endpoint, and the endpoint before the field", 'want no {"delivery":{"authorization_header":7,"endpoint_url":7,"method":7}}', "method"),
    ("", f'want no {{"delivery":{{"authorization_header":7,"endpoint_url":7,"method":{PUSH}}}}}', "endpoint"),
    ("", f'want no {{"delivery":{{"authorization_header":7,"endpoint_url":"https://rx.example","method":{PUSH}}}}}', "endpoint"),
    ("", f'want yes {{"delivery":{{"authorization_header":7,"endpoint_url":"https://rx.example","method":{PUSH}}}}}', member("authorization_header")),
    # description, events_requested
    ("A description is a text", 'want no {"description":"a"}', wanted(description='"a"')),
    ("", 'want no {"description":""}', wanted(description='""')),
    ("", 'want no {"description":"\\u00e9\\n\\u0000\\ud83d\\ude00"}', wanted(description='"é\\n\\u0000\U0001f600"')),
    *each("and nothing else", 'want no {{"description":{}}}'.format, NO_TEXT, member("description")),
    ("The event types that are asked for are a list of texts, which are kept as they stand", 'want no {"events_requested":["b","a","","b"]}', wanted(requested='["b","a","","b"]')),
    ("The empty list asks for none, and a list that isn't there for all", 'want no {"events_requested":[]}', wanted(requested="[]")),
    *each("A list of anything else is none", 'want no {{"events_requested":{}}}'.format, ["null", "true", "7", '"%s"' % SR, "{}", '{"a":"b"}', "[null]", '["a",7]', '["a",["b"]]', '[{},"a"]', '["a",null]', "[1.5]"], member("events_requested")),
    ("The first member that is wrong is named, in the order `delivery`, `description`, `events_requested`", 'want no {"events_requested":7,"description":7,"delivery":7}', member("delivery")),
    ("", 'want no {"events_requested":7,"description":7,"delivery":{"method":7}}', "method"),
    ("", f'want no {{"events_requested":7,"description":7,"delivery":{{"method":{PUSH}}}}}', "endpoint"),
    ("", f'want no {{"events_requested":7,"description":7,"delivery":{{"method":{PUSH},"endpoint_url":"http://a","authorization_header":7}}}}', member("authorization_header")),
    ("", 'want no {"events_requested":7,"description":7,"delivery":{}}', member("description")),
    ("", 'want no {"events_requested":7,"description":"a","delivery":{}}', member("events_requested")),
    ("All three", f'want no {{"events_requested":["{SR}"],"description":"a","delivery":{{"method":{PUSH},"endpoint_url":"http://a:2/b","authorization_header":"c"}}}}', wanted(pushed("http://a:2/b", "a", "/b", 2, shown="c"), '"a"', f'["{SR}"]')),
]

OPAQUE, EMAIL = '{"format":"opaque","id":"s-77"}', '{"email":"a@example.com","format":"email"}'
PHONE = '{"format":"phone_number","phone_number":"+12065550100"}'
ID = "6ba7b810-9dad-11d1-80b4-00c04fd430c8"
PLAIN = {SUPPORTED[1]: '{"claims":{"role":"ro-admin"}}', SUPPORTED[2]: '{"change_type":"create","credential_type":"password"}', SUPPORTED[3]: '{"current_level":"nist-aal2"}', SUPPORTED[4]: '{"current_status":"compliant","previous_status":"not-compliant"}', RISC + "credential-compromise": '{"credential_type":"password"}', CAEP + "risk-level-change": '{"current_level":"HIGH","principal":"USER"}'}
ON_IDENTIFIERS = [RISC + "identifier-changed", RISC + "identifier-recycled"]


def news(events, subject=OPAQUE, named=f'"{ID}"'):
    return f'publish {{"events":{events},"publish_id":{named},"sub_id":{subject}}}'


def one(uri, payload="{}", subject=OPAQUE):
    return news(f'{{"{uri}":{payload}}}', subject)


def published(uri, payload="{}", subject=OPAQUE, named=ID):
    return f'ok {{"id":"{named}","payload":{payload},"sub_id":{subject},"uri":"{uri}"}}'


def of_type(uri):
    payload, subject = PLAIN.get(uri, "{}"), EMAIL if uri in ON_IDENTIFIERS else OPAQUE
    return ("Each of the 22 types that are published" if uri == SR else "", one(uri, payload, subject), published(uri, payload, subject))


def under(named, kept=ID):
    return news(f'{{"{SR}":{{}}}}', named=f'"{named}"'), published(SR, named=kept)


PUBLICATIONS = [
    *map(of_type, SUPPORTED),
    *each("No other type is published: neither those of streams nor unknown ones, nor a name that is nearly one", one, [*OF_STREAMS, "https://example.com/x", "", "session-revoked", SR + "/", SR.upper(), CAEP + "sessions-revoked", RISC + "session-revoked", CAEP + "risk-level-changed", " " + SR], member("events")),
    ("RFC 8417, section 2: a token may have several events. A publication has one", news("{}"), member("events")),
    ("", news(f'{{"{SR}":{{}},"{SUPPORTED[-1]}":{{}}}}'), member("events")),
    ("", news(f'{{"{SR}":{{}},"https://example.com/x":{{}}}}'), member("events")),
    ("", news(f'{{"https://example.com/x":{{}},"{SR}":{{}}}}'), member("events")),
    ("One member that is repeated is one", news(f'{{"{SR}":7,"{SR}":{{}}}}'), published(SR)),
    ("", news(f'{{"{SR}":{{}},"{SR}":7}}'), member("events")),
    *each("The events are an object", news, [*NO_TEXT[:5], f'"{SR}"', f'["{SR}"]', f'[{{"{SR}":{{}}}}]'], member("events")),
    ("", f'publish {{"publish_id":"{ID}","sub_id":{OPAQUE}}}', member("events")),
    *each("A payload is an object", lambda payload: one(SR, payload), ["null", "true", "7", '""', "[]"], member("events")),
    # payloads
    ("What a payload says is kept, and what nobody reads isn't", one(SR, '{"x":1.5,"event_timestamp":1615304991,"initiating_entity":"policy","reason_admin":{"en":"Policy C076E82F"},"reason_user":"a"}'), published(SR, '{"event_timestamp":1615304991,"initiating_entity":"policy","reason_admin":{"en":"Policy C076E82F"},"reason_user":"a"}')),
    ("", one(RISC + "account-disabled", '{"reason":"hijacking","event_timestamp":1.5}'), published(RISC + "account-disabled", '{"reason":"hijacking"}')),
    ("", one(ON_IDENTIFIERS[0], '{"new-value":"b@example.com"}', EMAIL), published(ON_IDENTIFIERS[0], '{"new-value":"b@example.com"}', EMAIL)),
    ("", one(ON_IDENTIFIERS[0], '{"new-value":"+12065550101"}', PHONE), published(ON_IDENTIFIERS[0], '{"new-value":"+12065550101"}', PHONE)),
    ("", one(ON_IDENTIFIERS[1], "{}", PHONE), published(ON_IDENTIFIERS[1], "{}", PHONE)),
    *[("RISC 1.0, sections 2.5 and 2.6: an identifier that changes is an email address or a phone number" if not place else "", one(uri, "{}", subject), member("events")) for place, (uri, subject) in enumerate((uri, subject) for uri in ON_IDENTIFIERS for subject in [OPAQUE, '{"format":"iss_sub","iss":"a","sub":"b"}', f'{{"format":"complex","user":{EMAIL}}}', f'{{"format":"aliases","identifiers":[{EMAIL}]}}'])],
    *[("CAEP 1.0, section 3, and RISC 1.0, section 2: members that are missing, of another kind or value, and fractions" if not place else "", one(uri, payload), member("events")) for place, (uri, payload) in enumerate([
        (SUPPORTED[1], "{}"), (SUPPORTED[1], '{"claims":{}}'), (SUPPORTED[1], '{"claims":[]}'), (SUPPORTED[1], '{"claims":{"a":1.5}}'), (SUPPORTED[1], '{"claims":{"a":[-0]}}'),
        (SUPPORTED[2], '{"credential_type":"password"}'), (SUPPORTED[2], '{"change_type":"create"}'), (SUPPORTED[2], '{"change_type":"lost","credential_type":"password"}'), (SUPPORTED[2], '{"change_type":"create","credential_type":7}'),
        (SUPPORTED[3], "{}"), (SUPPORTED[3], '{"change_direction":"up","current_level":"a"}'), (SUPPORTED[4], '{"current_status":"compliant"}'), (SUPPORTED[4], '{"current_status":"compliant","previous_status":"Compliant"}'),
        (SUPPORTED[5], '{"amr":[7]}'), (SUPPORTED[6], '{"ext_id":null}'), (SR, '{"event_timestamp":1.5}'), (SR, '{"event_timestamp":"1"}'), (SR, '{"initiating_entity":"nobody"}'), (SR, '{"reason_admin":7}'), (SR, '{"reason_user":{"en":1e2}}'),
        (RISC + "account-disabled", '{"reason":null}'), (RISC + "credential-compromise", "{}"), (RISC + "credential-compromise", '{"credential_type":[]}'),
    ])],
    # subjects
    *[("RFC 9493, section 3: whom it is about is a subject, which is kept whole" if not place else "", one(SR, subject=subject), published(SR, subject=subject)) for place, subject in enumerate([EMAIL, PHONE, '{"format":"iss_sub","iss":"https://idp.example","sub":"145234573"}', f'{{"format":"aliases","identifiers":[{EMAIL},{PHONE}]}}', f'{{"device":{OPAQUE},"format":"complex","user":{EMAIL}}}', '{"a":[1,{"b":null}],"format":"x-own"}'])],
    *each("No other value is one", lambda subject: one(SR, subject=subject), ["null", "true", "7", '"s-77"', "[]", "{}", '{"id":"s-77"}', '{"format":"opaque"}', '{"format":"opaque","id":""}', '{"format":"opaque","id":7}', '{"format":"opaque","id":"a","x":1}', '{"format":"complex"}', '{"format":"aliases","identifiers":[]}', '{"format":"x-own","v":1.5}', '{"format":"email","email":null}'], member("sub_id")),
    ("", f'publish {{"events":{{"{SR}":{{}}}},"publish_id":"{ID}"}}', member("sub_id")),
    ("", f'publish {{"events":{{"{SR}":{{}}}},"publish_id":"{ID}","subject":{OPAQUE}}}', member("sub_id")),
    # names
    ("RFC 9562, section 4: a name is a UUID in one of its spellings, and is kept with hyphens and in lower case", *under(ID)),
    ("", *under("6BA7B810-9DAD-11D1-80B4-00C04FD430C8")),
    ("", *under("6ba7B810-9dAD-11d1-80B4-00c04FD430c8")),
    ("", *under("6ba7b8109dad11d180b400c04fd430c8")),
    ("", *under("6BA7B8109DAD11D180B400C04FD430C8")),
    ("", *under("urn:uuid:6ba7b810-9dad-11d1-80b4-00c04fd430c8")),
    ("", *under("urn:uuid:6BA7B810-9DAD-11D1-80B4-00C04FD430C8")),
    ("RFC 8141, section 3.1: the prefix of a URN has any case", *under("URN:UUID:6BA7B810-9DAD-11D1-80B4-00C04FD430C8")),
    ("", *under("Urn:uUiD:6ba7b810-9dad-11d1-80b4-00c04fd430c8")),
    ("", *under("{6ba7b810-9dad-11d1-80b4-00c04fd430c8}")),
    ("Sections 5.9 and 5.10: the least and the greatest; versions and variants aren't looked at", *under("00000000-0000-0000-0000-000000000000", "00000000-0000-0000-0000-000000000000")),
    ("", *under("FFFFFFFF-FFFF-FFFF-FFFF-FFFFFFFFFFFF", "ffffffff-ffff-ffff-ffff-ffffffffffff")),
    ("", *under("11111111-1111-1111-1111-111111111111", "11111111-1111-1111-1111-111111111111")),
    *each("A text that is nearly one is none", lambda named: under(named)[0], ["", "6ba7b810", ID[:-1], ID + "0", "g" + ID[1:], ID[:-1] + "g", " " + ID, ID + " ", "6ba7b8109-dad-11d1-80b4-00c04fd430c8", "6ba7b810-9dad11d1-80b4-00c04fd430c8", "6ba7b810-9dad-11d1-80b400c04fd430c8", "6ba7b810-9dad-11d1-80b4-00c04fd430c-8", "6ba7b810_9dad_11d1_80b4_00c04fd430c8", "6ba7b8109dad11d180b400c04fd430c", "6ba7b8109dad11d180b400c04fd430c80", "{" + ID, ID + "}", "(" + ID + ")", "{6ba7b8109dad11d180b400c04fd430c8}", "urn:uuid:6ba7b8109dad11d180b400c04fd430c8", "uuid:" + ID, "urn:uid:" + ID, "url:uuid:" + ID, "urn-uuid:" + ID, "0x6ba7b8109dad11d180b400c04fd430c8", "+ba7b810-9dad-11d1-80b4-00c04fd430c8", "éa7b810-9dad-11d1-80b4-00c04fd430c8"], member("publish_id")),
    *each("What is no text is none", lambda named: news(f'{{"{SR}":{{}}}}', named=named), [*NO_TEXT, f'["{ID}"]'], member("publish_id")),
    ("", f'publish {{"events":{{"{SR}":{{}}}},"sub_id":{OPAQUE}}}', member("publish_id")),
    # bodies
    *each("The body is an object", "publish {}".format, NO_OBJECT, member("body")),
    *each("It is JSON", "publish {}".format, ["{", "", '{"publish_id":"a"', '{"x":1e400}'], "bad-case"),
    ("The first member that is wrong is named, in the order `publish_id`, `sub_id`, `events`", "publish {}", member("publish_id")),
    ("", 'publish {"events":7,"publish_id":7,"sub_id":7}', member("publish_id")),
    ("", f'publish {{"events":7,"publish_id":"{ID}","sub_id":7}}', member("sub_id")),
    ("", f'publish {{"events":7,"publish_id":"{ID}","sub_id":{OPAQUE}}}', member("events")),
    ("Of a payload and a subject that are both wrong the place is `events` alike", one(ON_IDENTIFIERS[0], '{"new-value":7}'), member("events")),
    ("Members without a name here are passed over, and of a repeated one the last stands", f'publish  {{"x":1.5,"publish_id":7,"publish_id":"{ID}","sub_id":{{}},"sub_id":{OPAQUE},"events":{{"{SR}":{{}}}}}} ', published(SR)),
]

BASE, STREAM = "http://tx.example", "acme-1"


def case_of(body, **parts):
    """A configuration that a body was made of, with these other parts."""
    given = {"aud": ["https://rp.example"], "base": BASE, "interval": 60, "iss": "https://idp.example", "stream": STREAM}
    return "conf " + text({**given, "want": body, **parts})


def told(delivered=None, delivery=None, **parts):
    """The configuration that is told; all types are delivered where none is given."""
    conf = {
        "aud": "https://rp.example", "delivery": delivery or {"endpoint_url": "http://tx.example/poll/acme-1", "method": "urn:ietf:rfc:8936"},
        "events_delivered": SUPPORTED if delivered is None else delivered, "events_supported": SUPPORTED, "iss": "https://idp.example",
        "min_verification_interval": 60, "stream_id": STREAM,
    }
    return "ok " + text({**conf, **parts})


PUSHED = {"method": "urn:ietf:rfc:8935", "endpoint_url": "https://rx.example:8443/events"}

CONFS = [
    ("Shared Signals Framework 1.0, section 8.1.1: nothing was asked for in particular, so all types are delivered, by poll at the stream's own address", case_of({}), told()),
    ("", case_of({"delivery": {}}), told()),
    ("", case_of({"delivery": {"endpoint_url": "http://rx.example"}}), told()),
    ("A description is told where there is one, also an empty one", case_of({"description": "a"}), told(description="a")),
    ("", case_of({"description": ""}), told(description="")),
    ("Of the types that were asked for those are delivered that are supported, in the order of the supported ones; the list is told as it was", case_of({"events_requested": [SUPPORTED[20], "https://example.com/x", SUPPORTED[7], SR, SR, *OF_STREAMS]}), told([SR, SUPPORTED[7], SUPPORTED[20]], events_requested=[SUPPORTED[20], "https://example.com/x", SUPPORTED[7], SR, SR, *OF_STREAMS])),
    ("", case_of({"events_requested": SUPPORTED[::-1]}), told(events_requested=SUPPORTED[::-1])),
    ("An empty list delivers nothing", case_of({"events_requested": []}), told([], events_requested=[])),
    ("", case_of({"events_requested": ["a"]}), told([], events_requested=["a"])),
    ("Section 6.1.1: a push is told with the URL as it was given", case_of({"delivery": PUSHED}), told(delivery=PUSHED)),
    ("", case_of({"delivery": {**PUSHED, "endpoint_url": "http://rx.example"}}), told(delivery={**PUSHED, "endpoint_url": "http://rx.example"})),
    ("and with the field, where one was given", case_of({"delivery": {**PUSHED, "authorization_header": "Bearer a"}}), told(delivery={**PUSHED, "authorization_header": "Bearer a"})),
    ("", case_of({"delivery": {**PUSHED, "authorization_header": ""}}), told(delivery={**PUSHED, "authorization_header": ""})),
    ("RFC 7519, section 4.1.3: one audience is a text, another number of them a list", case_of({}, aud=["a", "b"]), told(aud=["a", "b"])),
    ("", case_of({}, aud=["a"]), told(aud="a")),
    ("", case_of({}, aud=[]), told(aud=[])),
    ("Names and addresses stand as they are", case_of({}, base="https://é.example/x", stream="a-2", iss="a\nb"), told(delivery={"endpoint_url": "https://é.example/x/poll/a-2", "method": "urn:ietf:rfc:8936"}, stream_id="a-2", iss="a\nb")),
    ("The interval is in seconds, from 0 to 86400", case_of({}, interval=0), told(min_verification_interval=0)),
    ("", case_of({}, interval=86400), told(min_verification_interval=86400)),
    *each("Parts that are missing or of another kind", lambda parts: case_of({}, **parts), [{"interval": 86401}, {"interval": -1}, {"interval": True}, {"interval": "60"}, {"interval": 1.5}, {"interval": None}, {"aud": "a"}, {"aud": [7]}, {"aud": None}, {"iss": 7}, {"base": None}, {"stream": []}, {"want": 7}, {"want": {"description": 7}}, {"want": {"delivery": {"method": "a"}}}], "bad-case"),
    ("", 'conf {"aud":[],"base":"","interval":0,"iss":"","stream":""}', "bad-case"),
    ("", "conf []", "bad-case"),
    ("", "conf ", "bad-case"),
]


def deliver(requested, uri):
    return f'delivers {{"requested":{text(requested)},"uri":{text(uri)}}}'


DELIVERED = [
    *[("A stream that asked for nothing in particular delivers each supported type" if uri == SR else "", deliver(None, uri), "yes") for uri in SUPPORTED],
    *each("and no other", lambda uri: deliver(None, uri), [*OF_STREAMS, "https://example.com/x", "", SR + "/", SR.upper(), CAEP + "sessions-revoked"], "no"),
    ("One that asked for types delivers these", deliver([SR], SR), "yes"),
    ("", deliver(["a", SUPPORTED[20], SR], SR), "yes"),
    ("", deliver([SR, SR], SR), "yes"),
    ("", deliver(SUPPORTED, SUPPORTED[12]), "yes"),
    ("and no others", deliver([SR], SUPPORTED[1]), "no"),
    ("", deliver([SUPPORTED[20]], SR), "no"),
    ("", deliver([u for u in SUPPORTED if u != SR], SR), "no"),
    ("", deliver([SR[:-1], SR + "d", SR.upper(), "session-revoked"], SR), "no"),
    ("The empty list asks for none", deliver([], SR), "no"),
    *each("A type that isn't supported isn't delivered where it was asked for", lambda uri: deliver([uri], uri), [*OF_STREAMS, "https://example.com/x", ""], "no"),
    *each("The line is an object of a list of texts or null, and a text", "delivers {}".format, ['{"uri":"a"}', '{"requested":null}', '{"requested":"a","uri":"a"}', '{"requested":[7],"uri":"a"}', '{"requested":[null],"uri":"a"}', '{"requested":{},"uri":"a"}', '{"requested":null,"uri":7}', '{"requested":null,"uri":null}', "[]", "null", "{"], "bad-case"),
]

U, V = '{"format":"opaque","id":"u"}', '{"format":"opaque","id":"v"}'


def of(**parts):
    return '{"format":"complex",%s}' % ",".join(f'"{name}":{part}' for name, part in parts.items())


def fit(defaults, listed, subject):
    return f'fits {{"defaults":"{defaults}","listed":[{",".join(listed)}],"subject":{subject}}}'


USER, ON_DEVICE, ON_OTHER = of(user=U), of(user=U, device=V), of(user=U, device=U)
FITTING = [
    ("Section 7.1: under ALL each subject is one of a stream's", fit("ALL", [], U), "yes"),
    ("", fit("ALL", [V], U), "yes"),
    ("but one that was removed, wherever it stands in the list", fit("ALL", [U], U), "no"),
    ("", fit("ALL", [V, U], U), "no"),
    ("", fit("ALL", [U, V], U), "no"),
    ("Under ALL that is the identical subject alone, and not those that it matches", fit("ALL", [USER], ON_DEVICE), "yes"),
    ("", fit("ALL", [ON_DEVICE], USER), "yes"),
    ("", fit("ALL", [of(device=V)], of(user=U)), "yes"),
    ("", fit("ALL", [ON_DEVICE], ON_DEVICE), "no"),
    ("in whatever order its members stand", fit("ALL", [of(device=V, user=U)], ON_DEVICE), "no"),
    ("", fit("ALL", ['{"id":"u","format":"opaque"}'], U), "no"),
    ("nor subjects of another format", fit("ALL", ['{"format":"uri","uri":"u"}'], U), "yes"),
    ("", fit("ALL", [U], USER), "yes"),
    ("", fit("ALL", ['{"format":"email","email":"U@a"}'], '{"format":"email","email":"u@a"}'), "yes"),
    ("Aliases are told apart by their order", fit("ALL", [f'{{"format":"aliases","identifiers":[{U},{V}]}}'], f'{{"format":"aliases","identifiers":[{V},{U}]}}'), "yes"),
    ("", fit("ALL", [f'{{"format":"aliases","identifiers":[{U},{V}]}}'], f'{{"format":"aliases","identifiers":[{U},{V}]}}'), "no"),
    ("", fit("ALL", [f'{{"format":"aliases","identifiers":[{U},{V}]}}'], U), "yes"),
    ("Under NONE no subject is one of a stream's", fit("NONE", [], U), "no"),
    ("", fit("NONE", [V], U), "no"),
    ("but those that were added", fit("NONE", [U], U), "yes"),
    ("", fit("NONE", [V, U], U), "yes"),
    ("", fit("NONE", [U, V], U), "yes"),
    ("Section 8.1.3.1: and those that match one: complex subjects that differ in no member that both have", fit("NONE", [USER], ON_DEVICE), "yes"),
    ("", fit("NONE", [ON_DEVICE], USER), "yes"),
    ("", fit("NONE", [of(device=V)], USER), "yes"),
    ("", fit("NONE", [of(user=V)], USER), "no"),
    ("", fit("NONE", [ON_DEVICE], ON_OTHER), "no"),
    ("", fit("NONE", [ON_OTHER, ON_DEVICE], ON_OTHER), "yes"),
    ("", fit("NONE", [of(user=V), of(session=V)], ON_OTHER), "yes"),
    ("A simple one and a complex one match in neither order", fit("NONE", [U], USER), "no"),
    ("", fit("NONE", [USER], U), "no"),
    ("Simple ones match where they are identical", fit("NONE", ['{"format":"uri","uri":"u"}'], U), "no"),
    ("", fit("NONE", ['{"format":"x-own","v":1}'], '{"v":1,"format":"x-own"}'), "yes"),
    ("", fit("NONE", ['{"format":"x-own","v":1}'], '{"format":"x-own","v":"1"}'), "no"),
    ("", fit("NONE", [f'{{"format":"aliases","identifiers":[{U}]}}'], U), "no"),
    *each("The line is an object of `ALL` or `NONE`, a list of subjects and a subject", "fits {}".format, [f'{{"defaults":"all","listed":[],"subject":{U}}}', f'{{"defaults":null,"listed":[],"subject":{U}}}', f'{{"listed":[],"subject":{U}}}', f'{{"defaults":"ALL","subject":{U}}}', f'{{"defaults":"ALL","listed":{U},"subject":{U}}}', f'{{"defaults":"ALL","listed":[7],"subject":{U}}}', f'{{"defaults":"ALL","listed":[{U},{{}}],"subject":{U}}}', '{"defaults":"ALL","listed":[]}', '{"defaults":"ALL","listed":[],"subject":7}', "[]", "7", "{"], "bad-case"),
]


def lines():
    """The lines of the cases, each before its answer."""
    out = []
    for shows, line, answer in WANTS + PUBLICATIONS + CONFS + DELIVERED + FITTING:
        out += [f"# {shows}."] * bool(shows) + [line, "> " + answer]
    return [line.encode() for line in out]
