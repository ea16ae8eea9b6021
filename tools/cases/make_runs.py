"""The stored run of `sig_runs`: whole runs of the program, and what each prints.

Each text here was worked out by hand from docs/FORMATS.md, but for the scripts of `script_cases.py` and `walk_scripts.py`,
which `models/replay_model.py` answers; the tokens are signed by Python's own hmac. How often the input is asked follows from
the pieces alone: up to the piece with the end of the line that stops the run, or once more at the end of the input, and a
second time after a last line that has no end. Nothing here comes from the program under test.
"""
from cases import script_cases, walk_scripts
from cases.rsa_keys import FIRST, OTHER, RS256, THIRD, bytes_of, confused, public_key_pem, rs256, rs256_header
from cases.sign_fold import TESTS
from cases.sign_tokens import claims, header, part
from cases.wrong_signatures import A2
from models import replay_model

TOKENS = dict(TESTS)
ISS, AUD = "https://idp.example", "https://rp.example"
KEY = "MDEyMzQ1Njc4OWFiY2RlZjAxMjM0NTY3ODlhYmNkZWY"
FOLD = ["fold", ISS, AUD, KEY]
REVOKED = "https://schemas.openid.net/secevent/caep/event-type/session-revoked"
BARE = f'"{REVOKED}":{{}}'
ONE, TWO = "-".join(["1" * n for n in (8, 4, 4, 4, 12)]), "-".join(["2" * n for n in (8, 4, 4, 4, 12)])
WHOLE = 65536

cases, answers = [], []


def case(why, words, lines, status, text, piece=None, last="", stop=None):
    """A run over these lines (a text, or a pair of a count and a text that is repeated) and a last text without end."""
    cases.append(f"# {why}")
    cases.append("words " + " ".join(words))
    if piece:
        cases.append(f"piece {piece}")
    given = ""
    for line in lines:
        if isinstance(line, tuple):
            cases.append(f"repeat {line[0]} {line[1]}")
            cases.append("line ")
            given += line[0] * line[1] + "\n"
        else:
            cases.append(f"line {line}")
            given += line + "\n"
    if last:
        cases.append(f"text {last}")
    given += last
    size = len(given.encode())
    step = min(piece or WHOLE, WHOLE)
    if stop == 0:
        asked, left = 0, size
    elif stop:
        # the run stops at the end of this line
        at = sum(len(part.encode()) + 1 for part in given.split("\n")[:stop])
        asked = -(-at // step)
        left = max(0, size - asked * step)
        if at > size:
            asked, left = -(-size // step) + 1, 0
    else:
        asked, left = -(-size // step) + (2 if last else 1), 0
    cases.append("run")
    if piece:
        cases.append(f"piece {WHOLE}")
    cases.append("")
    answers.append(f"status {status} asked {asked} left {left}\n{text}")


def publication(id, subject, events=BARE, name="publish_id"):
    return f'publish {{"events":{{{events}}},"{name}":"{id}","sub_id":{subject}}}'


def opaque(id):
    return f'{{"format":"opaque","id":"{id}"}}'


def row(place, subject, known="session=revoked account=unseen device=unseen reset=no stale=no opt=unseen level=-"):
    return f"row {place} {subject} {known}\n"


def usage():
    for why, words in [
        ("no word", []),
        ("`fold` alone", ["fold"]),
        ("`fold` without its key", FOLD[:3]),
        ("a word too many", FOLD + ["more"]),
        ("a command in other letters", ["Fold"] + FOLD[1:]),
        ("a word after `replay`", ["replay", "more"]),
        ("an empty issuer", ["fold", "", AUD, KEY]),
        ("an empty audience", ["fold", ISS, "", KEY]),
        ("an empty key", ["fold", ISS, AUD, ""]),
        ("a key of 31 bytes; RFC 7518, section 3.2 asks for 32", ["fold", ISS, AUD, KEY[:-1]]),
        ("a key of 16 bytes", ["fold", ISS, AUD, "MDEyMzQ1Njc4OWFiY2RlZg"]),
        ("a key of 65 bytes, one more than there may be", ["fold", ISS, AUD, "QUFB" * 21 + "QUE"]),
        ("a key with padding", ["fold", ISS, AUD, KEY + "="]),
        ("a key with stray bits", ["fold", ISS, AUD, KEY[:-1] + "Z"]),
    ]:
        case(f"No command: {why}. The input isn't asked.", words, [TOKENS["GOOD"]], 1, "signals: usage\n", stop=0)
    case("A key of 64 bytes, as many as there may be.", ["fold", ISS, AUD, "QUFB" * 21 + "QQ"], [], 0, "rows 0 tokens 0\n")
    public_key_words()


def public_key_words():
    n, e = part(bytes_of(FIRST.modulus)), "AQAB"
    for why, word in [
        ("`rs256:` alone", "rs256:"),
        ("a modulus without an exponent", f"rs256:{n}"),
        ("an empty exponent", f"rs256:{n}:"),
        ("an empty modulus", f"rs256::{e}"),
        ("a third part", f"rs256:{n}:{e}:"),
        ("the word in other letters", f"RS256:{n}:{e}"),
        ("another algorithm", f"rs512:{n}:{e}"),
        ("no algorithm", f"{n}:{e}"),
        ("a space", f"rs256: {n}:{e}"),
        ("a modulus with padding", f"rs256:{n}==:{e}"),
        ("a modulus with a leading zero", f"rs256:{part(bytes(1) + bytes_of(FIRST.modulus))}:{e}"),
        ("a modulus of 2,047 bits", f"rs256:{part(bytes_of(2**2047 - 1))}:{e}"),
        ("a modulus of 4,097 bits", f"rs256:{part(bytes_of(2**4096 + 1))}:{e}"),
        ("an even modulus", f"rs256:{part(bytes_of(2**2048 - 2))}:{e}"),
        ("an exponent with a leading zero", f"rs256:{n}:AAEAAQ"),
        ("the exponent 1", f"rs256:{n}:AQ"),
        ("an even exponent", f"rs256:{n}:{part(bytes_of(65538))}"),
        ("the exponent 2^32 + 1", f"rs256:{n}:{part(bytes_of(2**32 + 1))}"),
    ]:
        # a space makes a fifth word
        case(f"No command: {why} (RFC 7518, section 6.3.1). The input isn't asked.", ["fold", ISS, AUD, *word.split(" ")], [TOKENS["GOOD"]], 1, "signals: usage\n", stop=0)
    for why, modulus, exponent in [("4,096 bits", 2**4096 - 1, 65537), ("2,048 bits and the exponent 3", 2**2048 - 1, 3), ("the exponent 2^32 - 1", 2**2048 - 1, 2**32 - 1)]:
        case(f"A public key: {why}.", ["fold", ISS, AUD, f"rs256:{part(bytes_of(modulus))}:{part(bytes_of(exponent))}"], [], 0, "rows 0 tokens 0\n")


GOOD_ROW = row(1, opaque("s-77")) + "rows 1 tokens 1\n"
NONE = "rows 0 tokens 0\n"


def fold():
    good = TOKENS["GOOD"]
    case("No line: no verdict, and an empty table.", FOLD, [], 0, NONE)
    case("A good token.", FOLD, [good], 0, "1 accepted\n" + GOOD_ROW)
    case("The same as the last line, without an end.", FOLD, [], 0, "1 accepted\n" + GOOD_ROW, last=good)
    case("Repeats are seen.", FOLD, [good, good], 0, "1 accepted\n2 seen\n3 seen\n" + GOOD_ROW, last=good)
    case("An empty line is counted and passed over.", FOLD, ["", good], 0, "2 accepted\n" + GOOD_ROW)
    for name, verdict in [
        ("UNSIGNED", "invalid_request compact"),
        ("OTHER_KEY", "invalid_key mac"),
        ("OTHER_ALGORITHM", "invalid_key alg"),
        ("OTHER_ISSUER_AND_KEY", "invalid_issuer iss"),
        ("NO_AUDIENCE", "invalid_audience aud"),
        ("TOO_LONG", "invalid_request length"),
        ("CHANGED_OPAQUE", "invalid_request event"),
    ]:
        case("The first check that fails gives the code and the place.", FOLD, [TOKENS[name]], 0, f"1 refused {verdict}\n" + NONE)
    case(
        "The token of RFC 7515, appendix A.1: its MAC is right, but it is no security event token.",
        ["fold", "joe", "x", "AyM1SysPpbyDfgZld3umj1qzKObwVMkoqQ-EstJQLr_T-1qS0gZH75aKtMN3Yj0iPS4hcgUuTwjAzZr1Z9CAow"],
        [TOKENS["RFC7515"]], 0, "1 refused invalid_request typ\n" + NONE,
    )
    for name in ["AUDIENCES", "LONGEST"]:
        case("A list of audiences; and a token of 8,192 bytes, the most that there may be.", FOLD, [TOKENS[name]], 0, "1 accepted\n" + GOOD_ROW)
    for length, verdict in [(8192, "compact"), (8193, "length"), (200000, "length")]:
        case(f"A line of {length} bytes; a token has at most 8,192.", FOLD, [(length, "a"), good], 0, f"1 refused invalid_request {verdict}\n2 accepted\n" + GOOD_ROW)
    user, both = opaque("u"), f'{{"format":"complex","session":{opaque("s")},"user":{opaque("u")}}}'
    live = "session=live account=unseen device=unseen reset=no stale=no opt=unseen level=-"
    case("All sessions of a user are revoked, one of which is known.", FOLD, [TOKENS["ESTABLISHED_BOTH"], TOKENS["SESSIONS_REVOKED"]], 0,
         "1 accepted\n2 accepted\n" + row(1, both) + row(2, user) + "rows 2 tokens 2\n")
    case("The session is established after that.", FOLD, [TOKENS["SESSIONS_REVOKED"], TOKENS["ESTABLISHED_BOTH"]], 0,
         "1 accepted\n2 accepted\n" + row(1, user) + row(2, both, live) + "rows 2 tokens 2\n")
    case("A repeat has no effect again.", FOLD, [TOKENS["ESTABLISHED"], TOKENS["SESSIONS_REVOKED"], TOKENS["ESTABLISHED"]], 0,
         "1 accepted\n2 accepted\n3 seen\n" + row(1, user) + "rows 1 tokens 2\n")
    for name, known in [
        ("LEVEL", 'session=unseen account=unseen device=unseen reset=no stale=no opt=unseen level="nist-\\"aal2\\""'),
        ("DISABLED", "session=revoked account=disabled device=unseen reset=no stale=no opt=unseen level=-"),
    ]:
        case("What the row of a user tells.", FOLD, [TOKENS[name]], 0, "1 accepted\n" + row(1, user, known) + "rows 1 tokens 1\n")
    case("An identifier may change on an email.", FOLD, [TOKENS["CHANGED_EMAIL"]], 0,
         "1 accepted\n" + row(1, '{"email":"a@example.com","format":"email"}', "session=unseen account=unseen device=unseen reset=no stale=yes opt=unseen level=-") + "rows 1 tokens 1\n")
    for name in ["NOTICE", "OTHER_EVENT"]:
        case("Notices and other events make no row.", FOLD, [TOKENS[name]], 0, "1 accepted\nrows 0 tokens 1\n")


def fold_by_rs256():
    words = ["fold", ISS, AUD, FIRST.word()]
    good = rs256(rs256_header(kid="any"), claims(), FIRST)
    case("A token that is signed by RS256, and its repeat; the key has no name.", words, [good, good], 0, "1 accepted\n2 seen\n" + GOOD_ROW)
    case("The same under a key of 3,000 bits.", ["fold", ISS, AUD, THIRD.word()], [rs256(RS256, claims(), THIRD)], 0, "1 accepted\n" + GOOD_ROW)
    for why, token, verdict in [
        ("another key", rs256(RS256, claims(), OTHER), "invalid_key mac"),
        ("an HMAC under the text of the public key (RFC 8725, section 2.1)", confused(header(), public_key_pem(FIRST).encode()), "invalid_key kid"),
        ("an HMAC where a signature should be", confused(RS256, public_key_pem(FIRST).encode()), "invalid_key mac"),
        ("a good token by HS256", TOKENS["GOOD"], "invalid_key kid"),
        ("RS512", rs256(rs256_header(alg="RS512"), claims(), FIRST), "invalid_key alg"),
        ("a name that is no text", rs256(rs256_header(kid=7), claims(), FIRST), "invalid_key kid"),
    ]:
        case(f"Under a public key: {why}.", words, [token], 0, f"1 refused {verdict}\n" + NONE)
    case("A token by RS256 where the key is a secret.", FOLD, [good], 0, "1 refused invalid_key kid\n" + NONE)
    case(
        "The token of RFC 7515, appendix A.2: its signature is right, but it is no security event token.",
        ["fold", "joe", "x", f"rs256:{part(A2['n'])}:{part(A2['e'])}"], [f"{A2['input'].decode()}.{part(A2['signature'])}"], 0, "1 refused invalid_request typ\n" + NONE,
    )


CREATE, POLL = "create acme {}", "poll acme acme-1 32"


def stops(why, line, number=2, first=(CREATE,), text="1 made acme-1\n"):
    case(why, ["replay"], list(first) + [line, CREATE], 2, text + f"signals: line {number}\n", stop=number)


# The lines that a script hasn't, group by group.
NO_LINES = {
    "no word of a script, or a word in another place": [
        "destroy acme acme-1", "Create acme {}", " create acme {}", " ", " # a comment", "read acme acme-1",
    ],
    "no node, no number of calls, no byte, or no line that is played meanwhile": [
        "crash", "crash ", "crash acme", "crash TX", "crash tx ", "crash tx rx", "crash  tx", "stop", "stop ", "stop tx", "stop tx 0", "stop tx 0 00", "stop tx 0 00 ",
    ]
    + [f"stop {words} {CREATE}" for words in ["acme 0 00", "RX 0 00", "tx 5 00", "tx 00 00", "tx -1 00", "tx  00", "tx x 00", "tx 0 5A", "tx 0 5g", "tx 0 5", "tx 0 5a5", "tx 0", " tx 0 00", "tx 0 00 "]]
    + [f"stop tx 0 00 {line}" for line in ["time 1", "check " + opaque("s-77"), "stop tx 0 00 " + CREATE, "crash tx", "# a comment", "create other {}", "deliver 1", "answer 1"]],
    "no time": ["time", "time ", "time -1", "time +1", "time 01", "time 1 ", "time 1.0", "time 4611686018427387905"],
    "no client of a script, or no want": [
        "create", "create acme", "create acme ", "create other {}", "create ACME {}", "create  acme {}", "create acme {}x", "create acme {",
        "create acme []", "create acme null", "patch other acme-1 {}", "patch acme acme-1", "patch acme {}", "patch acme  {}", "put acme acme-1 7",
        'create acme {"description":7}', 'create acme {"description":null}', 'put acme acme-1 {"events_requested":"all"}',
        'patch acme acme-1 {"events_requested":["x",7]}', 'create acme {"delivery":"poll"}', 'create acme {"delivery":{"method":"poll"}}',
        'create acme {"delivery":{"method":7}}',
    ],
    "no endpoint of a push stream; there is no gateway for https": [
        'create acme {"delivery":{"method":"urn:ietf:rfc:8935"%s}}' % more
        for more in [
            "", ',"endpoint_url":7', ',"endpoint_url":""', ',"endpoint_url":"https://rx.example/"', ',"endpoint_url":"ftp://rx.example/"',
            ',"endpoint_url":"http:///path"', ',"endpoint_url":"http://rx.example:/"', ',"endpoint_url":"http://rx.example:0/"',
            ',"endpoint_url":"http://rx.example:080/"', ',"endpoint_url":"http://rx.example:65536/"', ',"endpoint_url":"http://a@rx.example/"',
            ',"endpoint_url":"http://rx_1.example/"', ',"endpoint_url":"http://rx.example?q"', ',"endpoint_url":"http://rx.example/a b"',
            ',"endpoint_url":"http://rx.example/","authorization_header":7', ',"endpoint_url":"http://rx.example/","authorization_header":"a\\u0009b"',
            ',"endpoint_url":"http://rx.example/","authorization_header":"\u00e9"',
        ]
    ],
    "no stream, or a word too many": [
        "delete", "delete acme", "delete acme ", "delete acme acme-1 ", "delete acme acme-1 x", "delete acme  acme-1", "delete other acme-1",
        "verify acme", "verify acme acme-1 {}", "verify other acme-1", "hand", "hand ", "hand acme-1 ", "hand acme acme-1", "hand  acme-1",
    ],
    "no status": [
        "status acme acme-1", "status acme acme-1 ", "status acme acme-1 Enabled", "status acme acme-1 enabled ", "status acme acme-1 enabled x",
        "status acme  enabled", "status other acme-1 enabled", 'status acme acme-1 {"status":"enabled"}', "operator acme-1", "operator  enabled",
        "operator acme-1 on", "operator acme acme-1 enabled",
    ],
    "no subject": [
        start + rest
        for start in ["check ", "add acme acme-1 "]
        for rest in [
            "", "{}", "[]", '"s-77"', '{"format":"opaque"}', '{"format":"opaque","id":""}', '{"format":"opaque","id":"s-77","x":1}',
            '{"format":7,"id":"s-77"}', '{"format":"account","uri":"a@example.com"}', '{"format":"x-own","n":1.5}',
            '{"format":"aliases","identifiers":[]}', '{"format":"complex","x":{"format":"opaque","id":"s-77"}}', '{"format":"opaque","id":"s-77"} x',
        ]
    ]
    + ["check", "remove acme acme-1", "remove other acme-1 " + opaque("s-77"), "add acme " + opaque("s-77")],
    "no number": [
        "poll other acme-1 32", "poll acme acme-1", "poll acme acme-1 ", "poll acme  32", "poll acme acme-1 032", "poll acme acme-1 +32",
        "poll acme acme-1 -1", "poll acme acme-1 4611686018427387905", "poll acme acme-1 32 ", "deliver", "deliver 0", "deliver 1", "deliver 01",
        "answer 0", "answer 1", "answer x",
    ],
    "no publication": ["publish", "publish ", "publish {}", "publish []", "publish {"]
    + [
        publication(id, subject, events, name)
        for events, name, id, subject in [
            (BARE, "id", ONE, opaque("s-77")),
            (BARE, "publish_id", "first", opaque("s-77")),
            (BARE, "publish_id", ONE + "0", opaque("s-77")),
            ("", "publish_id", ONE, opaque("s-77")),
            (BARE + ',"https://example.com/x":{}', "publish_id", ONE, opaque("s-77")),
            ('"https://example.com/x":{}', "publish_id", ONE, opaque("s-77")),
            ('"https://schemas.openid.net/secevent/ssf/event-type/verification":{}', "publish_id", ONE, opaque("s-77")),
            ('"https://schemas.openid.net/secevent/ssf/event-type/stream-updated":{"status":"paused"}', "publish_id", ONE, opaque("s-77")),
            (BARE.replace("{}", "[]"), "publish_id", ONE, opaque("s-77")),
            (BARE.replace("{}", '{"event_timestamp":1.5}'), "publish_id", ONE, opaque("s-77")),
            (BARE.replace("{}", '{"initiating_entity":"nobody"}'), "publish_id", ONE, opaque("s-77")),
            (BARE.replace("session-revoked", "credential-change"), "publish_id", ONE, opaque("s-77")),
            (BARE.replace("caep/event-type/session-revoked", "risc/event-type/identifier-changed"), "publish_id", ONE, opaque("s-77")),
            (BARE, "publish_id", ONE, opaque("")),
            (BARE, "publish_id", ONE, '{"format":"opaque","id":"s-77","x":1}'),
            (BARE, "publish_id", ONE, '"s-77"'),
        ]
    ],
}


def refusals():
    for what, lines in NO_LINES.items():
        for line in lines:
            stops(f"A line that is refused ends the script: {what}.", line)
    for length in [32, 33]:
        stops(f"A script's clients are acme and zeta: a name of {length} letters, where a client's name has at most 32, ends the script.", f"create {'a' * length} {{}}")
    case("Comments and empty lines are counted.", ["replay"], ["# a comment", "", CREATE, "#", "end"], 2, "3 made acme-1\nsignals: line 5\n", stop=5)
    case("The greatest number.", ["replay"], [CREATE, "poll acme acme-1 4611686018427387904"], 0, "1 made acme-1\n2 sets 0 more no\nrows 0 tokens 0\nowed acme-1 0\n")
    case("A line of 65,536 bytes, the most that there may be: a comment.", ["replay"], [(WHOLE, "#"), CREATE], 0, "2 made acme-1\nrows 0 tokens 0\nowed acme-1 0\n")
    case("A line of 65,537 bytes is refused, be it a comment.", ["replay"], [(WHOLE + 1, "#"), CREATE], 2, "signals: line 1\n", stop=1)
    for piece in [1, 4, 15, 16, 20, 100]:
        case("After the line that is refused the input isn't asked for more.", ["replay"], [CREATE, "end", CREATE, CREATE], 2, "1 made acme-1\nsignals: line 2\n", piece=piece, stop=2)
    case("A last line without an end is refused at the end of the input.", ["replay"], [CREATE], 2, "1 made acme-1\nsignals: line 2\n", last="end", stop=2)
    for piece in [1, 7, 15, 30]:
        case("At the end of the input it is asked once more, and no further.", ["replay"], [CREATE, CREATE], 0, "1 made acme-1\n2 made acme-2\nrows 0 tokens 0\nowed acme-1 0\nowed acme-2 0\n", piece=piece)


def streams():
    case("A stream of another client isn't found.", ["replay"], [CREATE, "poll zeta acme-1 32"], 0, "1 made acme-1\n2 not-found\nrows 0 tokens 0\nowed acme-1 0\n")
    # the payload of a token about an identifier of 5,762 bytes has 6,001, which Python's `len` of the text says
    case("A payload of 6,000 bytes, the most that there may be, is published.", ["replay"], [CREATE, publication(ONE, opaque("s" * 5761))], 0,
         "1 made acme-1\n2 published 1\n2 token acme-1.1\nrows 0 tokens 0\nowed acme-1 1\n")
    case("A payload of 6,001 bytes is too long.", ["replay"], [CREATE, publication(ONE, opaque("s" * 5762))], 0, "1 made acme-1\n2 long 6001\nrows 0 tokens 0\nowed acme-1 0\n")
    case("A client has sixteen streams, in order of their numbers.", ["replay"], ["create zeta {}"] + [CREATE] * 17 + [publication(ONE, opaque("s-77"))], 0,
         "1 made zeta-1\n" + "".join(f"{n + 1} made acme-{n}\n" for n in range(1, 17)) + "18 too-many\n19 published 17\n"
         + "".join(f"19 token acme-{n}.1\n" for n in range(1, 17)) + "19 token zeta-1.1\n" + NONE
         + "".join(f"owed acme-{n} 1\n" for n in range(1, 17)) + "owed zeta-1 1\n")
    many = [publication(f"{n:08x}-0000-0000-0000-000000000000", opaque(f"s-{n}")) for n in range(33)]
    made = "1 made acme-1\n" + "".join(f"{n + 2} published 1\n{n + 2} token acme-1.{n + 1}\n" for n in range(33))
    page = "".join(f"{{0}} m{n} acme-1.{n}\n" for n in range(1, 33))
    for asked in [32, 33, 4611686018427387904]:
        case("A page has 32 tokens at most, whatever is asked for.", ["replay"], [CREATE] + many + [f"poll acme acme-1 {asked}"], 0,
             made + "35 sets 32 more yes\n" + page.replace("{0}", "35") + NONE + "owed acme-1 33\n")
    case("A page of 31 where 31 are asked for.", ["replay"], [CREATE] + many + ["poll acme acme-1 31"], 0,
         made + "35 sets 31 more yes\n" + "".join(f"35 m{n} acme-1.{n}\n" for n in range(1, 32)) + NONE + "owed acme-1 33\n")


def messages():
    one = [CREATE, publication(ONE, opaque("s-77"))]
    front = "1 made acme-1\n2 published 1\n2 token acme-1.1\n3 sets 1 more no\n3 m1 acme-1.1\n"
    case("A repeated message is seen, and its answer settles.", ["replay"], one + [POLL, "deliver 1", "deliver 1", "answer 2"], 0,
         front + "4 accepted a1\n5 seen a2\n6 settled 1\n" + GOOD_ROW + "owed acme-1 0\n")
    case("A message that doesn't stand is refused.", ["replay"], one + [POLL, "deliver 2", "deliver 1"], 2, front + "signals: line 4\n", stop=4)
    two = one + [publication(TWO, opaque("s-78")), POLL]
    handed = ("1 made acme-1\n2 published 1\n2 token acme-1.1\n3 published 1\n3 token acme-1.2\n"
              "4 sets 2 more no\n4 m1 acme-1.1\n4 m2 acme-1.2\n")
    together = "5 accepted a1\n6 accepted a2\n7 settled 1\n8 settled 1\n"
    apart = "5 accepted a1\n6 settled 1\n7 accepted a2\n8 settled 1\n"
    for lines, printed, subjects in [
        (["deliver 1", "deliver 2", "answer 1", "answer 2"], together, ("s-77", "s-78")),
        (["deliver 1", "deliver 2", "answer 2", "answer 1"], together, ("s-77", "s-78")),
        (["deliver 1", "answer 1", "deliver 2", "answer 2"], apart, ("s-77", "s-78")),
        (["deliver 2", "deliver 1", "answer 1", "answer 2"], together, ("s-78", "s-77")),
        (["deliver 2", "deliver 1", "answer 2", "answer 1"], together, ("s-78", "s-77")),
        (["deliver 2", "answer 1", "deliver 1", "answer 2"], apart, ("s-78", "s-77")),
    ]:
        case("Two messages in each order.", ["replay"], two + lines, 0,
             handed + printed + row(1, opaque(subjects[0])) + row(2, opaque(subjects[1])) + "rows 2 tokens 2\nowed acme-1 0\n")
    case("What comes again settles nothing.", ["replay"], two + ["deliver 1", "answer 1", "answer 1", "deliver 1", "answer 2", POLL], 0,
         handed + "5 accepted a1\n6 settled 1\n7 settled 0\n8 seen a2\n9 settled 0\n10 sets 1 more no\n10 m3 acme-1.2\n" + GOOD_ROW + "owed acme-1 1\n")


def crashes():
    front = "1 made acme-1\n2 published 1\n2 token acme-1.1\n3 sets 1 more no\n3 m1 acme-1.1\n"
    for fill, halted, heard in [("5a", "kept", "seen"), ("00", "lost", "accepted")]:
        case(f"A receiver's disk stands still as it opens the gate of a record, and rests with {fill} there.", ["replay"],
             [CREATE, publication(ONE, opaque("s-77")), POLL, f"stop rx 3 {fill} deliver 1", "deliver 1", "answer 1"], 0,
             front + f"4 {halted}\n5 {heard} a1\n6 settled 1\n" + GOOD_ROW + "owed acme-1 0\n")


def statuses():
    first = publication(ONE, opaque("s-77"))
    case("A paused stream owes and offers nothing; once enabled it offers, and disabled it owes nothing.", ["replay"],
         [CREATE, "status acme acme-1 paused", first, POLL, "status acme acme-1 enabled", POLL, "status acme acme-1 disabled"], 0,
         "1 made acme-1\n2 state acme-1 paused\n3 published 1\n3 token acme-1.1\n4 sets 0 more no\n5 state acme-1 enabled\n6 sets 1 more no\n"
         "6 m1 acme-1.1\n7 state acme-1 disabled\n" + NONE + "owed acme-1 0\n")
    case("The operator's disabling drops what is owed but its own notice, and once more it changes nothing.", ["replay"],
         [CREATE, first, publication(TWO, opaque("s-78")), "operator acme-1 disabled", POLL, "operator acme-1 disabled"], 0,
         "1 made acme-1\n2 published 1\n2 token acme-1.1\n3 published 1\n3 token acme-1.2\n4 state acme-1 disabled token 3\n5 sets 1 more no\n"
         "5 m1 acme-1.3\n6 state acme-1 disabled\n" + NONE + "owed acme-1 1\n")
    case("A name that was used makes the same publication again, and no other one.", ["replay"],
         [CREATE, first, first, publication(ONE, opaque("s-78"))], 0,
         "1 made acme-1\n2 published 1\n2 token acme-1.1\n3 published 1\n3 token acme-1.1\n4 conflict\n" + NONE + "owed acme-1 1\n")
    case("A verification may be asked for once in sixty seconds.", ["replay"],
         ["time 100", CREATE, "verify acme acme-1", "time 159", "verify acme acme-1", "time 160", "verify acme acme-1", "poll acme acme-1 1"], 0,
         "1 time 100\n2 made acme-1\n3 asked acme-1.1\n4 time 159\n5 early 160\n6 time 160\n7 asked acme-1.2\n8 sets 1 more yes\n8 m1 acme-1.1\n"
         + NONE + "owed acme-1 2\n")
    case("A token to a push stream is handed out.", ["replay"],
         ['create acme {"delivery":{"method":"urn:ietf:rfc:8935","endpoint_url":"http://rx.example/"}}', first, "hand acme-1", POLL, "deliver 1", "answer 1", "hand acme-1"], 0,
         "1 made acme-1\n2 published 1\n2 token acme-1.1\n3 handed 1\n3 m1 acme-1.1\n4 not-found\n5 accepted a1\n6 settled 1\n7 handed 0\n"
         + GOOD_ROW + "owed acme-1 0\n")


def scripts():
    for group in script_cases.GROUPS:
        why, lines, status, text = script_cases.script(group)
        case(why, ["replay"], lines, status, text)
    for seed, count, most, crashing in [(1, 400, 3, False), (2, 600, 6, False), (3, 900, 14, False), (4, 700, 4, True)]:
        lines = walk_scripts.script(seed, count, most, crashing)
        printed, status = replay_model.replay([line.encode() for line in lines])
        case(f"{count} lines that are drawn.", ["replay"], lines, status, "".join(line + "\n" for line in printed))


def files():
    """What is stored beside the crate, by its path."""
    cases.clear()
    answers.clear()
    for task in (usage, fold, fold_by_rs256, refusals, streams, messages, crashes, statuses, scripts):
        task()
    return {"crates/sig_runs/stdin": "\n".join(cases).encode(), "crates/sig_runs/stdout": "".join(answers).encode()}
