"""Keys of RSA for tests, and tokens that they sign by RS256, by plain integers and Python's own hashlib, base64 and json.

A signature of RSASSA-PKCS1-v1_5 has one value (RFC 8017, section 8.2.1), so these tokens are those that any right signer makes;
`rs256_tokens.txt` has tokens of another hand. The private keys stand here for everybody to read: they protect nothing. Nothing
here comes from the program under test.
"""
from dataclasses import dataclass, replace

from cases.sign_tokens import HEADER, claims, mac_of, part, text
from models.rsa import encoded

RS256 = dict(HEADER, alg="RS256")


def bytes_of(number):
    """The fewest bytes that spell a number (RFC 7518, section 2, Base64urlUInt)."""
    return number.to_bytes((number.bit_length() + 7) // 8, "big")


@dataclass(frozen=True)
class PrivateKey:
    """Two primes and the public exponent."""

    first: int
    second: int
    exponent: int = 65537

    @property
    def modulus(self):
        return self.first * self.second

    @property
    def size(self):
        return (self.modulus.bit_length() + 7) // 8

    def power(self, number):
        """What the private exponent makes of a number below the modulus (RFC 8017, section 5.1.2, step 2b)."""
        first, second = (pow(number, pow(self.exponent, -1, prime - 1), prime) for prime in (self.first, self.second))
        return second + self.second * ((first - second) * pow(self.second, -1, self.first) % self.first)

    def sign(self, front):
        """The signature of a text, or of bytes (RFC 8017, section 8.2.1)."""
        return self.raw(encoded(front if isinstance(front, bytes) else front.encode(), self.size))

    def raw(self, message):
        """What the private exponent makes of any message of as many bytes as the modulus, be it an encoded one or not."""
        return self.power(int.from_bytes(message, "big")).to_bytes(self.size, "big")

    def with_exponent(self, exponent):
        return replace(self, exponent=exponent)

    def jwk(self, kid=None, **changes):
        """The public key as a JWK (RFC 7518, section 6.3.1); a change of None takes a member away."""
        return jwk(self.modulus, self.exponent, kid, **changes)

    def word(self):
        """The public key as a word of `fold`."""
        return f"rs256:{part(bytes_of(self.modulus))}:{part(bytes_of(self.exponent))}"


def jwk(modulus, exponent, kid=None, **changes):
    """Any two numbers as a JWK, or texts that stand for them."""
    n, e = (value if isinstance(value, str) else part(bytes_of(value)) for value in (modulus, exponent))
    made = {"kty": "RSA", "alg": "RS256", "n": n, "e": e, "kid": kid, **changes}
    return {name: value for name, value in made.items() if value is not None}


def rs256_header(**changes):
    made = dict(RS256, **changes)
    return {name: value for name, value in made.items() if value is not None}


def front_of(header, payload):
    header = header if isinstance(header, bytes) else text(header)
    payload = payload if isinstance(payload, bytes) else text(payload)
    return part(header) + "." + part(payload)


def rs256(header, payload, key):
    """A token signed by RS256, whatever its header says."""
    front = front_of(header, payload)
    return front + "." + part(key.sign(front))


def with_signature(header, payload, make):
    """A token whose third part is made of the text that it covers."""
    front = front_of(header, payload)
    return front + "." + part(make(front))


def confused(header, secret):
    """A token whose third part is an HMAC under these bytes: what a verifier takes that lets the header choose its key's kind."""
    return with_signature(header, claims(), lambda front: mac_of(front, secret))


def der(tag, *parts):
    """One value of DER (X.690, section 8.1)."""
    body = b"".join(parts)
    size = bytes_of(len(body))
    return bytes([tag]) + (bytes([len(body)]) if len(body) < 128 else bytes([128 + len(size)]) + size) + body


def public_key_der(key):
    """A SubjectPublicKeyInfo (RFC 3279, section 2.3.1)."""
    numbers = [der(2, b"\0" * (number.bit_length() % 8 == 0) + bytes_of(number)) for number in (key.modulus, key.exponent)]
    name = der(0x30, der(6, bytes.fromhex("2a864886f70d010101")), der(5))
    return der(0x30, name, der(3, b"\0", der(0x30, *numbers)))


def public_key_pem(key):
    """The same in the form in which providers hand keys out (RFC 7468, section 13)."""
    standard = part(public_key_der(key)).translate(str.maketrans("-_", "+/"))
    standard += "=" * (-len(standard) % 4)
    lines = [standard[at : at + 64] for at in range(0, len(standard), 64)]
    return "\n".join(["-----BEGIN PUBLIC KEY-----", *lines, "-----END PUBLIC KEY-----", ""])


# 2,048 bits; 3 and 2^32 - 1 are exponents of it too
FIRST = PrivateKey(
    int(
        "d62d0906ffe8bc73db2a351a8a7489caa27003684a5c856c41a5930a1c2324cc5eb126b5d7c9ee5eb33d0a6823dad7e7f4f429ecc651e230"
        "36d0890223117ae758aa329f7008c10a3462f452aa9c986c1c913c5d70c9b4988f1c9f3f04eb3ff611b89c48b3d5ca863e0d6898c7dc4bf5"
        "c558fefde644babc987e6f422c154783",
        16,
    ),
    int(
        "c10c1ef60ef0756e078a83c26f467f5222a2624f8d92efeaf3aec37257ee6bd21338571045d6770c8f910b97b5097485d3cecf56d66712e3"
        "a3869bc4fef89939b8b1a36d3e737a4dbab87eec4335993196902f42ad0198415bf9ebcb8d957ff55493fcd91bc7ecf3d32b3b7fab068601"
        "d212f939944eeda01454cc038e721915",
        16,
    ),
)
# 3,072 bits
SECOND = PrivateKey(
    int(
        "fd595137e12874a3891e69451d3f39d4207ef13163eca5a87e058a76b63f27055109b34dc9c0bf87bda6c2ee65025741f78ac87fcd16cfbd"
        "f838827f758429f31a8188bbe95364a4a7d2885c0994fcbb16f9947f81651d13574e31d87c1cf24e83aa147dbe62620100f33b4a567267fe"
        "1291105222aa0617e6ddda654fb210c51f61a1397a1e9dd814e0224c0666f6fb1cacd0a62a6e045f33e1f78fadacde2bf8a3f3ac905657b4"
        "fd8881a1f7390bbedc0d91b8ba7855e7a5c427127d4c7a51",
        16,
    ),
    int(
        "e5265fedd137f66084bcca319630aa17e5de889c33cd07484265c7a991d39cf9d525a94a8b9eb7a937025c29055f9dfaa774e5417c6f83b8"
        "cc7e16541b94501ea22d24cbfd0194ccc81a93305f3cb275064a6a7cd352d90692817bebe81426043960da3e2770c9cce48a861b32670e52"
        "af29e8d1b24b7bd109cd63300d64bbcfd27ee73882dd00a335daf2947ddf366d52ad5e289b4310561054d288afa7906da4e61b6efbe5f9d4"
        "bf61b7a513fd1909e0d4a27c1afe074b47ec1bec867de3fb",
        16,
    ),
)
# 3,000 bits: no multiple of 64
THIRD = PrivateKey(
    int(
        "f3a9e332fd346761506d51be2c3c8f785e204a2a5d4dd268ccb3047675eddb9149ddcf42f5d7be81d5309f650e86c04f922ed0561c6557e9"
        "73a6e00fa47961c67b67ee5e3436bbe977641d2139cceca3dfe9f1402e65e41a54339a47a4d13459b645c5d172c7eb9f0490a3cc725be454"
        "08cc196fcfc2816236cc5ce4194279eb6c8ed7a106df3742c98936bb01b9732b5a49733171307436732593f9a873bad973aca6523a761d0d"
        "ccd5aa882bdfe9748485d2bc9065faa3cbcf2e1",
        16,
    ),
    int(
        "ccc6c9604dad20aec8790e8a338616ec5b9cb7ce5908e8977e45e00fdedf42b05d78fd026456fc71bf9496b98ce18602db5f1d6e669621a7"
        "133b3bcc60ee7006642652709710d80565a12f2c4e27afb559b7bc7cff9a0bd3c70b301531c472d22c968354b23acba088de152354094ad2"
        "fdfed8ee53b045df007fe940b7f5d9cdfd66aed7d753aac0435ae98576004a63677ad177758b3580cf1afbe2d261e3c88f721522eb49fc9c"
        "ce77d1b40cb1cc6e8030c5c405d5cf00168c767",
        16,
    ),
)
# 2,048 bits; nobody trusts it
OTHER = PrivateKey(
    int(
        "fab2d1f940998cb6b6782ada442ff6518c6b0df82e82a4052249fc5a232a6591fb608ccdc627a3a45d0f598403a754e8670c06da9b29107c"
        "ac6e1333bbc37a27a621b3ca297cb1353afebbbb08d727aeebb5699686ca2e6c88bef388bef951511a43eb67dd5302f04f31918713908b69"
        "ebf60b0fa0141a794755cabd0507c3fd",
        16,
    ),
    int(
        "b7693d4586fb52b6e4b855971cf95edbf0408b0793d1b8b4babe4664d143d6c5f405e568044552d76dfb02f6fb633fa356ec582cdae3d9be"
        "1cc628b718682ceb959e778375e5ceb502706319c7de2edb5b73b939a4b3bff9185e6b57bd1d0a2af439a46dc5b10c36a7392d8aa63e7b33"
        "97bc41460af219d7801431011b95645b",
        16,
    ),
)
