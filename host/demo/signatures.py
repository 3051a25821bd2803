"""Checks what the demonstration left with the openssl command. Started by `signatures`.

    signatures [STATE_FOLDER]

For each response in responses/manifest:

- it is taken apart here, not by the token's reader, and the signed structure is where uaf_signed_part said;
- its signature verifies over exactly these bytes, with the certificate's key (full attestation), the new key (surrogate) or
  the key that was registered under the same KeyID (sign);
- it does not verify over the bytes made shorter or longer by one at either end, or with one bit changed;
- the challenge, the content, the KeyID and the holder's mixed token are the SHA-256 of what the manifest and the public key
  say, the mode says whether there was content, and each count of a key is one above its last.

The certificate verifies by its own key. The mixed tokens are those of responses/table-full.bin and of the table."""

import collections
import hashlib
import pathlib
import subprocess
import sys
import tempfile

KEYHANDLE_ACCESS_TOKEN, STATUS_CODE, AUTHENTICATOR_ASSERTION, USERNAME_AND_KEYHANDLE = 0x2805, 0x2808, 0x280F, 0x3802
REGISTER_RESPONSE, SIGN_RESPONSE, REG_ASSERTION, AUTH_ASSERTION = 0x3602, 0x3603, 0x3E01, 0x3E02
KRD, SIGNED_DATA, CERT, SIGNATURE, FULL, SURROGATE = 0x3E03, 0x3E04, 0x2E05, 0x2E06, 0x3E07, 0x3E08
KEYID, CHALLENGE, PUB_KEY, COUNTERS, ASSERTION_INFO, CONTENT_HASH = 0x2E09, 0x2E0A, 0x2E0C, 0x2E0D, 0x2E0E, 0x2E10
ECDSA_SHA256_DER, ECC_X962_DER = 0x0002, 0x0101

Tlv = collections.namedtuple("Tlv", "tag place value")  # the place of its header; the value's bytes
Line = collections.namedtuple("Line", "file kind place length challenge app_id access_token content")


class Wrong(Exception):
    """A check that did not hold."""


def require(holds, what):
    if not holds:
        raise Wrong(what)


def sha256(data):
    return hashlib.sha256(data).digest()


def number(data):
    return int.from_bytes(data, "little")


# ---- TLVs


def run_of(data, place=0):
    """The TLVs that data is exactly a run of; place is where data starts in the file."""
    found, at = [], 0
    while at < len(data):
        size = number(data[at + 2 : at + 4])
        require(at + 4 + size <= len(data), "TLVs that do not fit")
        found.append(Tlv(number(data[at : at + 2]), place + at, data[at + 4 : at + 4 + size]))
        at += 4 + size
    return found


def inside(tlv, *tags):
    """What a TLV holds, which must be TLVs of these tags."""
    found = run_of(tlv.value, tlv.place + 4)
    require(tuple(one.tag for one in found) == tags, f"other tags in {tlv.tag:#06x}")
    return found


def fields_of(tlv):
    return {one.tag: one.value for one in run_of(tlv.value)}


def parse(data, kind):
    """The signed structure, the signature and the certificate or None."""
    response, assertion, signed = (
        (SIGN_RESPONSE, AUTH_ASSERTION, SIGNED_DATA) if kind == "sign" else (REGISTER_RESPONSE, REG_ASSERTION, KRD)
    )
    whole = Tlv(0, -4, data)
    status, outer = inside(inside(whole, response)[0], STATUS_CODE, AUTHENTICATOR_ASSERTION)
    require(number(status.value) == 0, "status")
    parts = inside(outer, assertion)[0]
    if kind == "sign":
        structure, signature = inside(parts, signed, SIGNATURE)
        return structure, signature.value, None
    structure, attestation = inside(parts, signed, FULL if kind == "full" else SURROGATE)
    if kind == "surrogate":
        return structure, inside(attestation, SIGNATURE)[0].value, None
    signature, certificate = inside(attestation, SIGNATURE, CERT)
    return structure, signature.value, certificate.value


# ---- the openssl command


class OpenSsl:
    def __init__(self, folder):
        self.folder = pathlib.Path(folder)

    def file(self, name, data):
        path = self.folder / name
        path.write_bytes(data)
        return path

    def run(self, *words):
        return subprocess.run(["openssl", *words], capture_output=True)

    def output(self, *words):
        got = self.run(*words)
        require(got.returncode == 0, f"openssl {words[0]}: {got.stderr.decode().strip()}")
        return got.stdout

    def public_key(self, der):
        return self.output("pkey", "-pubin", "-inform", "DER", "-in", self.file("key.der", der))

    def certificate_key(self, der):
        return self.output("x509", "-inform", "DER", "-pubkey", "-noout", "-in", self.file("cert.der", der))

    def check_certificate(self, der):
        pem = self.file("cert.pem", self.output("x509", "-inform", "DER", "-in", self.file("cert.der", der)))
        self.output("verify", "-check_ss_sig", "-CAfile", pem, pem)

    def verifies(self, key, signature, data):
        """True or False as openssl says; anything else it says is an error."""
        got = self.run(
            "dgst", "-sha256", "-verify", self.file("key.pem", key), "-signature", self.file("signature", signature),
            self.file("data", data),
        )
        said = got.stdout.decode().strip().lower()
        require((got.returncode, said) in ((0, "verified ok"), (1, "verification failure")), f"openssl dgst: {said}")
        return got.returncode == 0


# ---- the checks


def altered(data, place, length):
    """Stretches that are not the signed one, by a byte or a bit."""
    end = place + length
    yield "without its first byte", data[place + 1 : end]
    yield "without its last byte", data[place : end - 1]
    yield "with one byte more in front", data[place - 1 : end]
    yield "with one byte more at the end", data[place : end + 1]
    for at in (0, length // 2, length - 1):
        changed = bytearray(data[place:end])
        changed[at] ^= 1 << at % 8
        yield f"with a bit of byte {at} changed", bytes(changed)


class Checks:
    def __init__(self, state, openssl):
        self.state, self.openssl = state, openssl
        self.keys, self.counts = {}, {}  # by KeyID: the public key; the last count
        self.kinds, self.refused, self.hashes = collections.Counter(), 0, 0
        self.certificates = set()
        self.holders = {}
        for name in ("responses/table-full.bin", "table"):
            for record in run_of((state / name).read_bytes()):
                require(record.tag == USERNAME_AND_KEYHANDLE, "stored table")
                fields = fields_of(record)
                self.holders[fields[KEYID]] = fields[KEYHANDLE_ACCESS_TOKEN]

    def hash(self, value, data, what):
        require(value == sha256(data), f"the {what} is not the SHA-256 of what was given")
        self.hashes += 1

    def registration(self, line, fields, certificate):
        require(fields[COUNTERS] == bytes(8), "counters of a registration")
        require(number(fields[ASSERTION_INFO][5:7]) == ECC_X962_DER, "key algorithm")
        require(fields[ASSERTION_INFO][2] == 1, "mode")
        self.hash(fields[KEYID], fields[PUB_KEY], "KeyID")
        require(fields[KEYID] not in self.keys, "a KeyID registered twice")
        self.keys[fields[KEYID]], self.counts[fields[KEYID]] = fields[PUB_KEY], 0
        if fields[KEYID] in self.holders:
            both = bytes.fromhex(line.access_token) + line.app_id.encode()
            self.hash(self.holders[fields[KEYID]], both, "mixed token")
        if certificate is None:
            return self.openssl.public_key(fields[PUB_KEY])
        require(len(certificate) <= 2048, "certificate's length")
        self.certificates.add(certificate)
        return self.openssl.certificate_key(certificate)

    def sign(self, line, fields):
        require(fields[KEYID] in self.keys, "signed by a key that nobody registered")
        self.counts[fields[KEYID]] += 1
        require(number(fields[COUNTERS]) == self.counts[fields[KEYID]], "count")
        require(fields[ASSERTION_INFO][2] == (2 if line.content else 1), "mode")
        if line.content:
            self.hash(fields[CONTENT_HASH], line.content.encode(), "content hash")
        else:
            require(fields[CONTENT_HASH] == b"", "a content hash without content")
        return self.openssl.public_key(self.keys[fields[KEYID]])

    def response(self, line):
        data = (self.state / "responses" / line.file).read_bytes()
        place, length = int(line.place), int(line.length)
        structure, signature, certificate = parse(data, line.kind)
        require((place, length) == (structure.place, 4 + len(structure.value)), "uaf_signed_part names another stretch")
        fields = fields_of(structure)
        require(number(fields[ASSERTION_INFO][3:5]) == ECDSA_SHA256_DER, "signature algorithm")
        self.hash(fields[CHALLENGE], line.challenge.encode(), "challenge hash")
        key = self.sign(line, fields) if line.kind == "sign" else self.registration(line, fields, certificate)
        require(self.openssl.verifies(key, signature, data[place : place + length]), "the signature does not verify")
        for what, stretch in altered(data, place, length):
            require(not self.openssl.verifies(key, signature, stretch), f"the signature verifies over the stretch {what}")
            self.refused += 1
        self.kinds[line.kind] += 1

    def all(self):
        lines = [Line(*line.split("\t")) for line in (self.state / "responses/manifest").read_text().splitlines()]
        for line in lines:
            try:
                self.response(line)
            except Wrong as problem:
                raise Wrong(f"{line.file}: {problem}")
        require(all(self.kinds[kind] for kind in ("full", "surrogate", "sign")), "not every kind of response is there")
        require(self.certificates == {(self.state / "attestation.cert").read_bytes()}, "another certificate")
        for certificate in self.certificates:
            self.openssl.check_certificate(certificate)


def main():
    with tempfile.TemporaryDirectory() as folder:
        try:
            checks = Checks(pathlib.Path(sys.argv[1]), OpenSsl(folder))
            checks.all()
        except (Wrong, OSError) as problem:
            print(f"signatures: FAILED: {problem}")
            return 1
    kinds = ", ".join(f"{count} {kind}" for kind, count in checks.kinds.items())
    print(
        f"signatures: {sum(checks.kinds.values())} responses ({kinds}) verify, {checks.refused} altered stretches do not; "
        f"{checks.hashes} hashes agree; the certificate verifies itself"
    )
    return 0


if __name__ == "__main__":
    sys.exit(main())
