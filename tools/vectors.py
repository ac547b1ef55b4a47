#!/usr/bin/env python3
"""Writes what the program `vectors` should print: python3 tools/vectors.py > crates/vectors/stdout

The messages of whole bytes that RFC 6234 gives for SHA-256, with the digests as printed there; hashlib has to agree.
"""
import hashlib

VECTORS = [
    ("abc", b"abc", 1, "BA7816BF8F01CFEA414140DE5DAE2223B00361A396177A9CB410FF61F20015AD"),
    (
        "448 bits",
        b"abcdbcdecdefdefgefghfghighijhijkijkljklmklmnlmnomnopnopq",
        1,
        "248D6A61D20638B8E5C026930C3E6039A33CE45964FF2167F6ECEDD419DB06C1",
    ),
    ("a million a", b"a", 1000000, "CDC76E5C9914FB9281A1C7E284D73E67F1809A48A497200E046D39CCC7112CD0"),
    ("640 bytes", b"01234567" * 8, 10, "594847328451BDFA85056225462CC1D867D877FB388DF0CE35F25AB5562BFBB5"),
    ("one byte", b"\x19", 1, "68AA2E2EE5DFF96E3355E6C7EE373E3D6A4E17F75F9518D843709C0C9BC3E3D4"),
    (
        "16 bytes",
        bytes.fromhex("e3d72570dcdd787ce3887ab2cd684652"),
        1,
        "175EE69B02BA9B58E2B0A5FD13819CEA573F3940A94F825128CF4209BEABB4E8",
    ),
    (
        "163 bytes",
        bytes.fromhex(
            "8326754e2277372f4fc12b20527afef04d8a056971b11ad57123a7c137760000"
            "d7bef6f3c1f7a9083aa39d810db310777dab8b1e7f02b84a26c773325f8b2374"
            "de7a4b5a58cb5c5cf35bcee6fb946e5bd694fa593a8beb3f9d6592ecedaa66ca"
            "82a29d0c51bcf9336230e5d784e4c0a43f8d79a30a165cbabe452b774b9c7109"
            "a97d138f129228966f6c0adc106aad5a9fdd30825769b2c671af6759df28eb39"
            "3d54d6"
        ),
        1,
        "97DBCA7DF46D62C8A422C941DD7E835B8AD3361763F7E9B2D95F4F0DA6E1CCBC",
    ),
]

WAYS = [
    "at once",
    "a byte and the others",
    "first of four",
    "second of four",
    "third of four",
    "fourth of four",
    "in parts of 1",
    "in parts of 64",
    "in parts of 5, 2, 1, 8, 13",
    "in parts of 1, 63, 64, 65, 1000",
]

for name, part, times, printed in VECTORS:
    digest = printed.lower()
    assert hashlib.sha256(part * times).hexdigest() == digest, name
    print(name)
    print(f"  {'standard':<31} {digest}")
    for way in WAYS:
        print(f"  {way:<31} {digest} same")
print(f"{len(VECTORS)} vectors, all as the standard says")
