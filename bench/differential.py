#!/usr/bin/env python3
"""The proved ciphers beside Python's cryptography and hashlib, on random input.

    bench/differential.py [CASES] [SEED]

It builds cipher_answers, asks it each case on a line, and compares the answers; without cryptography it says so
and runs what hashlib has. CASES is 300 unless given, and SEED is printed, so that a run can be repeated.
"""
import hashlib
import hmac
import os
import random
import subprocess
import sys

ROOT = os.path.dirname(os.path.dirname(os.path.abspath(__file__)))
PROGRAM = f"{ROOT}/crates/cipher_answers/out/cipher_answers"

try:
    from cryptography.hazmat.primitives.ciphers import Cipher, algorithms, modes
    from cryptography.hazmat.primitives.ciphers.aead import AESGCM
except ImportError:
    Cipher = None


def spelled(data):
    return data.hex() or "-"


def line(name, *words):
    return " ".join([name, *(spelled(it) if isinstance(it, bytes) else str(it) for it in words)])


def encrypted(key, block):
    made = Cipher(algorithms.AES(key), modes.ECB()).encryptor()
    return made.update(block) + made.finalize()


def counted(key, first, text):
    """Counter mode whose last four bytes wrap with no carry, as GCM has it: the library's own carries into all 16."""
    count, stream = int.from_bytes(first[12:], "big"), b""
    while len(stream) < len(text):
        stream += encrypted(key, first[:12] + count.to_bytes(4, "big"))
        count = (count + 1) % 2**32
    return bytes(a ^ b for a, b in zip(text, stream))


def library_counted(key, first, text):
    made = Cipher(algorithms.AES(key), modes.CTR(first)).encryptor()
    return made.update(text) + made.finalize()


def a_block(rng):
    key, block = rng.randbytes(rng.choice([16, 24, 32])), rng.randbytes(16)
    yield line("aes", key, block), encrypted(key, block)


def a_count(rng):
    key, text = rng.randbytes(rng.choice([16, 24, 32])), rng.randbytes(rng.randrange(3000))
    # every second case wraps within the text
    near = rng.random() < 0.5
    count = 2**32 - 1 - rng.randrange(8) if near else rng.randrange(2**31)
    first = rng.randbytes(12) + count.to_bytes(4, "big")
    wanted = counted(key, first, text)
    if not near and wanted != library_counted(key, first, text):
        raise SystemExit("this script's counter mode isn't the library's")
    yield line("ctr", key, first, text), wanted


def a_seal(rng):
    key, iv = rng.randbytes(rng.choice([16, 24, 32])), rng.randbytes(12)
    aad, text = rng.randbytes(rng.randrange(80)), rng.randbytes(rng.choice([rng.randrange(70), rng.randrange(5000)]))
    yield line("seal", key, iv, aad, text), AESGCM(key).encrypt(iv, text, aad)


def an_opening(rng):
    """A ciphertext opens, and with none of its tag's bits flipped."""
    key, iv = rng.randbytes(32), rng.randbytes(12)
    aad, text = rng.randbytes(rng.randrange(40)), rng.randbytes(rng.randrange(100))
    sealed = AESGCM(key).encrypt(iv, text, aad)
    hidden, tag = sealed[:-16], sealed[-16:]
    yield line("open", key, iv, aad, hidden, tag), text
    for bit in range(128):
        wrong = (int.from_bytes(tag, "big") ^ 1 << bit).to_bytes(16, "big")
        yield line("open", key, iv, aad, hidden, wrong), None


def a_digest(rng):
    text = rng.randbytes(rng.randrange(300))
    yield line("sha256", text), hashlib.sha256(text).digest()


def a_code(rng):
    key, text = rng.randbytes(rng.randrange(201)), rng.randbytes(rng.randrange(300))
    yield line("hmac", key, text), hmac.digest(key, text, "sha256")


def a_filling(rng):
    password, salt, size = rng.randbytes(rng.randrange(150)), rng.randbytes(rng.randrange(100)), rng.randrange(1, 1100)
    yield line("pbkdf2", password, salt, size), hashlib.pbkdf2_hmac("sha256", password, salt, 1, size)


def a_derivation(rng):
    password, salt = rng.randbytes(rng.randrange(80)), rng.randbytes(rng.randrange(40))
    n, r, p, size = 2 ** rng.randrange(1, 9), rng.randrange(1, 9), rng.randrange(1, 6), rng.randrange(1, 300)
    wanted = hashlib.scrypt(password, salt=salt, n=n, r=r, p=p, maxmem=2**28, dklen=size)
    yield line("scrypt", password, salt, n, r, p, size), wanted


def cases(rng, count):
    """Rows of a kind, a line, and the answer that is wanted, where None stands for a refusal."""
    kinds = {"sha256": a_digest, "hmac": a_code, "pbkdf2": a_filling, "scrypt": a_derivation}
    if Cipher is None:
        print("no AES: Python has no cryptography")
    else:
        kinds |= {"aes": a_block, "ctr": a_count, "seal": a_seal, "open": an_opening}
    for i in range(count):
        kind = list(kinds)[i % len(kinds)]
        for asked, wanted in kinds[kind](rng):
            yield kind, asked, "refused" if wanted is None else spelled(wanted)


def main():
    count = int(sys.argv[1]) if len(sys.argv) > 1 else 300
    seed = int(sys.argv[2]) if len(sys.argv) > 2 else random.randrange(2**32)
    print(f"{count} cases, seed {seed}")
    built = subprocess.run(
        ["rt", "run"], cwd=f"{ROOT}/crates/cipher_answers", stdin=subprocess.DEVNULL, stdout=subprocess.DEVNULL
    )
    if built.returncode != 0:
        raise SystemExit("cipher_answers isn't built")
    rows = list(cases(random.Random(seed), count))
    asked = "".join(f"{it}\n" for _, it, _ in rows)
    answers = subprocess.run([PROGRAM], input=asked, capture_output=True, text=True, check=True).stdout.splitlines()
    if len(answers) != len(rows):
        raise SystemExit(f"{len(answers)} answers to {len(rows)} lines")
    wrong = [(asked, wanted, got) for (_, asked, wanted), got in zip(rows, answers) if got != wanted]
    for asked, wanted, got in wrong[:5]:
        print(f"asked  {asked}\nwanted {wanted}\ngot    {got}")
    for kind in dict.fromkeys(it for it, _, _ in rows):
        print(f"{kind:8} {sum(it == kind for it, _, _ in rows)} lines")
    print(f"{len(rows) - len(wrong)} of {len(rows)} answers are equal")
    return 1 if wrong else 0


if __name__ == "__main__":
    sys.exit(main())
