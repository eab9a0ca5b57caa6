#!/usr/bin/env bash
# The proved ciphers, hashes and scrypt beside OpenSSL and libsodium, on the same sizes and costs in one run.
# OpenSSL runs with the processor's extensions masked, and as it is; its scrypt and PBKDF2 are called through
# Python's hashlib. libsodium is called by sodium.c, where it has the primitive and its headers are installed.
# Speeds are by the processor time of one core, so that another load on the machine tells little. A ratio is our
# speed by the other's: above 1 is faster.
# SECONDS_EACH is how long OpenSSL measures a row, and ROUNDS how often each is measured: the best counts.
set -euo pipefail
cd "$(dirname "$0")/.."
program=crates/cipher_bench/out/cipher_bench
seconds=${SECONDS_EACH:-1}
rounds=${ROUNDS:-3}
size=49152
folder=$(mktemp -d)
trap 'rm -r "$folder"' EXIT

(cd crates/cipher_bench && rt run > /dev/null)
cc -O2 -o "$folder/sodium" bench/sodium.c -lsodium 2> /dev/null || echo 'no libsodium column: its headers are missing'

# ours PRIMITIVE REPETITIONS: megabytes a second
ours() {
  local spent TIMEFORMAT=%U
  spent=$({ time "$program" "$1" "$size" "$2" > /dev/null; } 2>&1)
  awk -v s="$size" -v n="$2" -v t="$spent" 'BEGIN { printf "%.1f\n", s * n / t / 1e6 }'
}

# theirs CIPHER: megabytes a second
theirs() {
  openssl speed -seconds "$seconds" -bytes "$size" -evp "$1" 2> /dev/null |
    awk 'END { sub("k", "", $NF); printf "%.1f\n", $NF / 1000 }'
}

# theirs_hmac: megabytes a second
theirs_hmac() {
  openssl speed -seconds "$seconds" -bytes "$size" -hmac sha256 2> /dev/null |
    awk 'END { sub("k", "", $NF); printf "%.1f\n", $NF / 1000 }'
}

# their_filling REPETITIONS: megabytes a second of PBKDF2 with one turn
their_filling() {
  python3 - "$1" "$size" << 'PYTHON'
import hashlib, sys, time
count, size = int(sys.argv[1]), int(sys.argv[2])
salt = bytes([7] * 16)
start = time.process_time()
for _ in range(count):
    salt = hashlib.pbkdf2_hmac("sha256", bytes([7] * 32), salt, 1, size)[:16]
print("%.1f" % (size * count / (time.process_time() - start) / 1e6))
PYTHON
}

# sodiums PRIMITIVE REPETITIONS: megabytes a second, or - where libsodium has no such primitive
sodiums() {
  local spent TIMEFORMAT=%U
  if [ -x "$folder/sodium" ] && "$folder/sodium" "$1" 16 1; then
    spent=$({ time "$folder/sodium" "$1" "$size" "$2"; } 2>&1)
    awk -v s="$size" -v n="$2" -v t="$spent" 'BEGIN { printf "%.1f\n", s * n / t / 1e6 }'
  else
    echo -
  fi
}

# keys REPETITIONS COMMAND..: keys a second. Here the system's time counts, which hands out the memory.
keys() {
  local count=$1 spent TIMEFORMAT='%U %S'
  shift
  spent=$({ time "$@" > /dev/null; } 2>&1)
  awk -v n="$count" '{ printf "%.1f\n", n / ($1 + $2) }' <<< "$spent"
}

# our_keys COST REPETITIONS, their_keys .., sodiums_keys ..: keys a second
our_keys() { keys "$2" "$program" scrypt "$1" "$2"; }

sodiums_keys() {
  if [ -x "$folder/sodium" ]; then keys "$2" "$folder/sodium" scrypt "$1" "$2"; else echo -; fi
}

their_keys() {
  python3 - "$1" "$2" << 'PYTHON'
import hashlib, sys, time
cost, count = int(sys.argv[1]), int(sys.argv[2])
salt = bytes([7] * 16)
start = time.process_time()
for _ in range(count):
    key = hashlib.scrypt(b"long pass", salt=salt, n=2**cost, r=8, p=1, maxmem=2**28, dklen=64)
    salt = key[:16]
print("%.1f" % (count / (time.process_time() - start)))
PYTHON
}

masked() { OPENSSL_ia32cap=0:0 "$@"; }

best() { sort -n | tail -1; }

ratio() { if [ "$2" = - ]; then echo -; else awk -v a="$1" -v b="$2" 'BEGIN { printf "%.2f", a / b }'; fi; }

row() { printf '%-14s %9s %15s %14s %10s %8s %8s %10s\n' "$@"; }

# compare NAME OURS THEIRS SODIUMS: a row of three commands. Rounds in turn, so that all meet the same load.
compare() {
  local our plain full sodium
  rm -f "$folder"/*.speeds
  for _ in $(seq "$rounds"); do
    $2 >> "$folder/our.speeds"
    masked $3 >> "$folder/plain.speeds"
    $3 >> "$folder/full.speeds"
    $4 >> "$folder/sodium.speeds"
  done
  our=$(best < "$folder/our.speeds")
  plain=$(best < "$folder/plain.speeds")
  full=$(best < "$folder/full.speeds")
  sodium=$(best < "$folder/sodium.speeds")
  row "$1" "$our" "$plain" "$full" "$sodium" "$(ratio "$our" "$plain")" "$(ratio "$our" "$full")" \
    "$(ratio "$our" "$sodium")"
}

grep -m 1 '^model name' /proc/cpuinfo || true
openssl version
python3 -c 'import ssl; print("hashlib by", ssl.OPENSSL_VERSION)'
header() { row "$1" ours 'openssl masked' 'openssl as is' libsodium 'by masked' 'by as is' 'by sodium'; }

echo "$size bytes, megabytes a second"
header primitive
compare aes_256_ctr 'ours aes_256_ctr 1000' 'theirs aes-256-ctr' 'sodiums aes_256_ctr 1000'
compare aes_256_gcm 'ours aes_256_gcm 500' 'theirs aes-256-gcm' 'sodiums aes_256_gcm 2000'
compare sha_256 'ours sha_256 1000' 'theirs sha256' 'sodiums sha_256 1000'
compare hmac_sha_256 'ours hmac_sha_256 1000' theirs_hmac 'sodiums hmac_sha_256 1000'
compare pbkdf2_sha_256 'ours pbkdf2_sha_256 200' 'their_filling 200' 'sodiums pbkdf2_sha_256 200'
table=$(for _ in $(seq "$rounds"); do ours ghash 1000; done | best)
bits=$(for _ in $(seq "$rounds"); do ours ghash_bit_rule 250; done | best)
echo "ghash by the table $table, by the bit rule $bits, ratio $(ratio "$table" "$bits")"
echo 'scrypt by cost, keys a second'
header cost
compare 4 'our_keys 4 4000' 'their_keys 4 4000' 'sodiums_keys 4 4000'
compare 14 'our_keys 14 20' 'their_keys 14 20' 'sodiums_keys 14 20'
