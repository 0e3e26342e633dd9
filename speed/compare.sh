#!/bin/sh
# Sets mt_ccm beside the plain scalar C form, and beside OpenSSL where its headers are there: how long each
# takes to seal and open a message of 1,200 bytes (the C form one of 64 too), and the ratios. All run in turn,
# and of each the least time counts, so that what else the machine does weighs little.
#        speed/compare.sh [ROUNDS [TURNS]]
set -eu
cd "$(dirname "$0")/.."
rounds=${1:-100} turns=${2:-300}
scalar=$(mktemp) openssl=$(mktemp)
trap 'rm -f "$scalar" "$openssl"' EXIT
gcc -O2 speed/ccm_scalar.c -o "$scalar"
cc -O2 speed/ccm_openssl.c -lcrypto -o "$openssl" 2>/dev/null || rm -f "$openssl"

# The nanoseconds that OpenSSL takes to seal and open a message, the key set at each call.
openssl_line() {
    "$openssl" "$turns" | awk -v name="$1" '
        /key set at each call/ { sub(/.*: /, ""); ns += 1e9 / $1 }
        END { printf "%s 1200 bytes: %.0f ns\n", name, ns }'
}

(cd crates/speed && rt run -- ccm 1 >/dev/null 2>&1)
for _ in $(seq "$rounds"); do
    crates/speed/out/speed ccm "$turns" 2>&1 | sed -n 's/^1200 bytes/proved &/p'
    "$scalar" "$turns" | sed 's/^/scalar /'
    if [ -x "$openssl" ]; then
        openssl_line instructions
        OPENSSL_ia32cap=0:0 openssl_line tables
    fi
done | awk '
    { for (i = 2; i < NF; i += 4) { k = $1 $i; if (!(k in least) || $(i + 2) < least[k]) least[k] = $(i + 2) } }
    function told(length_of, name, who, a, b) {
        a = least["proved" length_of]; b = least[name length_of]
        if (b) printf "%s bytes: mt_ccm %d ns, %s %d ns, ratio %.3f\n", length_of, a, who, b, a / b
    }
    END {
        told(1200, "scalar", "scalar C"); told(64, "scalar", "scalar C")
        told(1200, "tables", "OpenSSL without AES instructions")
        told(1200, "instructions", "OpenSSL with AES instructions")
    }'
