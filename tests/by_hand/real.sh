#!/usr/bin/env bash
# Runs the program on real keyrings, binary and armored, and holds what it reads against other programs: fingerprints,
# the places of packets and the subpackets of signatures against gpg's, packets against pgpdump's, fingerprints against
# sq's; and what opgp-verify says of signatures, where make verifier has built it, against gpg and sq (tests/by_hand/verdicts.py).
# It wants gpg, does without pgpdump and sq, and is no part of the gate. Words: binary keyrings; with none, each of
# /usr/share/keyrings. It prints a line for each, behind it one for each signature of which gpg says something else, and the last
# line counts keyrings.
#
# With --input as the only word it tries instead an input of 2^40 octets, the usual limit, and one of one octet more, in sparse files:
# some twenty minutes. A smaller limit, as a second word, is given to the program and tried in the same way.
#
# What names the keys is gpg --show-keys on the binary keyring: it lists all keys in their order, without an import.
# (GnuPG 2.2 refuses armor that has neither padding nor a checksum.) It reads no key of version 6 (GnuPG 2.2 and 2.4);
# such keys are told and left out, any other that it skips fails. A keyring with such keys isn't held against the others.
set -u
here=$(cd "$(dirname "$0")/../.." && pwd)
if [ "${1-}" = --input ]; then
    limit=${2-1099511627776}
    work=$(mktemp -d)
    trap 'rm -rf "$work"' EXIT
    failed=0
    for size in "$limit" $((limit + 1)); do
        wanted="armor: NoBlock block 0 at $limit inner 0"
        [ "$size" = "$limit" ] || wanted="input: InputTooLong block 0 at $limit inner 0"
        truncate -s "$size" "$work/input" || exit 1
        told=$("$here/opgp" list ${2:+--input "$2"} < "$work/input" 2>&1)
        [ $? = 1 ] && [ "$told" = "$wanted" ] || { failed=$((failed + 1)); echo "an input of $size octets: FAILED: $told"; }
    done
    echo "$((2 - failed)) passed, $failed failed"
    [ "$failed" = 0 ]
    exit
fi
keyrings=("$@")
[ $# -gt 0 ] || keyrings=(/usr/share/keyrings/*.gpg)
[ -r "${keyrings[0]}" ] || { echo "tests/by_hand/real.sh: ${keyrings[0]} is wanted, or other binary keyrings as words" >&2; echo "0 passed, 1 failed"; exit 1; }
command -v gpg > /dev/null || { echo "tests/by_hand/real.sh: gpg is wanted" >&2; echo "0 passed, 1 failed"; exit 1; }
"$here/opgp" list < "$here/examples/rfc9580-a1.asc" > /dev/null || { echo "tests/by_hand/real.sh: the program can't be built" >&2; echo "0 passed, 1 failed"; exit 1; }
work=$(mktemp -d)
trap 'rm -rf "$work"' EXIT
export GNUPGHOME=$work/gnupg
mkdir -m 700 "$GNUPGHOME"
passed=0
failed=0

opgp() { "$here/opgp" "$@" 2> "$work/said"; }
lists_alike() { opgp list | cmp -s - "$work/lines"; }

# Each check reads $input, one of $work/keyring and $work/armored; each says by its name what fails.
lists() { opgp list < "$input" > "$work/lines"; }
same_octets() { opgp write --out binary < "$input" | cmp -s - "$work/keyring"; }
same_armor() { opgp write < "$input" | cmp -s - "$work/armored"; }
normal_lists_alike() { opgp normalise < "$input" | lists_alike; }
joined_lists_alike() { opgp join < "$input" | lists_alike; }
split_without_lead() { # what split leaves out at the front is what the lines before the first key list
    opgp split --out binary < "$input" > "$work/split" || return 1
    local lead=$(($(stat -c %s "$work/keyring") - $(stat -c %s "$work/split")))
    [ $lead -ge 0 ] && tail -c "+$((lead + 1))" "$work/keyring" | cmp -s - "$work/split" \
        && head -c "$lead" "$work/keyring" | opgp list | cmp -s - <(sed '/^pub /,$d' "$work/lines")
}
same_fingerprints() { # of gpg's colons: field 10 of each line fpr
    gpg --batch --no-options --show-keys --with-colons --with-subkey-fingerprint < "$work/keyring" 2> "$work/said" \
        | awk -F: '$1 == "fpr" { print $10 }' > "$work/gpgs"
    awk '$1 == "pub" || $1 == "sub" { print $2, $7 }' "$work/lines" > "$work/keys"
    awk 'FILENAME == ARGV[1] { named[$1]; next } $1 == "v6" && !($2 in named) { print $2 }' "$work/gpgs" "$work/keys" > "$work/skipped"
    cut -d ' ' -f 2 "$work/keys" | grep -vxFf "$work/skipped" | cmp -s - "$work/gpgs"
}
shown() { opgp show --mode binary < "$work/keyring"; }
same_places() { # place, type, form and size of each packet; area, kind, critical bit and size of each subpacket
    gpg --batch --no-options --list-packets < "$work/keyring" 2> "$work/said" | LC_ALL=C sed -nE '
        s/^# off=([0-9]+) ctb=.. tag=([0-9]+) hlen=([0-9]) plen=([0-9]+)( new-ctb)?$/\1 \2\5 \3 \4/p
        s/^\t(critical )?(hashed )?subpkt ([0-9]+) len ([0-9]+) .*/  \2kind \3 \1length \4/p' > "$work/gpgs"
    shown | awk '
        $1 == "block" && substr($8, 1, 3) == "new" { print $4, $6, "new-ctb", substr($8, 4) + 1, $10 }
        $1 == "block" && substr($8, 1, 3) == "old" { print $4, $6, substr($8, 4) + 1, $10 }
        $1 != "block" { print "  " ($1 == "hashed" ? "hashed " : "") "kind " $3 ($5 ? " critical" : "") " length", $7 - 1 }' \
        | cmp -s - "$work/gpgs"
}
same_packets() { # format, type and size of each packet
    LC_ALL=C pgpdump < "$work/keyring" 2> "$work/said" \
        | LC_ALL=C sed -nE 's/^(Old|New): .*\(tag ([0-9]+)\)\(([0-9]+) bytes\).*/\1 \2 \3/p' > "$work/pgpdumps"
    shown | awk '$1 == "block" { print ($8 ~ /^old/ ? "Old" : "New"), $6, $10 }' | cmp -s - "$work/pgpdumps"
}
same_fingerprints_as_sq() {
    sq packet dump < "$work/keyring" 2> "$work/said" | LC_ALL=C sed -nE 's/^ +Fingerprint: ([0-9A-F]+)$/\1/p' > "$work/sqs"
    awk '$1 == "pub" || $1 == "sub" { print $7 }' "$work/lines" | cmp -s - "$work/sqs"
}
# Row by row what opgp-verify says of signatures, and of changed ones, against gpg and sq.
same_verdicts() {
    local status=0
    "$here/tests/by_hand/verdicts.py" "$work/keyring" "$work/verdicts" > "$work/rows" 2>&1 || status=1
    cp "$work/rows" "$work/said"
    verdicts=", $(tail -n 1 "$work/rows")"
    sed '$d' "$work/rows" > "$work/differing"
    return $status
}
others=(same_places)
[ ! -x "$here/out/opgp-verify" ] || others+=(same_verdicts)
! command -v pgpdump > /dev/null || others+=(same_packets)
! command -v sq > /dev/null || others+=(same_fingerprints_as_sq)
try() { # keyring: the checks that fail, in $wrong
    local check
    wrong=
    verdicts=
    : > "$work/differing"
    cp "$1" "$work/keyring" || { wrong=" unreadable"; return; }
    { echo "-----BEGIN PGP PUBLIC KEY BLOCK-----"; echo; base64 -w 64 "$1"; echo "-----END PGP PUBLIC KEY BLOCK-----"; } > "$work/armored"
    for input in "$work/keyring" "$work/armored"; do
        for check in lists same_octets same_armor normal_lists_alike joined_lists_alike split_without_lead same_fingerprints; do
            $check || wrong+=" $check of ${input##*/}: $(tail -n 1 "$work/said");"
        done
    done
    [ ! -s "$work/skipped" ] || return
    for check in "${others[@]}"; do
        $check || wrong+=" $check: $(tail -n 1 "$work/said");"
    done
}
for keyring in "${keyrings[@]}"; do
    try "$keyring"
    if [ -z "$wrong" ]; then
        passed=$((passed + 1))
        told=$(wc -l < "$work/skipped")
        echo "$keyring: $(wc -l < "$work/lines") packets, $(wc -l < "$work/keys") keys$([ "$told" = 0 ] || echo ", $told of version 6 that gpg doesn't read")$verdicts"
    else
        failed=$((failed + 1))
        echo "$keyring: FAILED:$wrong"
    fi
    cat "$work/differing"
done
echo "$passed passed, $failed failed"
[ "$failed" = 0 ]
