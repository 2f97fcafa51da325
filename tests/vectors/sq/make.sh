#!/usr/bin/env bash
# Makes the certificates and messages of this folder anew, with other keys, in the folder that the word names: on Debian 13 with
# its packages sq, gpg, gpg-agent, rsop, gosop and faketime. The times are fixed, the keys aren't; no secret key is kept.
set -euo pipefail
out=$(realpath "$1")
work=$(mktemp -d)
trap 'rm -rf "$work"' EXIT
cd "$work"
export GNUPGHOME=$work/gnupg
mkdir -m 700 "$GNUPGHOME"

at=2024-07-31T10:00:00Z # when something is made, as sq is told
later=2025-01-15T08:30:00Z
last=2025-06-01T23:59:59Z
store=none
sq() { command sq --home none --key-store none --cert-store "$store" --batch --quiet --overwrite --time "$at" "$@"; }
generate() { # key, profile, words
    sq key generate --own-key --without-password --profile "rfc$2" --output "$1.key" --rev-cert "$1.rev" "${@:3}" 2> /dev/null
}
edit() { # key, words of a command that reads it, and writes it anew or what is to be merged with it
    sq "${@:2}" --cert-file "$1.key" --output "$1.new"
    sq keyring merge "$1.key" "$1.new" --output "$1.merged"
    mv "$1.merged" "$1.key"
}
public() { for it in "$@"; do sq keyring filter --experimental --to-cert "$it.key" --output "$it.cert"; done; }
subkey() { # key, number of its subkey: the fingerprint
    sq inspect "$1.key" 2> /dev/null | sed -nE 's/^ +Subkey: ([0-9A-F]+)$/\1/p' | sed -n "$2p"
}

for profile in 4880 9580; do
    version=$([ "$profile" = 4880 ] && echo 4 || echo 6)
    # Each cipher suite.
    at=2024-07-31T10:00:00Z
    generate "rsa2k_$version" "$profile" --cipher-suite rsa2k --userid 'Two (rsa2k) <two@example.org>' --cannot-authenticate
    generate "rsa3k_$version" "$profile" --cipher-suite rsa3k --name Three --cannot-sign --cannot-encrypt --cannot-authenticate
    generate "rsa4k_$version" "$profile" --cipher-suite rsa4k --email four@example.org --cannot-sign --cannot-authenticate
    generate "cv25519_$version" "$profile" --cipher-suite cv25519 --name Curve --email curve@example.org --expiration 5y
    public "rsa2k_$version" "rsa3k_$version" "rsa4k_$version" "cv25519_$version"
    for it in rsa2k rsa3k rsa4k cv25519; do sq packet dearmor "${it}_$version.cert"; done > "$out/suites_$version.gpg"

    # A primary key alone; and one whose subkeys, user IDs and expiries came and changed one after the other.
    generate "alone_$version" "$profile" --no-userids --expiration never --cannot-sign --cannot-authenticate --cannot-encrypt
    generate "anna_$version" "$profile" --name Anna --email anna@example.org --expiration 2y
    generate "bert_$version" "$profile" --userid 'Bert "B" Böll <bert@example.org>' --can-encrypt storage --expiration 2034-07-31
    generate "cara_$version" "$profile" --name Cara --email cara@example.org --email cara@example.net
    generate "dora_$version" "$profile" --name Dora --email dora@example.org --cannot-authenticate
    public "anna_$version" "cara_$version"
    cp "cara_$version.cert" "before_$version.cert"
    at=$later
    edit "anna_$version" key subkey add --without-password --can-sign --expiration 1y
    edit "anna_$version" key subkey add --without-password --can-encrypt storage
    edit "anna_$version" key subkey add --without-password --can-encrypt transport --expiration 2026-01-01
    edit "anna_$version" key subkey add --without-password --can-authenticate
    edit "anna_$version" key subkey add --without-password --can-sign --cipher-suite rsa2k
    edit "anna_$version" key userid add --email anna@example.net
    at=$last
    edit "anna_$version" key expire --expiration never
    edit "anna_$version" key subkey expire --expiration 3y --key "$(subkey "anna_$version" 2)"
    public "alone_$version" "anna_$version"

    # A revoked certificate; a revoked user ID and revoked subkeys.
    at=$later
    edit "bert_$version" key revoke --reason compromised --message 'The laptop was stolen.' \
        --signature-notation reason@example.org laptop --signature-notation letters@example.org 'é "'
    edit "cara_$version" key userid revoke --email cara@example.net --reason retired --message ''
    edit "cara_$version" key subkey revoke --key "$(subkey "cara_$version" 1)" --reason superseded --message 'A newer one.'
    edit "cara_$version" key subkey revoke --key "$(subkey "cara_$version" 2)" --reason unspecified --message 'Unsaid.' \
        --signature-notation why@example.org unsaid
    public "bert_$version" "cara_$version"

    # Certifications by another key, whose holder approves of them; and revocations by another key.
    vouch() { edit "dora_$version" pki vouch "$@" --certifier-file "anna_$version.key"; }
    vouch add --all --amount 60
    vouch add --userid Dora --expiration 1y --signature-notation met@example.org Vienna \
        --signature-notation '!form@example.org' passport
    vouch add --email dora@example.org --non-revocable --expiration never
    vouch authorize --userid Dora --depth 2 --domain example.org --domain example.net
    vouch authorize --userid Dora --depth 255 --unconstrained --amount 120
    vouch add --userid Dora --local
    # To approve of them wants a store that has the certifier's certificate.
    store=$work/store
    edit "dora_$version" key approvals update --add-all --keyring "anna_$version.cert"
    store=none
    at=$last
    edit "dora_$version" key userid revoke --userid Dora --reason retired --message 'Not hers.' --revoker-file "anna_$version.key"
    edit "dora_$version" key revoke --reason superseded --message 'By another.' --revoker-file "anna_$version.key"
    public "dora_$version"
    for it in alone anna bert dora; do sq packet dearmor "${it}_$version.cert"; done > "$out/states_$version.gpg"

    # Messages signed by one key and by two, a signature alone, and an encrypted message.
    at=$later
    printf 'OpenPGP\r\nin two lines\n' > text
    sq sign --message --signer-file "cv25519_$version.key" text --output "$out/signed_$version.asc"
    sq sign --message --signer-file "cv25519_$version.key" --signer-file "rsa2k_$version.key" --mode text text \
        --output "$out/signed_by_two_$version.asc"
    sq sign --signature-file "$out/signature_$version.asc" --signer-file "cv25519_$version.key" text
    sq encrypt --for-file "cv25519_$version.cert" --without-signature --profile "rfc$profile" text \
        --output "$out/encrypted_$version.asc"
done

# Certificates of both versions in one keyring, each merged with what it was before it was changed.
for it in before_4 before_6; do sq packet dearmor "$it.cert"; done > "$out/before.gpg"
sq keyring merge before_6.cert cara_4.cert before_4.cert cara_6.cert --output "$out/merged.asc"

# Keys that certify those of the other version.
at=2024-07-31T10:00:00Z
for it in 4:4880 6:9580; do
    generate "crossing_${it%:*}" "${it#*:}" --name "Version ${it%:*}" --cannot-sign --cannot-authenticate --cannot-encrypt
done
public crossing_4 crossing_6
cp crossing_6.key other_6.key
at=$later
edit crossing_6 pki vouch add --all --certifier-file crossing_4.key
edit crossing_4 pki vouch add --all --certifier-file other_6.key
public crossing_4 crossing_6
for it in 4 6; do sq packet dearmor "crossing_$it.cert"; done > "$out/crossing.gpg"

# A key that is rotated: each certifies the other, and the old one is retired later. (The new one is of version 4 all the same,
# and stands twice in what sq writes.)
at=2024-07-31T10:00:00Z
generate old 4880 --userid 'Old <old@example.org>' --cannot-authenticate
at=$later
store=$work/rotated
sq key rotate --cert-file old.key --own-key --without-password --profile rfc9580 --output rotated.key --rev-cert rotated.rev
store=none
public rotated
mv rotated.cert "$out/rotated.asc"

# A key of sq with the NIST curves' subkeys of one of gpg, which sq doesn't make.
gpg() { command gpg --batch --quiet --pinentry-mode loopback --passphrase '' --faked-system-time 20240731T100000! "$@"; }
gpg --quick-gen-key nist@example.org nistp256/ecdsa cert never
fingerprint=$(gpg --list-keys --with-colons | awk -F: '$1 == "fpr" { print $10; exit }')
gpg --quick-add-key "$fingerprint" nistp384/ecdsa sign never
gpg --quick-add-key "$fingerprint" nistp521/ecdsa sign never
gpg --quick-add-key "$fingerprint" nistp256/ecdh encr never
gpg --quick-add-key "$fingerprint" nistp521/ecdh encr never
gpg --export-secret-keys > gpgs.key
gpgconf --kill gpg-agent
at=$later
keeping() { command sq --home "$work/home" --batch --quiet --overwrite --time "$at" "$@"; } # to bind keys wants a store of keys
fingerprints() { sq inspect "$1" 2> /dev/null | sed -nE "s/^ +$2: ([0-9A-F]+)\$/\1/p"; }
keeping key import gpgs.key alone_4.key alone_6.key
for version in 4 6; do
    for it in $(fingerprints gpgs.key Subkey); do
        keeping key subkey bind --key "$it" --cert "$(fingerprints "alone_$version.key" Fingerprint)"
    done
    keeping cert export --cert "$(fingerprints "alone_$version.key" Fingerprint)" | sq packet dearmor > "$out/nist_$version.gpg"
done

# Certificates of version 6 by others, with algorithms that sq doesn't make keys of. (gosop's clock can't be set.)
rsop() { faketime -f '@2024-07-31 10:00:00' rsop "$@"; }
rsop generate-key --profile interop-testing-rfc9580-nistp 'Rust (NIST) <rust@example.org>' | rsop extract-cert --no-armor > rust_1
rsop generate-key --profile interop-testing-rfc9580-rsa 'Rust (RSA) <rust@example.org>' | rsop extract-cert --no-armor > rust_2
rsop generate-key --profile rfc9580 'Rust <rust@example.org>' 'Rust <rust@example.net>' | rsop extract-cert --no-armor > rust_3
gosop generate-key --profile security 'Go (448) <go@example.org>' | gosop extract-cert --no-armor > go_1
gosop generate-key --profile performance 'Go <go@example.org>' | gosop extract-cert --no-armor > go_2
cat rust_1 rust_2 rust_3 go_1 go_2 > "$out/others_6.gpg"
