#!/usr/bin/env bash
# Runs the program on each case of tests/cases: args (one word a line), stdin, stdout, stderr and status, each empty or
# 0 where the file is missing; in place of stderr, each line of mentions stands in the standard error. Then the cases
# that no file can say. The last line counts them.
set -u
here=$(cd "$(dirname "$0")/../.." && pwd)
key=$here/examples/rfc9580-a1.asc
"$here/opgp" list < "$key" > /dev/null || { echo "tests/program/run.sh: the program can't be built" >&2; echo "0 passed, 1 failed"; exit 1; }
work=$(mktemp -d)
trap 'rm -rf "$work"' EXIT
passed=0
failed=0
verdict() { # name, then the command that holds or doesn't
    local name=$1
    shift
    if "$@"; then
        passed=$((passed + 1))
    else
        failed=$((failed + 1))
        echo "tests/program/run.sh: $name: FAILED" >&2
    fi
}
# Whether the last run, whose status is handed in, ended with this status, standard error and standard output.
ended() { # its status, wanted status, line on standard error, line on standard output
    [ "$1" = "$2" ] && [ "$(cat "$work/stderr")" = "$3" ] && [ "$(cat "$work/stdout")" = "${4-}" ]
}
fresh() { : > "$work/stdout"; : > "$work/stderr"; }

as_the_files_say() { # folder of a case
    local words=() input=$1/stdin status want=0 stream line
    if [ -f "$1/args" ]; then mapfile -t words < "$1/args"; fi
    [ -f "$input" ] || input=/dev/null
    "$here/opgp" "${words[@]}" < "$input" > "$work/stdout" 2> "$work/stderr"
    status=$?
    [ -f "$1/status" ] && want=$(cat "$1/status")
    [ "$status" = "$want" ] || return 1
    if [ -f "$1/mentions" ]; then
        while IFS= read -r line; do
            grep -qF -- "$line" "$work/stderr" || return 1
        done < "$1/mentions"
        : > "$work/stderr"
    fi
    for stream in stdout stderr; do
        if [ -f "$1/$stream" ]; then
            cmp -s "$1/$stream" "$work/$stream" || return 1
        else
            [ ! -s "$work/$stream" ] || return 1
        fi
    done
}
for case in "$here"/tests/cases/*/*; do
    verdict "${case#"$here/tests/cases/"}" as_the_files_say "$case"
done

# A word that isn't UTF-8.
fresh
"$here/opgp" $'\xff' < "$key" > "$work/stdout" 2> "$work/stderr"
verdict word_that_is_no_text ended $? 2 "opgp: usage"
# A closed standard output, and a full device.
fresh
"$here/opgp" list < "$key" 2> "$work/stderr" >&-
verdict closed_standard_output ended $? 3 "opgp: write failed"
fresh
"$here/opgp" list < "$key" 2> "$work/stderr" > /dev/full
verdict full_device ended $? 3 "opgp: write failed"
# A standard input that can't be read: a folder.
fresh
"$here/opgp" list < "$here" > "$work/stdout" 2> "$work/stderr"
verdict unreadable_standard_input ended $? 3 "opgp: read failed"
# A standard error that is closed or full changes no status.
fresh
"$here/opgp" lists < "$key" > "$work/stdout" 2>&-
verdict usage_with_a_closed_standard_error ended $? 2 ""
"$here/opgp" lists < "$key" > "$work/stdout" 2> /dev/full
verdict usage_with_a_full_standard_error ended $? 2 ""
"$here/opgp" list < "$here" > "$work/stdout" 2>&-
verdict unreadable_with_a_closed_standard_error ended $? 3 ""
"$here/opgp" list < "$here" > "$work/stdout" 2> /dev/full
verdict unreadable_with_a_full_standard_error ended $? 3 ""
"$here/opgp" list < "$key" >&- 2>&-
verdict closed_output_with_a_closed_standard_error ended $? 3 ""
"$here/opgp" list < "$key" > /dev/full 2> /dev/full
verdict full_output_with_a_full_standard_error ended $? 3 ""
for command in show list check "octets --row 3" write normalise split join; do
    # shellcheck disable=SC2086
    "$here/opgp" $command < "$key" > "$work/usual" 2> /dev/null
    usual=$?
    # shellcheck disable=SC2086
    "$here/opgp" $command --progress < "$key" > "$work/stdout" 2>&-
    verdict "progress_of $command on a closed standard error" [ "$? $(cmp "$work/usual" "$work/stdout" 2>&1)" = "$usual " ]
    # shellcheck disable=SC2086
    "$here/opgp" $command --progress < "$key" > "$work/stdout" 2> /dev/full
    verdict "progress_of $command on a full standard error" [ "$? $(cmp "$work/usual" "$work/stdout" 2>&1)" = "$usual " ]
done

# A literal of 100,000 octets in pieces of 32,768, 2, 1, 65,536 and 1,693 octets; and without its last octet.
letters() { head -c "$1" /dev/zero | tr '\0' a; }
{ printf '\xcb\xefb\0\0\0\0\0'; letters 32762; printf '\xe1aa\xe0a\xf0'; letters 65536; printf '\xc5\xdd'; letters 1693; } > "$work/literal"
head -c 100006 "$work/literal" > "$work/cut"
large() { # name, input, words, wanted status, line on standard error, line on standard output
    fresh
    # shellcheck disable=SC2086
    "$here/opgp" $3 --quiet < "$work/$2" > "$work/stdout" 2> "$work/stderr"
    verdict "$1" ended $? "${@:4}"
}
large literal_in_pieces_listed literal list 1 "composition: NotInKeyring block 0 at 0 inner 0"
large literal_in_pieces_shown literal show 0 "" "block 0 at 0 type 11 form part length 100000"
large literal_cut_listed cut list 1 "framing: Truncated block 0 at 0 inner 98312"
large literal_cut_shown cut show 1 "framing: Truncated block 0 at 0 inner 98312"
# 40 packets of 1 MiB each: what was read is shown after 16, 32 and all of them.
{ printf '\xfc\xff\0\x0f\xff\xfa'; letters 1048570; } > "$work/packet"
for _ in {1..40}; do cat "$work/packet"; done > "$work/packets"
"$here/opgp" show --progress < "$work/packets" > "$work/stdout" 2> "$work/stderr"
verdict progress_each_16_mebi ended $? 0 \
    "$(printf '\ropgp: 16777216 octets, 16 packets\ropgp: 33554432 octets, 32 packets\ropgp: 41943040 octets, 40 packets')" \
    "$("$here/opgp" show < "$work/packets")"
# A certificate of more than 40 MiB, which is held until it is written.
sed -n '/^[A-Za-z0-9+/=]*$/p' "$key" | base64 -d > "$work/large"
cat "$work/packets" >> "$work/large"
for command in write normalise split join; do
    "$here/opgp" $command --out binary < "$work/large" > "$work/stdout" 2> "$work/stderr"
    verdict "large_certificate $command" cmp -s "$work/stdout" "$work/large"
done
# A user ID of 2 MiB with a signature: what that hashes, alone and with its line.
{ sed -n '/^[A-Za-z0-9+/=]*$/p' "$key" | base64 -d; printf '\xcd\xff\0\x20\0\0'; letters 2097152
  printf '\xc2\x0e\4\x13\x16\x08\0\0\0\0\xab\xcd\0\0\0\0'; } > "$work/long_name"
"$here/opgp" octets --row 0 < "$work/long_name" > "$work/usual" 2> "$work/stderr"
verdict octets_of_a_long_name [ "$? $(stat -c %s "$work/usual")" = "0 2097223" ]
"$here/opgp" octets --all < "$work/long_name" > "$work/stdout" 2> "$work/stderr"
verdict all_octets_of_a_long_name cmp -s "$work/stdout" <(echo "row 0 length 2097223"; cat "$work/usual")
# A key of version 6 by its fingerprint, in each way to write it.
print=$("$here/opgp" list < "$here/examples/rfc9580-a3.asc" | sed -n '1s/.* \([0-9A-F]\{64\}\) .*/\1/p')
"$here/opgp" split --nth 0 < "$here/examples/rfc9580-a3.asc" > "$work/usual" 2> "$work/stderr"
for name in "$print" "0x$print" "${print,,}" "0x${print,,}"; do
    "$here/opgp" split --key "$name" < "$here/examples/rfc9580-a3.asc" > "$work/stdout" 2> "$work/stderr"
    verdict "key_of_version_6 ${name:0:6}" [ "$? ${#print} $(cmp "$work/usual" "$work/stdout" 2>&1)" = "0 64 " ]
done
# Keys that a file names, one in each line; and files that name none.
two=$here/tests/cases/split/two_blocks_split
by_keys() { # name, words, wanted status, line on standard error, file that standard output is
    fresh
    # shellcheck disable=SC2086
    "$here/opgp" split $2 < "$two/stdin" > "$work/stdout" 2> "$work/stderr"
    verdict "$1" [ "$? $(cat "$work/stderr") $(cmp "${5:-/dev/null}" "$work/stdout" 2>&1)" = "$3 $4 " ]
}
printf '# two keys\r\n\r\n\t12C8 3F1E 706F 6308 \n   \n#\n0xC959BDBAFA32A2F89A153B678CFDE12197965A9A' > "$work/keys"
by_keys keys_of_a_file "--keys $work/keys" 0 "" "$two/stdout"
by_keys all_but_the_keys_of_a_file "--except --keys $work/keys" 0 ""
echo 12C83F1E706F6308 > "$work/one"
by_keys key_of_a_file "--keys $work/one" 0 "" "$here/tests/cases/split/certificate_of_a_subkey/stdout"
by_keys key_beside_a_file "--keys $work/one --key 8CFDE12197965A9A" 0 "" "$two/stdout"
by_keys key_in_no_certificate_beside_a_file "--keys $work/one --key 8CFDE12197965A9B" 1 "opgp: no such certificate"
printf '\n# nothing\n' > "$work/none"
for words in "--keys $work/none" "--except --keys $work/none" "--keys $work/none --key 12C83F1E706F6308"; do
    by_keys "no_key_in_a_file $words" "$words" 2 "opgp: $work/none names no key"
done
for line in 12C83F1E706F630 "12C83F1E706F6308 # mine" Alice $'12C83F1E\t706F6308' $'\xff'; do
    printf '12C83F1E706F6308\n\n%s\n' "$line" > "$work/bad"
    by_keys "line_of_a_file_that_is_no_key $line" "--keys $work/bad" 2 "opgp: $work/bad, line 3: a fingerprint has 40 or 64 hexadecimal digits, a key ID 16"
done
by_keys file_of_keys_that_is_missing "--keys $work/missing --quiet" 3 "opgp: read failed"
by_keys file_of_keys_that_is_long "--keys $work/literal --input 99999 --quiet" 1 "input: InputTooLong block 0 at 99999 inner 0"
by_keys keys_on_standard_input "--keys -" 2 "opgp: standard input is the keyring; the keys are in a file"
# Rows and certificates whose numbers are past those that there are, by one and by as much as may be.
for number in 1 256 4294967295 4294967296 18446744073709551615; do
    fresh
    "$here/opgp" octets --row "$number" < "$work/long_name" > "$work/stdout" 2> "$work/stderr"
    verdict "row_$number" ended $? 1 "opgp: no such row" ""
    fresh
    "$here/opgp" split --nth "$number" < "$work/long_name" > "$work/stdout" 2> "$work/stderr"
    verdict "certificate_$number" ended $? 1 "opgp: no such certificate" ""
done
# Keys of version 4 with material of an algorithm that is unknown, whose bodies have 65,535 and 65,536 octets.
{ printf '\x04\0\0\0\0\xc8'; letters 65529; } > "$work/body"
{ printf '\xc6\xff\0\0\xff\xff'; cat "$work/body"; } > "$work/longest"
{ printf '\xc6\xff\0\1\0\0'; cat "$work/body"; printf a; } > "$work/too_long"
print=$({ printf '\x99\xff\xff'; cat "$work/body"; } | sha1sum | cut -c 1-40 | tr a-f A-F)
large longest_key_listed longest list 0 "" "pub v4 alg 200 created 0 $print ${print:24}"
large longest_key_shown longest show 0 "" "block 0 at 0 type 6 form new5 length 65535"
large too_long_key_listed too_long list 1 "body: KeyTooLong block 0 at 0 inner 0"
large too_long_key_shown too_long show 1 "body: KeyTooLong block 0 at 0 inner 0"
for command in write normalise split join; do
    "$here/opgp" $command --out binary < "$work/longest" > "$work/stdout" 2> "$work/stderr"
    verdict "longest_key $command" cmp -s "$work/stdout" "$work/longest"
done

# Each beginning of the armored key, of the key's packet, and of the version 6 certificate in binary. What is wanted of
# the first n octets of a file, a function says: a status, a line on standard error, a number of lines.
beginnings() { # name, file, function
    local n holds=0
    for ((n = 0; n <= $(stat -c %s "$2"); n++)); do
        head -c "$n" "$2" > "$work/front"
        "$here/opgp" list --quiet < "$work/front" > "$work/stdout" 2> "$work/stderr"
        [ "$? $(cat "$work/stderr") $(wc -l < "$work/stdout")" = "$($3 "$n")" ] || { echo "tests/program/run.sh: $1 of $n octets" >&2; holds=1; }
    done
    verdict "$1" [ "$holds" = 0 ]
}
of_the_text() {
    if (($1 == 0)); then echo "0  0"
    elif (($1 < 15)); then echo "1 armor: NoBlock block 0 at $1 inner 0 0"
    elif (($1 < 36)); then echo "1 armor: Label block 0 at 0 inner 0 0"
    elif (($1 < 113)); then echo "1 armor: Unfinished block 0 at $1 inner 0 0"
    elif (($1 < 146)); then echo "1 armor: EndLabel block 0 at 112 inner 0 0"
    else echo "0  1"; fi
}
of_the_packets() { # how many octets, then where each packet begins, and where the last one ends
    local n=$1 at=0 whole=0 next
    shift
    for next in "$@"; do
        if ((n == at)); then break; fi
        if ((n < next)); then
            echo "1 framing: Truncated block 0 at $at inner 1 0"
            return
        fi
        at=$next
        whole=$((whole + 1))
    done
    echo "0  $whole"
}
of_the_key() { of_the_packets "$1" 53; }
of_the_certificate() { of_the_packets "$1" 44 223 267 424; }
sed -n '/^[A-Za-z0-9+/=]*$/p' "$key" | base64 -d > "$work/key"
beginnings beginnings_of_the_text "$key" of_the_text
beginnings beginnings_of_the_key "$work/key" of_the_key
beginnings beginnings_of_the_certificate "$here/tests/cases/list/certificate_of_version_6_in_binary/stdin" of_the_certificate

# Where nothing stands twice, merging changes nothing; and merging again changes nothing.
for case in list/certificate_of_version_6 list/certificate_of_version_6_in_binary check/embedded_signature_checked check/two_blocks_checked; do
    "$here/opgp" join < "$here/tests/cases/$case/stdin" > "$work/joined" 2> "$work/stderr"
    "$here/opgp" join --merge < "$here/tests/cases/$case/stdin" > "$work/stdout" 2> "$work/stderr"
    verdict "nothing_to_merge $case" cmp -s "$work/joined" "$work/stdout"
done
for case in join/equal_user_ids_merged join/lone_certificate_merged join/certificates_of_two_keys_merged; do
    "$here/opgp" join --merge --out binary < "$here/tests/cases/$case/stdout" > "$work/stdout" 2> "$work/stderr"
    verdict "merged_again $case" cmp -s "$here/tests/cases/$case/stdout" "$work/stdout"
done
cat "$here/examples/rfc9580-a1.asc" "$here/examples/rfc9580-a3.asc" > "$work/ring"
# A signature that stands twice has two rows, and one when it is merged.
rows() { "$here/opgp" join "$@" --out binary < "$here/tests/cases/join/equal_user_ids_merged/stdin" | "$here/opgp" check | wc -l; }
verdict rows_of_equal_signatures [ "$(rows) $(rows --merge)" = "2 1" ]

# The recipes of the documents, the example programs, and the code that docs/LIBRARY.md quotes of them.
verdict recipes "$here/tests/gate/recipes.py" >&2
verdict examples "$here/tests/crates/examples.py" >&2

# A text held in a spool is the same, and nothing is left of the spool; a directory that isn't there, or is none.
mkdir "$work/spool"
for command in show list check "octets --row 0" write "write --out binary" "write --own-signatures --user-id 0" \
    normalise split "split --out binary" "split --nth 1" join "join --merge"; do
    # shellcheck disable=SC2086
    "$here/opgp" $command < "$work/ring" > "$work/usual" 2> "$work/usual_error"
    usual=$?
    # shellcheck disable=SC2086
    "$here/opgp" $command --spool "$work/spool" < "$work/ring" > "$work/stdout" 2> "$work/stderr"
    verdict "$command by a spool" [ "$? $(cmp "$work/usual" "$work/stdout" 2>&1)$(cmp "$work/usual_error" "$work/stderr" 2>&1)$(ls "$work/spool")" = "$usual " ]
done
# Nor does a spool change anything where a standard stream is closed, whose number its file has when it is opened. It is the binary
# that is run: Bash opens the launcher as a closed standard error.
closed() { # streams, input, then the words: runs the program with these streams closed, and adds its status to its output
    local streams=$1 input=$2
    shift 2
    fresh
    (
        exec < "$input" > "$work/stdout" 2> "$work/stderr"
        case $streams in *0*) exec <&- ;; esac
        case $streams in *1*) exec >&- ;; esac
        case $streams in *2*) exec 2>&- ;; esac
        exec "$here/crates/opgp_tool/out/opgp_tool" "$@"
    )
    echo "status $?" >> "$work/stdout"
}
without_a_spool() { # streams, input, then the words: whether a spool changes what they do
    closed "$@"
    mv "$work/stdout" "$work/usual"
    mv "$work/stderr" "$work/usual_error"
    closed "$@" --spool "$work/spool"
    cmp -s "$work/usual" "$work/stdout" && cmp -s "$work/usual_error" "$work/stderr" && [ -z "$(ls "$work/spool")" ]
}
for command in list show write normalise split join "join --merge" check "octets --row 0" "octets --all"; do
    for streams in 0 1 2 012; do
        for shown in "" --progress; do
            # shellcheck disable=SC2086
            verdict "$command $shown by a spool without the streams $streams" without_a_spool $streams "$work/ring" $command $shown
        done
    done
done
closed 0 "$work/ring" list --spool "$work/spool"
verdict closed_standard_input_by_a_spool ended 3 3 "opgp: read failed" "status 3"
# What was read is shown after 16 MiB, while the spool is filled; and more than its buffer holds is written to a closed output.
for command in list "write --out binary"; do
    # shellcheck disable=SC2086
    verdict "progress of $command by a spool without standard error" without_a_spool 2 "$work/large" $command --progress
done
verdict large_certificate_by_a_spool cmp -s "$work/stdout" <(cat "$work/large"; echo "status 0")
closed 1 "$work/large" write --spool "$work/spool"
verdict closed_standard_output_by_a_spool ended 3 3 "opgp: write failed" "status 3"
for directory in "$work/nowhere" "$work/ring" "$work/spool/"$'\n'; do
    fresh
    "$here/opgp" list --spool "$directory" < "$key" > "$work/stdout" 2> "$work/stderr"
    verdict "spool in $directory" ended $? 3 "opgp: spool failed"
done
# Names that are taken are passed over, and what has them stays.
for n in 0 1 2; do echo "$n" > "$work/spool/opgp-spool-$n"; done
fresh
"$here/opgp" list --spool "$work/spool" < "$key" > "$work/stdout" 2> "$work/stderr"
verdict spool_beside_others ended $? 0 "" "$(cat "$here/tests/cases/list/armored_key_of_the_standard/stdout")"
verdict others_stay [ "$(cat "$work/spool/"*)" = "$(printf '0\n1\n2')" ]
# The last of a thousand names; and where all of them are taken.
mkdir "$work/taken"
for n in {0..998}; do : > "$work/taken/opgp-spool-$n"; done
fresh
"$here/opgp" list --spool "$work/taken" < "$key" > "$work/stdout" 2> "$work/stderr"
verdict spool_by_the_last_name ended $? 0 "" "$(cat "$here/tests/cases/list/armored_key_of_the_standard/stdout")"
: > "$work/taken/opgp-spool-999"
fresh
"$here/opgp" list --spool "$work/taken" < "$key" > "$work/stdout" 2> "$work/stderr"
verdict spool_without_a_name ended $? 3 "opgp: spool failed"
verdict all_others_stay [ "$(find "$work/taken" -type f -empty | wc -l)" = 1000 ]
# A directory whose path is long; and only the owner may read the spool's file, whatever the mask, while the program waits for its input.
deep=$work
for _ in {1..5}; do deep+=/$(letters 200); done
mkdir -p "$deep"
fresh
"$here/opgp" list --spool "$deep" < "$key" > "$work/stdout" 2> "$work/stderr"
verdict spool_in_a_deep_directory ended $? 0 "" "$(cat "$here/tests/cases/list/armored_key_of_the_standard/stdout")"
mode_of_the_spool() { # mask
    local modes= waiting
    coproc waits { umask "$1"; exec "$here/opgp" list --spool "$work/spool"; }
    waiting=$waits_PID
    for _ in {1..100}; do
        modes=$(find -L "/proc/$waiting/fd" -samefile /dev/null -o -type f -links 0 -printf '%m ' 2> /dev/null)
        [ -z "$modes" ] || break
        sleep 0.05
    done
    kill "$waiting"
    wait "$waiting" 2> /dev/null
    echo "$modes"
}
verdict mode_of_the_spool [ "$(mode_of_the_spool 0)" = "600 " ]
# A full disk: nothing is written, and the input's own fault comes first.
if mkdir "$work/full" && mount -t tmpfs -o size=64k none "$work/full" 2> "$work/mounting"; then
    fresh
    "$here/opgp" write --out binary --spool "$work/full" < "$work/longest" > "$work/stdout" 2> "$work/stderr"
    verdict full_disk ended $? 3 "opgp: spool failed"
    verdict nothing_left_on_it [ -z "$(ls "$work/full")" ]
    { cat "$work/longest" "$work/longest"; printf '\xc6'; } > "$work/faulty"
    fresh
    "$here/opgp" write --quiet --out binary --spool "$work/full" < "$work/faulty" > "$work/stdout" 2> "$work/stderr"
    verdict fault_before_a_full_disk ended $? 1 "framing: Truncated block 0 at 131082 inner 1"
    umount "$work/full"
fi

# A view can't outlive its key: with a function that keeps one, a copy of the crate is refused by a borrow error.
mkdir -p "$work/copy/crates"
git init -q "$work/copy"
cp "$here/HANDLES" "$here/crates.txt" "$work/copy/"
(cd "$here" && find crates -type f -not -path '*/out/*' -exec cp --parents {} "$work/copy/" \;)
cat "$here/tests/crates/borrow/view_kept_after_its_key.txt" >> "$work/copy/crates/opgp_packet/src/key.rt"
(cd "$work/copy/crates/opgp_packet" && rt check --only "" > "$work/borrow" 2>&1)
verdict view_kept_after_its_key grep -q 'error\[borrow-e0505\]: cannot move out of `key` because it is borrowed' "$work/borrow"

echo "$passed passed, $failed failed"
[ "$failed" = 0 ]
