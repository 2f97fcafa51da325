#compdef opgp
# Completion of opgp for zsh: a file _opgp in a folder of $fpath.
_opgp() {
    local -a commands limits out
    commands=(
        'show:list every packet and every subpacket'
        'list:list the packets of a keyring'
        'check:list the signatures of a keyring'
        'state:list how the keys and user IDs of a keyring stand at a time'
        'octets:write the octets that signatures hash'
        'write:write a keyring, with its framing'
        'normalise:write a keyring in the current format'
        'split:write each certificate by itself, or some of them'
        'join:write all blocks of the input as one keyring'
        'signatures:list detached signatures'
        'digest:list the digests that signatures have of a document'
        'canonical:write the canonical text of a document'
        'cleartext:write the document of a cleartext signed message'
        'diff:list what changed from an old keyring'
        'help:prints the help of the program or of a command'
    )
    limits=(
        '--mode=[how to read the input]:mode:(auto armor binary)'
        '--outside=[what to do with lines outside of armored blocks]:policy:(skip refuse)'
        '--malformed=[what to do with malformed signatures]:policy:(refuse keep)'
        '--line=[the most octets of an armored line]:number:'
        '--body=[the most octets of a packet'"'"'s body]:number:'
        '--cert=[the most octets of a certificate]:number:'
        '--input=[the most octets of the input]:number:'
        '--pieces=[the most partial lengths of a packet]:number:'
        '--progress[show on standard error how much was read]'
        '--quiet[the same as --hints never]'
        '--hints=[when to say on standard error what a refused input seems to be, and what to do]:when:(auto always never)'
        '--spool=[hold the output in a file in this directory]:directory:_files -/'
        '--help[prints the help]'
    )
    out=('--out=[how to write keyrings]:form:(armor binary)')
    if ((CURRENT == 2)); then
        _describe command commands
        return
    fi
    case $words[2] in
        show) shift words; ((CURRENT--)); _arguments $limits '--values[show the fields of each packet, and what each subpacket means]' ;;
        list) shift words; ((CURRENT--)); _arguments $limits '--values[show how large each key is, and who made each signature, and when]' ;;
        check) shift words; ((CURRENT--)); _arguments $limits '--fingerprints[show the fingerprints of each signature'"'"'s certificate and signer]' '--places[show the number of each signature'"'"'s packet, and of the user ID that it is on]' ;;
        state) shift words; ((CURRENT--)); _arguments $limits '--at=[the time, in seconds since 1970 or as a UTC date]:time:' '--policy=[which hash algorithms and keys to rely on]:policy:(usual any)' '--verdicts=[the file of verdicts of a verifier on the signatures]:file:_files' '--values[show dates, and why a key is not usable]' ;;
        octets) shift words; ((CURRENT--)); _arguments $limits '--row=[the number of the row]:number:' '--all[write those of every row, each after a line of its own]' '--explain[write a line for each field of the octets instead]' '--of=[what to read the input as]:top:(ring literal)' ;;
        write) shift words; ((CURRENT--)); _arguments $limits $out '--own-signatures[leave out signatures that do not name the primary key as their issuer]' '--no-attributes[leave out user attributes]' '*--user-id=[the number of a user ID to keep in each certificate, from 0]:number:' '--bound[leave out what no good self-signature binds]' '--verdicts=[the file of verdicts of a verifier on the signatures]:file:_files' '--newest[with --bound, leave out what a newer self-signature replaces at the time of --at]' '--at=[the time of --newest, in seconds since 1970 or as a UTC date]:time:' ;;
        normalise) shift words; ((CURRENT--)); _arguments $limits $out ;;
        split) shift words; ((CURRENT--)); _arguments $limits $out '--nth=[the number of the certificate]:number:' '*--key=[the fingerprint or key ID of a key]:key:' '--keys=[a file of fingerprints and key IDs, one in each line]:file:_files' '--except[write all certificates but those]' ;;
        join) shift words; ((CURRENT--)); _arguments $limits $out '--merge[merge certificates of the same primary key]' ;;
        signatures | canonical) shift words; ((CURRENT--)); _arguments $limits ;;
        cleartext) shift words; ((CURRENT--)); _arguments $limits '--of=[what to write of the message]:part:(document hashed signatures)' ;;
        diff) shift words; ((CURRENT--)); _arguments $limits '--old=[the file of the old keyring]:file:_files' ;;
        digest) shift words; ((CURRENT--)); _arguments $limits '--signatures=[the file of the detached signatures]:file:_files' '--octets=[write what the signature of this number hashes behind the document]:number:' '--salt[with --octets, write what it hashes in front of it]' ;;
        help) _describe command commands ;;
    esac
}
if [ "$funcstack[1]" = _opgp ]; then _opgp "$@"; else compdef _opgp opgp; fi
