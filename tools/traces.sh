# shellcheck shell=bash disable=SC2034,SC2154
# For ./trace, ./play, ./play-all, ./list and what else takes a trace: the converter and the player, built where they aren't, and the bytes
# of a trace, whether it is kept as text or binary. Sourced with `root` set to the project's folder. What can't be read is told on
# standard error, by its name.

# shellcheck source=../differential/players.sh
. "$root/differential/players.sh"

converter=$root/target/tools/release/trace

# converter_built: builds the converter where it isn't built, or is older than its sources.
converter_built() {
    local package=$root/tools/trace
    if [ -x "$converter" ] && [ -z "$(find "$package/src" "$package/Cargo.toml" -newer "$converter" -print -quit)" ]; then
        return 0
    fi
    if ! command -v cargo > /dev/null; then
        echo "a trace as text needs tools/trace, and cargo is not here to build it" >&2
        return 1
    fi
    cargo build --release --offline --quiet --manifest-path "$package/Cargo.toml" --target-dir "$root/target/tools" >&2
}

# player_built: proves and builds the player where it isn't built.
player_built() {
    [ -x "$player" ] || (cd "$root" && tools/build player >&2) || {
        echo "there is no player: \`tools/build player\` proves and builds it" >&2
        return 1
    }
}

# kind_by FIRST: text or bytes, by the first byte in octal. A text begins with `#`, `v` or space; all else is for the player.
kind_by() {
    case $1 in
        043 | 166 | 040 | 011 | 012 | 015) echo text ;;
        *) echo bytes ;;
    esac
}

# kind_of FILE: text or bytes, by the name, else by the first byte.
kind_of() {
    case $1 in
        *.text) echo text ;;
        *.trace) echo bytes ;;
        *) kind_by "$(od -An -N1 -to1 -- "$1" | tr -d ' ')" ;;
    esac
}

# converted [FILE]: from now on standard input is the bytes of this text, or of the one on standard input.
converted() {
    local bytes
    converter_built && bytes=$(mktemp) || return 1
    if ! "$converter" bytes "$@" > "$bytes"; then
        rm -f "$bytes"
        return 1
    fi
    exec < "$bytes"
    rm -f "$bytes"
}

# opened_pipe: the same of a trace that comes on standard input and can be read only once.
opened_pipe() {
    local first
    if ! first=$(set -o pipefail && dd bs=1 count=1 2> /dev/null | od -An -to1 | tr -d ' '); then
        echo "standard input: it can't be read" >&2
        return 1
    fi
    exec < <(
        [ -z "$first" ] || printf '%b' "\\0$first"
        exec cat
    )
    if [ "$(kind_by "$first")" = text ]; then
        converted
    fi
}

# opened [FILE]: from now on standard input is the bytes of this trace, text or binary, or of the one on standard input.
opened() {
    local file=${1:-/dev/stdin} name=${1:-standard input}
    if [ -d "$file" ]; then
        echo "$name: it is a folder" >&2
        return 1
    elif [ ! -e "$file" ]; then
        echo "$name: there is no such file" >&2
        return 1
    elif [ ! -r "$file" ]; then
        echo "$name: it can't be read" >&2
        return 1
    elif [ ! -f "$file" ]; then
        [ $# = 0 ] || exec < "$1"
        opened_pipe
    elif [ "$(kind_of "$file")" = text ]; then
        converted "$@"
    elif [ $# -gt 0 ]; then
        exec < "$1"
    fi
}

# passed_on COMMAND..: the command's lines pass as they come. Then `last` is the last of them, and `ended` has two statuses: the
# command's, and that of what wrote its lines.
passed_on() {
    local heard line
    last='' ended=''
    exec 3>&1
    heard=$({
        "$@" | tee --output-error=exit >(tail -n 1 >&4) >&3
        printf '\nended %s\n' "${PIPESTATUS[*]}" >&4
    } 4>&1)
    while IFS= read -r line; do
        case $line in
            'ended '*) ended=${line#ended } ;;
            ?*) last=$line ;;
        esac
    done <<< "$heard"
}
