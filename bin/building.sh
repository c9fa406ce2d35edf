# shellcheck shell=bash disable=SC2154
# For the commands of this folder, which source it: building only where something changed, with a short line for each crate that is proved. They set
# `root`, the repository, and `set -o pipefail`. Everything that is said goes to standard error, and standard input is not touched.

# What the caller closed stays a descriptor that cannot be read or written, and nothing else takes its number. Without /proc it is not known.
keep_closed() {
    [ -d "/proc/$$/fd" ] || return 0
    [ -L "/proc/$$/fd/2" ] || exec 2> /dev/null
    [ -L "/proc/$$/fd/0" ] || exec 0> /dev/null
    [ -L "/proc/$$/fd/1" ] || exec 1< /dev/null
}

# Whether one of the files, or something in one of the folders, changed since the stamp was set, or there is no stamp. Must-fail edits are not built, and
# what lies in target/ and out/ was. A crate's own folder changes as rt makes out/ in it, so it does not count; its files and the folders in it do.
changed_since() { # STAMP PATH..
    [ ! -e "$1" ] || [ -n "$(find "${@:2}" \( -name must-fail -o -name target -o -name out \) -prune -o \( ! -type d -o ! -path "$root/crates/*" -o -path "$root/crates/*/*" \) -newer "$1" -print -quit)" ]
}

# Calls `build` unless `fresh` says that there is nothing to do; the command defines both. One command builds at a time: what another has built meanwhile
# may be what this one wants. The stamp is set to the beginning, so that what changes from there on is built next time.
build_if_changed() { # WHO STAMP
    if fresh; then return 0; fi
    mkdir -p "$root/target" "$(dirname "$2")" || return 1
    (
        flock -n 9 || { echo "$1: another command is building; waiting for it" >&2 || :; flock 9; }
        if fresh; then exit 0; fi
        touch "$2.new" && build && mv "$2.new" "$2"
    ) 9> "$root/target/building.lock"
}

not_built() { # WHO WHY
    echo "$1: not built: $2" >&2
    return 1
}

# How many crates these are made of, themselves among them.
crates_of() { # "CRATE.."
    awk -v crates="$1" '
        function visit(name,    below, n, i) {
            if (!(name in line) || name in seen) return
            seen[name]; count++
            n = split(line[name], below, " ")
            for (i = 1; i <= n; i++) visit(below[i])
        }
        { sub(/#.*/, ""); colon = index($0, ":") }
        colon { split(substr($0, 1, colon - 1), key, " "); line[key[1]] = substr($0, colon + 1) }
        END {
            n = split(crates, wanted, " ")
            for (i = 1; i <= n; i++) visit(wanted[i])
            print count + 0
        }' "$root/crates.txt"
}

# Of what rt says, a line for each crate that was proved now. Where rt is called more than once, a crate counts once.
count_crates() { # WHO HOW-MANY
    local line crate=
    local -A proved=()
    while IFS= read -r line; do
        case $line in
        'crate '*': '*) crate=${line#crate } crate=${crate%%:*} ;;
        'logic=proved '*)
            [ -n "$crate" ] && [ -z "${proved[$crate]-}" ] || continue
            proved[$crate]=yes
            echo "$1: building: ${#proved[@]} of $2 crates proved ($crate)" >&2 || :
            ;;
        esac
    done
}

# Runs a command by which rt proves these crates and what they stand on. All that rt says goes to target/WHO-build.log.
prove() { # WHO "CRATE.." COMMAND..
    local who=$1 crates=$2 log=target/$1-build.log
    shift 2
    command -v rt > /dev/null || not_built "$who" "the Rattle kit's command rt is not on PATH (it lies in /opt/rattle/bin)" || return 1
    echo "$who: building: proving what changed; all of it takes 4 to 6 minutes on two cores" >&2 || :
    if ! (cd "$root" && "$@") 2>&1 < /dev/null | tee "$root/$log" | count_crates "$who" "$(crates_of "$crates")"; then
        tail -n 15 "$root/$log" >&2
        not_built "$who" "the last lines of $root/$log stand above"
    fi
}
