# shellcheck shell=bash
# Proving with the Rattle kit, for the scripts that use the results. They source this file in the repository's folder, with their name
# in `program`.

# shellcheck disable=SC2154 # program is the caller's
say() {
    printf '%s: %s\n' "$program" "$1" >&2
}

fail() {
    say "$1"
    exit "${2:-1}"
}

need() {
    command -v "$1" >/dev/null 2>&1 || fail "$1 is not on the PATH: $2" 2
}

# Sets `kit` to the kit's folder.
find_kit() {
    need rt 'the Rattle kit is needed'
    kit=$(dirname "$(dirname "$(readlink -f "$(command -v rt)")")")
}

# Prints some crates and all that they depend on, one per line.
rests_on() { # CRATE...
    awk -F: -v wanted="$*" '
        function visit(crate,    i, count, below) {
            if (!(crate in named) || seen[crate]++) return
            count = split(named[crate], below, " ")
            for (i = 1; i <= count; i++) visit(below[i])
            print crate
        }
        { sub(/#.*/, "") }
        NF { split($1, words, " "); named[words[1]] = $2 }
        END {
            count = split(wanted, crates, " ")
            for (i = 1; i <= count; i++) visit(crates[i])
        }' crates.txt
}

# Runs a command that proves something and all that it rests on, with all its output in a log. On a terminal one line shows its progress.
prove() { # WHAT LOG COMMAND...
    what=$1 log=$2 shown=-1
    say "proving $what, which takes some minutes the first time; the log is $log"
    shift 2
    mkdir -p target/log
    wait_for_turn
    rm -f target/log/*.out
    began=$SECONDS
    # As a job of its own, so that all its provers can be ended at once.
    set -m
    "$@" </dev/null >"$log" 2>&1 &
    prover=$!
    set +m
    trap 'end_provers 130' INT
    trap 'end_provers 143' TERM HUP
    while kill -0 "$prover" 2>/dev/null; do
        if [ -t 2 ]; then show_progress; fi
        sleep 0.1
    done
    if [ -t 2 ]; then printf '\r\033[K' >&2; fi
    status=0
    wait "$prover" || status=$?
    trap - INT TERM HUP
    exec {turn}>&-
    [ "$status" -eq 0 ] || {
        tail -n 30 "$log" >&2
        failed=$(sed -n 's/^rt: FAILED: *//p' "$log")
        fail "not proved: ${failed:-$what}; the log is $log"
    }
}

# Two runs of rt at the same time would share the logs in target/, and each would take the other's unfinished crates for failed ones.
wait_for_turn() {
    need flock 'it comes with util-linux'
    { exec {turn}>target/proving.lock; } 2>/dev/null || fail "$PWD/target cannot be written"
    flock -n "$turn" || {
        say 'waiting for another run that proves here'
        flock "$turn"
    }
}

end_provers() { # STATUS
    trap - INT TERM HUP
    kill -- "-$prover" 2>/dev/null || true
    wait "$prover" 2>/dev/null || true
    if [ -t 2 ]; then echo >&2; fi
    exit "$1"
}

# Has rt prove one crate, and what it rests on, and make of it what a command of rt makes. What is said stands in target/log/CRATE.out.
prove_one() { # CRATE COMMAND WORDS...
    if (cd "crates/$1" && rt "${@:2}") </dev/null >"target/log/$1.out" 2>&1; then
        echo "rt: $1 proved"
    else
        tail -n 20 "target/log/$1.out"
        failed=$(begun | tail -n 1)
        echo "rt: ${failed:=$1} NOT PROVED"
        echo "rt: FAILED: $failed"
        return 1
    fi
}

# The crates that rt has begun to prove, each once: none as long as there is no log.
begun() {
    { cat target/log/*.out 2>/dev/null || true; } | sed -n 's/^rt: chose --jobs [0-9]* for \([a-z0-9_]*\)$/\1/p' | awk '!seen[$0]++'
}

# Shows, once a second, how many crates are proved, which one is being proved, and the time so far.
show_progress() {
    [ $((SECONDS - began)) -ne "$shown" ] || return 0
    shown=$((SECONDS - began))
    now=$(begun | tail -n 1) count=$(begun | wc -l)
    line="$program: proved: $((count > 0 ? count - 1 : 0))${now:+, now: $now} ($shown s)"
    printf '\r%s\033[K' "${line:0:79}" >&2
}

# A hash of the kit and of the sources of a crate and all that it depends on.
sources_of() { # CRATE
    # shellcheck disable=SC2046 # the names of crates are words
    {
        cat "$kit/KIT-ID" crates.txt
        find $(rests_on "$1" | sed 's|^|crates/|') \( -name must-fail -o -name out \) -prune -o -type f -print0 | sort -z | xargs -0 sha256sum
    } | sha256sum
}

# Whether some files are unchanged since they were made, and were made from the current sources.
up_to_date() { # MARK CRATE FILE...
    mark=$1 made_from=$(sources_of "$2")
    shift 2
    [ "$(cat "$mark" 2>/dev/null)" = "$made_from $(sha256sum "$@" 2>/dev/null)" ]
}

# Notes, after a call of `up_to_date` and a proof, that the files are up to date.
now_up_to_date() { # FILE...
    echo "$made_from $(sha256sum "$@")" >"$mark"
}

# Leaves the lister in target/bin. It is proved anew if it or a source has changed.
build_lister() {
    find_kit
    up_to_date target/lister.made-from lister target/bin/lister && return
    prove 'the lister' target/lister.log make_lister
    now_up_to_date target/bin/lister
}

# rt makes a program by running it: here on no input.
make_lister() {
    prove_one lister run || return
    install -D crates/lister/out/lister target/bin/lister
}

# Leaves the library for x86-64 in the file `library`. It is proved anew if it or a source has changed.
build_library() {
    find_kit
    library=target/staticlib/libterminal.a
    up_to_date target/library.made-from terminal_c "$library" && return
    prove 'the library' target/library.log make_library
    now_up_to_date "$library"
}

# Its code is for every processor of the kind.
make_library() {
    prove_one terminal_c lib --cpu x86-64 || return
    install -D -m 644 crates/terminal_c/out/libterminal_c.a "$library"
}

# Leaves in the file `module` the LLVM module that the library is compiled from, which can be compiled for another machine, or in another
# way.
build_module() {
    find_kit
    module=target/module/terminal.ll
    up_to_date target/module.made-from terminal_c "$module" && return
    prove "the library's module" target/module.log make_module
    [ -f "$module" ] || fail 'the kit compiled no module that could be kept'
    now_up_to_date "$module"
}

make_module() {
    shadow_kit target/module/kit
    rm -f "$module"
    PATH=$PWD/target/module/kit/bin:$PATH prove_one terminal_c lib --cpu x86-64
}

# Makes a copy of the kit, mostly by links, in which clang also keeps the module that it is given.
shadow_kit() { # FOLDER
    rm -rf "$1"
    mkdir -p "$1/bin" "$1/toolchain/bin"
    link_but "$kit" "$1" bin toolchain
    cp -p "$kit"/bin/* "$1/bin/"
    link_but "$kit/toolchain" "$1/toolchain" bin
    link_but "$kit/toolchain/bin" "$1/toolchain/bin" clang
    cat >"$1/toolchain/bin/clang" <<SCRIPT
#!/bin/sh
for word in "\$@"; do
    case \$word in
        *.bc) '$kit/toolchain/bin/clang' -S -emit-llvm -Xclang -disable-llvm-passes -x ir "\$word" -o '$PWD/$module' 2>/dev/null ;;
        *.ll) cp "\$word" '$PWD/$module' ;;
    esac
done
exec '$kit/toolchain/bin/clang' "\$@"
SCRIPT
    chmod +x "$1/toolchain/bin/clang"
}

# Links to everything in a folder except some names.
link_but() { # FROM TO NAME...
    for file in "$1"/*; do
        case " ${*:3} " in *" ${file##*/} "*) ;; *) ln -s "$file" "$2/" ;; esac
    done
}
