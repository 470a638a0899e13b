# For the wrappers of bin/ and some tools, which set `here` and `tool` and source this: the proved programs, the archives, and the command ring, are built where
# they are missing or their sources have changed. Building is told on standard error: a line for each crate that is proved, and one every ten seconds at least.
# The prover's words go to a log.
programs=(run_listing run_driver)
log=$here/target/log/build.txt
state=$here/target/ring
ring=$state/cargo/release/ring

fail() {
    echo "$tool: $*" >&2
    exit 2
}

# What the proved programs are made of, as one checksum.
sources() {
    (
        cd "$here"
        rt version </dev/null
        cat crates.txt
        find crates -regex 'crates/[^/]*/out' -prune -o -type f -regex 'crates/[^/]*/\(src\|specs\|proofs\)/.*' -print0 | LC_ALL=C sort -z | xargs -0 sha256sum
    ) | sha256sum
}

# What the command is made of.
companion_sources() {
    (cd "$here/companion" && find . -type f -print0 | LC_ALL=C sort -z | xargs -0 sha256sum) | sha256sum
}

same() { # FILE CHECKSUM
    [ -f "$1" ] && [ "$(cat "$1")" = "$2" ]
}

needs_rt() {
    command -v rt >/dev/null || fail "the Rattle kit is needed, and its command rt is not on the PATH (README.md, On a fresh machine)"
}

# The words that run a proved program, in `run`.
proved() { # NAME
    needs_rt
    local now
    now=$(sources)
    if ! same "$state/sources" "$now" || [ ! -x "$here/target/bin/${programs[0]}" ] || [ ! -x "$here/target/bin/${programs[1]}" ]; then
        build "$now"
    fi
    run=("$here/target/bin/$1")
}

# The crates that some need, each after those below it, one to a line.
needed() { # NAME..
    awk -v wanted="$*" '
        { sub(/#.*/, ""); at = index($0, ":"); if (!at) next
          split(substr($0, 1, at - 1), head, " "); deps[head[1]] = substr($0, at + 1) }
        function visit(name,    list, count, k) {
            if (!(name in deps) || name in seen) return
            seen[name] = 1
            count = split(deps[name], list, " ")
            for (k = 1; k <= count; k++) visit(list[k])
            print name
        }
        END { count = split(wanted, list, " "); for (k = 1; k <= count; k++) visit(list[k]) }' "$here/crates.txt"
}

# The first line says what is done; it is left out where nothing is to be proved.
tell() {
    [ -n "$headed" ] || echo "$tool: proves and builds the programs from $all crates; the prover's words go to target/log/build.txt" >&2
    headed=1
    echo "$*" >&2
    told=$SECONDS
}

# The place of a crate among those needed, counted from 1, in `at`.
place() { # NAME
    for ((at = 1; at <= all; at++)); do [ "${order[at - 1]}" != "$1" ] || return 0; done
    return 1
}

# Tells that the crate in hand is done, and with it those below.
done_with() {
    [ -n "$hand" ] || return 0
    place "$hand"
    count=$at
    tell "[$count/$all] $hand, $((SECONDS - since)) s"
    hand=
}

# Reads on in the log. rt names a crate where its proof begins, and all below it is done then; of several side by side it names each where it is done.
look() {
    local line
    while IFS= read -r line <&8 || { part+=$line && false; }; do
        line=$part$line
        part=
        case $line in
        "rt: chose --jobs "*" for ${hand:-none}" | "== summary") ;;
        "rt: chose --jobs "*)
            done_with
            if place "${line##* }"; then
                hand=${line##* }
                since=$SECONDS
            fi
            ;;
        "== "*)
            if place "${line#== }"; then
                count=$((count + 1))
                tell "[$count/$all] ${line#== }"
            fi
            ;;
        esac
    done
    [ $((SECONDS - told)) -lt 9 ] || tell "[$count/$all] ${hand:-crates side by side}, $((SECONDS - began)) s in all so far"
}

# Has rt prove and build the programs; where nothing is kept yet, all crates side by side first.
prove() {
    local name cores memory jobs
    if [ ! -e "$here/crates/${order[0]}/out/rlib/stamp" ]; then
        cores=$(nproc)
        memory=$(awk '/^MemAvailable:/ { print int($2 / 4000000) }' /proc/meminfo)
        jobs=$((memory < 1 ? 1 : memory < cores ? memory : cores))
        (cd "$here" && rt all check --jobs "$jobs") || true
    fi
    for name in "${programs[@]}"; do
        # It runs the program too, which ends where its input does.
        (cd "$here/crates/$name" && rt run 2>&1 >"$state/printed") || return 1
    done
}

# Puts a program that rt built where it is run from.
put() { # NAME
    cp "$here/crates/$1/out/$1" "$here/target/bin/$1.new"
    mv "$here/target/bin/$1.new" "$here/target/bin/$1"
}

build() { # CHECKSUM
    local began=$SECONDS told=$SECONDS since=$SECONDS count=0 headed= hand= part= all at order child name
    mkdir -p "$state" "$here/target/log" "$here/target/bin" || fail "target/ cannot be written"
    exec 9>"$state/lock"
    flock 9
    mapfile -t order < <(needed "${programs[@]}")
    all=${#order[@]}
    : >"$log"
    exec 8<"$log"
    set -m
    prove </dev/null >"$log" 2>&1 8<&- 9>&- &
    child=$!
    set +m
    trap 'kill -TERM -- -$child 2>/dev/null; exit 130' INT TERM HUP
    while kill -0 "$child" 2>/dev/null; do
        look
        sleep 0.5
    done
    look
    wait "$child" || fail "not built: $(grep -m 1 -E '^fn .*: (not proved|no proof)|: error|^rt: .* did not build' "$log" || echo "rt failed"); target/log/build.txt has the prover's words"
    trap - INT TERM HUP
    done_with
    for name in "${programs[@]}"; do put "$name"; done
    echo "$1" >"$state/sources"
    [ -z "$headed" ] || tell "$tool: built in $((SECONDS - began)) s"
    exec 8<&- 9>&-
}

# After a whole `rt ci` that passed: where the sources are still those that it began with, its programs are the ones to run, and the libraries that it left in
# out/ are theirs.
passed() { # CHECKSUM
    local name
    [ "$(sources)" = "$1" ] || return 0
    mkdir -p "$state" "$here/target/bin"
    for name in "${programs[@]}"; do put "$name"; done
    echo "$1" >"$state/sources"
    echo "$1" >"$state/gate"
}

# Whether the libraries below a crate are those that a whole `rt ci` over these sources left: one with a stamp is of another check.
of_gate() { # NAME CHECKSUM
    local crate
    same "$state/gate" "$2" || return 1
    for crate in $(needed "$1"); do
        [ "$crate" = "$1" ] || { [ -e "$here/crates/$crate/out/rlib/$crate.rlib/format" ] && [ ! -e "$here/crates/$crate/out/rlib/stamp" ]; } || return 1
    done
}

# Has the kit's compiler build the archive of a crate over the libraries below it, as they stand in out/.
archive() { # NAME TOOLCHAIN ARCHIVE
    local kit dep words
    kit=$(dirname "$(rt doc)")
    words=(--crate-name "$1" src/lib.rt --extern "std=$kit/rlibs/std.rlib" -L "dependency=$kit/rlibs")
    for dep in $(needed "$1"); do
        [ "$dep" = "$1" ] || words+=(-L "dependency=$here/crates/$dep/out/rlib")
    done
    for dep in $(awk -v name="$1" '{ sub(/#.*/, ""); at = index($0, ":"); split(substr($0, 1, at - 1), head, " ") } at && head[1] == name { print substr($0, at + 1) }' "$here/crates.txt"); do
        if [ -d "$here/crates/$dep" ]; then words+=(--extern "$dep=$here/crates/$dep/out/rlib/$dep.rlib"); else words+=(--extern "$dep=$kit/rlibs/$dep.rlib"); fi
    done
    words+=(--antt-project "$kit/rattle/logic/antt-project.json" --logic-built "$kit/logic_built" --jobs 2 --links "$1=" --crate-type staticlib)
    (cd "$here/crates/$1" && "$kit/bin/rattle" build "${words[@]}" --toolchain "$2" --backend llvm -o "$3")
}

# The command ring, built by cargo.
companion() {
    local now
    now=$(companion_sources)
    if [ -x "$ring" ] && same "$state/companion" "$now"; then
        return
    fi
    command -v cargo >/dev/null || fail "cargo is needed to build this command, and is not on the PATH (README.md, On a fresh machine)"
    mkdir -p "$state" || fail "target/ cannot be written"
    rm -rf "$state/cargo/release/.fingerprint"
    echo "$tool: this command is built by cargo" >&2
    (cd "$here/companion" && cargo build --release --offline --quiet --target-dir "$state/cargo" </dev/null >&2) || fail "not built: cargo failed"
    echo "$now" >"$state/companion"
}

# Whether the words ask something of the proved code.
needs_driver() {
    local word
    case ${1:-} in '' | --help | -h | help | --version | completion | man | build | print) return 1 ;; esac
    for word in "$@"; do
        case $word in --help | -h) return 1 ;; --) return 0 ;; esac
    done
}

build_all() {
    companion
    proved "${programs[1]}"
    echo "ring: all is built from the sources as they are"
}
