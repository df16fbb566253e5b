# The built program, and what it was built from. mbdc and check source this file, with the checkout's folder in $root.
# It lies beside the crates, and not in one's out/, which `rt ci` empties.
built=$root/out/run

# One sum of all that the program is made of, and the gate proves of it: no edits.
sources() {
    local others=(-name out -o -name must-fail -o -name mutants)
    (cd -- "$root" && find crates.txt crates -type d \( "${others[@]}" \) -prune -o -type f -print0 \
        | LC_ALL=C sort -z | xargs -0 sha256sum -- | sha256sum)
}

# The toolchain, where there is one. A built program runs without it.
toolchain() {
    stat -L -c '%n %s %Y' "$(command -v rt)"
}

# Whether the program is built from the present sources.
is_built() {
    local kept=$built/mbdc
    [ -x "$kept" ] && [ "$(sources)" = "$(cat -- "$kept.sources" 2>/dev/null)" ] || return 1
    ! command -v rt >/dev/null || [ "$(toolchain)" = "$(cat -- "$kept.toolchain" 2>/dev/null)" ]
}

# The library for C, which tools/library makes, or one in another folder.
is_library_built() {
    [ "$(sources)" = "$(cat -- "${1-$root/out/library}/sources" 2>/dev/null)" ]
}

# One sum of what the program for ARM is made of, which tools/arm64 notes.
sources_of_arm64() {
    (sources && sha256sum <"$root/packaging/arm64/host.c") | sha256sum
}

# The commit of the present sources, with a + where they differ from it; nothing outside of a checkout.
commit() {
    local of
    of=$(git -C "$root" rev-parse --short=12 HEAD 2>/dev/null) || return 0
    [ -z "$(git -C "$root" status --porcelain -- crates crates.txt)" ] || of+=+
    printf '%s\n' "$of"
}

# Takes the program that was just proved and linked, from these sources by this toolchain. No proof depends on the commit.
keep_program() {
    local kept=$built/mbdc
    mkdir -p -- "$built" && cp -- "$root/crates/mbdc/out/mbdc" "$kept.new" && mv -f -- "$kept.new" "$kept" \
        && commit >"$kept.commit" && printf '%s\n' "$2" >"$kept.toolchain" && printf '%s\n' "$1" >"$kept.sources"
}

# What a built program is: version and logic, as it says itself, and the commit that it was built of.
version_and_commit() {
    with_commit "$("$1" --version)" "$(cat -- "$1.commit" 2>/dev/null)"
}

with_commit() {
    printf '%s%s\n' "$1" "${2:+, commit $2}"
}
