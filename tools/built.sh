# Whether the program is built of the sources that stand here: read by the launcher, racl, and by the gate, with `top`
# set to the top of the checkout.
#
# A record beside the program says of which sources it was built, by which toolchain, and which program that is.
# Contents decide, never times: files that were copied or unpacked may bear any time. Where each size, inode and time,
# also that of the inode's last change, is as it was when the contents were compared, they aren't read again.

program=$top/crates/racl/out/racl
record=$program.record
unchanged=$program.unchanged

# Each file that the program is built of, and what find is told to do with it.
each_source() {
    (cd "$top" && exec find crates.txt HANDLES crates/*/src crates/*/specs crates/*/proofs -type f "$@")
}

sources_digest() {
    each_source -print0 | LC_ALL=C sort -z | (cd "$top" && exec xargs -0 sha256sum) | sha256sum
}

# The toolchain's line of identity; the empty line where there is none.
toolchain() {
    line=
    if rt=$(command -v rt); then
        kit=$(readlink -f -- "$rt")
        if ! { read -r line <"${kit%/bin/rt}/KIT-ID"; } 2>/dev/null; then
            line=$(rt version)
        fi
    fi
    printf '%s\n' "$line"
}

# write_record SOURCES TOOLCHAIN: the program that is there was built of these.
write_record() {
    printf '%s\n' "$1" "$2" "$(sha256sum <"$program")" >"$record.$$" && mv -f "$record.$$" "$record"
}

states() {
    { each_source -printf '%p %s %i %T@ %C@\n'; find "$program" "$record" -printf '%p %s %i %T@ %C@\n'; } 2>/dev/null
}

# Whether the program is there and was built of these sources, by the toolchain that is there, if any is.
is_built() {
    [ -x "$program" ] && { read -r sources && read -r by && read -r built; } 2>/dev/null <"$record" || return 1
    here=$(toolchain)
    [ -z "$here" ] || [ "$here" = "$by" ] || return 1
    [ -f "$unchanged" ] && states | cmp -s - "$unchanged" && return 0
    now=$(states)
    [ "$(sources_digest)" = "$sources" ] && [ "$(sha256sum <"$program")" = "$built" ] || return 1
    # (a checkout that can't be written to has its contents compared each time)
    (printf '%s\n' "$now" >"$unchanged.$$" && mv -f "$unchanged.$$" "$unchanged") 2>/dev/null
    return 0
}

# The libraries for C as they are installed, and what they are made of: sources, headers and toolchain.
libraries=$top/out/library

library_sources() {
    printf '%s\n' "$(sources_digest)" "$(cat "$top/include/racl.h" "$top/include/bihash.h" "$top/install/library" | sha256sum)" "$(toolchain)"
}

# Whether the libraries are there and were made of these.
are_libraries_built() {
    [ -f "$libraries/sources" ] && [ "$(library_sources)" = "$(cat "$libraries/sources")" ]
}
