# How the launcher and the installed command run the program.

# A standard stream that is closed becomes one that can't be read or written, so that no file gets its number.
readable=yes
true 2>/dev/null 3<&0 || { exec 0>/dev/null; readable=; }
true 2>/dev/null 3>&1 || exec 1</dev/null
true 3>&2 || exec 2</dev/null

# The signals that end a process and that it can catch.
SIGNALS='HUP INT QUIT ABRT USR1 USR2 PIPE ALRM TERM XCPU XFSZ VTALRM PROF'

# run PROGRAM WORDS..: runs it as this shell's child where a capture may come for long or packets are saved, and else in its place.
run() {
    # The C library asks for huge pages, so that a long input's memory is touched in fewer steps, and gives back each freed
    # block of 128 KiB and more, so that the peak is lower. What the user asks of it stands after that, and counts.
    export GLIBC_TUNABLES="glibc.malloc.hugetlb=1:glibc.malloc.mmap_threshold=131072${GLIBC_TUNABLES:+:$GLIBC_TUNABLES}"
    saves=
    case " $* " in
        *" --drops"[\ =]* | *" --passes"[\ =]*) saves=yes ;;
    esac
    # these commands read whole files, which are small
    case ${2-} in
        check | expand | compare | ask | help) exec "$@" ;;
    esac
    run_child "$@"
}

# run_child PROGRAM WORDS..: runs it so that no signal leaves anything behind. Standard input, and each FIFO that a word names, it
# reads through a pipe that a signal closes: it then ends as at the end of its captures, with its totals. A second signal kills it,
# and so does a first one where there is no pipe. What it says of a pipe names the FIFO. With neither a pipe nor a file that is
# saved it runs in this shell's place.
run_child() {
    program=$1 room= pipes= links=0 names= feeders= input= before= teller= child= signals=0 killed=
    shift
    trap clear_up EXIT
    for kind in $SIGNALS; do trap "stop_child $kind" "$kind"; done
    for word in "$@"; do
        shift
        find_stream
        set -- "$@" "$word"
        before=$word
    done
    [ -n "$input$pipes$saves" ] || exec "$program" "$@"
    if [ -n "$pipes" ] && mkfifo "$room/said"; then
        (trap '' $SIGNALS && exec sed -u "$names") <"$room/said" >&2 &
        teller=$!
        exec 2>"$room/said"
    fi
    exec 3<&0
    if [ -n "$input" ]; then
        make_room && mkfifo "$room/pipe" || exec "$program" "$@" 3<&-
        exec 4<>"$room/pipe"
        cat <&3 >/proc/self/fd/4 3<&- 4<&- &
        feeders="$feeders $!"
        exec 3</proc/self/fd/4 4<&-
    fi
    (trap '' $SIGNALS && exec "$program" "$@" 3<&-) <&3 &
    child=$!
    exec 3<&-
    # a wait that a signal ended is begun again
    until wait_for_child; do :; done
    child=
    kill $feeders 2>/dev/null
    exec 2>/dev/null
    [ -z "$teller" ] || wait "$teller"
    [ -z "$killed" ] || end_by "$killed"
    exit "$status"
}

make_room() {
    [ -n "$room" ] || room=$(mktemp -d)
}

# Whether this word says standard input, or names a FIFO, of which it then is to name the pipe, by a link of its own. A word in front
# of it may name an option whose file is written.
find_stream() {
    case $word in
        --interface=*=*) front=--interface=${word#--interface=} file=${word#--interface=*=} ;;
        [0-9]*=*) front=$word file=${word#*=} ;;
        *) front=$word file=$word ;;
    esac
    front=${front%"$file"}
    case $before in
        --drops | --passes) return ;;
    esac
    if [ "$file" = - ]; then
        # a regular file isn't waited for, and the program is to see which one it is
        [ -f /dev/stdin ] || input=$readable
    elif [ -p "$file" ] && make_room; then
        pipe=$room/$(stat -Lc %d.%i -- "$file") links=$((links + 1))
        link=$room/$links/${file##*/}
        if [ ! -p "$pipe" ]; then
            mkfifo "$pipe" || return
            cat "$file" >"$pipe" </dev/null &
            feeders="$feeders $!" pipes=yes
        fi
        mkdir "$room/$links" && ln "$pipe" "$link" || return
        names="${names}s|$room/$links/|$(printf %s "${file%"${file##*/}"}" | sed 's/[\\&|]/\\&/g')|g;"
        word=$front$link
    fi
}

# What a signal of this kind does.
stop_child() {
    signals=$((signals + 1))
    kill $feeders 2>/dev/null
    if [ -n "$feeders" ] && [ "$signals" = 1 ]; then
        # a pipe that the program opens yet is at its end (for some seconds, since a signal to a child that just begins may be lost)
        for _ in 1 2 3 4 5 6 7 8 9 10 11 12 13 14 15 16 17 18 19 20; do
            for it in "$room"/*/*; do
                [ ! -p "$it" ] || : <>"$it"
            done
            sleep 0.1
            [ -d "$room" ] || break
        done </dev/null >/dev/null 2>&1 &
        feeders="$feeders $!"
    elif [ -n "$child" ]; then
        killed=$1
        kill_child
    else
        end_by "$1"
    fi
}

# Kills the program, and removes what it writes beside files that it saves: files with such names that it has for writing.
kill_child() {
    kill -STOP "$child"
    for it in /proc/"$child"/fd/*; do
        name=$(readlink "$it")
        case $name in
            *.[0-9].part | *.[0-9][0-9].part) ! grep -q '^flags:.*1$' "/proc/$child/fdinfo/${it##*/}" || rm -f -- "$name" ;;
        esac
    done
    kill -KILL "$child"
} 2>/dev/null

clear_up() {
    kill $feeders 2>/dev/null
    [ -z "$room" ] || rm -rf "$room"
}

end_by() {
    clear_up
    trap - EXIT $SIGNALS
    kill -"$1" $$
    exit 1
}

wait_for_child() {
    seen=$signals
    wait "$child" 2>/dev/null
    status=$?
    [ "$signals" = "$seen" ] || [ "$status" -lt 128 ]
}
