# shellcheck shell=bash
# What the script `xm_run` and the launcher of the installed program share: the help, the line for a command line
# without words, and how the program is run.

say() {
    printf '%s\n' "$1" >&2 || true
}

# Ends with a status that the program never gives.
stop() {
    say "$1"
    exit 70
}

# Prints a text whole, or ends.
print() {
    printf '%s\n' "$1" 2>/dev/null || stop 'not printed: standard output took not all of it'
}

# Each command as the synopsis of the manual has it, and the first words of its section there.
commands() {
    cat <<'END'
xm_run bare IMAGE TICKS
    Run the raw image IMAGE for TICKS ticks as the only partition of a machine, and print the report.
xm_run xmcparser XML OUT
    Read the system description XML, check it against the rules of a configuration, write the binary configuration OUT.
xm_run xmcparser upgrade XMC OUT
    Read the binary configuration XMC, of version 1 or 2, write the same configuration in version 2 to OUT.
xm_run xmeformat build ELF OUT
    Read the program file ELF of a linker, write its image OUT.
xm_run xmeformat read XEF
    Read an image, and print its entry, its segments and its digest.
xm_run xmpack build XMC OUT P=XEF ...
    Read the binary configuration XMC and for each partition P its image XEF, pack them into the container OUT.
xm_run xmpack list BOX
    Read a container, and print its length and digest, its configuration's name and counts, and its images.
xm_run xmpack check BOX
    Read a container, and print ok parts=N, N being its number of partitions.
xm_run plan make XML
    Read the system description XML, check it as xmcparser does, make a cyclic plan.
xm_run plan check XML
    Read and check the system description XML in the same way, and print for each partition whether plan 0 meets its requirement.
xm_run flows [--steering] XML
    Read and check the system description XML in the same way, and print a line for each partition.
xm_run gen NUM
    Generate a system from the seed NUM, at most 4294967295, pack it, unpack the container, run the system.
xm_run run BOX --frames NUM | --ticks TICKS [--input P=FILE ...] [--core P=FILE ...] [--script P=FILE ...] [--upset FILE] [--from FILE] [--save FILE]
    Run the system of the container BOX, and print the report.
xm_run alone BOX P SCRIPT [--input FILE] [--core FILE] [--upset FILE]
    Replay partition P of the container BOX.
END
}

# What the program says to no words, and the synopsis.
usage() {
    say 'xm_run: usage'
    commands | grep '^xm_run' >&2 || true
    exit 2
}

# Ends as the program did: where that was by a signal, by the same one, without a core file of the shell.
end_as() {
    local signal
    if (($1 > 128)) && signal=$(kill -l "$1"); then
        ulimit -c 0
        trap - "$signal"
        kill -s "$signal" "$$"
    fi
    exit "$1"
} 2>/dev/null

# Waits until a child has ended, and gives its status. A signal ends a wait, with the status that the signal gives, and
# not always the child. What a shell says of a child that a signal ended is left to the caller's shell.
wait_for() {
    local status=0
    wait "$1" || status=$?
    while kill -0 "$1"; do
        status=0
        wait "$1" || status=$?
    done
    return "$status"
} 2>/dev/null

# Runs the program as a child. A signal that this shell gets goes to it; one of the terminal's keys reaches it anyhow.
run_child() {
    local child signal
    # Without these a command in the background ignores SIGINT and SIGQUIT, and has no standard input.
    (
        trap - INT QUIT TERM HUP
        exec "$@"
    ) <&0 &
    child=$!
    for signal in INT TERM HUP; do
        # shellcheck disable=SC2064 # the child and the signal are those of now
        trap "kill -s $signal $child 2>/dev/null || true" "$signal"
    done
    wait_for "$child"
}

# Runs a program with the command line that follows a hint, and ends with its status. The hint is said after status 2,
# that of a command line that is no command, where a terminal shows it.
run_program() {
    local hint=$1 status=0
    shift
    if ! [[ -t 2 ]] || ! { : <&0; } 2>/dev/null; then
        exec "$@"
    fi
    run_child "$@" || status=$?
    ((status != 2)) || say "$hint"
    end_as "$status"
}
