# To be sourced. A proof can take most of a minute and prints little until it is done: `watched` shows that it goes on.
# shellcheck shell=bash

# watched LOG COMMAND..: runs the command with all that it prints in LOG. Shows which crates are proved, and how many
# seconds are gone where ten would pass in silence. Answers the command's status.
watched() {
    local log=$1 began=$SECONDS crate='' line
    shift
    mkdir -p "$(dirname "$log")"
    "$@" 2>&1 | tee "$log" | while true; do
        if IFS= read -r -t 8 line; then
            # The line of a crate's name comes before that of its verdict.
            if [[ $line =~ ^crate\ ([a-z_]+):\ modules ]]; then
                crate=${BASH_REMATCH[1]}
            elif [[ $line == logic=proved* && -n $crate ]]; then
                echo "    $crate is proved"
                crate=
            fi
        elif (($? > 128)); then # read's way to say that the time is over
            echo "    still at work, $((SECONDS - began)) seconds gone"
        else
            break
        fi
    done
    return "${PIPESTATUS[0]}"
}
