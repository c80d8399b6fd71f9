# shellcheck shell=bash
# Sourced by scripts that run commands and hold each to a status and an output. Such a script ends with `conclude`.

# shellcheck source=tools/checks/left_out.sh
. "$(dirname "${BASH_SOURCE[0]}")/left_out.sh"
passed=0
failed=0

# Compares a status and an output, the last two words, with the status and the pattern that are wanted, behind the name.
judge() {
    # shellcheck disable=SC2053  # it is a pattern
    if [ "$4" = "$2" ] && [[ $5 == $3 ]]; then
        passed=$((passed + 1))
    else
        failed=$((failed + 1))
        echo "$1: status $4 and '${5:0:900}', in place of $2 and '${3:0:300}'" >&2
    fi
}

# Runs a command, and compares its status and output with the status and the pattern that are wanted.
expect() {
    local output status
    output=$("${@:4}" 2>&1)
    status=$?
    judge "$1" "$2" "$3" "$status" "$output"
}

# Prints the counts, and returns whether nothing failed.
conclude() {
    echo "$passed passed, $failed failed"
    [ "$failed" = 0 ]
}
