# shellcheck shell=bash
# Sourced by checks that leave something out on a machine that lacks a package. The gate names a file by NOT_TRIED, in which
# it collects what they leave out. Without that name nothing is collected.

# Reports what is not tried on this machine, here and at the end of the gate.
leave_out() {
    echo "$1" >&2
    [ -z "${NOT_TRIED-}" ] || echo "$1" >>"$NOT_TRIED"
}

# Prints one line with all that was left out.
tell_left_out() {
    if [ -s "$NOT_TRIED" ]; then
        echo "NOT TRIED on this machine: $(sort -u "$NOT_TRIED" | paste -sd'|' | sed 's/|/; /g')"
    else
        echo 'nothing was left out on this machine'
    fi
}
