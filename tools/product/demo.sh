#!/usr/bin/env bash
# Shows what the program does, without a console and in some 20 seconds: a modelled console has recorded a stormy week, a
# round takes its records over, and their days are reported and drawn. Each command is printed before it runs.
#
#     jofitrana-demo [PROGRAM]
#
# All files are made in a folder of their own, which stays. Without a word the program is jofitrana.
set -u
here=$(dirname "$(readlink -f "$0")")
most_seconds=120 # that the console waits for the round
turns=1000000

# Prints what is lacking, and ends.
lack() {
    echo "demo: $1" >&2
    exit 1
}

# Prints a command, and runs it.
show() {
    printf '\n$ %s\n' "$1"
    eval "$1" || lack 'this command failed'
}

# The commands as they are called once they are installed.
jofitrana() {
    "$program" "$@"
}
jofitrana-chart() {
    "$here/chart.py" "$@"
}

# Whether somebody listens at a port. It does not call there, since the console takes one caller.
listens() {
    grep -q ": 0100007F:$(printf '%04X' "$1") 00000000:0000 0A" /proc/net/tcp
}

# Starts the console, which ends as its caller leaves, and waits until it serves.
serve() {
    local console
    printf '\n$ %s\n' "jofitrana console week.toml week.schedule $address $turns &"
    timeout "$most_seconds" "$program" console week.toml week.schedule "$address" "$turns" >console.txt 2>&1 &
    console=$!
    while kill -0 "$console" 2>/dev/null; do
        listens "$port" && return
        sleep 0.1
    done
    lack "the console does not serve; it printed '$(cat console.txt)'"
}

program=$(type -P "${1-jofitrana}") || lack "the program is missing: ${1-jofitrana}"
program=$(readlink -f "$program")
for examples in "$here/../../examples" "$here/../doc/jofitrana/examples"; do
    [ ! -r "$examples/week.schedule" ] || break
done
[ -r "$examples/week.schedule" ] || lack 'the examples are missing: week.toml and week.schedule'
folder=$(mktemp -d -t jofitrana-demo.XXXXXX)
cp "$examples/week.toml" "$examples/week.schedule" "$folder"
cd "$folder" || exit
exec {holder}< <(python3 -I "$here/held_port.py") # it holds the port until this script has ended
read -r port <&"$holder"
address=127.0.0.1:$port

echo "All files are made in $folder"
serve
show "jofitrana station week.toml week.archive $address"
show "jofitrana report week.archive days 2024-10-11 2024-10-20 | grep ' outTemp '"
if /usr/bin/python3 -P -c 'import matplotlib' 2>/dev/null; then
    show 'jofitrana report week.archive rows 2024-10-11 2024-10-20 | jofitrana-chart week.png'
    printf '\nThe picture is %s\n' "$folder/week.png"
else
    printf '\nNo chart was drawn: python3-matplotlib is missing\n'
fi
