#!/usr/bin/env bash
# Tries rounds over a serial line that is none: the modelled console is at one end of a pseudo-terminal, and the other end
# is served by ser2net, and then by socat, as a serial adapter is. The two ways of docs/USING.md are tried so, but for the
# adapter and its speed. It ends by itself, with status 1 where something is not as it has to be.
#
#     tools/checks/serial_try.sh [PROGRAM]
#
# Without a program it is that of this checkout, which is built first where that is not done yet.
set -u
here=$(dirname "$(readlink -f "$0")")
# shellcheck source=tools/checks/served_console.sh
. "$here/served_console.sh"
RECORDS=288
PAGES=58

# Fills an archive over a port. The first word is a name for both.
try_round() {
    local want="round ok attempts 1 pages $PAGES skipped 0 acked $RECORDS rows $RECORDS"
    hold "by $1" "$want" "$("$program" station settings.toml "$1.archive" "127.0.0.1:$2")"
    hold_rows "$1.archive" "$RECORDS"
}

PATH=$PATH:/usr/sbin
prepare "${1-}" socat/socat ser2net/ser2net
serve_console "$RECORDS"
start line socat "PTY,link=$folder/line,rawer" "TCP:127.0.0.1:$console_port,nodelay"
await line [ -e line ]

hold_port
cat >ser2net.yaml <<YAML
connection: &davis
  accepter: tcp,127.0.0.1,$port
  connector: serialdev,$folder/line,19200n81,local
YAML
start ser2net ser2net -n -c "$folder/ser2net.yaml"
await ser2net listens "$port"
try_round ser2net "$port"
kill "${started[-1]}"
wait "${started[-1]}"

hold_port
start socat socat "TCP-LISTEN:$port,bind=127.0.0.1,reuseaddr,fork,max-children=1" \
    "FILE:$folder/line,b19200,rawer,cs8,parenb=0,cstopb=0,clocal=1"
await socat listens "$port"
try_round socat "$port"
finish
