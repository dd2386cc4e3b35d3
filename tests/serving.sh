# Starts and stops servers of the program, for scripts that test or time it. A script sets `program`, the path of the
# program, and `work`, a temporary folder, before it sources this file, and calls stop_servers when it exits.
# `folders` has, for each server, the directory that is removed with it, or nothing.
servers=() folders=()

# free_port: sets port to a free port of this machine, below the range that the system hands out itself
free_port() {
  for _ in {1..100}; do
    port=$((20000 + RANDOM % 12000))
    (exec 3<> "/dev/tcp/127.0.0.1/$port") 2> /dev/null || return 0
  done
  return 1
}

# exchange PORT BYTES: sends these bytes (with escapes of printf) and prints what comes back until the connection ends
exchange() {
  timeout 20 bash -c 'exec 3<> "/dev/tcp/127.0.0.1/$1" && printf %b "$2" >&3 && exec cat <&3' exchange "$1" "$2" \
    2> /dev/null
}

# is_healthy: succeeds if the server that was started last answers, and accepts syslog connections if it has an address
# for them
is_healthy() {
  [[ "$(exchange "$http" 'GET /health HTTP/1.1\r\nConnection: close\r\n\r\n')" = *$'\r\nOK' ]] || return 1
  [ -z "$syslog" ] || (exec 3<> "/dev/tcp/127.0.0.1/$syslog") 2> /dev/null
}

# start_server WORKERS [syslog|''] [DIRECTORY]: starts a server with this number of workers at each address, at ports
# that the system chooses, over this directory, or over a new one that is removed when the server is stopped. Waits
# until it answers. Sets server to its process id, http to its port, syslog to its syslog port, if it has one, and
# directory to its directory
start_server() {
  local line words
  directory=${3:-}
  folders+=('')
  if [ -z "$directory" ]; then
    directory=$(mktemp -d "$work/logs.XXXXXX") || return 1
    folders[-1]=$directory
  fi
  words=(serve --dir "$directory" --http 127.0.0.1:0 --workers "$1")
  [ -z "${2:-}" ] || words+=(--syslog 127.0.0.1:0)
  http='' syslog=''
  : > "$work/server_err"   # the line of an earlier server is not taken for that of this one
  "$program" "${words[@]}" < /dev/null > "$work/server_out" 2> "$work/server_err" &
  server=$!
  servers+=("$server")
  for _ in {1..200}; do
    if { read -r line < "$work/server_err"; } 2> /dev/null; then
      [[ $line =~ http\ on\ 127\.0\.0\.1:([0-9]+) ]] && http=${BASH_REMATCH[1]}
      [[ $line =~ syslog\ on\ 127\.0\.0\.1:([0-9]+) ]] && syslog=${BASH_REMATCH[1]}
      is_healthy && return 0
    fi
    kill -0 "$server" 2> /dev/null || break
    sleep 0.1
  done
  stop_server
  return 1
}

# stop_server [SIGNAL]: stops the server that was started last, by SIGTERM or this signal, and returns its status
stop_server() {
  local id=$server status
  unset 'servers[-1]'
  kill -s "${1:-TERM}" "$id" 2> /dev/null
  wait "$id" 2> /dev/null
  status=$?
  [ -z "${folders[-1]}" ] || rm -rf "${folders[-1]}"
  unset 'folders[-1]'
  return "$status"
}

# stop_servers: stops all servers
stop_servers() {
  local id
  for id in "${servers[@]}"; do
    kill "$id" 2> /dev/null
    wait "$id" 2> /dev/null
  done
  for id in "${folders[@]}"; do
    [ -z "$id" ] || rm -rf "$id"
  done
  servers=() folders=()
}

# numbers: prints how many batches the server that was started last holds, and how many of them are settled
numbers() {
  exchange "$http" 'GET /status HTTP/1.0\r\n\r\n' |
    sed -n 's/.*"batches":"\([0-9]*\)","settled":"\([0-9]*\)".*/\1 \2/p'
}

# settles SECONDS: waits until all batches of the server that was started last are settled, for this long at most
settles() {
  local end=$((SECONDS + $1)) batches settled
  while [ $SECONDS -le $end ]; do
    read -r batches settled <<< "$(numbers)"
    [ -n "$batches" ] && [ "$batches" = "$settled" ] && return 0
    sleep 0.2
  done
  return 1
}

# encoded TEXT: prints the text as a form-encoded value
encoded() {
  local LC_ALL=C text=$1 at byte
  for ((at = 0; at < ${#text}; at++)); do
    byte=${text:at:1}
    case $byte in
      [A-Za-z0-9._-]) printf %s "$byte" ;;
      *) printf '%%%02X' "'$byte" ;;
    esac
  done
}

# ask QUERY: prints the records of a query
ask() {
  local body
  body=query=$(encoded "$1")
  exchange "$http" "POST /select/logsql/query HTTP/1.1\r\nConnection: close\r\nContent-Type: \
application/x-www-form-urlencoded\r\nContent-Length: ${#body}\r\n\r\n$body" | sed '1,/^\r$/d'
}
