# Shared by scripts that start their own pcscd: they set `build`, and source this. The machine's
# settings stay as they are, and a running pcscd is left alone. Their counts are those of counts.sh.
# shellcheck shell=bash
room=$(mktemp -d)
pcscd=
# shellcheck source=counts.sh
. "${BASH_SOURCE[0]%/*}/counts.sh"

stop_pcscd() {
  if [ -n "$pcscd" ]; then
    kill "$pcscd" 2> /dev/null
    wait "$pcscd" 2> /dev/null
  fi
  pcscd=
}

cleanup() {
  stop_pcscd
  rm -rf "$room"
}
trap cleanup EXIT

# start_pcscd FILE [OPTION..]: starts a pcscd with the readers of FILE alone
start_pcscd() {
  pcscd --foreground --config "$@" > "$room/log" 2>&1 &
  pcscd=$!
}

# reader NAME DEVICE CHANNEL [LIBRARY]: adds a reader to the file, where no path may have a space;
# pcscd numbers the readers of a file in order
reader() {
  cat >> "$room/readers" <<END
FRIENDLYNAME "$1"
DEVICENAME $2
LIBPATH ${4:-$room/virtual_reader.so}
CHANNELID $3
END
}

# start_readers COUNT [OPTION..]: starts a pcscd with the readers of the file, and waits until it
# has COUNT of them
start_readers() {
  local count=$1
  shift
  start_pcscd "$room/readers" "$@"
  for _ in $(seq 120); do
    sleep 0.5
    if ! kill -0 "$pcscd" 2> /dev/null; then
      echo "pcscd has ended, with the readers in it"
      tail -n 20 "$room/log"
      failed=1
      sum
    fi
    "$build/gt_pcsc" -l > "$room/found" 2> /dev/null
    [ "$(wc -l < "$room/found")" -lt "$count" ] || break
  done
}

# part WHAT STATUS: passes if STATUS is 0 and standard input is the same as the file `found`
part() {
  if [ "$2" = 0 ] && diff -b - "$room/found" > "$room/difference"; then
    passed=$((passed + 1))
  else
    failed=$((failed + 1))
    echo "failed: $1, status $2"
    head -n 20 "$room/difference" | cut -c 1-300
    tail -n 5 "$room/log" | cut -c 1-300
  fi
}

# run WORD..: runs gt_pcsc, with both outputs to the file `found`
run() {
  timeout 60 "$build/gt_pcsc" "$@" > "$room/found" 2>&1
}

# need_pcscd WHAT: builds the programs. If they can't be tried here, the script ends
need_pcscd() {
  local needed
  for needed in pcscd pkg-config pgrep; do
    has "$needed" "$1" || sum
  done
  if ! pkg-config --exists libpcsclite; then
    skip "$1" "there is no libpcsclite with its headers"
    sum
  fi
  if ! make -s -C "${BASH_SOURCE[0]%/*}/.." virtual_reader pcsc_programs \
    > "$room/made" 2>&1; then
    cat "$room/made"
    failed=1
    sum
  fi
  cp "$build/virtual_reader.so" "$room/"
  if pgrep -x pcscd > /dev/null; then
    skip "$1" "a pcscd runs already"
    sum
  fi
  # if pcscd does not run even without a reader, the reader is not the reason
  touch "$room/none"
  start_pcscd "$room/none"
  sleep 2
  if ! kill -0 "$pcscd" 2> /dev/null; then
    head -n 5 "$room/log"
    skip "$1" "pcscd does not run here"
    sum
  fi
  stop_pcscd
}
