#!/bin/sh
# The counter of counter.py as a program of another language: 80 10 00 00 counts.
#
#   python3 -m galliumtoad.simulate --program 'sh counter.sh' --vpcd
count=0
while read -r word hex le; do
  case "$word $hex" in
    header*) echo from-card ;;
    'command 80100000') count=$(((count + 1) % 256)); printf '%02X 9000\n' "$count" ;;
    command*) echo 6D00 ;;
  esac
done
