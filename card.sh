#!/usr/bin/env bash
# Makes a card of a picture. The usage below is the one place that says what it takes and its status.
set -uo pipefail
root=$(dirname "$(readlink -f "${BASH_SOURCE[0]}")")
. "$root/scripts/proving.sh"

usage() {
  cat << 'USAGE'
usage: card.sh [PICTURE]
       card.sh --help

Makes a card of a picture in plain PBM, with its clues in the .non format that solve.sh reads (cards/README.md). PICTURE is a file, or - for
standard input. Without one it is standard input where a pipe or a file is there, and else cards/umbrella.pbm. -- ends options.

The program is proved and built before the first picture, which takes minutes once; how far it is stands on standard error. The card
goes to standard output. What is no picture is told on standard error, with its number and what that means.

Status: 0 the card is printed
        2 the file is no picture, or cannot be read
        4 an option is not known, there are several pictures, the program could not be built, or the output could not be written
USAGE
}

take_files "$root/cards/umbrella.pbm" "$@"
if [ ${#files[@]} -gt 1 ]; then end 4 "a card is made of one picture; --help tells the usage"; fi
take_program scan
# The program reads standard input where it is given no file.
if [ "${files[0]}" = - ]; then files=(); fi
answer=$("$program" "${files[@]}") || end 4 "the program failed on ${files[0]-standard input}"
case $answer in
'no picture, '*)
  printf '%s\n' "$answer" >&2
  exit 2
  ;;
esac
put "$answer"
