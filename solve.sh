#!/usr/bin/env bash
# Solves cards and shows their boards. The usage below is the one place that says what it takes and its status.
set -uo pipefail
root=$(dirname "$(readlink -f "${BASH_SOURCE[0]}")")
. "$root/scripts/proving.sh"

usage() {
  cat << 'USAGE'
usage: solve.sh [CARD ...]
       solve.sh --help

Solves nonograms in the .non format (cards/README.md) and shows their boards. CARD is a file, or - for standard input. Without one it
is standard input where a pipe or a file is there, and else cards/duck.non. -- ends options.

The program is proved and built before the first card, which takes minutes once; how far it is stands on standard error. Boards
go to standard output. What is no card is told on standard error.

Status: 0 every cell of every card is known
        1 a card has no solution
        2 a file is no card, or cannot be read
        3 a card is left with open cells
        4 an option is not known, the program could not be built, or the output could not be written
Of several cards the worst counts: 4 before 2, 2 before 1, 1 before 3.
USAGE
}

# The worse of two statuses: 2, then 1, then 3.
worse() { # STATUS STATUS
  case $1$2 in
  *2*) echo 2 ;;
  *1*) echo 1 ;;
  *3*) echo 3 ;;
  *) echo 0 ;;
  esac
}

# Solves one card; `answered` is then its status.
solve_card() { # CARD SEVERAL
  local answer name=$1
  if [ "$1" = - ]; then name='standard input'; fi
  answer=$("$program" "$1") || end 4 "the program failed on $name"
  case $answer in
  'bad card, '*)
    printf '%s\n' "$answer" >&2
    answered=2
    return
    ;;
  'unsolvable '*) answered=1 ;;
  *' cells are open, '*) answered=3 ;;
  *) answered=0 ;;
  esac
  if [ "$2" -gt 1 ]; then put "== $name =="; fi
  put "$answer"
}

take_files "$root/cards/duck.non" "$@"
take_program solve
status=0
for card in "${files[@]}"; do
  solve_card "$card" ${#files[@]}
  status=$(worse "$status" "$answered")
done
exit "$status"
