# Proves and builds crates with rt, tells on standard error how far it is, and does nothing where nothing has changed; and has what the
# commands for a person share. To be sourced, with `root` set to the repository.

say() { printf '%s: %s\n' "$(basename "$0")" "$*" >&2; }

# Fails where a command is not there.
need() { # COMMAND ...
  local command
  for command; do
    if ! command -v "$command" > /dev/null; then
      say "$command is missing (rt is of the Rattle kit; tests/README.md names the packages of the others)"
      return 1
    fi
  done
}

# The crates that a crate is made of, itself last, each after those that it depends on: the order in which rt builds them.
parts_of() { # CRATE
  awk -F: -v top="$1" '
    function list(name,    parts, n, i) {
      n = split(uses[name], parts, /[ \t,]+/)
      for (i = 1; i <= n; i++) if (parts[i] in uses && !(parts[i] in listed)) list(parts[i])
      listed[name]
      print name
    }
    { sub(/#.*/, "") }
    split($1, head, " ") { uses[head[1]] = $2 }
    END { list(top) }' "$root/crates.txt"
}

# One line for all that decides how a crate comes out, and for the file that was made of it.
sum_of() { # CRATE FILE
  {
    rt version
    cd "$root" && for part in $(parts_of "$1"); do
      grep -E "^$part([ :]|$)" crates.txt
      find "crates/$part" -path "crates/$part/out" -prune -o -type f -exec sha256sum {} + | sort
    done
    sha256sum < "$2"
  } | sha256sum
}

note_built() { # CRATE FILE
  sum_of "$1" "$2" > "$2.sum"
}

is_built() { # CRATE FILE
  [ -f "$2" ] && [ -f "$2.sum" ] && [ "$(cat "$2.sum")" = "$(sum_of "$1" "$2")" ]
}

# Runs rt in a crate's folder, and tells each crate that it is made of once that is proved; those that need no proof again are passed over. All
# that rt says is in target/proving.log, whose end is shown where rt fails.
run_rt() { # CRATE VERB
  local log=$root/target/proving.log line name='' parts status
  parts=$(parts_of "$1")
  mkdir -p "$root/target"
  (cd "$root/crates/$1" && rt "$2" < /dev/null 2>&1) | tee "$log" | while IFS= read -r line; do
    case $line in
    'rt: chose --jobs '*' for '*) name=${line##* } ;;
    'rt: waiting for '* | 'rt: '*': another copy '*) printf '  %s\n' "${line#rt: }" >&2 ;;
    'logic=proved functions='*)
      line=${line#logic=proved functions=}
      printf '  %s proved, %s functions: %s\n' "$name" "${line%% *}" \
        "$(awk -v name="$name" '$1 == name { at = NR } END { print at " of " NR }' <<< "$parts")" >&2
      ;;
    esac
  done
  status=${PIPESTATUS[0]}
  # Once a program is proved and linked, rt run runs it and ends with its status.
  if [ "$2" = run ] && grep -q "^rt: running out/$1;" "$log"; then status=0; fi
  if [ "$status" -ne 0 ]; then
    tail -n 20 "$log" >&2
    return 1
  fi
}

# Has rt make out/MADE in a crate's folder, and leaves FILE as a copy of it.
make_copy() { # CRATE VERB MADE FILE
  run_rt "$1" "$2" || return
  mkdir -p "$(dirname "$4")"
  cp "$root/crates/$1/out/$3" "$4.new" && mv "$4.new" "$4"
}

# Makes FILE of CRATE by a command, unless it is there and all that it was made of is as it was. Two that do so at once, as the commands of a
# pipe, go one after the other.
build_once() { # CRATE FILE COMMAND ...
  local crate=$1 file=$2
  shift 2
  if is_built "$crate" "$file"; then return; fi
  need flock || return
  say "$crate is proved and built first, once; this can take minutes ($(parts_of "$crate" | wc -l) crates)"
  mkdir -p "$root/target"
  {
    flock 9
    rm -f "$file.sum"
    "$@" && note_built "$crate" "$file"
  } 9> "$root/target/proving.lock"
}

# The device library for this machine.
build_device() {
  local library=$root/target/staticlib/libdevice.a
  build_once device_c "$library" make_copy device_c lib libdevice_c.a "$library"
}

# A program for this machine.
build_program() { # CRATE
  local program=$root/target/bin/$1
  build_once "$1" "$program" make_copy "$1" run "$1" "$program"
}

# ---- what the commands for a person share; each has a function `usage`, and status 4 where it cannot do its work

end() { # STATUS MESSAGE
  say "$2"
  exit "$1"
}

# Writes lines to standard output, or ends.
put() { printf '%s\n' "$@" 2> /dev/null || end 4 "the output could not be written"; }

# The files that a command is given, as `files`. Without one it is standard input where a pipe or a file is there, and else a file of ours.
take_files() { # OURS WORD ...
  local ours=$1
  shift
  files=()
  while [ $# -gt 0 ]; do
    case $1 in
    --help)
      usage || exit 4
      exit 0
      ;;
    --)
      files+=("${@:2}")
      break
      ;;
    -?*) end 4 "$1 is no option; --help tells the usage" ;;
    *) files+=("$1") ;;
    esac
    shift
  done
  if [ ${#files[@]} -gt 0 ]; then return; fi
  # A terminal and /dev/null are devices.
  if [ -e /dev/stdin ] && [ ! -c /dev/stdin ]; then files=(-); else files=("$ours"); fi
}

# A command's program, proved and built, as `program`.
take_program() { # CRATE
  program=$root/target/bin/$1
  need rt && build_program "$1" || exit 4
}
