# What each call takes on riscv64, as a row of Markdown: the bytes of code that it reaches, the stack by its frames, the stack measured on
# riscv64 and on x86-64. Reads, each after an assignment to `read`: the compiler's frames, the sizes of the symbols, the disassembly with its
# relocations, and what stack.c printed on either machine.
# The one function that calls itself does so for ever smaller cells of a line, so at most 64 frames of it lie on the stack; no other cycle of
# calls is known, and one that appears is an error.
read == "frames" { sub(/.*\.ll:/, ""); frame[$1] = $2 }
read == "sizes" && tolower($3) == "t" { size[$4] = $2 + 0 }
read == "code" && /^[0-9a-f]+ <[^.].*>:$/ { from = $2; gsub(/>:$|^</, "", from) }
read == "code" && $2 ~ /^R_RISCV_CALL/ && $3 in size { calls[from, ++count[from]] = $3 }
read == "riscv64" { order[++n] = $1; measured[$1] = $2 }
read == "x86_64" { other[$1] = $2 }

# The stack from f on, by the frames.
function stack(f,    i, g, most, deepest) {
  if (!(f in frame) || f in busy) { print "needs.awk: no bound for " f > "/dev/stderr"; bad = 1; return 0 }
  busy[f]
  deepest = frame[f]
  for (i = 1; i <= count[f]; i++) {
    g = calls[f, i]
    if (g == f) deepest = 64 * frame[f]
    else if (stack(g) > most) most = stack(g)
  }
  delete busy[f]
  return deepest + most
}

# The code of f and of what it reaches; `seen` is what was counted already.
function code(f, seen,    i, sum) {
  if (f in seen) return 0
  seen[f]
  sum = size[f]
  for (i = 1; i <= count[f]; i++) sum += code(calls[f, i], seen)
  return sum
}

END {
  for (k = 1; k <= n; k++) {
    f = order[k]
    split("", seen)
    printf "| `%s` | %d | %d | %d | %d |\n", f, code(f, seen), stack(f), measured[f], other[f]
  }
  exit bad
}
