# shellcheck shell=bash disable=SC2154
# For scripts of this repository, which set `top`: what the program stands on, and whether a file is older than that.

# the crates that one stands on, and itself
below() {
  awk -F: -v wanted="$1" '
    { split($1, name, " "); below[name[1]] = $2 }
    function visit(crate, names, count, i) {
      if (!(crate in below) || crate in seen) return
      seen[crate] = 1
      count = split(below[crate], names, " ")
      for (i = 1; i <= count; i++) visit(names[i])
      print crate
    }
    END { visit(wanted) }' "$top/crates.txt"
}

# is_older FILE SOURCE PART..: whether the source, or a file in one of these parts of the program's crates, is newer than the file
is_older() {
  local crate part sources=("$2")
  for crate in $(below qpzone); do
    for part in "${@:3}"; do
      part=$top/crates/$crate/$part
      [[ ! -e $part ]] || sources+=("$part")
    done
  done
  [[ -n $(find "${sources[@]}" -newer "$1" -print -quit) ]]
}

# whether the file is a program that was made of the sources as they are, with what is proved of them
is_proved() { [[ -x $1 ]] && ! is_older "$1" "$top/HANDLES" src specs proofs; }

# whether it was made of the code as it is, by the tool as it is
is_built() { [[ -x $1 ]] && ! is_older "$1" "$top/tools/native.py" src; }
