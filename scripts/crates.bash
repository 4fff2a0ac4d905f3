# The crates of crates.txt, for ./run and ./try, which set `top` to the folder of the repository.

# Each crate with what it stands on: names in the order of the file, and their lists.
declare -a crate_names=()
declare -A crate_below=()
while IFS= read -r line; do
  line=${line%%#*}
  [[ $line == *:* ]] || continue
  read -r name _ <<<"${line%%:*}"
  crate_names+=("$name")
  crate_below[$name]=${line#*:}
done <"$top/crates.txt"

# The crates that are programs, a line each.
programs() {
  local name
  for name in "${crate_names[@]}"; do
    [[ -f $top/crates/$name/src/main.rt ]] && echo "$name"
  done
}

is_program() {
  programs | grep -qxF -e "$1"
}

# Adds a crate of the repository to `build_order`, behind those that it stands on.
declare -a build_order=()
put_in_order() {
  local below
  [[ -v crate_below[$1] && " ${build_order[*]} " != *" $1 "* ]] || return 0
  for below in ${crate_below[$1]}; do
    put_in_order "$below"
  done
  build_order+=("$1")
}
