# Proves one crate by the compiler over libraries of the crates below it, so that none of these is proved a second time. Sourced by
# tools/proving.bash, which makes these libraries, and by tools/build-apart, tools/build-aarch64 and web/build, to which CI gives the
# directory into which it puts those that `rt ci` has proved.

# Waits until the libraries of these crates are in a directory. Fails if `rt ci` ended without one of them:  wait_for DIRECTORY CRATE..
wait_for() {
  local each
  for each in "${@:2}"; do
    until [[ -d $1/$each.rlib ]]; do
      [[ -d $1 && ! -f $1/ended ]] || return
      sleep 1
    done
  done
}

# Sets `toolkit` to the directory of the toolchain.
find_toolkit() {
  toolkit=$(dirname -- "$(rt doc)")
}

# Proves a crate of a copy of the checkout over the libraries in a directory, whose path is absolute, and builds it, with the flags that
# follow, by the toolchain in the directory `toolkit`:  compile DIRECTORY COPY CRATE ENTRY FLAG..
compile() {
  local each line below=std used=() words=()
  while read -r line; do
    [[ $line != "$3"[:\ ]* ]] || below+=" ${line#*:}"
  done <"$2/crates.txt"
  for each in $below; do
    if [[ -d $2/crates/$each ]]; then used+=("$each") words+=(--extern "$each=$1/$each.rlib"); else words+=(--extern "$each=$toolkit/rlibs/$each.rlib"); fi
  done
  wait_for "$1" "${used[@]}" || return
  words+=(-L "dependency=$toolkit/rlibs" -L "dependency=$1" --antt-project "$toolkit/rattle/logic/antt-project.json" --logic-built "$toolkit/logic_built")
  (cd -- "$2/crates/$3" && mkdir -p out && exec "$toolkit/bin/rattle" build --crate-name "$3" "$4" "${words[@]}" --links "$3=" "${@:5}")
}

# Proves and builds the static library or the program of a crate by `jobs` jobs, or by one, with the flags that follow, for example a
# target. Fails if it cannot, and its output says why:  build_over DIRECTORY COPY CRATE FLAG..
build_over() {
  local toolkit given entry=src/lib.rt written=out/lib$3.a flags=(--crate-type staticlib)
  find_toolkit && given=$(realpath -ms -- "$1") || return
  if [[ -f $2/crates/$3/src/main.rt ]]; then entry=src/main.rt written=out/$3.o flags=(); fi
  compile "$given" "$2" "$3" "$entry" "${flags[@]}" --jobs "${jobs:-1}" --toolchain "$toolkit/toolchain" --backend llvm "${@:4}" -o "$written" || return
  [[ $written != *.o ]] ||
    "$toolkit/bin/rattle-link" --target x86_64-unknown-linux-gnu --toolchain "$toolkit/toolchain" -o "$2/crates/$3/out/$3" "$2/crates/$3/$written" "$toolkit/c/libos_c.a" "$toolkit/c/liblibc_c.a"
}

# Proves the library of a crate by this number of jobs, and adds it to the directory, whose path is absolute. The toolchain is in
# `toolkit`:  prove_over DIRECTORY COPY CRATE JOBS
prove_over() {
  compile "$1" "$2" "$3" src/lib.rt --statements --jobs "$4" -o "$1/$3.rlib"
}

# Sets `flags` to those by which a crate of a copy is built over what tools/build-apart proved of it in this run of CI, for another
# processor. There are none if that is not in the directory:  reuse DIRECTORY COPY CRATE
reuse() {
  flags=()
  [[ ! -d $1/$3.kept ]] || { cp -a -- "$1/$3.kept" "$2/$3.kept" && flags=(--incremental "$2/$3.kept"); }
}
