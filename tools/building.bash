# Proves and builds the program or the library that a script needs, if it is not built from the present sources. The script first sets
#
#   top    the directory of the checkout
#   who    the name that begins each line on standard error
#
# and then calls `stand_built`, or `is_built` and `build_product`. Two files next to the product of a build describe the build:
#
#   built-from    the toolchain's identity with the processor, and the checksums of the sources and of the product
#   seen          their names, sizes and times when they last had these checksums
#
# If `seen` matches the files, no file is read. Names are relative to the checkout, so that it can be moved and copied. The
# times are of the last change of any kind, which no program sets back.

: "${top:?}" "${who:?}"
readonly NOT_BUILT=125
# The processor for which the library is compiled: the first of x86-64, so that it runs on each, since a library checks nothing
# when it is loaded. The program is compiled for the processor that CHERI_CAP_CPU names, or for the toolchain's default, x86-64-v2.
readonly LIBRARY_CPU=x86-64
# the progress of a slow crate is printed at this interval, in seconds
readonly TELLS_EACH=20

say() {
  printf '%s: %s\n' "$who" "$1" >&2
}

# Ends with the status for: not proved or not built, and nothing was run.
stop() {
  say "$1"
  exit "$NOT_BUILT"
}

# Sets `cpu` to the processor for which the product of a crate is compiled; it is empty for the toolchain's default. Sets `identity`
# to the line that identifies the installed toolchain, from the file in its directory or, if there is none, by asking it once, and the
# processor. Without a toolchain it is empty.
identify() {
  local directories directory rt=''
  if [[ $1 == cheri_cap* ]]; then cpu=${CHERI_CAP_CPU-}; else cpu=$LIBRARY_CPU; fi
  IFS=: read -ra directories <<<"$PATH"
  for directory in "${directories[@]}"; do
    [[ ! -f ${directory:-.}/rt || ! -x ${directory:-.}/rt ]] || { rt=${directory:-.}/rt && break; }
  done
  [[ ! -L $rt ]] || rt=$(readlink -f -- "$rt")
  if [[ -z $rt ]]; then
    identity=''
  elif [[ -r ${rt%/bin/rt}/KIT-ID ]]; then
    read -r identity <"${rt%/bin/rt}/KIT-ID"
  else
    [[ -v asked ]] || asked=$(rt version 2>/dev/null) || asked=''
    identity=$asked
  fi
  [[ -z $identity || -z $cpu ]] || identity+=" for $cpu"
}

# Sets `needs` from crates.txt, which has a line NAME: BELOW.. for each crate. Names without a line are the toolchain's.
read_crates() {
  local line name
  while read -r name line; do
    line=${line%%#*}
    if [[ $name == [^#]* && $name$line == *:* ]]; then needs[${name%:}]=${line#*:}; fi
  done <"$top/crates.txt"
}
# Adds the crates below the named one to `order`, lowest first, and then that one.
list_crates() {
  local name
  if [[ -n ${needs[$1]+known} && -z ${listed[$1]-} ]]; then
    listed[$1]=yes
    for name in ${needs[$1]}; do list_crates "$name"; done
    order+=("$1")
  fi
}

# Lists the sources, and the files that are named first, up to the argument --: each as find prints it by the arguments that
# follow. Fails if one is a link, whose target can change unseen. Must be called in a subshell, which find replaces.
files() {
  local also=()
  while [[ $1 != -- ]]; do also+=("$1") && shift; done
  LC_ALL=C exec find crates.txt "${order[@]/#/crates/}" "${also[@]}" \
    -name out -prune -o -type d -o -type f "${@:2}" -o -exec false {} +
}
# Ends if a source is a link or a special file.
refuse_links() {
  local found
  found=$(cd -- "$top" && LC_ALL=C find crates.txt "${order[@]/#/crates/}" -name out -prune -o ! -type d ! -type f -print -quit)
  [[ -z $found ]] || stop "$found is a symbolic link or a special file, and each source must be a file"
}

# Prints names, sizes and times. Must be called in a subshell, which goes to the checkout.
looks() {
  cd -- "$top" && files "$@" -- -printf '%p %s %C@\n'
}
# Prints the checksums. Must be called in a subshell, which goes to the checkout.
checksums() {
  cd -- "$top" && files "$@" -- -print0 | LC_ALL=C sort -z | xargs -0 sha256sum --
}

# Writes a text into a file, as a whole or not at all. Fails if the directory is not writable.
keep() {
  { printf '%s\n' "$2" >"$1.new.$$" && mv -f -- "$1.new.$$" "$1"; } 2>/dev/null
}

# Returns whether the existing build is unchanged, and from these sources. Without a toolchain, any may have built it.
is_current() {
  local identity=$1 product=$2 kept=$3 built_by found seen
  [[ -f $top/$product && -f $kept/built-from ]] && read -r built_by <"$kept/built-from" || return
  # a program for every processor, as ./package builds it, is as good as one for the default
  [[ -z $identity || $built_by == "$identity" || $built_by == "$identity for $LIBRARY_CPU" ]] || return
  found=$(looks "$product") || return
  if [[ -f $kept/seen ]] && mapfile -d '' seen <"$kept/seen" && [[ ${seen[0]-} == "$found"$'\n' ]]; then return; fi
  [[ $(<"$kept/built-from") == "$built_by"$'\n'"$(checksums "$product")" ]] || return
  keep "$kept/seen" "$found" || true
}

# Keeps other builds out of this checkout, and the toolchain's commands out of the directory of the crate, until it is unlocked or
# this process ends:  lock_checkout CRATE
lock_checkout() {
  local name locked said=''
  for name in crates "crates/$1"; do
    exec {locked}<"$top/$name"
    locks+=("$locked")
    if type -P flock >/dev/null && ! flock -n "$locked"; then
      [[ -n $said ]] || say 'another build is running in this checkout: waiting for it'
      said=yes
      flock "$locked" || true
    fi
  done
}
unlock_checkout() {
  local locked
  for locked in "${locks[@]}"; do exec {locked}<&-; done
}

# Proves all crates in `order`, builds the product of the last, and stores the checksums. They are of the sources that were
# built, if all names, sizes and times are equal before and after:  build_all PRODUCT DIRECTORY FLAG..
build_all() {
  local product=$1 kept=$2 why='not built yet' before found made_of
  mkdir -p -- "$kept" 2>/dev/null && keep "$kept/building" "$identity" || stop "the build cannot be stored: $kept is not writable"
  rm -f -- "$kept/building"
  [[ ! -f $top/$product ]] || why='a source or the toolchain changed'
  refuse_links
  before=$(looks | LC_ALL=C sort) || stop 'the sources cannot be read'
  prove_crates "$product" "$why" "${@:3}"
  found=$(looks "$product") && made_of=$(checksums "$product") || stop "$product was not built"
  [[ $(looks | LC_ALL=C sort) == "$before" ]] || stop 'a source changed while it was built: start it again'
  keep "$kept/built-from" "$identity"$'\n'"$made_of" && keep "$kept/seen" "$found" || stop "the build cannot be stored in $kept"
}

# Sets `order`, `needs`, `cpu` and `identity` for a crate, and returns whether the file of its directory out/ is built from the present
# sources:  is_built CRATE FILE
is_built() {
  needs=() listed=() order=()
  read_crates
  list_crates "$1"
  identify "$1"
  is_current "$identity" "crates/$1/out/$2" "$top/crates/$1/out"
}
# Prints the names, sizes and times of the sources of a crate and of those below it:  list_sources CRATE
list_sources() {
  local order cpu identity
  local -A needs listed
  is_built "$1" '' || true
  looks | LC_ALL=C sort
}
# Takes a file of a crate's directory out/, which another command has proved and built from the sources as list_sources printed them
# before, as one that was built here: the program for the toolchain's default processor, the library for its own. Fails if a source
# changed since then:  take_built CRATE FILE LISTED
take_built() {
  local product=crates/$1/out/$2 kept=$top/crates/$1/out order cpu identity found made_of
  local -A needs listed
  ! is_built "$1" "$2" || return 0
  [[ $1 != cheri_cap* || -z $cpu ]] || return
  [[ -n $identity && -s $top/$product && $(looks | LC_ALL=C sort) == "$3" ]] || return
  found=$(looks "$product") && made_of=$(checksums "$product") || return
  [[ $(looks | LC_ALL=C sort) == "$3" ]] || return
  keep "$kept/built-from" "$identity"$'\n'"$made_of" && keep "$kept/seen" "$found"
}
want_toolchain() {
  [[ -n $identity ]] || stop "the toolchain's command rt was not found or has no version, and the existing build is not from these sources: see README.md, \"Install\""
}

# Proves and builds a file of a crate's directory out/, unless it is already built from the present sources:  stand_built CRATE FILE
stand_built() {
  local identity cpu order
  local -A needs listed
  is_built "$1" "$2" || build_product "$1" "$2"
}
# Proves and builds a file of a crate's directory out/, after is_built has said that it is not built:  build_product CRATE FILE
build_product() {
  local product=crates/$1/out/$2 kept=$top/crates/$1/out locks=()
  want_toolchain
  # shellcheck source=tools/proving.bash
  declare -F prove_crates >/dev/null || source "$top/tools/proving.bash"
  lock_checkout "$1"
  is_current "$identity" "$product" "$kept" || build_all "$product" "$kept" ${cpu:+--cpu "$cpu"}
  unlock_checkout
}
