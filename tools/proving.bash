# Proves the crates of a program or of a static library, and builds the product. Sourced after tools/building.bash.
#
# The compiler proves each crate over the libraries of those below it, and writes its library, which has what is proved of it. Crates
# that do not need each other are proved side by side, from copies of the sources. The libraries are kept for later builds, by checksums.
# CI proves the crates by `rt ci`, which also searches for contracts that no call can meet.

# shellcheck source=tools/over-libraries.bash
source "$top/tools/over-libraries.bash"

# Memory of the proof of one crate, in MB. The cost in seconds of a crate that tools/crate-costs does not name. The maximum number of
# jobs that prove a crate. The maximum number of libraries of a crate that are kept, and the days for which one is that no build takes.
readonly PROOF_MEMORY=2500 UNKNOWN_COST=60 MOST_JOBS=4 KEPT_EACH=2 KEPT_DAYS=60
# The interval at which signals are checked, in seconds.
readonly LOOKS_EACH=0.1

# Sets `processors`, `memory` to the free memory in MB, and `slots` to the number of crates at a time that fit both.
measure_machine() {
  local key value quota period held
  processors=$(nproc) memory=0
  if [[ -r /sys/fs/cgroup/cpu.max ]] && read -r quota period </sys/fs/cgroup/cpu.max && [[ $quota != max ]]; then
    value=$((quota / period))
    ((value >= processors)) || processors=$((value > 0 ? value : 1))
  fi
  while read -r key value _; do
    [[ $key != MemAvailable: ]] || memory=$((value / 1024))
  done </proc/meminfo
  if [[ -r /sys/fs/cgroup/memory.max ]] && read -r value </sys/fs/cgroup/memory.max && [[ $value != max ]]; then
    read -r held </sys/fs/cgroup/memory.current
    value=$(((value - held) / 1024 / 1024))
    ((value >= memory)) || memory=$value
  fi
  slots=$((memory / PROOF_MEMORY))
  ((slots <= processors)) || slots=$processors
  ((slots > 0)) || slots=1
}

# Returns whether the library of a crate is kept, as far as its name says.
is_kept() {
  [[ -n $store && -d $store/$1-${keys[$1]} ]]
}

# Sets `behind` to the seconds of each crate and of the longest chain of crates above it, and `work` to those of all crates without a kept
# library, by the costs in tools/crate-costs.
read_costs() {
  local name cost it at
  local -A costs=()
  if [[ -r $top/tools/crate-costs ]]; then
    while read -r name cost _; do
      [[ ! $cost =~ ^[0-9]+$ ]] || costs[$name]=$cost
    done <"$top/tools/crate-costs"
  fi
  work=0
  for ((at = ${#order[@]} - 1; at >= 0; at--)); do
    name=${order[at]} cost=${costs[${order[at]}]:-$UNKNOWN_COST}
    behind[$name]=$((${behind[$name]:-0} + cost))
    is_kept "$name" || work=$((work + cost))
    for it in ${needs[$name]}; do ((${behind[$it]:-0} >= ${behind[$name]})) || behind[$it]=${behind[$name]}; done
  done
}

# Says before a build how long it takes on this machine, and which ways are quicker:  announce WHY
announce() {
  local name longest=0 many=0 seconds
  for name in "${order[@]}"; do
    is_kept "$name" || { many=$((many + 1)) && ((behind[$name] <= longest)) || longest=${behind[$name]}; }
  done
  # the share of each processor, and a sixth of the longest chain of crates, in which processors wait; but at least the chain
  seconds=$((work / slots + longest / 6))
  ((seconds >= longest)) || seconds=$longest
  say "$1: proving and building takes about $((seconds / 60 + 1)) min here (crates: $many, processors: $processors, free memory: $((memory / 1000)) GB)"
  if [[ $who == cheri-cap ]]; then
    say "'./cheri-cap --look ARGS..' runs the program in about a minute, with nothing proved; a program that ./install has installed needs none of this"
  fi
}

# Copies the sources of all crates, so that a change during the build reaches no crate.
copy_sources() (
  mkdir -p -- "$libraries" "$apart/tmp" && cd -- "$top" || return
  sources=()
  for name in "${order[@]}"; do
    for it in "crates/$name"/*; do [[ $it == */out ]] || sources+=("$it"); done
  done
  cp -R --no-preserve=mode --parents -- crates.txt "${sources[@]}" "$apart/" || return
  [[ -z $(find "$apart/crates" ! -type d ! -type f -print -quit) ]]
)

# Runs a function in the background, as a separate group of processes, which a signal to the build ends as a whole:  begin FUNCTION ARG..
begin() {
  set -m
  "$@" </dev/null &
  set +m
}

# Runs a function in the background and waits for it, so that a signal ends the build at once. While bash waits for a process in
# the foreground, it may lose a signal.
aside() {
  local status=0
  begin "$@"
  running[aside]=$!
  wait "${running[aside]}" || status=$?
  heed_signal
  unset 'running[aside]'
  return "$status"
}

# Ends the build if a signal came.
heed_signal() {
  [[ -z $signal ]] || interrupt "$signal"
}

# Ends all processes that prove, and removes the copies.
leave_build() {
  local it
  for it in "${running[@]}"; do kill -TERM -- "-$it" 2>/dev/null || true; done
  for it in "${running[@]}"; do wait "$it" 2>/dev/null || true; done
  rm -rf -- "${apart:?}" || true
}
# Ends the build by a signal.
interrupt() {
  signal=''
  trap '' INT TERM HUP
  leave_build
  trap - EXIT INT TERM HUP
  say 'interrupted: nothing was built'
  kill -s "$1" "$BASHPID"
}

# Notes that a crate is proved, and says so.
count() {
  given[$1]=yes proved=$((proved + 1)) told=$SECONDS
  say "$proved of ${#order[@]}: $1 is $2 after $((SECONDS - start)) s"
}

# Stops the build, with the compiler's output on a crate, which is not proved, and the paths of the checkout.
refuse() {
  local said
  said=$(<"$apart/said-$1")
  printf '%s\n' "${said//"$apart"\//}" >&2
  stop "$1 is not proved, so nothing was built"
}

# Sets `keys` to the checksum of all that the library of each crate is made from: the toolchain, and the sources of the crate and of
# those below it.
read_keys() {
  local sum path name text it
  local -A sums=()
  while read -r sum path; do
    name=${path#crates/} && name=${name%%/*}
    sums[$name]+="$sum $path"$'\n'
  done < <(cd -- "$apart" && find crates -type f -print0 | LC_ALL=C sort -z | xargs -0 sha256sum --)
  for name in "${order[@]}"; do
    text="${identity% for *} $name: ${needs[$name]}"$'\n'"${sums[$name]-}"
    for it in ${needs[$name]}; do text+="$it ${keys[$it]-}"$'\n'; done
    read -r sum _ < <(sha256sum <<<"$text")
    keys[$name]=$sum
  done
}

# Sets `store` to the directory of libraries that builds on this machine have kept, or to nothing if there is none of this user. Who can
# write there decides what counts as proved.
find_store() {
  store=${XDG_CACHE_HOME-}
  [[ $store == /* ]] || store=${HOME-}/.cache
  store+=/cheri-cap/proofs
  if ! { mkdir -p -m 700 -- "$store" && [[ -O $store && ! -L $store ]]; } 2>/dev/null; then
    store=''
  elif [[ -n $(find "$store" -maxdepth 0 -perm /022) ]]; then
    say "other users can write to $store: no proof is taken from there, and none is kept"
    store=''
  fi
}

# Prints the checksums of all files of the library in this directory.
list_kept() {
  find rlib ! -type d -exec sha256sum -- {} + | LC_ALL=C sort
}

# Links the files of a directory into a new one or, if that is on another filesystem, copies them. The attempt to link them leaves the
# new directory, into which the files are then copied.
link_or_copy() {
  cp -RlT -- "$1" "$2" || cp -RT -- "$1" "$2"
}

# Takes the library of a crate that an earlier build has kept, if there is one, and it is whole and of this user.
take_kept() {
  local from=$store/$1-${keys[$1]}
  [[ -n $store && (-e $from || -L $from) ]] || return
  if [[ ! -d $from || -L $from || -n $(find "$from" ! -user "$EUID" -print -quit) ]]; then
    say "$from is a link or has files of another user: it is not used"
  elif (cd -- "$from" && [[ $(list_kept) == "$(LC_ALL=C sort sums)" ]]) 2>/dev/null &&
    link_or_copy "$from/rlib" "$libraries/$1.rlib" 2>/dev/null; then
    touch -- "$from" 2>/dev/null || true
    return
  fi
  rm -rf -- "$libraries/$1.rlib" "$from" 2>/dev/null || true
  return 1
}

# Keeps the library of a crate, unless the disk is full.
keep_library() {
  local to=$store/$1-${keys[$1]} new=$store/new-$1-$$
  [[ -n $store && ! -e $to ]] || return 0
  {
    mkdir -- "$new" && link_or_copy "$libraries/$1.rlib" "$new/rlib" &&
      (cd -- "$new" && list_kept >sums) && mv -T -- "$new" "$to"
  } 2>/dev/null || rm -rf -- "$new"
}

# Removes all but the newest libraries of each crate that are kept, those that no build has taken for KEPT_DAYS, and what a build that
# was killed has left.
trim_store() {
  local it name
  local -A count=()
  [[ -n $store ]] || return 0
  find "$store" -mindepth 1 -maxdepth 1 \( -mtime "+$KEPT_DAYS" -o -name 'new-*' -mtime +0 \) -exec rm -rf -- {} +
  while read -r _ it; do
    name=${it%-*}
    count[$name]=$((${count[$name]:-0} + 1))
    ((${count[$name]} <= KEPT_EACH)) || rm -rf -- "${store:?}/$it"
  done < <(cd -- "$store" && find . -mindepth 1 -maxdepth 1 -printf '%T@ %f\n' | LC_ALL=C sort -rn)
}

# Puts the libraries that earlier builds have kept of the crates in `order`, for these very sources, into each directory
# crates/CRATE/out/rlib that does not exist, and prints the names of these crates.
take_libraries() {
  local name at apart libraries store
  local -A keys=()
  apart=$(mktemp -d) && libraries=$apart/libraries && copy_sources && find_store && read_keys || return
  for name in "${order[@]}"; do
    at=$top/crates/$name/out/rlib
    if [[ ! -e $at ]] && take_kept "$name"; then
      mkdir -p -- "$at" && mv -T -- "$libraries/$name.rlib" "$at/$name.rlib" && printf '%s\n' "$name"
    fi
  done
  rm -rf -- "$apart"
}

# Proves a crate by this number of jobs, and reports its name and the status:  prove_crate CRATE JOBS
prove_crate() {
  local status=0
  TMPDIR=$apart/tmp prove_over "$libraries" "$apart" "$1" "$2" >"$apart/said-$1" 2>&1 || status=$?
  ((status)) || keep_library "$1"
  printf '%s %s.\n' "$1" "$status" >"$apart/ended"
}

# Returns whether the library of each crate below one is there.
is_ready() {
  local it
  for it in ${needs[$1]}; do [[ -z ${needs[$it]+known} || -n ${given[$it]-} ]] || return; done
}

# Begins the proofs for which there are slots, first of the crates with the longest chain above. If fewer crates are ready than there
# are slots, they share these, the first of them with the larger share. A crate with a shorter chain than one that still waits has one
# job, even if a slot stays free: a second job costs CPU time, and the slot is for the crate that waits. Of more than two slots, the
# crate that begins last takes two even if one is free: the proofs next to it end before it, and then only the program is left.
begin_ready() {
  local name ready=() later=() free=$slots jobs ahead=0 waits=''
  for name in "${!running[@]}"; do free=$((free - jobs_of[$name])); done
  # a crate comes after those that it needs, so one that is above a library taken here is seen
  for name in "${left[@]}"; do
    if ! is_ready "$name"; then
      waits=yes
    elif take_kept "$name"; then
      count "$name" 'kept from an earlier proof'
    else
      ready+=("$name")
      [[ -n $waits ]] || ahead=${#ready[@]}
    fi
  done
  while ((${#ready[@]} && free > 0)); do
    name=${ready[0]} jobs=1
    ((ahead <= 0)) || jobs=$(((free + ${#ready[@]} - 1) / ${#ready[@]}))
    ((jobs <= MOST_JOBS)) || jobs=$MOST_JOBS
    ((${#left[@]} > 1 || jobs > 1 || slots <= 2)) || jobs=2
    begin prove_crate "$name" "$jobs"
    running[$name]=$! jobs_of[$name]=$jobs free=$((free - jobs)) ahead=$((ahead - 1)) ready=("${ready[@]:1}")
  done
  for name in "${left[@]}"; do [[ -n ${given[$name]-}${running[$name]-} ]] || later+=("$name"); done
  left=("${later[@]}")
}

# Waits for the end of a proof, and sets `name` and `status` to what it reports. One that ends without a report has failed.
await_proof() {
  local line='' part='' gone=''
  # the timeout can come in the middle of a line, and take away its line feed: a report ends in a period
  until [[ $line == *. ]]; do
    if IFS= read -r -t "$LOOKS_EACH" -u "$ended" part; then line+=$part && continue; fi
    heed_signal
    line+=$part
    for name in "${!running[@]}"; do
      if [[ -n $line ]] || kill -0 "${running[$name]}" 2>/dev/null; then continue; fi
      # its report can have come since the read
      if [[ $gone == "$name" ]]; then status=1 && return; fi
      gone=$name
    done
    ((SECONDS - told < TELLS_EACH)) || { told=$SECONDS && say "$proved of ${#order[@]} crates are proved after $((SECONDS - start)) s"; }
  done
  heed_signal
  read -r name status <<<"${line%.}"
}

# Proves all crates in `order` except the last. A proof that the system killed, most likely for memory, is tried once more, and then
# with none next to it.
prove_below() {
  local ended name status left=() again='' it
  local -A jobs_of=()
  { mkfifo -- "$apart/ended" && exec {ended}<>"$apart/ended"; } || stop "the build cannot use $apart"
  mapfile -t left < <(for it in "${order[@]:0:${#order[@]}-1}"; do printf '%s %s\n' "${behind[$it]}" "$it"; done | LC_ALL=C sort -k1,1nr -k2,2 | cut -d' ' -f2)
  while ((${#left[@]} + ${#running[@]})); do
    begin_ready
    ((${#running[@]})) || continue
    await_proof
    wait "${running[$name]}" || true
    unset "running[$name]"
    if ((status == 137)) && [[ $again != "$name" ]]; then
      again=$name slots=1 left=("$name" "${left[@]}")
      say "the proof of $name was killed, most likely for memory: it is tried again, with none next to it"
    elif ((status)); then
      refuse "$name"
    else
      count "$name" proved
    fi
  done
  exec {ended}<&-
  trim_store
}

# Proves and builds the last crate over the libraries of the others:  build_last FLAG..
build_last() {
  local jobs=$((slots < MOST_JOBS ? slots : MOST_JOBS))
  build_over "$libraries" "$apart" "$last" "$@" >"$apart/said-$last" 2>&1
}

# Proves all crates in `order`, and builds the product of the last, with the flags that follow:  prove_crates PRODUCT WHY FLAG..
prove_crates() {
  local product=$1 last=${order[-1]} signal='' toolkit store proved=0 start=$SECONDS told=$SECONDS processors memory slots work
  local apart libraries
  apart=$(cd -- "$top" && pwd -P)/crates/$last/out/apart
  libraries=$apart/libraries
  local -A behind=() given=() running=() keys=()
  trap leave_build EXIT
  # A trap only notes the signal. If one did more while bash is in `read -t`, the timeout would end it in the middle.
  trap 'signal=INT' INT
  trap 'signal=TERM' TERM
  trap 'signal=HUP' HUP
  rm -rf -- "$apart"
  aside copy_sources || stop "the sources cannot be copied to $apart"
  find_store
  read_keys || stop "the build cannot use $apart"
  measure_machine
  read_costs
  announce "$2"
  find_toolkit || stop 'the toolchain was not found'
  prove_below
  say "${#order[@]} of ${#order[@]}: proving and building $last"
  : >"$libraries/ended"
  aside build_last "${@:3}" || refuse "$last"
  count "$last" proved
  mv -f -- "$apart/$product" "$top/$product" || stop "the build of $last cannot be stored in crates/$last/out"
  heed_signal
  trap - EXIT INT TERM HUP
  rm -rf -- "$apart"
  say "all ${#order[@]} crates took $((SECONDS - start)) s"
}
