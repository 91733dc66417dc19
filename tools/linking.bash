# Links the shared library from the static one. Sourced after tools/building.bash.

readonly compiler=${CC:-cc}

# Ends if there is no C compiler.
want_compiler() {
  type -P "$compiler" >/dev/null || stop "the C compiler $compiler is not found; set CC to another"
}

# Prints the name by which programs ask the loader for the library. Its number equals the header's, which increases if a
# change breaks callers.
soname() {
  local line
  while read -r line; do
    [[ ! $line =~ ^'#define CHERI_CAP_VERSION '([0-9]+)u?$ ]] || printf 'libcheri_cap.so.%s\n' "${BASH_REMATCH[1]}"
  done <"$top/include/cheri_cap.h"
}

# Prints the linker's list of exported symbols: the functions that the header declares, and nothing else.
exported_symbols() {
  printf '{\n  global:\n'
  sed -En 's/^[a-z0-9_]+ (cheri_cap_[a-z0-9_]+)\(.*/    \1;/p' "$top/include/cheri_cap.h"
  printf '  local:\n    *;\n};\n'
}

# Links the shared library in a directory, under its soname, from the static library, by a compiler for another processor if one is
# named:  link_shared STATIC DIRECTORY [COMPILER]
# Its functions only call and return, so on x86-64 it has the note that it works with shadow stacks.
link_shared() {
  local static=$1 directory=$2 links=${3:-$compiler} name note=-Wl,-z,shstk
  [[ -z ${3-} ]] || note=''
  name=$(soname)
  exported_symbols >"$directory/symbols"
  "$links" -shared -Wl,-soname,"$name" -Wl,--version-script,"$directory/symbols" -Wl,-z,defs -Wl,-z,relro,-z,now ${note:+"$note"} -s \
    -o "$directory/$name" -Wl,--whole-archive "$static" -Wl,--no-whole-archive || stop 'the shared library cannot be linked'
  rm -- "$directory/symbols"
}
