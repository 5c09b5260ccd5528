# To be sourced by the measurements: a folder of their own, named in $scratch, that goes when the script ends.
set -euo pipefail
cd "$(dirname "${BASH_SOURCE[0]}")/.."
scratch=$(mktemp -d)
trap 'rm -rf "$scratch"' EXIT

crates_below() { # crates_below CRATE..: these and the repository's crates below them, lowest first, as crates.txt stands
  awk -v wanted="$*" '
    BEGIN { n = split(wanted, names, " "); for (i = 1; i <= n; i++) taken[names[i]] = 1 }
    /^[a-z]/ { name = $1; sub(/:.*/, "", name); line[++count] = name; sub(/^[^:]*:/, ""); uses[count] = $0 }
    END {
      for (k = count; k; k--) if (line[k] in taken) { m = split(uses[k], parts, " "); for (i = 1; i <= m; i++) taken[parts[i]] = 1 }
      for (k = 1; k <= count; k++) if (line[k] in taken) print line[k]
    }' crates.txt
}

copy_crates() { # copy_crates CRATE..: copies them and those below, and makes a crate `measure` with room for its source
  local crate part
  mkdir -p "$scratch/crates/measure/src"
  for crate in $(crates_below "$@"); do
    mkdir "$scratch/crates/$crate"
    for part in src specs proofs; do
      if [ -d "crates/$crate/$part" ]; then
        cp -r "crates/$crate/$part" "$scratch/crates/$crate/"
      fi
    done
    grep "^$crate:" crates.txt >>"$scratch/crates.txt"
  done
}
