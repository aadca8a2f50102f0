# Sourced: finds the Rust, readies Debian's packages of the crates that it needs, and goes to oracle/.
lacking() {
  echo "oracle: $1" >&2
  exit 2
}

given=${FORMA_SRC:-$(dirname "${BASH_SOURCE[0]}")/../../shared/docs/src}
[ -f "$given/forma/src/cpu/painter/mod.rs" ] ||
  lacking "the Rust is missing: no forma/src in $given; get google/forma at commit 681e8bfd34 and let FORMA_SRC name its folder"
FORMA_SRC=$(realpath "$given")
export FORMA_SRC
for program in cargo rt apt-get dpkg; do
  command -v "$program" >/dev/null || lacking "the program $program is missing"
done
cd "$(dirname "${BASH_SOURCE[0]}")"

unpack() {
  local names=(autocfg cfg-if crossbeam-channel crossbeam-deque crossbeam-epoch crossbeam-utils either libc memoffset num-cpus rayon rayon-core
    rustc-hash scopeguard)
  names=("${names[@]/#/librust-}")
  names=("${names[@]/%/-dev}")
  rm -rf packages debian
  mkdir -p packages debian
  (cd packages && apt-get --quiet=2 download "${names[@]}" 2>/dev/null) ||
    (apt-get --quiet=2 update && cd packages && apt-get --quiet=2 download "${names[@]}")
  for package in packages/*.deb; do dpkg -x "$package" debian; done
  touch unpacked
}

mkdir -p ../target/oracle
[ -f ../target/oracle/unpacked ] || (cd ../target/oracle && unpack)

# proved FILE NAME: the file that `tools/build NAME` writes below target/, proved anew where a source is newer than it. What is said is shown only on failure.
proved() {
  local file=target/$1 log=target/oracle/$2.log
  (
    cd ..
    [ -f "$file" ] && [ -z "$(find crates.txt crates/*/src crates/*/specs crates/*/proofs -newer "$file" -print -quit)" ] && exit
    tools/build "$2" >"$log" 2>&1 || { tail -n 20 "$log" >&2; exit 2; }
  )
}
