#!/usr/bin/env bash
# Installs what the front end needs from Debian where it lacks, finds or builds the program, and builds, lints and tests.
# usage: front/ci.sh [prepare|test]
#   prepare: what goes without the program: installs, looks at the layout, builds all with the lints of clippy
#   test: finds or builds the program, builds what isn't built, and tests
# Without a word it does both. Ends with 0 where all of that passes.
set -euo pipefail
cd "$(dirname "$0")"

prepare() {
  # Each library, and by which folder of the registry it is known.
  local libraries="anyhow cargo_metadata=cargo-metadata clap indicatif notify proc-macro2 serde serde_json=serde-json syn tempfile toml
    libc petgraph os_str_bytes=os-str-bytes"
  local registry=/usr/share/cargo/registry missing=() it try
  for it in $libraries; do
    compgen -G "$registry/${it%=*}-[0-9]*" > /dev/null || missing+=("librust-${it#*=}-dev")
  done
  # The editor that drives the language server.
  command -v nvim > /dev/null || missing+=(neovim)
  if [ ${#missing[@]} -gt 0 ]; then
    for try in 1 2 3; do
      if apt-get update -qq && DEBIAN_FRONTEND=noninteractive apt-get install -y -qq --no-install-recommends "${missing[@]}" > /dev/null; then
        break
      fi
      [ "$try" = 3 ] && { echo "ci.sh: ${missing[*]} can't be installed" >&2; exit 1; }
      sleep 10
    done
  fi
  cargo fmt --check
  tests --no-run
}

# Clippy compiles this package in rustc's place: one build has the lints of all targets, and the tests.
tests() {
  cargo test --config debian.toml --config 'build.rustc-workspace-wrapper="clippy-driver"' \
    --config 'build.rustflags=["-D", "warnings"]' --offline --quiet --features tools "$@"
}

run_tests() {
  # The proved program, where the gate has built it.
  if [ -z "${NOGSIMAT_PROGRAM-}" ] && [ ! -x ../crates/hir_session_main/out/hir_session_main ]; then
    ../tools/unproved.sh --if-changed
  fi
  tests
}

# Nobody looks into these binaries with a debugger, or builds them again after an edit.
export CARGO_BUILD_JOBS=${CARGO_BUILD_JOBS:-2} CARGO_TERM_COLOR=never CARGO_PROFILE_DEV_DEBUG=0 CARGO_INCREMENTAL=0
case ${1-} in
  prepare) prepare ;;
  test) run_tests ;;
  "") prepare; run_tests ;;
  *) echo "usage: front/ci.sh [prepare|test]" >&2; exit 2 ;;
esac
