#!/usr/bin/env bash
# Every public function states what it gives and asks nothing of its caller: each `pub fn`, in an `impl` too, has an `ensures` that says something, and no
# `requires`. No file has an axiom.
set -u
cd "$(dirname "$0")/.." || exit 1

# Reads source files, and says which public function asks, states nothing, or has a promise that every answer meets.
contracts() {
  awk '
    function empty(t) {
      sub(/[^{]*{/, "", t); sub(/}[^}]*$/, "", t); gsub(/[ \t]/, "", t)
      if (t == "" || t == "⊤" || t ~ /^Unit({0})?$/ || t == "true≡true") return 1
      n = split(t, side, "≡")
      return n == 2 && side[1] == side[2]
    }
    function judge() {
      if (name == "") return
      seen++
      if (asks) { print "contracts: " name " asks something of its caller"; bad = 1 }
      if (!gives) { print "contracts: " name " states no answer"; bad = 1 }
      name = ""
    }
    /^[ \t]*(\/\/|ghost )/ { next }
    /^[ \t]*pub fn / { judge(); name = $0; sub(/.*pub fn /, "", name); sub(/[(<].*/, "", name); name = FILENAME ": " name; asks = 0; gives = 0 }
    name != "" && /requires/ { asks = 1 }
    name != "" && /ensures/ { if (empty($0)) { print "contracts: " name " promises nothing"; bad = 1 } else gives = 1 }
    name != "" && /(^|[^λ ] *){[ \t]*$/ && !/ensures|requires/ { judge() }
    END { judge(); if (!seen) { print "contracts: no public function"; bad = 1 } else if (!bad) print "contracts: " seen " public functions"; exit bad }
  ' "$@"
}

# what it has to refuse, and what not
work=$(mktemp -d) || exit 1
trap 'rm -rf "$work"' EXIT
told() { printf '%b' "$2" > "$work/sample.rt"; contracts "$work/sample.rt" | grep -qF "$1" || { echo "contracts: the test does not see: $1"; exit 1; }; }
told 'asks something' 'pub fn f(x: u16) -> u16\n    requires { x < 1 }\n    ensures { result ≡ x }\n{\n'
told 'states no answer' 'pub fn f(x: u16) -> u16 {\n'
told 'states no answer' 'impl S {\n    pub fn f(x: u16) -> u16\n    {\n        x\n    }\n}\n'
told 'promises nothing' 'pub fn f(x: u16) -> u16\n    ensures { }\n{\n'
told 'promises nothing' 'pub fn f(x: u16) -> u16\n    ensures { result ≡ result }\n{\n'
told 'promises nothing' 'pub fn f(x: u16) -> u16\n    ensures { Unit {0} }\n{\n'
told 'promises nothing' 'pub fn f(x: u16) -> u16\n    ensures value { result ≡ x }\n    ensures rest { result ≡ result }\n{\n'
told '1 public functions' 'pub fn f(\n    x: u16,\n) -> u16\n    ensures { result ≡ x }\n{\n'

contracts crates/*/src/*.rt || exit 1
if grep -nE '^ *(axiom|postulate|extern)\b' -r crates --include=*.antt --include=*.rt; then
  echo "contracts: something is assumed"
  exit 1
fi
