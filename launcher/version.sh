#!/bin/sh
# What `bukshena --version` shows in a checkout: the version, the kit that it is proved with, and the commit.
set -u
cd -- "${0%/*}/.." || exit
echo "bukshena $(cat VERSION)"
echo "proved with $(cat launcher/kit)"
# also where it belongs to another user, as under sudo
ask_git() { git -c safe.directory="$PWD" "$@" 2>/dev/null; }
if commit=$(ask_git rev-parse HEAD); then
  ask_git diff --quiet HEAD || commit="$commit, and changes"
  echo "commit $commit"
fi
